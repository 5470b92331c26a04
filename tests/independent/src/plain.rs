//! The plain session: a list of kept moves of which the first stand, its state worked out anew,
//! ownership by history, and the laws of a whole session.

use crate::machine::{Config, Life, Move, Position, Processor, State, CREATE, EXIT, GO};
use crate::script::SCRIPT;
use std::collections::BTreeSet;

/// What the listed moves say by themselves; the owner field is not looked at.
#[derive(Clone, PartialEq, Eq, Debug)]
pub struct History {
    /// For each mutex the threads that own it.
    pub owners: Vec<BTreeSet<u8>>,
    pub created: BTreeSet<u8>,
    pub ended: BTreeSet<u8>,
}

impl History {
    pub fn start(config: Config) -> History {
        History {
            owners: vec![BTreeSet::new(); usize::from(config.mutexes)],
            created: BTreeSet::new(),
            ended: BTreeSet::new(),
        }
    }

    /// Notes an accepted move, given its processor before and after.
    pub fn note(&mut self, made: Move, before: &Processor, after: &Processor) {
        use Position::*;
        match made[1] {
            EXIT => {
                self.ended.insert(before.current);
            }
            CREATE => {
                self.created.insert(made[2]);
            }
            _ => {}
        }
        let owner = match (before.position, after.position) {
            (L1, App) | (TL1, App) | (GT3, TL3) => after.current,
            (L9, L10) | (H2, H3) => after.transit,
            _ => 0,
        };
        if owner != 0 {
            self.owners[usize::from(before.mutex) - 1].insert(owner);
        }
        if before.position == U1 {
            self.owners[usize::from(before.mutex) - 1].remove(&before.current);
        }
    }

    pub fn life(&self, config: Config, thread: u8) -> Life {
        if self.ended.contains(&thread) {
            Life::Ended
        } else if thread > config.born && !self.created.contains(&thread) {
            Life::Unborn
        } else {
            Life::Alive
        }
    }
}

/// The plain session.
#[derive(Clone, PartialEq, Eq, Debug)]
pub struct Plain {
    pub config: Config,
    pub kept: Vec<Move>,
    /// How many of the kept moves stand.
    pub standing: usize,
}

impl Plain {
    pub fn new(config: Config) -> Plain {
        Plain { config, kept: Vec::new(), standing: 0 }
    }

    /// The moves that stand.
    pub fn moves(&self) -> &[Move] {
        &self.kept[..self.standing]
    }

    /// State and history of the moves that stand.
    pub fn work_out(&self) -> (State, History) {
        let mut state = State::start(self.config);
        let mut history = History::start(self.config);
        for &made in self.moves() {
            let before = *state.processor(made[0]);
            state.try_move(made).expect("listed moves are accepted");
            history.note(made, &before, state.processor(made[0]));
        }
        (state, history)
    }

    /// Answers a move.
    pub fn make_move(&mut self, made: Move) -> u8 {
        let (state, _) = self.work_out();
        match state.cause(made) {
            Some(number) => number,
            None => {
                self.join(made);
                0
            }
        }
    }

    /// An accepted move: what is listed beyond those that stand is dropped.
    pub fn join(&mut self, made: Move) {
        self.kept.truncate(self.standing);
        self.kept.push(made);
        self.standing += 1;
    }

    /// The threads that made the calls among the moves that stand, in order, each with its processor.
    pub fn callers(&self) -> Vec<(u8, u8)> {
        let mut state = State::start(self.config);
        let mut callers = Vec::new();
        for &made in self.moves() {
            if made[1] != GO {
                callers.push((state.processor(made[0]).current, made[0]));
            }
            state.try_move(made).expect("listed moves are accepted");
        }
        callers
    }

    /// The move of a turn for processor p in the session's state under scripts that 19 does not
    /// refuse; which call is next is counted anew.
    pub fn turn(&self, state: &State, scripts: &[u8], p: u8) -> Move {
        if p == 0 || p > state.processor_count() || state.processor(p).position != Position::App {
            return [p, GO, 0];
        }
        let thread = state.processor(p).current;
        let made = self.callers().iter().filter(|&&(caller, _)| caller == thread).count();
        let own = &scripts[SCRIPT * usize::from(thread - 1)..][..SCRIPT];
        match made < usize::from(own[0]) {
            true => [p, own[1 + 2 * made], own[2 + 2 * made]],
            false => [p, EXIT, 0],
        }
    }

    /// Answers a going with the session's own journal.
    pub fn goto(&mut self, step: usize) -> u8 {
        if step > self.kept.len() {
            return 9;
        }
        self.standing = step;
        0
    }
}

/// Whether a call on mutex m is under way.
pub fn call_under_way(state: &State, m: u8) -> bool {
    state.processors.iter().any(|processor| processor.mutex == m)
}

/// How many places hold a thread; unborn and ended are taken from the history.
pub fn place_count(state: &State, history: &History, config: Config, thread: u8) -> usize {
    let held = |register: u8| usize::from(register == thread);
    let in_ready = state.ready.iter().flatten().filter(|&&t| t == thread).count();
    let in_mutexes: usize = state
        .mutexes
        .iter()
        .map(|mutex| mutex.queue.iter().filter(|&&t| t == thread).count())
        .sum();
    let in_registers: usize =
        state.processors.iter().map(|here| held(here.current) + held(here.transit)).sum();
    let unborn = thread > config.born && !history.created.contains(&thread);
    let ended = history.ended.contains(&thread);
    in_ready + in_mutexes + in_registers + usize::from(unborn) + usize::from(ended)
}

/// The laws: at most one owner by history, a living thread; exactly one place; nobody left
/// waiting. Also that the owner field and the lives agree with the history.
pub fn check_laws(state: &State, history: &History, config: Config) -> Result<(), String> {
    for (m, (owners, mutex)) in (1..).zip(history.owners.iter().zip(&state.mutexes)) {
        if owners.len() > 1 {
            return Err(format!("mutex {m} has owners {owners:?}"));
        }
        if owners.first().copied().unwrap_or(0) != mutex.owner {
            return Err(format!("mutex {m}: owner {} but by history {owners:?}", mutex.owner));
        }
        if owners.iter().any(|&owner| history.life(config, owner) != Life::Alive) {
            return Err(format!("mutex {m}: its owner {owners:?} does not live"));
        }
        if !mutex.queue.is_empty() && owners.is_empty() && !call_under_way(state, m) {
            return Err(format!("mutex {m}: {:?} left waiting", mutex.queue));
        }
    }
    for thread in 1..=config.threads {
        let places = place_count(state, history, config, thread);
        if places != 1 {
            return Err(format!("thread {thread} has {places} places"));
        }
        if history.life(config, thread) != state.life(thread) {
            return Err(format!("thread {thread} is {:?}", state.life(thread)));
        }
    }
    Ok(())
}
