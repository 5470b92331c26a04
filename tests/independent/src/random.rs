//! Random sessions from a seed, biased towards contention so that every line and branch
//! is reached. The same seed and the same states give the same calls.
//!
//! ```
//! use independent::random::{Driver, Rates, Trail};
//!
//! let mut driver = Driver::new(1, Rates::GOINGS);
//! let mut trail = Trail::new(driver.generator.config());
//! for _ in 0..1_000 {
//!     let call = driver.next_call(trail.state(), trail.kept());
//!     // Compare the number and the state after it with the other implementation's.
//!     let number = trail.call(call);
//!     assert!(number <= 9 || number == 21);
//! }
//! ```

use crate::machine::{
    Config, Life, Move, Position, State, Token, CREATE, EXIT, GO, LOCK, TRYLOCK, UNLOCK, YIELD,
};
use crate::worked::Worked;

/// Splitmix64.
#[derive(Clone, Debug)]
pub struct Generator {
    state: u64,
}

impl Generator {
    pub fn new(seed: u64) -> Generator {
        Generator { state: seed }
    }

    pub fn next_word(&mut self) -> u64 {
        self.state = self.state.wrapping_add(0x9e37_79b9_7f4a_7c15);
        let mut word = self.state;
        word = (word ^ (word >> 30)).wrapping_mul(0xbf58_476d_1ce4_e5b9);
        word = (word ^ (word >> 27)).wrapping_mul(0x94d0_49bb_1331_11eb);
        word ^ (word >> 31)
    }

    /// A number from 0 to `bound` - 1.
    pub fn below(&mut self, bound: usize) -> usize {
        (self.next_word() % bound as u64) as usize
    }

    /// A number from `low` to `high`.
    pub fn between(&mut self, low: u8, high: u8) -> u8 {
        low + self.below(usize::from(high - low) + 1) as u8
    }

    /// True once in `times` on average.
    pub fn once_in(&mut self, times: usize) -> bool {
        self.below(times) == 0
    }

    pub fn byte(&mut self) -> u8 {
        self.next_word() as u8
    }

    pub fn pick<T: Copy>(&mut self, items: &[T]) -> T {
        items[self.below(items.len())]
    }

    /// A start table within its ranges: small ones, large ones and any.
    pub fn config(&mut self) -> Config {
        let (p, t, m) = match self.below(4) {
            0 => (self.between(1, 3), self.between(1, 4), 1),
            1 => (self.between(2, 5), self.between(3, 9), self.between(1, 2)),
            2 => (8, 32, self.between(1, 8)),
            _ => (self.between(1, 8), self.between(1, 32), self.between(1, 8)),
        };
        let b = if self.once_in(3) { self.between(1, t) } else { t };
        Config::new(p, t, m, b)
    }
}

/// A call of a session.
#[derive(Clone, Copy, PartialEq, Eq, Debug)]
pub enum Call {
    Move(Move),
    Goto(u16),
}

/// The kept moves of a session with the state after each, and how many of them stand.
#[derive(Clone, PartialEq, Eq, Debug)]
pub struct Trail {
    pub moves: Vec<Move>,
    states: Vec<State>,
    standing: usize,
}

impl Trail {
    pub fn new(config: Config) -> Trail {
        Trail { moves: Vec::new(), states: vec![State::start(config)], standing: 0 }
    }

    pub fn state(&self) -> &State {
        &self.states[self.standing]
    }

    pub fn kept(&self) -> u16 {
        self.moves.len() as u16
    }

    /// The number of a call, which is made where that is 0.
    pub fn call(&mut self, call: Call) -> u8 {
        match call {
            Call::Move(made) => self.make_move(made).err().unwrap_or(0),
            Call::Goto(step) if step > self.kept() => 9,
            Call::Goto(step) => {
                self.standing = step.into();
                0
            }
        }
    }

    fn make_move(&mut self, made: Move) -> Result<(), u8> {
        let mut next = self.state().clone();
        next.try_move(made)?;
        self.moves.truncate(self.standing);
        self.moves.push(made);
        self.standing += 1;
        self.states.truncate(self.standing);
        self.states.push(next);
        Ok(())
    }
}

/// How often a driver asks for calls that will likely be refused, for exits by owners and for goings.
#[derive(Clone, Copy, PartialEq, Eq, Debug)]
pub struct Rates {
    /// One call in this many is likely refused; 0 for none.
    pub refused: usize,
    /// One call in this many begins a run of single steps back; 0 for none.
    pub back: usize,
    /// One call in this many begins a run of goings to any step; 0 for none.
    pub goto: usize,
    /// One call in this many is an exit by an owner, where one is at App; 0 for none.
    pub owner_exits: usize,
}

impl Rates {
    pub const USUAL: Rates = Rates { refused: 16, back: 120, goto: 0, owner_exits: 40 };
    /// The same with goings to any step.
    pub const GOINGS: Rates = Rates { goto: 60, ..Rates::USUAL };
    /// Only moves that the state accepts.
    pub const ACCEPTED: Rates = Rates { refused: 0, back: 0, goto: 0, owner_exits: 0 };
}

/// Chooses the calls of one session.
#[derive(Clone, Debug)]
pub struct Driver {
    pub generator: Generator,
    rates: Rates,
    /// The mutex that most calls are on.
    favourite: u8,
    /// Calls for which each processor is held back.
    held: [usize; 8],
    /// Single steps back and goings to any step that are still to come.
    backs: usize,
    goings: usize,
    /// The processor kept where it has observed a token, and for how many calls still.
    kept: (u8, usize),
}

/// Where a kept processor has observed a token: its mutex and the token's processor,
/// which is driven to hand off again there.
#[derive(Clone, Copy)]
struct Target {
    mutex: u8,
    processor: u8,
}

impl Driver {
    pub fn new(seed: u64, rates: Rates) -> Driver {
        Driver {
            generator: Generator::new(seed),
            rates,
            favourite: 1,
            held: [0; 8],
            backs: 0,
            goings: 0,
            kept: (0, 0),
        }
    }

    /// The next call, given the session's state and the number of moves kept.
    pub fn next_call(&mut self, state: &State, kept: u16) -> Call {
        if let Some(step) = self.next_going(state, kept) {
            return Call::Goto(step);
        }
        if self.rates.refused != 0 && self.generator.once_in(self.rates.refused) {
            return Call::Move(self.odd_move(state));
        }
        if self.rates.owner_exits != 0 && self.generator.once_in(self.rates.owner_exits) {
            if let Some(exit) = self.owner_exit(state) {
                return Call::Move(exit);
            }
        }
        Call::Move(self.likely_move(state))
    }

    /// The step that is gone to next, if the next call is a going.
    fn next_going(&mut self, state: &State, kept: u16) -> Option<u16> {
        if self.backs > 0 {
            self.backs -= 1;
            return Some(step_back(state.applied, kept));
        }
        if self.goings > 0 {
            self.goings -= 1;
            return Some(self.any_step(state.applied, kept));
        }
        if self.rates.back != 0 {
            let stuck = is_stuck(state) && self.generator.once_in(4);
            if stuck || self.generator.once_in(self.rates.back) {
                let longest = if stuck || self.generator.once_in(12) { 80 } else { 6 };
                self.backs = self.generator.below(longest);
                return Some(step_back(state.applied, kept));
            }
        }
        if self.rates.goto != 0 && self.generator.once_in(self.rates.goto) {
            self.goings = self.generator.below(4);
            return Some(self.any_step(state.applied, kept));
        }
        None
    }

    /// A step near by or far off, either way, now and then one past the kept moves.
    pub fn any_step(&mut self, applied: u16, kept: u16) -> u16 {
        let near = self.generator.below(8) as u16;
        match self.generator.below(12) {
            0..=3 => applied.saturating_sub(near),
            4..=5 => kept.min(applied + near),
            6 => self.generator.pick(&[0, applied]),
            7..=8 => self.generator.below(usize::from(kept) + 1) as u16,
            9 => kept.saturating_sub(near),
            10 => kept,
            _ => kept + 1 + near * near,
        }
    }

    /// An exit by a thread that owns a mutex, refused by 21.
    fn owner_exit(&mut self, state: &State) -> Option<Move> {
        let owns = |&p: &u8| {
            let here = state.processor(p);
            here.position == Position::App && state.owns_any(here.current)
        };
        let owners: Vec<u8> = (1..=state.processor_count()).filter(owns).collect();
        (!owners.is_empty()).then(|| [self.generator.pick(&owners), EXIT, 0])
    }

    /// A session of so many moves that are all accepted.
    pub fn session(&mut self, config: Config, count: usize) -> Worked {
        let mut worked = Worked::new(config);
        let mut state = State::start(config);
        for _ in 0..count {
            let made = self.likely_move(&state);
            state.try_move(made).expect("a likely move is accepted");
            worked.moves.push(made);
        }
        worked
    }

    /// A move that the state accepts (unless 4,000 are applied).
    pub fn likely_move(&mut self, state: &State) -> Move {
        if self.generator.once_in(50) {
            self.favourite = self.generator.between(1, state.mutex_count());
        }
        let p = self.choose_processor(state);
        if state.processor(p).position == Position::App {
            self.choose_call(state, p)
        } else {
            self.maybe_hold(state, p);
            [p, GO, 0]
        }
    }

    /// Idle processors and those held back are left out, mostly.
    fn choose_processor(&mut self, state: &State) -> u8 {
        for left in &mut self.held {
            *left = left.saturating_sub(1);
        }
        let kept = if self.target(state).is_some() { self.kept.0 } else { 0 };
        let all: Vec<u8> = (1..=state.processor_count()).collect();
        let late: Vec<u8> = all.iter().copied().filter(|&p| is_late(state, p)).collect();
        if !late.is_empty() && self.generator.once_in(2) {
            return self.generator.pick(&late);
        }
        let near: Vec<u8> = all.iter().copied().filter(|&p| near_hand_off(state, p)).collect();
        if !near.is_empty() && self.generator.once_in(2) {
            return self.generator.pick(&near);
        }
        let idle = |p: u8| state.processor(p).position == Position::CI2 && state.none_ready();
        let busy: Vec<u8> = all.iter().copied().filter(|&p| !idle(p) && p != kept).collect();
        let free: Vec<u8> =
            busy.iter().copied().filter(|&p| self.held[usize::from(p) - 1] == 0).collect();
        if busy.is_empty() || self.generator.once_in(60) {
            self.generator.pick(&all)
        } else if free.is_empty() {
            self.generator.pick(&busy)
        } else {
            self.generator.pick(&free)
        }
    }

    /// The target that the kept processor calls for, one call less.
    fn target(&mut self, state: &State) -> Option<Target> {
        let (p, left) = self.kept;
        if left == 0 {
            return None;
        }
        let here = state.processor(p);
        let observing = matches!(here.position, Position::L8 | Position::GT3);
        self.kept = if observing { (p, left - 1) } else { (0, 0) };
        observing.then_some(Target { mutex: here.mutex, processor: here.observed.processor })
    }

    /// Holds a processor back for a while after lines where others can overtake it.
    fn maybe_hold(&mut self, state: &State, p: u8) {
        use Position::*;
        let at = state.processor(p).position;
        let will_observe =
            at == L7 || at == GT1 && state.mutex(state.processor(p).mutex).token != Token::NONE;
        if will_observe && self.kept.1 == 0 && self.generator.once_in(2) {
            self.kept = (p, 600);
        }
        let (chance, longest) = match at {
            L1 | L7 | GT1 => (80, 60),
            L6 | H5 => (70, 60),
            L3 | L4 | H2 | H6 | TL1 | GT3 => (40, 25),
            _ => (0, 1),
        };
        if self.generator.below(100) < chance {
            self.held[usize::from(p) - 1] = 1 + self.generator.below(longest);
        }
    }

    /// A call that brings the target processor to another hand-off, if one helps.
    fn target_call(&mut self, state: &State, p: u8, target: Target) -> Option<Move> {
        let m = target.mutex;
        let mutex = state.mutex(m);
        let owns = mutex.owner == state.processor(p).current;
        if p == target.processor {
            let free = mutex.count == 0 || mutex.token != Token::NONE;
            // An owner passes the time with trylocks until another thread locks.
            let unlocks = owns && nobody_queued(state, m);
            return match (unlocks, owns || free) {
                (true, _) => Some([p, UNLOCK, m]),
                (false, true) => Some([p, TRYLOCK, m]),
                _ => None,
            };
        }
        let target_owns =
            mutex.owner != 0 && mutex.owner == state.processor(target.processor).current;
        match (owns, target_owns && mutex.count == 1) {
            (true, _) => Some([p, UNLOCK, m]),
            (false, true) => Some([p, LOCK, m]),
            _ => None,
        }
    }

    fn choose_mutex(&mut self, state: &State) -> u8 {
        if self.favourite <= state.mutex_count() && !self.generator.once_in(4) {
            self.favourite
        } else {
            self.generator.between(1, state.mutex_count())
        }
    }

    /// A call for the current thread of a processor at App.
    fn choose_call(&mut self, state: &State, p: u8) -> Move {
        if let Some(target) = self.target(state) {
            if !self.generator.once_in(4) {
                if let Some(call) = self.target_call(state, p, target) {
                    return call;
                }
            }
        }
        let thread = state.processor(p).current;
        let owned: Vec<u8> =
            (1..=state.mutex_count()).filter(|&m| state.mutex(m).owner == thread).collect();
        let unborn: Vec<u8> =
            (1..=state.thread_count()).filter(|&t| state.life(t) == Life::Unborn).collect();
        let alive = state.lives.iter().filter(|&&life| life == Life::Alive).count();
        let choice = self.generator.below(100);
        if choice < 5 && !unborn.is_empty() {
            return [p, CREATE, self.generator.pick(&unborn)];
        }
        // Now and then one of the last threads exits; an owner may not, and yields.
        if choice < 6 && (alive > 3 && owned.is_empty() || self.generator.once_in(40)) {
            return [p, if owned.is_empty() { EXIT } else { YIELD }, 0];
        }
        if choice < 11 {
            return [p, YIELD, 0];
        }
        // Tokens are rare: try for them.
        let tokens: Vec<u8> =
            (1..=state.mutex_count()).filter(|&m| state.mutex(m).token != Token::NONE).collect();
        if !tokens.is_empty() && choice < 30 {
            return [p, TRYLOCK, self.generator.pick(&tokens)];
        }
        let near: Vec<u8> = owned.iter().copied().filter(|&m| nobody_queued(state, m)).collect();
        if !near.is_empty() && choice < 90 {
            return [p, UNLOCK, self.generator.pick(&near)];
        }
        if !owned.is_empty() && choice < 85 {
            return [p, UNLOCK, self.generator.pick(&owned)];
        }
        let m = self.choose_mutex(state);
        // Threads rarely wait for themselves or against the order of the mutexes.
        let in_order = owned.iter().all(|&held| held < m);
        // Short queues make hand-offs by token likelier.
        let long = state.mutex(m).queue.len() > 1 && !self.generator.once_in(4);
        if long && !state.none_ready() {
            [p, YIELD, 0]
        } else if choice < 30 || long || !in_order && !self.generator.once_in(30) {
            [p, TRYLOCK, m]
        } else {
            [p, LOCK, m]
        }
    }

    /// A move that is often refused, by any of 2 to 7, rarely by 21.
    pub fn odd_move(&mut self, state: &State) -> Move {
        let p = self.generator.between(1, state.processor_count());
        let action = self.generator.between(0, CREATE);
        match self.generator.below(14) {
            0 => [self.generator.pick(&[0, state.processor_count() + 1, 255]), GO, 0],
            1 => [self.generator.byte(), self.generator.byte(), self.generator.byte()],
            2 => [p, self.generator.pick(&[7, 8, 128, 255]), self.generator.between(0, 1)],
            3 => [p, self.generator.pick(&[GO, YIELD, EXIT]), self.generator.between(1, 2)],
            4 => {
                let m = self.generator.pick(&[0, state.mutex_count() + 1, 255]);
                [p, self.generator.between(LOCK, UNLOCK), m]
            }
            5 => [p, CREATE, self.generator.pick(&[0, state.thread_count() + 1, 255])],
            6 | 7 => [p, UNLOCK, self.generator.between(1, state.mutex_count())],
            8 | 9 => [p, CREATE, self.generator.between(1, state.thread_count())],
            10 | 11 => [p, GO, 0],
            _ => match action {
                GO | YIELD | EXIT => [p, action, 0],
                CREATE => [p, action, self.generator.between(1, state.thread_count())],
                _ => [p, action, self.generator.between(1, state.mutex_count())],
            },
        }
    }
}

/// The step before; where no move stands, one that is refused by 9.
pub fn step_back(applied: u16, kept: u16) -> u16 {
    applied.checked_sub(1).unwrap_or(kept + 1)
}

/// Whether a lock of mutex m is under way and its queue is empty, so that an unlock
/// hands off by token.
fn nobody_queued(state: &State, m: u8) -> bool {
    state.mutex(m).queue.is_empty() && state.mutex(m).count > 1
}

/// Whether processor p can unlock, or is unlocking, a mutex on which nobody is queued.
fn near_hand_off(state: &State, p: u8) -> bool {
    use Position::*;
    let here = state.processor(p);
    match here.position {
        App => (1..=state.mutex_count())
            .any(|m| state.mutex(m).owner == here.current && nobody_queued(state, m)),
        U1 => nobody_queued(state, here.mutex),
        H2 | H5 => state.mutex(here.mutex).queue.is_empty(),
        _ => false,
    }
}

/// Whether a processor has observed a token that was replaced by a later one of the same
/// processor.
fn is_late(state: &State, p: u8) -> bool {
    let here = state.processor(p);
    if !matches!(here.position, Position::L8 | Position::GT3) {
        return false;
    }
    let token = state.mutex(here.mutex).token;
    token != here.observed && token.processor == here.observed.processor
}

/// Whether no processor can do anything but look at an empty ready queue.
pub fn is_stuck(state: &State) -> bool {
    state.none_ready() && state.processors.iter().all(|here| here.position == Position::CI2)
}
