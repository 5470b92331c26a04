//! Sessions to compare: lists of moves and the states on the way, from a seed.

use crate::{expected, neighbours, replay, replay_with, words, Table};
use independent::machine::{Move, State, EXIT, GO};
use independent::owners;
use independent::random::{Call, Driver, Generator, Rates};
use independent::worked::{self, Worked};
use std::ops::Range;

/// A start table with its choice of ready queues, accepted moves as bytes, and the state after
/// each of them.
pub struct Session {
    pub table: Table,
    pub stealing: u8,
    pub moves: Vec<u8>,
    pub states: Vec<State>,
}

impl Session {
    pub fn new(table: Table, stealing: u8) -> Session {
        let start = State::start(expected::config(table).with_stealing(stealing));
        Session { table, stealing, moves: Vec::new(), states: vec![start] }
    }

    pub fn of(worked: &Worked) -> Session {
        let mut session = Session::new(expected::table(worked.config), worked.config.stealing);
        worked.moves.iter().for_each(|&made| session.make(made).expect("an accepted move"));
        session
    }

    pub fn state(&self) -> &State {
        self.states.last().unwrap()
    }

    /// Makes a move, or gives its refusal.
    pub fn make(&mut self, made: Move) -> Result<(), u8> {
        let mut next = self.state().clone();
        next.try_move(made)?;
        self.states.push(next);
        self.moves.extend(made);
        Ok(())
    }

    /// Leaves the first moves only, where there are so many.
    pub fn cut(&mut self, count: usize) {
        self.states.truncate(count + 1);
        self.moves.truncate(3 * count);
    }
}

/// A session of `calls` calls of a driver; those of odd seeds have a ready queue for each
/// processor. Moves that are gone back over are not kept. Refused moves are handed to `refused`, with
/// the session as it then stands.
pub fn drive(
    seed: u64,
    rates: Rates,
    calls: usize,
    refused: impl FnMut(&Session, Move),
) -> Session {
    drive_with((seed % 2) as u8, seed, rates, calls, refused)
}

/// The same with a choice of ready queues.
pub fn drive_with(
    stealing: u8,
    seed: u64,
    rates: Rates,
    calls: usize,
    mut refused: impl FnMut(&Session, Move),
) -> Session {
    let mut driver = Driver::new(seed, rates);
    let mut session = Session::new(expected::table(driver.generator.config()), stealing);
    for _ in 0..calls {
        match driver.next_call(session.state(), session.state().applied) {
            Call::Goto(step) => session.cut(step.into()),
            Call::Move(made) => {
                if session.make(made).is_err() {
                    refused(&session, made);
                }
            }
        }
    }
    session
}

/// Pictures of states all along random sessions.
pub fn pictures(seeds: Range<u64>, calls: usize, each: usize) -> Vec<Vec<u8>> {
    let mut all = Vec::new();
    for seed in seeds {
        let session = drive(seed, Rates::USUAL, calls, |_, _| ());
        let mut generator = Generator::new(!seed);
        for _ in 0..each {
            all.push(expected::picture_of(&session.states[generator.below(session.states.len())]));
        }
    }
    all
}

/// A buffer of bytes that no picture has all through.
pub fn patterned(length: usize) -> Vec<u8> {
    (0..length).map(|at| 0xa5 ^ (at as u8).wrapping_mul(29)).collect()
}

/// Compares one replay, its answer and every byte of its buffer, with each choice of ready queues.
pub fn compare(table: Table, moves: &[u8], length: usize) {
    let before = patterned(length);
    let mut after = before.clone();
    let answer = replay(table, moves, &mut after);
    let (wanted, buffer) = expected::replay(table, 0, moves, &before);
    assert_eq!(answer, wanted, "{table:?}, {} bytes of moves, buffer {length}", moves.len());
    assert!(after == buffer, "{table:?}, {} bytes of moves, buffer {length}", moves.len());
    for stealing in [0, 1, 2] {
        compare_with(table, stealing, moves, length);
    }
}

/// Compares one replay of a table with a fifth number.
pub fn compare_with(table: Table, stealing: u8, moves: &[u8], length: usize) {
    let before = patterned(length);
    let mut after = before.clone();
    let answer = replay_with(table, stealing, moves, &mut after);
    let (wanted, buffer) = expected::replay(table, stealing, moves, &before);
    assert_eq!(answer, wanted, "{table:?} {stealing}, {} bytes, buffer {length}", moves.len());
    assert!(after == buffer, "{table:?} {stealing}, {} bytes, buffer {length}", moves.len());
}

/// Compares the words of moves, the answer and every byte of the buffer.
pub fn compare_words(table: Table, stealing: u8, moves: &[u8], length: usize) {
    let before = patterned(length);
    let mut after = before.clone();
    let answer = words(table, stealing, moves, &mut after);
    let (wanted, buffer) = expected::words(table, stealing, moves, &before);
    assert_eq!(answer, wanted, "{table:?} {stealing}, {} bytes, buffer {length}", moves.len());
    assert!(after == buffer, "{table:?} {stealing}, {} bytes, buffer {length}", moves.len());
}

/// Compares the answer about two neighbours.
pub fn compare_neighbours(table: Table, stealing: u8, moves: &[u8], first: u32) {
    let wanted = expected::neighbours(table, stealing, moves, first);
    let answer = neighbours(table, stealing, moves, first);
    assert_eq!(answer, wanted, "{table:?} {stealing}, {} bytes, place {first}", moves.len());
}

/// A start table, its fifth number and moves, refused or not.
pub type List = (Table, u8, Vec<u8>);

/// The worked sessions' moves with each choice of ready queues.
pub fn worked_lists() -> Vec<List> {
    let stolen = [1, 2, 3].map(worked::steals);
    let all = worked::hand_offs().into_iter().chain(stolen).chain([worked::own_queues()]);
    let list = |worked: Worked| (expected::table(worked.config), worked.moves.concat());
    all.map(list).flat_map(|(table, moves)| [0, 1].map(|n| (table, n, moves.clone()))).collect()
}

/// The table with each of its numbers replaced by n in turn.
pub fn tables_with(n: u8) -> [Table; 4] {
    [[n, 5, 2, 3], [2, n, 2, 3], [2, 5, n, 3], [2, 5, 2, n]]
}

/// Every processor's go and every call, with right operands and wrong ones.
pub fn every_move([p, t, m, _]: Table) -> Vec<Move> {
    let mut all = Vec::new();
    for processor in 0..=p + 1 {
        for (action, most) in [(0, 0), (1, m), (2, m), (3, m), (4, 0), (5, 0), (6, t), (7, 0)] {
            all.extend([0, 1, most, most + 1].map(|operand| [processor, action, operand]));
        }
    }
    all
}

/// Moves of small bytes, whatever they mean.
pub fn any_list(generator: &mut Generator) -> List {
    let table = expected::table(generator.config());
    let (stealing, length) = (generator.between(0, 1), generator.below(40));
    (table, stealing, (0..length).map(|_| generator.between(0, 4)).collect())
}

/// Hands exits that owners are refused to `refused`, each with the session before it: one for each
/// line that makes an owner, then those of random sessions.
pub fn owner_exits(seeds: u64, mut refused: impl FnMut(&Session, Move)) {
    for owning in owners::owning(0).into_iter().chain(owners::owning(1)) {
        refused(&Session::of(&owning.session), [owning.p, EXIT, 0]);
    }
    let rates = Rates { owner_exits: 4, ..Rates::ACCEPTED };
    for seed in 0..seeds {
        drive(seed, rates, 150, &mut refused);
    }
}

/// Moves that are refused after 4,000, by 8 or before it by another number.
pub fn after_most_moves([p, ..]: Table) -> [Move; 4] {
    [[1, GO, 0], [p + 1, GO, 0], [1, 9, 0], [p, EXIT, 0]]
}

/// Some bytes that may follow a refused move.
pub fn tail(generator: &mut Generator) -> Vec<u8> {
    let length = generator.below(8);
    (0..length).map(|_| generator.byte()).collect()
}
