//! What the library is to answer, worked out by the package `independent`.

use crate::{Ahead, Replayed, Table, TOUCH};
use independent::independence;
use independent::journal::JOURNAL;
use independent::machine::{Config, State};
use independent::marks;
use independent::picture;
use independent::record::Snapshot;
use independent::script;
use independent::session;
use independent::touch;

pub fn config([p, t, m, b]: Table) -> Config {
    Config::new(p, t, m, b)
}

pub fn table(config: Config) -> Table {
    [config.processors, config.threads, config.mutexes, config.born]
}

/// The picture of a state.
pub fn picture_of(state: &State) -> Vec<u8> {
    let shown = Snapshot::of(state);
    let mut bytes = vec![0; picture::length(shown.processors, shown.threads, shown.mutexes)];
    assert_eq!(picture::write(&shown, &mut bytes), 0);
    bytes
}

/// The answer to a replay and the buffer after it.
pub fn replay(table: Table, stealing: u8, moves: &[u8], buffer: &[u8]) -> (Replayed, Vec<u8>) {
    let refused = |number: u8, place: u32| (Replayed { number, place }, buffer.to_vec());
    let config = config(table).with_stealing(stealing);
    if !config.in_range() {
        return refused(1, 0);
    }
    let mut state = State::start(config);
    let mut place = 0;
    for bytes in moves.chunks(3) {
        place += 1;
        let &[p, action, operand] = bytes else {
            return refused(3, place);
        };
        if let Err(number) = state.try_move([p, action, operand]) {
            return refused(number, place);
        }
    }
    let shown = picture_of(&state);
    if buffer.len() < shown.len() {
        return refused(10, 0);
    }
    let mut after = buffer.to_vec();
    after[..shown.len()].copy_from_slice(&shown);
    (Replayed { number: 0, place: 0 }, after)
}

/// The answer about the words of moves and the buffer after it.
pub fn words(table: Table, stealing: u8, moves: &[u8], buffer: &[u8]) -> (Replayed, Vec<u8>) {
    let answer = |number: u8, place: u32| Replayed { number, place };
    let config = config(table).with_stealing(stealing);
    if !config.in_range() {
        return (answer(1, 0), buffer.to_vec());
    }
    match touch::of_list(config, moves) {
        Err((number, place)) => (answer(number, place), buffer.to_vec()),
        Ok(all) if buffer.len() < TOUCH * all.len() => (answer(10, 0), buffer.to_vec()),
        Ok(all) => {
            let mut after = buffer.to_vec();
            after[..TOUCH * all.len()].copy_from_slice(&touch::bytes(&all));
            (answer(0, 0), after)
        }
    }
}

/// The answer about two neighbours and the place of a refused move.
pub fn neighbours(table: Table, stealing: u8, moves: &[u8], first: u32) -> (u8, u32) {
    independence::answer(config(table).with_stealing(stealing), moves, first)
}

/// The answer to a class, with its moves as bytes; both buffers become what they are after it.
pub fn class(
    table: Table,
    stealing: u8,
    scripts: &[u8],
    turns: &[u8],
    answers: &mut [u8],
    pictures: &mut [u8],
) -> (u8, Vec<u8>) {
    let begun = script::start(config(table).with_stealing(stealing), scripts);
    if !begun.is_accepted() {
        return (begun.number, Vec::new());
    }
    let mut journal = vec![0; JOURNAL];
    let taken = script::class(&begun.value, &mut journal, scripts, turns, answers, pictures);
    journal.truncate(3 * usize::from(taken.value.snapshot.applied));
    (taken.number, journal)
}

/// The number that reading gets.
pub fn read(bytes: &[u8]) -> u8 {
    picture::read(bytes).number
}

pub fn ahead(bytes: &[u8], thread: u8) -> Ahead {
    let shown = picture::read(bytes);
    if !shown.is_accepted() {
        return Ahead::Refused(shown.number);
    }
    match session::ahead(&shown.value, thread) {
        session::Ahead::Waits(turns) => Ahead::Waits(turns),
        session::Ahead::NotWaiting => Ahead::NotWaiting,
        session::Ahead::Refused(number) => Ahead::Refused(number),
    }
}

/// The mark or 20,000 and the number of the refusal.
pub fn mark(machine: &[u8], candidate: &[u8]) -> u16 {
    marks::answer(machine, candidate)
}
