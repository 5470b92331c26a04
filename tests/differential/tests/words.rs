//! The words of moves through the static library against the independent machine, byte for byte.

use differential::sessions::{
    after_most_moves, any_list, compare_words, drive, every_move, owner_exits, patterned,
    tables_with, tail, worked_lists, Session,
};
use differential::{words, Replayed, TOUCH};
use independent::machine::{Move, MOST_MOVES};
use independent::random::{Generator, Rates};
use independent::touch::Touch;
use std::collections::{BTreeMap, BTreeSet};

/// The words of a session's moves, worked out from the states on the way.
fn touches(session: &Session) -> Vec<Touch> {
    let moves = session.moves.chunks(3).map(|made| [made[0], made[1], made[2]]);
    moves.zip(&session.states).map(|(made, before)| Touch::of(before, made)).collect()
}

/// The library gives these words of the first `made` moves, and keeps the bytes behind them.
fn gives(session: &Session, all: &[Touch], made: usize) {
    let mut wanted = patterned(TOUCH * made + 3);
    let mut after = wanted.clone();
    for (bytes, touch) in wanted.chunks_exact_mut(TOUCH).zip(&all[..made]) {
        bytes.copy_from_slice(&touch.bytes());
    }
    let answer = words(session.table, session.stealing, &session.moves[..3 * made], &mut after);
    assert_eq!(answer, Replayed { number: 0, place: 0 });
    assert!(after == wanted, "{:?} after {made} moves", session.table);
}

/// A refused move at the end of a session, alone and with bytes behind it, in buffers that are too
/// short, just long enough and longer.
fn refuses(session: &Session, made: Move, behind: &[u8]) {
    let mut moves = session.moves.clone();
    moves.extend(made);
    let room = TOUCH * moves.len() / 3;
    for length in [0, room - TOUCH, room, room + 9] {
        compare_words(session.table, session.stealing, &moves, length);
    }
    moves.extend(behind);
    compare_words(session.table, session.stealing, &moves, room + 2 * TOUCH);
}

/// Buffers about the length that is needed, and bytes of a move left over.
fn lengths(session: &Session) {
    let room = TOUCH * session.moves.len() / 3;
    let near = [0, 1, TOUCH - 1, TOUCH, room / 2].into_iter();
    for length in near.chain(room.saturating_sub(5)..=room + 5) {
        compare_words(session.table, session.stealing, &session.moves, length);
        for left in 1..session.moves.len().min(3) {
            let less = &session.moves[..session.moves.len() - left];
            compare_words(session.table, session.stealing, less, length);
        }
    }
}

#[test]
fn short_sessions_move_by_move() {
    let mut met: BTreeMap<Touch, usize> = BTreeMap::new();
    let mut numbers = BTreeSet::new();
    for seed in 0..300 {
        let session = drive(seed, Rates::USUAL, 120, |session, made| {
            let mut generator = Generator::new(seed);
            refuses(session, made, &tail(&mut generator));
            numbers.extend(session.state().cause(made));
        });
        let all = touches(&session);
        for made in 0..=all.len() {
            gives(&session, &all, made);
        }
        all.iter().for_each(|&touch| *met.entry(touch).or_default() += 1);
    }
    assert!(numbers.into_iter().eq([2, 3, 4, 5, 6, 7, 21]));
    // Each kind of word with each way to touch it, and each ready queue.
    let ways: BTreeSet<[u8; 2]> =
        met.keys().map(|touch| [touch.read.bytes()[0], touch.written.bytes()[0]]).collect();
    let wanted = [[0, 0], [0, 2], [1, 0], [1, 1], [2, 0], [2, 2], [3, 0], [3, 3], [4, 0], [4, 4]];
    assert!(ways.into_iter().eq(wanted.into_iter().chain([[5, 5]])));
    let queues = met.keys().filter(|touch| touch.written.bytes()[0] == 4).count();
    assert_eq!(queues, 8);
}

#[test]
fn lengths_of_buffers() {
    for seed in 0..60 {
        for calls in [0, 1, 2, 3, 20, 60] {
            lengths(&drive(seed, Rates::ACCEPTED, calls, |_, _| ()));
        }
    }
}

#[test]
fn start_tables() {
    let moves = [1, 4, 0, 1, 0, 0, 1];
    for n in 0..=255 {
        for table in tables_with(n) {
            for length in [0, 8] {
                compare_words(table, n % 3, &moves[..6], length);
                compare_words(table, n % 2, &moves, length);
            }
            compare_words(table, 1, &[], 0);
        }
        compare_words([2, 5, 2, 3], n, &moves[..6], 8);
        compare_words([2, 5, 2, 3], n, &moves[..6], 7);
    }
}

#[test]
fn worked_sessions() {
    for (table, stealing, moves) in worked_lists() {
        compare_words(table, stealing, &moves, TOUCH * moves.len() / 3);
    }
}

#[test]
fn every_move_after_random_sessions() {
    for seed in 0..120 {
        let session = drive(seed, Rates::ACCEPTED, 10 + seed as usize, |_, _| ());
        for made in every_move(session.table) {
            let moves = [&session.moves[..], &made].concat();
            compare_words(session.table, session.stealing, &moves, TOUCH * moves.len() / 3);
        }
    }
}

/// 4,000 moves, and the one after them with its other numbers.
#[test]
fn long_sessions() {
    for seed in 1_000..1_020 {
        let session = drive(seed, Rates::ACCEPTED, usize::from(MOST_MOVES), |_, _| ());
        gives(&session, &touches(&session), usize::from(MOST_MOVES));
        for made in after_most_moves(session.table) {
            refuses(&session, made, &[1, 0]);
        }
        let room = TOUCH * usize::from(MOST_MOVES);
        for length in [0, room - 1, room, room + 1] {
            compare_words(session.table, session.stealing, &session.moves, length);
        }
    }
}

#[test]
fn exits_by_owners() {
    owner_exits(40, |session, exit| refuses(session, exit, &[]));
}

/// Moves that nobody checks beforehand.
#[test]
fn any_bytes() {
    for seed in 0..400 {
        let mut generator = Generator::new(seed);
        let (table, stealing, moves) = any_list(&mut generator);
        let room = generator.below(60);
        compare_words(table, stealing, &moves, room);
    }
}
