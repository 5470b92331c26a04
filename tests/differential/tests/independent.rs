//! Whether neighbours may change places, through the static library against the independent machine;
//! and what the library's replay and words give for the list with the two exchanged.

use differential::sessions::{
    after_most_moves, any_list, compare_neighbours, drive, every_move, owner_exits, tables_with,
    tail, worked_lists, Session,
};
use differential::{expected, neighbours, replay_with, words, Replayed, MOST_PICTURE, TOUCH};
use independent::independence::{self, Bar};
use independent::machine::{Move, MOST_MOVES};
use independent::random::{Generator, Rates};
use std::collections::{BTreeMap, BTreeSet};

/// Places of a list at its ends and out of it.
fn places(moves: &[u8]) -> [u32; 8] {
    let count = moves.len() as u32 / 3;
    [0, 1, 2, count.saturating_sub(1), count, count + 1, u32::MAX - 1, u32::MAX]
}

/// The bytes with the `size` ones of each of two neighbours exchanged.
fn exchanged(bytes: &[u8], size: usize, first: u32) -> Vec<u8> {
    let mut other = bytes.to_vec();
    let at = size * (first as usize - 1);
    other[at..at + 2 * size].rotate_left(size);
    other
}

/// The answer to a replay of moves from the session's start, and its buffer.
fn replayed(session: &Session, moves: &[u8]) -> (Replayed, [u8; MOST_PICTURE]) {
    let mut picture = [0; MOST_PICTURE];
    let answer = replay_with(session.table, session.stealing, moves, &mut picture);
    (answer, picture)
}

/// The words of accepted moves from the session's start.
fn words_of(session: &Session, moves: &[u8]) -> Vec<u8> {
    let mut all = vec![0; TOUCH * moves.len() / 3];
    let answer = words(session.table, session.stealing, moves, &mut all);
    assert_eq!(answer, Replayed { number: 0, place: 0 });
    all
}

/// Whether the library's picture is the same with two neighbours exchanged. If they may change
/// places, it is, and so are each one's words, and they may change back.
fn same_exchanged(session: &Session, first: u32, may: bool) -> bool {
    let moves = exchanged(&session.moves, 3, first);
    let same = replayed(session, &moves) == replayed(session, &session.moves);
    if may {
        assert!(same, "{:?} {first}", session.table);
        let wanted = exchanged(&words_of(session, &session.moves), TOUCH, first);
        assert!(words_of(session, &moves) == wanted, "{:?} {first}", session.table);
        assert_eq!(neighbours(session.table, session.stealing, &moves, first), (1, 0));
    }
    same
}

/// How often neighbours with each bar led to the same exchanged, and how often not.
type Met = BTreeMap<Option<Bar>, [usize; 2]>;

/// Compares every place of a session, each pair exchanged, and places out of it.
fn compare_places(session: &Session, met: &mut Met) {
    let config = expected::config(session.table).with_stealing(session.stealing);
    let bars = independence::of_list(config, &session.moves).unwrap();
    for (first, bar) in (1..).zip(bars) {
        let may = bar.is_none();
        let answer = neighbours(session.table, session.stealing, &session.moves, first);
        assert_eq!(answer, (u8::from(may), 0), "{:?} {first}", session.table);
        let same = same_exchanged(session, first, may);
        met.entry(bar).or_default()[usize::from(!same)] += 1;
    }
    for first in places(&session.moves) {
        compare_neighbours(session.table, session.stealing, &session.moves, first);
    }
}

/// A refused move at the end of a session, alone and with bytes behind it.
fn refuses(session: &Session, made: Move, behind: &[u8]) {
    for behind in [&[], behind] {
        let moves = [&session.moves[..], &made, behind].concat();
        for first in places(&moves) {
            compare_neighbours(session.table, session.stealing, &moves, first);
        }
    }
}

#[test]
fn every_place_of_random_sessions() {
    let (mut met, mut numbers) = (Met::new(), BTreeSet::new());
    for seed in 0..200 {
        let session = drive(seed, Rates::USUAL, 100, |session, made| {
            refuses(session, made, &tail(&mut Generator::new(seed)));
            numbers.extend(session.state().cause(made));
        });
        compare_places(&session, &mut met);
    }
    println!("{met:?}");
    assert!(numbers.into_iter().eq([2, 3, 4, 5, 6, 7, 21]));
    let [same, other] = met.remove(&None).unwrap();
    assert!(same > 5_000 && other == 0);
    assert_eq!(met.len(), 4);
    for (bar, [_, other]) in met {
        assert!(other > 50, "{bar:?} {other}");
    }
}

#[test]
fn exchanges_in_a_row() {
    let mut exchanges = 0;
    for seed in 0..20 {
        let mut session = drive(seed, Rates::ACCEPTED, 120, |_, _| ());
        let (first, mut generator) = (replayed(&session, &session.moves), Generator::new(seed));
        for _ in 0..1_000 {
            let place = 1 + generator.below(session.moves.len() / 3 - 1) as u32;
            if neighbours(session.table, session.stealing, &session.moves, place) == (1, 0) {
                session.moves = exchanged(&session.moves, 3, place);
                exchanges += 1;
            }
        }
        assert_eq!(replayed(&session, &session.moves), first);
    }
    assert!(exchanges > 5_000, "{exchanges}");
}

#[test]
fn worked_sessions() {
    for (table, stealing, moves) in worked_lists() {
        for first in 0..=moves.len() as u32 / 3 + 1 {
            compare_neighbours(table, stealing, &moves, first);
        }
    }
}

#[test]
fn short_lists_and_bytes_left_over() {
    for seed in 0..60 {
        let session = drive(seed, Rates::ACCEPTED, 20, |_, _| ());
        for length in (0..10).chain(session.moves.len() - 5..=session.moves.len()) {
            let moves = &session.moves[..length];
            for first in places(moves) {
                compare_neighbours(session.table, session.stealing, moves, first);
            }
        }
    }
}

#[test]
fn start_tables() {
    let moves = [1, 4, 0, 2, 4, 0, 1];
    for n in 0..=255 {
        for first in [0, 1, 2, u32::MAX] {
            for table in tables_with(n) {
                compare_neighbours(table, n % 3, &moves[..6], first);
                compare_neighbours(table, n % 2, &moves, first);
                compare_neighbours(table, 1, &[], first);
            }
            compare_neighbours([2, 5, 2, 3], n, &moves[..6], first);
        }
    }
}

#[test]
fn every_move_after_random_sessions() {
    for seed in 0..60 {
        let session = drive(seed, Rates::ACCEPTED, 5 + seed as usize, |_, _| ());
        for made in every_move(session.table) {
            let moves = [&session.moves[..], &made].concat();
            let last = session.moves.len() as u32 / 3;
            compare_neighbours(session.table, session.stealing, &moves, last);
        }
    }
}

/// 4,000 moves, and the one after them with its other numbers.
#[test]
fn long_sessions() {
    for seed in 1_000..1_006 {
        let session = drive(seed, Rates::ACCEPTED, usize::from(MOST_MOVES), |_, _| ());
        let (table, stealing, moves) = (session.table, session.stealing, &session.moves);
        let mut generator = Generator::new(seed);
        let some = (0..30).map(|_| 1 + generator.below(usize::from(MOST_MOVES) - 1) as u32);
        for first in some.chain(places(moves)) {
            compare_neighbours(table, stealing, moves, first);
            if neighbours(table, stealing, moves, first) == (1, 0) {
                same_exchanged(&session, first, true);
            }
        }
        for made in after_most_moves(session.table) {
            refuses(&session, made, &[1, 0]);
        }
    }
}

#[test]
fn exits_by_owners() {
    owner_exits(20, |session, exit| refuses(session, exit, &[]));
}

#[test]
fn any_bytes() {
    for seed in 0..400 {
        let (table, stealing, moves) = any_list(&mut Generator::new(seed));
        for first in 0..5 {
            compare_neighbours(table, stealing, &moves, first);
        }
    }
}
