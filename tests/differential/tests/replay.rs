//! Replays through the static library against the independent machine, byte for byte.

use differential::expected::{self, picture_of};
use differential::sessions::{compare, compare_with, drive, patterned, tail, Session};
use differential::{replay_with, Replayed, Table, MOST_PICTURE};
use independent::machine::{Move, EXIT, MOST_MOVES};
use independent::owners;
use independent::random::{Driver, Generator, Rates};
use std::collections::BTreeMap;

/// The state after the first `made` moves is the one the library shows.
fn shows(session: &Session, made: usize) {
    let mut after = patterned(MOST_PICTURE);
    let mut wanted = after.clone();
    let shown = picture_of(&session.states[made]);
    wanted[..shown.len()].copy_from_slice(&shown);
    let answer =
        replay_with(session.table, session.stealing, &session.moves[..3 * made], &mut after);
    assert_eq!(answer, Replayed { number: 0, place: 0 });
    assert!(after == wanted, "{:?} after {made} moves", session.table);
}

/// A refused move at the end of a session, alone and with bytes behind it.
fn refuses(session: &Session, made: Move, behind: &[u8]) {
    let mut moves = session.moves.clone();
    moves.extend(made);
    compare(session.table, &moves, MOST_PICTURE);
    moves.extend(behind);
    compare(session.table, &moves, MOST_PICTURE);
}

#[test]
fn every_start_table() {
    for p in 1..=8 {
        for t in 1..=32 {
            for m in 1..=8 {
                for b in 1..=t {
                    compare([p, t, m, b], &[], MOST_PICTURE);
                }
            }
        }
    }
}

#[test]
fn start_tables_out_of_range() {
    let edges = [0, 1, 2, 7, 8, 9, 31, 32, 33, 127, 128, 254, 255];
    for p in edges {
        for t in edges {
            for m in edges {
                for b in edges {
                    compare([p, t, m, b], &[1, 4, 0, 1], MOST_PICTURE);
                }
            }
        }
    }
}

#[test]
fn every_number_out_of_range() {
    for n in 0..=255 {
        compare([n, 5, 2, 3], &[], MOST_PICTURE);
        compare([2, n, 2, 3], &[], MOST_PICTURE);
        compare([2, 5, n, 3], &[], MOST_PICTURE);
        compare([2, 5, 2, n], &[], MOST_PICTURE);
        compare_with([2, 5, 2, 3], n, &[], MOST_PICTURE);
        compare_with([2, 5, 2, 3], n, &[9, 9, 9], 0);
    }
}

#[test]
fn short_sessions_move_by_move() {
    for seed in 0..400 {
        let session = drive(seed, Rates::USUAL, 120, |session, made| refuses(session, made, &[]));
        for made in 0..session.states.len() {
            shows(&session, made);
        }
    }
}

#[test]
fn long_sessions() {
    for seed in 1_000..1_040 {
        let mut generator = Generator::new(seed);
        let session = drive(seed, Rates::ACCEPTED, usize::from(MOST_MOVES), |_, _| ());
        assert_eq!(session.states.len(), usize::from(MOST_MOVES) + 1);
        for _ in 0..20 {
            shows(&session, generator.below(session.states.len()));
        }
        shows(&session, usize::from(MOST_MOVES));
    }
}

#[test]
fn middle_sessions_with_steps_back() {
    for seed in 2_000..2_200 {
        let mut generator = Generator::new(seed);
        let session = drive(seed, Rates::USUAL, 900, |_, _| ());
        for _ in 0..4 {
            shows(&session, generator.below(session.states.len()));
        }
        shows(&session, session.states.len() - 1);
    }
}

#[test]
fn refused_moves() {
    let often = Rates { refused: 2, owner_exits: 10, ..Rates::ACCEPTED };
    let mut met: BTreeMap<(u8, u8), usize> = BTreeMap::new();
    for seed in 3_000..3_300 {
        let mut generator = Generator::new(!seed);
        drive(seed, often, 150, |session, made| {
            refuses(session, made, &tail(&mut generator));
            let number = session.state().cause(made).expect("a refused move");
            *met.entry((session.stealing, number)).or_default() += 1;
        });
    }
    for number in [2, 3, 4, 5, 6, 7, 21] {
        let times = [0, 1].map(|stealing| met.get(&(stealing, number)).copied().unwrap_or(0));
        assert!(times.iter().all(|&times| times >= 100), "{number} met {times:?} times");
    }
}

/// Owners by each line, tried along the session and its unlock; sessions from before 21, with their
/// exit and all that came after it.
#[test]
fn exits_by_owners() {
    let mut met = 0;
    for owning in owners::owning(0).into_iter().chain(owners::owning(1)) {
        let unlocked = owning.unlocks().pop().expect("an unlock");
        let (table, stealing) = (expected::table(unlocked.config), unlocked.config.stealing);
        for count in 0..=unlocked.moves.len() {
            for p in 0..=unlocked.config.processors + 1 {
                for operand in [0, 1] {
                    let moves = [&unlocked.moves[..count], &[[p, EXIT, operand]]].concat().concat();
                    compare(table, &moves, MOST_PICTURE);
                    let answer = replay_with(table, stealing, &moves, &mut [0; MOST_PICTURE]);
                    met += usize::from(answer.number == 21);
                }
            }
        }
    }
    assert!(met >= 10, "{met}");
    for old in owners::old() {
        let (table, stealing) = (expected::table(old.session.config), old.session.config.stealing);
        let moves = old.session.moves.concat();
        compare(table, &moves, MOST_PICTURE);
        let place = old.before_exit().moves.len() as u32 + 1;
        let answer = replay_with(table, stealing, &moves, &mut [0; MOST_PICTURE]);
        assert_eq!(answer, Replayed { number: 21, place }, "{}", old.name);
    }
}

#[test]
fn every_move_of_three_bytes_at_some_states() {
    for seed in 4_000..4_012 {
        let session = drive(seed, Rates::USUAL, 60, |_, _| ());
        let mut moves = session.moves.clone();
        moves.extend([0, 0, 0]);
        let at = moves.len() - 3;
        let bytes = [0, 1, 2, 3, 4, 5, 6, 7, 8, 9, 16, 31, 32, 33, 64, 127, 128, 255];
        for p in bytes {
            for action in 0..=9 {
                for operand in bytes {
                    moves[at..].copy_from_slice(&[p, action, operand]);
                    compare(session.table, &moves, MOST_PICTURE);
                }
            }
        }
    }
}

#[test]
fn any_bytes_as_moves() {
    let mut generator = Generator::new(5_000);
    for _ in 0..40_000 {
        let table = expected::table(generator.config());
        let length = generator.below(40);
        let small = generator.once_in(2);
        let moves: Vec<u8> = (0..length)
            .map(|_| if small { generator.between(0, 3) } else { generator.byte() })
            .collect();
        compare(table, &moves, MOST_PICTURE);
    }
}

#[test]
fn bytes_left_over() {
    for seed in 6_000..6_040 {
        let session = drive(seed, Rates::USUAL, 80, |_, _| ());
        for length in 0..=session.moves.len() {
            compare(session.table, &session.moves[..length], MOST_PICTURE);
        }
    }
}

#[test]
fn the_4001st_move() {
    for seed in 7_000..7_006 {
        let mut driver = Driver::new(seed, Rates::ACCEPTED);
        let mut session =
            Session::new(expected::table(driver.generator.config()), (seed % 2) as u8);
        while session.state().applied < MOST_MOVES {
            let made = driver.likely_move(session.state());
            session.make(made).unwrap();
        }
        for _ in 0..200 {
            refuses(&session, driver.odd_move(session.state()), &[]);
            refuses(&session, driver.likely_move(session.state()), &[1, 0, 0]);
        }
        for left in [&[][..], &[1], &[1, 0], &[255], &[255, 255]] {
            let moves = [&session.moves[..], left].concat();
            compare(session.table, &moves, MOST_PICTURE);
        }
        for length in 11_990..=12_000 {
            compare(session.table, &session.moves[..length], MOST_PICTURE);
        }
    }
}

#[test]
fn buffers_of_every_length() {
    for seed in 8_000..8_030 {
        let session = drive(seed, Rates::USUAL, 40, |_, _| ());
        for length in 0..=MOST_PICTURE + 4 {
            compare(session.table, &session.moves, length);
        }
        compare(session.table, &session.moves, 100_000);
    }
}

#[test]
fn short_buffer_and_refused_move() {
    let table: Table = [2, 2, 1, 2];
    for length in [0, 1, 47, 48, 49, 296] {
        compare(table, &[], length);
        compare(table, &[3, 0, 0], length);
        compare(table, &[1, 1, 1, 1], length);
        compare([9, 2, 1, 2], &[3, 0, 0], length);
    }
}
