//! The static library and the independent implementation on the same input in one run: what each
//! takes, and the ratio. Times are medians over rounds in which the two take turns. Sessions are kept
//! as bytes on both sides.

use differential::classes::Class;
use differential::sessions::{drive_with, Session};
use differential::{class, expected, read, replay, replay_with, sitting, MOST_PICTURE};
use independent::journal::JOURNAL;
use independent::machine::{Move, State, MOST_MOVES};
use independent::picture;
use independent::random::{Generator, Rates};
use independent::record::{Record, Snapshot};
use independent::{script, session_bytes};
use std::hint::black_box;
use std::time::Instant;

const ROUNDS: usize = 31;

/// Rounds of whole sessions.
const LONG_ROUNDS: usize = 11;

/// How often a round makes the last move of a session, or goes to a step from its end.
const CALLS: usize = 20;

/// How many sessions are made move by move, where each move replays all before it.
const WHOLE_SESSIONS: usize = 3;

/// Nanoseconds that a closure takes.
fn time(run: &mut dyn FnMut()) -> f64 {
    let start = Instant::now();
    run();
    start.elapsed().as_nanos() as f64
}

fn median(mut times: Vec<f64>) -> f64 {
    times.sort_by(f64::total_cmp);
    times[times.len() / 2]
}

/// Measures both in turns and prints a line: each's time for one of `count` units, and the ratio.
fn compare(what: &str, count: usize, proved: impl FnMut(), rust: impl FnMut()) {
    compare_rounds(what, ROUNDS, count, proved, rust);
}

/// The same with a number of rounds.
fn compare_rounds(
    what: &str,
    rounds: usize,
    count: usize,
    mut proved: impl FnMut(),
    mut rust: impl FnMut(),
) {
    let (mut ours, mut theirs) = (Vec::new(), Vec::new());
    for _ in 0..rounds {
        ours.push(time(&mut proved) / count as f64);
        theirs.push(time(&mut rust) / count as f64);
    }
    let (ours, theirs) = (median(ours), median(theirs));
    let a_second = |nanoseconds: f64| 1e9 / nanoseconds;
    println!(
        "{what:<36} {:>13} {:>12.0}/s   {:>13} {:>12.0}/s   {:>6.2}",
        shown(ours),
        a_second(ours),
        shown(theirs),
        a_second(theirs),
        theirs / ours
    );
}

/// A time in a unit that suits it.
fn shown(nanoseconds: f64) -> String {
    let (unit, name) = match nanoseconds {
        below if below < 1e4 => (1.0, "ns"),
        below if below < 1e7 => (1e3, "µs"),
        _ => (1e6, "ms"),
    };
    format!("{:.1} {name}", nanoseconds / unit)
}

fn replay_in_rust(session: &Session, buffer: &mut [u8]) -> u8 {
    let mut state = State::start(expected::config(session.table).with_stealing(session.stealing));
    for made in session.moves.chunks_exact(3) {
        if let Err(number) = state.try_move([made[0], made[1], made[2]]) {
            return number;
        }
    }
    picture::write(&Snapshot::of(&state), buffer)
}

/// A class whose turns are all accepted, of as many as moves can stand.
fn full_class(generator: &mut Generator) -> Class {
    loop {
        let config = generator.config();
        let scripts = generator.scripts(config);
        let mut turns = generator.turns(config, 2 * usize::from(MOST_MOVES));
        let table = expected::table(config);
        let class = Class { table, stealing: 0, scripts: scripts.clone(), turns: turns.clone() };
        let numbers = class.compare().answers;
        let mut number = numbers.iter();
        turns.retain(|_| number.next() == Some(&0));
        if turns.len() == usize::from(MOST_MOVES) {
            return Class { turns, ..class };
        }
    }
}

/// One pass over the turns: the state and each thread's place in its script are carried along.
fn class_in_rust(class: &Class, answers: &mut [u8], pictures: &mut [u8]) -> u8 {
    let Class { table, scripts, turns, .. } = class;
    let begun = script::start(expected::config(*table), scripts);
    script::class(&begun.value, &mut [0; JOURNAL], scripts, turns, answers, pictures).number
}

/// The line on classes, each of 4,000 accepted turns.
fn compare_classes() {
    let most = usize::from(MOST_MOVES);
    let mut generator = Generator::new(0);
    let classes: Vec<Class> = (0..20).map(|_| full_class(&mut generator)).collect();
    let (mut answers, mut pictures) = (vec![0; most], vec![0; most * MOST_PICTURE]);
    let (mut others, mut shown) = (answers.clone(), pictures.clone());
    compare(
        "a turn of a class, its picture too",
        most * classes.len(),
        || {
            for Class { table, scripts, turns, .. } in &classes {
                assert_eq!(class(*table, scripts, turns, &mut answers, &mut pictures), 0);
            }
        },
        || {
            for class in &classes {
                assert_eq!(class_in_rust(black_box(class), &mut others, black_box(&mut shown)), 0);
            }
        },
    );
}

/// A session as bytes after so many moves, and the journal of all.
#[derive(Clone)]
struct Lent {
    session: Vec<u8>,
    journal: Vec<u8>,
}

impl Lent {
    fn after(moves: usize, session: &Session) -> Lent {
        let record = Record::of(&session.states[moves], session.table[3]);
        Lent { session: session_bytes::encode(&record), journal: session.moves.clone() }
    }

    /// The number of the journal's last move.
    fn make_last(&mut self, make: Make) -> u8 {
        let last = [0, 1, 2].map(|i| self.journal[JOURNAL - 3 + i]);
        make(&mut self.session, &mut self.journal, last)
    }
}

/// A call on a session as bytes, and a move on its parts.
type Call = fn(&mut Lent) -> u8;
type Make = fn(&mut [u8], &mut [u8], Move) -> u8;

/// Makes a call many times over, each time from the same bytes. What a move writes into the journal is
/// there already.
fn repeat(all: &mut [Lent], call: Call) {
    for lent in all {
        let session = lent.session.clone();
        for _ in 0..CALLS {
            assert_eq!(call(black_box(lent)), 0);
            lent.session.copy_from_slice(&session);
        }
    }
}

/// A line on a call at each session's end, which is handed the session after so many moves.
fn compare_last(what: &str, sessions: &[Session], moves: usize, proved: Call, rust: Call) {
    let mut ours: Vec<Lent> = sessions.iter().map(|session| Lent::after(moves, session)).collect();
    let mut theirs = ours.clone();
    let count = CALLS * sessions.len();
    compare(what, count, || repeat(&mut ours, proved), || repeat(&mut theirs, rust));
}

/// Makes a session's moves one by one.
fn make_all(lent: &mut Lent, session: &Session, make: Make) {
    *lent = Lent::after(0, session);
    for made in session.moves.chunks_exact(3) {
        let made = [made[0], made[1], made[2]];
        assert_eq!(make(black_box(&mut lent.session), &mut lent.journal, made), 0);
    }
}

/// The lines on a session's calls, over sessions of 4,000 moves that are kept as bytes.
fn compare_sessions(sessions: &[Session]) {
    let most = usize::from(MOST_MOVES);
    assert!(sessions.iter().all(|session| session.moves.len() == JOURNAL));
    compare_last(
        "the 4,000th move, its journal tested",
        sessions,
        most - 1,
        |lent| lent.make_last(sitting::make_move),
        |lent| lent.make_last(session_bytes::make_move),
    );
    compare_last(
        "from 4,000 moves to step 0",
        sessions,
        most,
        |lent| sitting::goto(&mut lent.session, &lent.journal, 0),
        |lent| session_bytes::goto(&mut lent.session, &lent.journal, 0),
    );
    compare_last(
        "from 4,000 moves to step 3,999",
        sessions,
        most,
        |lent| sitting::goto(&mut lent.session, &lent.journal, 3_999),
        |lent| session_bytes::goto(&mut lent.session, &lent.journal, 3_999),
    );
    let few = &sessions[..WHOLE_SESSIONS];
    let (mut ours, mut theirs) = (Lent::after(0, &few[0]), Lent::after(0, &few[0]));
    compare_rounds(
        "a session of 4,000 moves",
        LONG_ROUNDS,
        few.len(),
        || few.iter().for_each(|session| make_all(&mut ours, session, sitting::make_move)),
        || few.iter().for_each(|session| make_all(&mut theirs, session, session_bytes::make_move)),
    );
}

/// Sessions of 4,000 moves with a choice of ready queues.
fn sessions_with(stealing: u8) -> Vec<Session> {
    let session = |seed| drive_with(stealing, seed, Rates::ACCEPTED, MOST_MOVES.into(), |_, _| ());
    (0..20).map(session).collect()
}

/// The line on replays with a ready queue for each processor.
fn compare_stealing() {
    let sessions = sessions_with(1);
    let moves: usize = sessions.iter().map(|session| session.moves.len() / 3).sum();
    let (mut ours, mut theirs) = ([0; MOST_PICTURE], [0; MOST_PICTURE]);
    compare(
        "the same, a queue for each",
        moves,
        || {
            for Session { table, moves, .. } in &sessions {
                assert_eq!(replay_with(*table, 1, moves, &mut ours).number, 0);
            }
        },
        || {
            for session in &sessions {
                assert_eq!(replay_in_rust(session, &mut theirs), 0);
            }
        },
    );
}

fn main() {
    let sessions = sessions_with(0);
    let pictures: Vec<Vec<u8>> = sessions
        .iter()
        .flat_map(|session| session.states.iter().step_by(40))
        .map(expected::picture_of)
        .collect();
    let tables: Vec<[u8; 4]> = sessions.iter().map(|session| session.table).collect();
    let moves: usize = sessions.iter().map(|session| session.moves.len() / 3).sum();
    let (mut ours, mut theirs) = ([0; MOST_PICTURE], [0; MOST_PICTURE]);

    println!("{:<36} {:>13} {:>14}   {:>13} {:>14}   {:>6}", "", "proved", "", "rust", "", "ratio");
    compare(
        "a move of a whole replay",
        moves,
        || {
            for session in &sessions {
                assert_eq!(replay(session.table, &session.moves, &mut ours).number, 0);
            }
        },
        || {
            for session in &sessions {
                assert_eq!(replay_in_rust(session, &mut theirs), 0);
            }
        },
    );
    compare_stealing();
    compare(
        "a start and its picture written",
        200 * tables.len(),
        || {
            for &table in (0..200).flat_map(|_| &tables) {
                assert_eq!(replay(table, &[], black_box(&mut ours)).number, 0);
            }
        },
        || {
            for &table in (0..200).flat_map(|_| &tables) {
                let state = State::start(expected::config(table));
                assert_eq!(picture::write(&Snapshot::of(&state), black_box(&mut theirs)), 0);
            }
        },
    );
    compare(
        "a picture read",
        pictures.len(),
        || {
            for bytes in &pictures {
                assert_eq!(read(bytes), 0);
            }
        },
        || {
            for bytes in &pictures {
                assert_eq!(picture::read(bytes).number, 0);
            }
        },
    );
    compare_classes();
    compare_sessions(&sessions);
}
