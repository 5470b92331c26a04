//! Sessions K1 to K10, the journal's least length, and the order of refusals.

use independent::journal::JOURNAL;
use independent::machine::{Config, Position, Token, CREATE, EXIT, GO, LOCK, UNLOCK};
use independent::record::{Record, Snapshot, ThreadRow, READY, WAITING};
use independent::session::{self, Ahead};
use independent::worked::{self, Worked, FILLER};
use independent::{picture, plain};

fn token(processor: u8, sequence: u16) -> Token {
    Token { processor, sequence }
}

/// Makes the moves on a record and a journal; all are accepted.
fn made(worked: &Worked) -> (Record, Vec<u8>) {
    let mut journal = vec![FILLER; JOURNAL];
    let mut record = session::start(worked.config).value;
    for &one in &worked.moves {
        let answer = session::make_move(&record, &mut journal, one);
        assert_eq!(answer.number, 0);
        record = answer.value;
    }
    assert_eq!(record.snapshot, worked.snapshot());
    assert_eq!(session::front(&record, &journal).value, worked.moves.concat());
    (record, journal)
}

#[test]
fn starts() {
    assert_eq!(session::start(Config::new(8, 32, 8, 32)).number, 0);
    for config in [
        Config::new(9, 32, 8, 32),
        Config::new(8, 32, 8, 0),
        Config::new(0, 1, 1, 1),
        Config::new(1, 0, 1, 1),
        Config::new(1, 1, 0, 1),
        Config::new(8, 33, 8, 32),
        Config::new(8, 32, 9, 32),
        Config::new(8, 32, 8, 33),
        Config::new(1, 1, 1, 2),
    ] {
        let answer = session::start(config);
        assert_eq!((answer.number, answer.value), (1, Record::default()));
    }
    let state = Worked::new(Config::new(2, 5, 1, 4)).state();
    assert_eq!(state.ready[0], [3, 4]);
    let state = Worked::new(Config::new(3, 5, 1, 2)).state();
    assert_eq!(state.processor(3).position, Position::CI2);
    assert_eq!(state.processor(3).current, 0);
}

#[test]
fn example_picture() {
    let expected = "0101010000000000000100000000000000000000000000000000000003010000";
    let bytes = Worked::new(Config::new(1, 1, 1, 1)).picture();
    assert_eq!(picture::hex(&bytes), expected);
}

#[test]
fn k4() {
    let (record, _) = made(&worked::k4());
    let state = record.state().unwrap();
    assert_eq!((state.mutex(1).count, state.mutex(1).owner), (2, 1));
    let waiting = ThreadRow { place: WAITING, holder: 1, next: 0 };
    assert_eq!(record.snapshot.thread_rows[0], waiting);
    assert_eq!(state.processor(1).position, Position::CI2);
    assert_eq!(session::ahead(&record.snapshot, 1), Ahead::Waits(1));
}

#[test]
fn k5_k6_k7() {
    let state = worked::session_s(2).state();
    assert_eq!((state.mutex(1).token, state.mutex(1).count), (token(1, 1), 1));
    let (record, _) = made(&worked::k5());
    let state = record.state().unwrap();
    assert_eq!((state.mutex(1).owner, state.mutex(1).count), (2, 1));
    assert_eq!((state.processor(2).position, state.processor(2).current), (Position::App, 2));

    let (record, _) = made(&worked::k6());
    let state = record.state().unwrap();
    assert_eq!(state.mutex(1).owner, 2);
    assert_eq!(record.snapshot.thread_rows[1].place, READY);
    assert_eq!(state.processor(2).position, Position::CI2);

    let k7 = worked::k7();
    let last = k7.moves.len();
    let state = k7.front(last - 2).state();
    assert_eq!((state.mutex(1).owner, state.processor(1).position), (3, Position::H8));
    let state = k7.front(last - 1).state();
    assert_eq!((state.mutex(1).count, state.processor(1).position), (1, Position::App));
    let (record, _) = made(&k7);
    let state = record.state().unwrap();
    assert_eq!((state.mutex(1).owner, state.mutex(1).count), (3, 2));
    assert_eq!((state.processor(3).position, state.processor(3).answer), (Position::App, 1));
    // The figure before and after the trylock.
    let after_h6 = session_s_h6();
    assert_eq!(session::ahead(&after_h6, 2), Ahead::Waits(0));
    assert_eq!(session::ahead(&record.snapshot, 2), Ahead::Waits(1));
}

fn session_s_h6() -> Snapshot {
    worked::session_s(3).go(2, 2).go(1, 1).snapshot()
}

#[test]
fn k8() {
    assert_eq!(worked::k8().moves.len(), 28 + 1);
    for k8 in [worked::k8(), worked::k8_with_trylocks()] {
        let (record, mut journal) = made(&k8.front(k8.moves.len() - 1));
        let before = record.state().unwrap();
        assert_eq!(before.processor(2).position, Position::L8);
        assert_eq!(before.processor(2).observed, token(1, 1));
        assert_eq!(before.mutex(1).token, token(1, 2));
        assert!(before.mutex(1).queue.is_empty());
        let answer = session::make_move(&record, &mut journal, [2, GO, 0]);
        assert_eq!((answer.number, answer.value), (0, k8.record()));
        let after = answer.value.state().unwrap();
        assert_eq!(after.processor(2).position, Position::CI2);
        assert_eq!(after.mutex(1).token, token(1, 2));
    }
    // The line alone, with thread 2 queued; no journal gives this record.
    let record = worked::k8_record();
    let mut state = record.state().unwrap();
    assert_eq!(state.try_move([2, GO, 0]), Ok(()));
    assert_eq!(state.processor(2).position, Position::CI2);
    let mut journal = worked::session_s(2).go(1, 1).go(2, 4).journal();
    assert_eq!(session::make_move(&record, &mut journal, [2, GO, 0]).number, 16);
}

#[test]
fn k9() {
    let (record, mut journal) = made(&worked::session_s(2).front(3));
    let answer = session::make_move(&record, &mut journal, [1, UNLOCK, 1]);
    assert_eq!(answer.number, 0);
    let (record, mut journal) =
        made(&Worked::new(Config::new(2, 2, 1, 2)).call(1, LOCK, 1).go(1, 1));
    let answer = session::make_move(&record, &mut journal, [2, UNLOCK, 1]);
    assert_eq!((answer.number, answer.value), (6, record));
}

#[test]
fn k10() {
    let (record, mut journal) = made(&worked::k10(3_999));
    let before = journal.clone();
    let answer = session::make_move(&record, &mut journal, [1, GO, 0]);
    assert_eq!((answer.number, answer.value.snapshot.applied), (0, 4_000));
    assert_eq!(journal[JOURNAL - 3..], [1, GO, 0]);
    assert_eq!(journal[..JOURNAL - 3], before[..JOURNAL - 3]);
    let record = answer.value;
    let answer = session::make_move(&record, &mut journal, [1, GO, 0]);
    assert_eq!((answer.number, answer.value), (8, record));
    // What is said to stand is not enough.
    for (applied, number) in [(3_999, 16), (4_000, 16), (4_001, 15)] {
        let record = worked::k10_record(applied);
        let answer = session::make_move(&record, &mut journal, [2, GO, 0]);
        assert_eq!((answer.number, answer.value), (number, record));
    }
}

/// 2 and 3 come before 8; 4, 5, 6 and 7 after it.
#[test]
fn most_moves() {
    let full = Worked::new(Config::new(2, 1, 1, 1)).go(2, 4_000);
    let (record, mut journal) = (full.record(), full.journal());
    let before = journal.clone();
    for (made, number) in [
        ([3, GO, 0], 2),
        ([2, GO, 1], 3),
        ([2, GO, 0], 8),
        ([2, LOCK, 1], 8),
        ([1, GO, 0], 8),
        ([1, UNLOCK, 1], 8),
        ([1, CREATE, 1], 8),
    ] {
        let answer = session::make_move(&record, &mut journal, made);
        assert_eq!((answer.number, answer.value), (number, record), "{made:?}");
        assert!(journal == before);
    }
}

#[test]
fn journal_length() {
    let record = worked::k10_record(0);
    let mut journal = vec![FILLER; JOURNAL];
    assert_eq!(session::make_move(&record, &mut journal[..JOURNAL - 1], [9, 9, 9]).number, 10);
    assert_eq!(session::make_move(&record, &mut journal, [2, GO, 0]).number, 0);
}

/// A line that would leave the rules has 15; a move never comes to it, since no journal gives such
/// a record.
#[test]
fn steps_out_of_rules() {
    for (name, record, p) in worked::steps_out_of_rules() {
        let state = record.state().unwrap();
        assert_eq!(state.cause([p, GO, 0]), Some(15), "{name}");
        let mut journal = vec![FILLER; JOURNAL];
        let answer = session::make_move(&record, &mut journal, [p, GO, 0]);
        assert_eq!((answer.number, answer.value), (16, record), "{name}");
        assert!(journal.iter().all(|&byte| byte == FILLER));
    }
    // One less is taken.
    let mut at_h5 = worked::steps_out_of_rules()[3].1.state().unwrap();
    at_h5.processors[0].sequence = 3_999;
    assert_eq!(at_h5.try_move([1, GO, 0]), Ok(()));
    assert_eq!(at_h5.mutex(1).token, token(1, 4_000));
}

/// A step back; `tests/goto.rs` has goings to all steps.
#[test]
fn goto_refusals() {
    let (record, journal) = made(&worked::k7());
    let last = worked::k7().moves.len() - 1;
    let answer = session::goto(&record, &journal, last);
    assert_eq!((answer.number, answer.value), (0, worked::k7().record_at(last)));
    let refused = |record: &Record, journal: &[u8], number: u8| {
        let answer = session::goto(record, journal, last);
        assert_eq!((answer.number, answer.value), (number, *record));
    };
    refused(&record, &journal[..JOURNAL - 1], 10);
    // B outside 1 to T comes before 9, the replay last.
    refused(&Record { born: 0, ..record }, &journal, 15);
    refused(&Record { born: 4, ..record }, &journal, 15);
    refused(&Record { born: 2, ..record }, &journal, 16);
    let begun = session::start(worked::k7().config).value;
    refused(&begun, &journal, 9);
    refused(&Record { born: 0, ..begun }, &journal, 15);
    for at in 0..3 * worked::k7().moves.len() {
        let mut other = journal.clone();
        other[at] ^= 8;
        refused(&record, &other, 16);
    }
    let mut other = record;
    other.snapshot.processor_rows[0].answer = 1;
    refused(&other, &journal, 16);
    other.snapshot.processor_rows[0].answer = 3;
    refused(&other, &journal, 15);
    let front = session::front(&other, &journal);
    assert_eq!((front.number, front.value.len()), (15, 0));
    let front = session::front(&other, &journal[..JOURNAL - 1]);
    assert_eq!((front.number, front.value.len()), (10, 0));
}

#[test]
fn rows_past_the_sizes() {
    let record = session::start(Config::new(2, 2, 2, 2)).value;
    let mut journal = vec![0; JOURNAL];
    assert_eq!(record.snapshot.broken_rule(), None);
    let mut broken = [record; 3];
    broken[0].snapshot.processor_rows[2].answer = 1;
    broken[1].snapshot.mutex_rows[2].count = 1;
    broken[2].snapshot.thread_rows[2].place = 5;
    for one in broken {
        assert_eq!(session::make_move(&one, &mut journal, [9, 9, 9]).number, 15);
        assert_eq!(session::ahead(&one.snapshot, 0), Ahead::Refused(15));
        assert_eq!(picture::write(&one.snapshot, &mut []), 15);
    }
    assert_eq!(picture::write(&record.snapshot, &mut []), 10);
}

/// An owner may not exit, and so can unlock; a session that had its exit is refused there.
#[test]
fn owner_exits() {
    let config = Config::new(1, 2, 1, 2);
    let mut session = plain::Plain::new(config);
    let (mut record, mut journal) = (session::start(config).value, vec![FILLER; JOURNAL]);
    let exited = [[1, LOCK, 1], [1, GO, 0], [1, EXIT, 0], [1, GO, 0], [1, GO, 0], [1, UNLOCK, 1]];
    for (made, number) in exited.into_iter().zip([0, 0, 21, 5, 5, 0]) {
        let answer = session::make_move(&record, &mut journal, made);
        assert_eq!((answer.number, session.make_move(made)), (number, number), "{made:?}");
        record = answer.value;
        let (state, history) = session.work_out();
        plain::check_laws(&state, &history, config).unwrap();
        assert_eq!(record.snapshot, Snapshot::of(&state));
    }
    assert_eq!(session.moves(), [[1, LOCK, 1], [1, GO, 0], [1, UNLOCK, 1]]);
}
