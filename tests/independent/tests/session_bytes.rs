//! Sessions as bytes: their layout, what is no session, buffers of every length, the order of refusals,
//! and random sittings against the calls on records.

use independent::journal::JOURNAL;
use independent::machine::{Config, EXIT, GO, LOCK, YIELD};
use independent::picture;
use independent::random::{Call, Driver, Generator, Rates};
use independent::record::Record;
use independent::script::{self, SCRIPT};
use independent::session;
use independent::session_bytes::{self as bytes, FRONT_REFUSED};
use independent::worked::{self, Worked, FILLER};
use std::collections::BTreeMap;

/// The longest session.
const MOST: usize = 299;

/// The bytes of a session at the front of a longer buffer.
fn buffer(record: &Record) -> Vec<u8> {
    let mut bytes = bytes::encode(record);
    bytes.resize(MOST + 1, FILLER);
    bytes
}

fn sessions() -> Vec<Record> {
    let (k5, k7, own) = (worked::k5(), worked::k7(), worked::own_queues());
    let largest = Worked::new(Config::new(8, 32, 8, 20)).go(1, 0);
    let full = worked::k10(4_000);
    vec![
        Worked::new(Config::new(1, 1, 1, 1)).record(),
        k5.record(),
        k5.record_at(3),
        k7.record_at(0),
        own.record_at(9),
        largest.record(),
        full.record(),
        full.record_at(3_999),
    ]
}

#[test]
fn layout() {
    let example = "0101010000000000000100000000000000000000000000000000000003010000";
    let begun = Worked::new(Config::new(1, 1, 1, 1)).record();
    assert_eq!(picture::hex(&bytes::encode(&begun)), format!("{example}010000"));
    let record = Record { kept: 3_999, ..worked::k10(4_000).record_at(258) };
    let all = bytes::encode(&record);
    assert_eq!(all.len(), bytes::length(1, 1, 1));
    assert_eq!(all[..all.len() - 3], worked::k10(258).picture());
    assert_eq!(all[all.len() - 3..], [1, 15, 159]);
    assert_eq!(all[4..6], [1, 2]);
    assert_eq!(bytes::length(8, 32, 8), MOST);
}

/// What is encoded is decoded, whatever stands behind it.
#[test]
fn round_trips() {
    for record in sessions() {
        let all = bytes::encode(&record);
        assert_eq!(bytes::decode(&all), Some(record));
        assert_eq!(bytes::decode(&buffer(&record)), Some(record));
        for length in 0..all.len() {
            assert_eq!(bytes::decode(&all[..length]), None);
        }
    }
}

/// Every byte with every value: a session exactly if the picture reads, B is within 1 to T and the number
/// kept within the standing moves and 4,000.
#[test]
fn damaged_bytes() {
    let mut read = 0;
    for record in sessions() {
        let whole = bytes::encode(&record);
        for at in 3..whole.len() {
            for value in 0..=255 {
                let mut other = whole.clone();
                other[at] = value;
                let (shown, tail) = other.split_at(whole.len() - 3);
                let picture = picture::read(shown);
                let kept = 256 * u16::from(tail[1]) + u16::from(tail[2]);
                let right = picture.number == 0
                    && (1..=whole[1]).contains(&tail[0])
                    && (picture.value.applied..=4_000).contains(&kept);
                let got = bytes::decode(&other);
                assert_eq!(got.is_some(), right, "byte {at} is {value}");
                if let Some(record) = got {
                    assert_eq!(bytes::encode(&record), other);
                    read += 1;
                }
            }
        }
    }
    assert!(read > 5_000, "{read}");
}

/// Sizes out of their ranges, however long the buffer is; with others the length is theirs.
#[test]
fn sizes() {
    for at in 0..3 {
        for value in 0..=255 {
            let mut other = buffer(&worked::k5().record());
            other[at] = value;
            assert_eq!(bytes::decode(&other).is_some(), value == [2, 2, 1][at]);
        }
    }
    let largest = bytes::encode(&Worked::new(Config::new(8, 32, 8, 32)).record());
    assert_eq!(largest.len(), MOST);
    assert!(bytes::decode(&largest).is_some() && bytes::decode(&largest[..MOST - 1]).is_none());
}

/// 1, then 10, at a start; bytes behind the session stay.
#[test]
fn starts() {
    for config in [Config::new(1, 1, 1, 1), Config::new(8, 32, 8, 20).with_stealing(1)] {
        let wanted = bytes::encode(&session::start(config).value);
        for length in 0..=wanted.len() + 4 {
            let mut buffer = vec![FILLER; length];
            let number = bytes::start(config, &mut buffer);
            assert_eq!(number, if length < wanted.len() { 10 } else { 0 });
            let written = if number == 0 { wanted.len() } else { 0 };
            assert_eq!(buffer[..written], wanted[..written]);
            assert!(buffer[written..].iter().all(|&byte| byte == FILLER));
        }
        for wrong in [Config { born: 0, ..config }, config.with_stealing(2)] {
            for length in [0, MOST] {
                let mut buffer = vec![FILLER; length];
                assert_eq!(bytes::start(wrong, &mut buffer), 1);
                assert!(buffer.iter().all(|&byte| byte == FILLER));
            }
        }
    }
}

/// The numbers of a move, a turn, two goings and the front; nothing changes.
fn refused(buffer: &[u8], journal: &[u8]) -> [u16; 5] {
    let (mut after, mut lent) = (buffer.to_vec(), journal.to_vec());
    let numbers = [
        bytes::make_move(&mut after, &mut lent, [9, 9, 9]),
        bytes::turn(&mut after, &mut lent, &[], 9),
        bytes::goto(&mut after, &lent, 0),
        bytes::goto(&mut after, &lent, usize::MAX),
    ];
    assert!(after == buffer && lent == journal);
    let [made, turned, back, past] = numbers.map(u16::from);
    [made, turned, back, past, bytes::front(buffer, journal)]
}

/// 10 before 15, 15 before 16, 9 between them at a going; the front is not tested by 16.
#[test]
fn order_of_refusals() {
    let worked = worked::k7();
    let (mut journal, good) = (worked.journal(), buffer(&worked.record_at(5)));
    let wrong = &good[1..];
    journal[3] = 9;
    assert_eq!(refused(wrong, &journal[..JOURNAL - 1]), [10, 10, 10, 10, FRONT_REFUSED + 10]);
    assert_eq!(refused(&good, &journal[..JOURNAL - 1]), [10, 10, 10, 10, FRONT_REFUSED + 10]);
    for wrong in [wrong, &[], &good[..2], &good[..bytes::length(3, 3, 1) - 1]] {
        assert_eq!(refused(wrong, &journal), [15, 15, 15, 15, FRONT_REFUSED + 15]);
        for length in [0, 63, MOST] {
            let mut shown = vec![FILLER; length];
            assert_eq!(bytes::picture(wrong, &mut shown), 15);
            assert!(shown.iter().all(|&byte| byte == FILLER));
        }
    }
    assert_eq!(refused(&good, &journal), [16, 16, 16, 9, 15]);
    // 19 before 2 at a turn.
    let (mut session, mut lent) = (good.clone(), worked.journal());
    assert_eq!(bytes::turn(&mut session, &mut lent, &[0; 3 * SCRIPT - 1], 9), 19);
    assert_eq!(bytes::turn(&mut session, &mut lent, &[0; 3 * SCRIPT], 9), 2);
    assert_eq!(bytes::make_move(&mut session, &mut lent, [9, 9, 9]), 2);
    assert!(session == good && lent == worked.journal());
}

/// The picture, in buffers of every length.
#[test]
fn pictures() {
    for record in sessions() {
        let (session, wanted) = (buffer(&record), picture::raw_bytes(&record.snapshot));
        for length in 0..=wanted.len() + 3 {
            let mut shown = vec![FILLER; length];
            let number = bytes::picture(&session, &mut shown);
            assert_eq!(number, if length < wanted.len() { 10 } else { 0 });
            let written = if number == 0 { wanted.len() } else { 0 };
            assert_eq!(shown[..written], wanted[..written]);
            assert!(shown[written..].iter().all(|&byte| byte == FILLER));
        }
    }
}

/// A worked sitting: moves, a turn, back and forward, a new move after going back.
#[test]
fn sitting() {
    let mut session = vec![FILLER; MOST];
    let mut journal = vec![FILLER; JOURNAL];
    let scripts = [0; 2 * SCRIPT];
    let config = Config::new(2, 2, 1, 2);
    assert_eq!(bytes::start(config, &mut session), 0);
    let worked = Worked::new(config).call(1, LOCK, 1).go(1, 1).call(2, YIELD, 0).go(2, 1);
    for &made in &worked.moves[..3] {
        assert_eq!(bytes::make_move(&mut session, &mut journal, made), 0);
    }
    assert_eq!(bytes::turn(&mut session, &mut journal, &scripts, 2), 0);
    assert_eq!(bytes::decode(&session), Some(worked.record()));
    for step in [2, 0, 4, 3, 1] {
        assert_eq!(bytes::goto(&mut session, &journal, step), 0);
        assert_eq!(bytes::decode(&session), Some(worked.record_at(step)));
        assert_eq!(usize::from(bytes::front(&session, &journal)), 3 * step);
    }
    assert_eq!(bytes::goto(&mut session, &journal, 5), 9);
    assert_eq!(bytes::turn(&mut session, &mut journal, &scripts, 2), 0);
    let other = worked.front(1).call(2, EXIT, 0);
    assert_eq!(bytes::decode(&session), Some(other.record()));
    assert_eq!(bytes::goto(&mut session, &journal, 3), 9);
    assert_eq!(bytes::front(&session, &journal), 6);
    assert_eq!(journal[..9], [1, LOCK, 1, 2, EXIT, 0, 2, YIELD, 0]);
    assert!(session[bytes::length(2, 2, 1)..].iter().all(|&byte| byte == FILLER));
}

/// A session as bytes beside the same as a record, each with its journal.
struct Pair {
    session: Vec<u8>,
    journal: Vec<u8>,
    record: Record,
    other: Vec<u8>,
    scripts: Vec<u8>,
}

impl Pair {
    fn new(config: Config, generator: &mut Generator) -> Pair {
        let mut session = vec![FILLER; MOST];
        assert_eq!(bytes::start(config, &mut session), 0);
        let journal = generator.bytes(JOURNAL + 1);
        Pair {
            session,
            other: journal.clone(),
            journal,
            record: session::start(config).value,
            scripts: generator.scripts(config),
        }
    }

    /// The number of a call on both.
    fn call(&mut self, call: Call, by_turn: bool) -> u8 {
        let (session, journal, scripts) = (&mut self.session, &mut self.journal, &self.scripts);
        let (number, answer) = match call {
            Call::Move([p, ..]) if by_turn => (
                bytes::turn(session, journal, scripts, p),
                script::turn(&self.record, &mut self.other, scripts, p).answer(),
            ),
            Call::Move(made) => (
                bytes::make_move(session, journal, made),
                session::make_move(&self.record, &mut self.other, made).answer(),
            ),
            Call::Goto(step) => (
                bytes::goto(session, journal, step.into()),
                session::goto(&self.record, &self.other, step.into()),
            ),
        };
        assert_eq!(number, answer.number, "{call:?}");
        self.record = answer.value;
        number
    }

    fn check(&self) {
        let all = bytes::encode(&self.record);
        assert_eq!(self.session[..all.len()], all);
        assert!(self.session[all.len()..].iter().all(|&byte| byte == FILLER));
        assert!(self.journal == self.other);
        let front = bytes::front(&self.session, &self.journal);
        assert_eq!(front, 3 * self.record.snapshot.applied);
        let mut shown = [FILLER; MOST];
        assert_eq!(bytes::picture(&self.session, &mut shown), 0);
        assert_eq!(shown[..all.len() - 3], all[..all.len() - 3]);
    }
}

#[test]
fn random_sittings() {
    let rates = Rates { refused: 10, back: 60, goto: 10, owner_exits: 20 };
    let mut met = BTreeMap::new();
    for seed in 0..100 {
        let mut driver = Driver::new(seed, rates);
        let config = driver.generator.config().with_stealing((seed % 2) as u8);
        let mut pair = Pair::new(config, &mut driver.generator);
        for _ in 0..150 {
            let state = pair.record.state().expect("a session");
            let call = driver.next_call(&state, pair.record.kept);
            let number = pair.call(call, driver.generator.once_in(4));
            *met.entry(number).or_insert(0) += 1;
            pair.check();
        }
    }
    for number in [0, 2, 3, 4, 5, 6, 9, 21] {
        assert!(met.contains_key(&number), "{met:?}");
    }
}

/// An idle go at the end of 4,000 moves, back and forward: 8 by the standing moves, 9 by the kept.
#[test]
fn most_moves() {
    let full = worked::k10(4_000);
    let (mut session, mut journal) = (buffer(&full.record()), full.journal());
    for (step, number) in [(4_000, 0), (0, 0), (3_999, 0), (4_000, 0), (4_001, 9)] {
        assert_eq!(bytes::goto(&mut session, &journal, step), number);
    }
    assert_eq!(bytes::make_move(&mut session, &mut journal, [1, GO, 0]), 8);
    assert_eq!(bytes::front(&session, &journal), 12_000);
    assert_eq!(bytes::goto(&mut session, &journal, 3_999), 0);
    assert_eq!(bytes::make_move(&mut session, &mut journal, [1, GO, 0]), 0);
    assert!(session == buffer(&full.record()) && journal == full.journal());
}
