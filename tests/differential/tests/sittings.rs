//! Sittings through the library's calls on a session as bytes against the independent implementation:
//! the answer, both buffers and the picture after every call.

use differential::sessions::patterned;
use differential::sitting::{Call, Kept, MOST_SESSION};
use differential::{expected, Table};
use independent::journal::JOURNAL;
use independent::machine::{Config, MOST_MOVES};
use independent::random::{self, Driver, Generator, Rates};
use independent::script::SCRIPT;
use independent::session_bytes;
use independent::worked::{self, Worked};
use std::collections::BTreeMap;

/// How often each kind of call had each number, and fronts no refusal as 0.
type Met = BTreeMap<(&'static str, u16), usize>;

fn kind(call: &Call) -> &'static str {
    match call {
        Call::Start(..) => "start",
        Call::Move(_) => "move",
        Call::Turn(..) => "turn",
        Call::Goto(_) => "goto",
        Call::Picture(_) => "picture",
        Call::Front => "front",
    }
}

fn note(met: &mut Met, call: &Call, answer: u16) {
    let number = match call {
        Call::Front if answer <= 12_000 => 0,
        Call::Front => answer - 20_000,
        _ => answer,
    };
    *met.entry((kind(call), number)).or_default() += 1;
}

/// A random sitting: sensible calls, and calls on damaged copies between them.
struct Sitting {
    driver: Driver,
    config: Config,
    scripts: Vec<u8>,
    kept: Kept,
    met: Met,
}

impl Sitting {
    fn new(seed: u64, rates: Rates) -> Sitting {
        let mut driver = Driver::new(seed, rates);
        let config = driver.generator.config().with_stealing((seed % 2) as u8);
        let scripts = driver.generator.scripts(config);
        let least = session_bytes::length(config.processors, config.threads, config.mutexes);
        let room = driver.generator.pick(&[least, least + 1, MOST_SESSION, MOST_SESSION + 3]);
        let journal = driver.generator.bytes(JOURNAL + usize::from(seed % 3 == 0));
        let kept = Kept { session: patterned(room), journal };
        Sitting { driver, config, scripts, kept, met: Met::new() }
    }

    fn call(&mut self, call: Call) {
        let answer = self.kept.compare(&call);
        note(&mut self.met, &call, answer);
    }

    fn start(&mut self) {
        self.call(Call::Start(expected::table(self.config), self.config.stealing));
    }

    /// A call that is mostly accepted.
    fn sensible(&mut self) -> Call {
        let record = self.kept.record().expect("a session");
        let state = record.state().expect("a session");
        let call = self.driver.next_call(&state, record.kept);
        let generator = &mut self.driver.generator;
        match (call, generator.below(12)) {
            (random::Call::Move([p, ..]), 0..=2) => Call::Turn(self.scripts.clone(), p),
            (random::Call::Move(made), _) => Call::Move(made),
            (random::Call::Goto(step), _) => Call::Goto(step.into()),
        }
    }

    /// Any call, with arguments of which some make no sense.
    fn any(&mut self) -> Call {
        let sensible = self.sensible();
        let generator = &mut self.driver.generator;
        match generator.below(8) {
            0 => Call::Picture(generator.below(MOST_SESSION)),
            1 => Call::Front,
            2 => Call::Goto(generator.pick(&[0, 1, 4_000, 4_001, 65_535, 65_536, usize::MAX])),
            3 => Call::Move([0; 3].map(|_| generator.between(0, 9))),
            4 => Call::Turn(generator.bad_scripts(self.config), generator.between(0, 9)),
            5 => Call::Start(any_table(generator), generator.between(0, 2)),
            6 => Call::Turn(self.scripts.clone(), generator.between(0, 9)),
            _ => sensible,
        }
    }

    /// A call on a copy of which something is damaged or too short.
    fn damaged(&mut self) {
        let call = self.any();
        let mut copy = self.kept.clone();
        let moves = copy.record().map_or(0, |record| 3 * usize::from(record.kept));
        let generator = &mut self.driver.generator;
        let at = generator.below(copy.session.len());
        match generator.below(7) {
            0 => copy.session[at] = generator.byte(),
            1 => copy.session[at] ^= 1 << generator.below(8),
            2 => copy.session.truncate(at),
            3 => copy.journal.truncate(generator.pick(&[0, 1, JOURNAL - 1])),
            4 if moves > 0 => copy.journal[generator.below(moves)] = generator.between(0, 6),
            5 => copy.journal[generator.below(JOURNAL)] = generator.byte(),
            _ => edit_tail(generator, self.config, &mut copy.session),
        }
        let answer = copy.compare(&call);
        note(&mut self.met, &call, answer);
    }
}

/// Another B, or another number kept.
fn edit_tail(generator: &mut Generator, config: Config, session: &mut [u8]) {
    let end = session_bytes::length(config.processors, config.threads, config.mutexes);
    let tail = &mut session[end - 3..end];
    if generator.once_in(3) {
        tail[0] = generator.pick(&[0, 1, config.threads, config.threads + 1, 255]);
        return;
    }
    let kept = u16::from_be_bytes([tail[1], tail[2]]);
    let other = [0, kept.wrapping_sub(1), kept + 1, 3_999, 4_000, 4_001, 65_535];
    tail[1..].copy_from_slice(&generator.pick(&other).to_be_bytes());
}

fn any_table(generator: &mut Generator) -> Table {
    let mut table = expected::table(generator.config());
    if generator.once_in(2) {
        table[generator.below(4)] = generator.pick(&[0, 9, 33, 255]);
    }
    table
}

/// What a sitting met is added to the others'.
fn add(all: &mut Met, met: Met) {
    for (key, count) in met {
        *all.entry(key).or_default() += count;
    }
}

#[test]
fn random_sittings() {
    let mut met = Met::new();
    for seed in 0..300 {
        let rates = Rates { refused: 10, back: 80, goto: 10, owner_exits: 20 };
        let mut sitting = Sitting::new(seed, rates);
        sitting.start();
        for _ in 0..120 {
            let call = sitting.sensible();
            sitting.call(call);
            sitting.damaged();
        }
        sitting.call(Call::Front);
        add(&mut met, sitting.met);
    }
    let wanted: [(&str, &[u16]); 6] = [
        ("start", &[0, 1, 10]),
        ("move", &[0, 2, 3, 4, 5, 6, 7, 10, 15, 16, 21]),
        ("turn", &[0, 2, 3, 6, 7, 10, 15, 16, 19, 21]),
        ("goto", &[0, 9, 10, 15, 16]),
        ("picture", &[0, 10, 15]),
        ("front", &[0, 10, 15]),
    ];
    let keys = wanted.iter().flat_map(|(kind, all)| all.iter().map(move |number| (*kind, *number)));
    assert!(met.keys().copied().eq(keys.collect::<std::collections::BTreeSet<_>>()), "{met:?}");
}

/// A session at a step with all its moves kept.
fn at(worked: &Worked, step: usize) -> Kept {
    let session = session_bytes::encode(&worked.record_at(step));
    Kept { session, journal: worked.journal() }
}

/// Every byte of a session with every value, and every length of the buffer.
#[test]
fn every_byte() {
    for (worked, step) in [(worked::k5(), 9), (worked::k7(), 0), (worked::own_queues(), 12)] {
        let good = at(&worked, step);
        let mut shown = good.clone();
        for place in 0..good.session.len() {
            for value in 0..=255 {
                shown.session[place] = value;
                shown.compare(&Call::Picture(296));
                shown.compare(&Call::Front);
            }
            for value in [0, 1, 255] {
                shown.session[place] = value;
                shown.clone().compare(&Call::Goto(step + 1));
                shown.clone().compare(&Call::Move([2, 0, 0]));
            }
            shown.session[place] = good.session[place];
        }
        for length in 0..=good.session.len() {
            let mut short = good.clone();
            short.session.truncate(length);
            for call in [Call::Picture(296), Call::Front, Call::Goto(0)] {
                short.compare(&call);
            }
        }
    }
}

/// Every step of worked sessions, and each byte of their kept moves changed.
#[test]
fn every_step_and_move() {
    for worked in [worked::k4(), worked::k6(), worked::k8(), worked::steals(3)] {
        let count = worked.moves.len();
        for from in 0..=count {
            for to in 0..=count + 1 {
                let number = at(&worked, from).compare(&Call::Goto(to));
                assert_eq!(number, if to > count { 9 } else { 0 });
            }
            for place in 0..3 * count {
                let mut edited = at(&worked, from);
                edited.journal[place] ^= 1;
                edited.compare(&Call::Goto(count));
                edited.compare(&Call::Move([1, 0, 0]));
            }
        }
    }
}

/// 4,000 lively moves: far goings, edits anywhere, moves and turns at the end and in the middle.
#[test]
fn most_moves() {
    for stealing in [0, 1] {
        let config = Config::new(4, 12, 3, 10).with_stealing(stealing);
        let worked = Driver::new(2, Rates::ACCEPTED).session(config, MOST_MOVES.into());
        let mut kept = at(&worked, 4_000);
        let mut generator = Generator::new(stealing.into());
        for step in [0, 3_999, 4_000, 4_001, 4_000, 1, 2_000, 3_999] {
            kept.compare(&Call::Goto(step));
        }
        for _ in 0..200 {
            kept.compare(&Call::Goto(generator.below(4_001)));
            let mut copy = kept.clone();
            copy.compare(&Call::Move(worked.moves[generator.below(4_000)]));
            copy.compare(&Call::Turn(vec![0; 12 * SCRIPT], generator.between(1, 4)));
            let mut edited = kept.clone();
            edited.journal[generator.below(JOURNAL)] = generator.between(0, 5);
            edited.compare(&Call::Goto(generator.below(4_001)));
        }
        assert_eq!(kept.compare(&Call::Goto(4_000)), 0);
        let copy = kept.clone();
        for p in 0..=5 {
            kept.compare(&Call::Turn(vec![0; 12 * SCRIPT], p));
            kept.compare(&Call::Move([p, 0, 0]));
        }
        assert!(kept == copy);
    }
}
