//! Goings to a step (document 02, No. 10): their refusals at the boundaries and in order, what is kept
//! and what is dropped, the journal's test over the kept moves, and random sittings against a list.

use independent::journal::JOURNAL;
use independent::machine::{
    Config, Move, State, CREATE, EXIT, GO, LOCK, MOST_MOVES, TRYLOCK, UNLOCK, YIELD,
};
use independent::picture;
use independent::plain::Plain;
use independent::random::{Call, Driver, Generator, Rates, Trail};
use independent::record::Record;
use independent::script::{self, script, SCRIPT};
use independent::session;
use independent::touch::Touch;
use independent::worked::{self, Worked, FILLER};
use std::collections::BTreeMap;

/// The scripts of threads that exit.
const EXITS: [u8; 32 * SCRIPT] = [0; 32 * SCRIPT];

fn goto_number(record: &Record, journal: &[u8], step: usize) -> u8 {
    let answer = session::goto(record, journal, step);
    assert!(answer.number == 0 || answer.value == *record);
    answer.number
}

/// The number of a move that is refused, or that drops what is kept beyond it.
fn move_number(record: &Record, journal: &[u8], made: Move) -> u8 {
    let mut after = journal.to_vec();
    let answer = session::make_move(record, &mut after, made);
    if answer.number != 0 {
        assert!(answer.value == *record && after == journal);
        return answer.number;
    }
    let at = 3 * usize::from(record.snapshot.applied);
    assert_eq!(after[at..at + 3], made);
    assert!(after[..at] == journal[..at] && after[at + 3..] == journal[at + 3..]);
    assert_eq!(answer.value.snapshot.applied, record.snapshot.applied + 1);
    assert_eq!(answer.value.kept, record.snapshot.applied + 1);
    0
}

fn turn_number(record: &Record, journal: &[u8], scripts: &[u8], p: u8) -> u8 {
    let mut after = journal.to_vec();
    let answer = script::turn(record, &mut after, scripts, p);
    assert!(answer.number == 0 || answer.value == *record && after == journal);
    answer.number
}

/// A class of these turns: its number and the record after it. Where no turn is accepted, record and
/// journal stay.
fn class(record: &Record, journal: &[u8], scripts: &[u8], turns: &[u8]) -> (u8, Record) {
    let (mut after, mut answers) = (journal.to_vec(), vec![FILLER; turns.len()]);
    let mut pictures = vec![FILLER; turns.len() * 296];
    let done = script::class(record, &mut after, scripts, turns, &mut answers, &mut pictures);
    let accepted = answers.iter().filter(|&&answer| answer == 0).count();
    if done.number != 0 || accepted == 0 {
        assert!(done.value == *record && after == journal);
    } else {
        let applied = record.snapshot.applied + accepted as u16;
        assert_eq!((done.value.snapshot.applied, done.value.kept), (applied, applied));
    }
    (done.number, done.value)
}

/// The number that every call which tests the journal gives, 0 where the test passes.
fn tested(record: &Record, journal: &[u8]) -> u8 {
    let number = goto_number(record, journal, 0);
    let kept = usize::from(record.kept);
    let applied = usize::from(record.snapshot.applied);
    if number != 15 {
        assert_eq!(goto_number(record, journal, kept), number);
        assert_eq!(goto_number(record, journal, applied), number);
        assert_eq!(goto_number(record, journal, kept + 1), 9);
    }
    let absent = if number == 0 { 2 } else { number };
    assert_eq!(move_number(record, journal, [0, 9, 9]), absent);
    assert_eq!(turn_number(record, journal, &EXITS, 0), absent);
    assert_eq!(class(record, journal, &EXITS, &[]).0, number);
    assert_eq!(class(record, journal, &EXITS, &[0, 9]).0, number);
    if number != 0 {
        assert_eq!(session::last_touch(record, journal), Touch::NONE);
    }
    number
}

fn sessions() -> Vec<Worked> {
    let each = [worked::steals(2), worked::own_queues()];
    [worked::k4(), worked::k5(), worked::k7(), worked::k8()].into_iter().chain(each).collect()
}

/// From every step to every step, and past the last.
#[test]
fn every_step() {
    for worked in sessions() {
        let (journal, kept) = (worked.journal(), worked.moves.len());
        for from in 0..=kept {
            let record = worked.record_at(from);
            for to in 0..=kept {
                let answer = session::goto(&record, &journal, to);
                assert_eq!((answer.number, answer.value), (0, worked.record_at(to)));
            }
            let huge = [4_000, 4_001, 65_535, 65_536, 65_536 + from, 1 << 32, usize::MAX];
            for past in [kept + 1, kept + 2].into_iter().chain(huge) {
                assert_eq!(goto_number(&record, &journal, past), 9);
            }
            let front = session::front(&record, &journal).value;
            assert_eq!(front, worked.moves[..from].concat());
            let touch = worked.moves[..from]
                .last()
                .map_or(Touch::NONE, |&last| Touch::of(&worked.front(from - 1).state(), last));
            assert_eq!(session::last_touch(&record, &journal), touch);
        }
    }
}

/// A start keeps nothing, whatever the journal holds.
#[test]
fn at_a_start() {
    for byte in [0, 1, FILLER, 255] {
        let record = session::start(Config::new(2, 3, 1, 2)).value;
        assert_eq!(record.kept, 0);
        assert_eq!(goto_number(&record, &[byte; JOURNAL], 0), 0);
        assert_eq!(goto_number(&record, &[byte; JOURNAL], 1), 9);
        assert_eq!(session::goto(&record, &[byte; JOURNAL], 0).value, record);
    }
}

/// 10, 15, 9, 16, each with all that come after it there as well.
#[test]
fn order_of_refusals() {
    let k7 = worked::k7();
    let mut journal = k7.journal();
    for from in [0, 5, k7.moves.len()] {
        let record = k7.record_at(from);
        let past = k7.moves.len() + 1;
        journal[0] ^= 8;
        let outside = Record { born: 0, ..record };
        assert_eq!(goto_number(&outside, &journal[..JOURNAL - 1], past), 10);
        assert_eq!(goto_number(&record, &journal[..JOURNAL - 1], 0), 10);
        assert_eq!(goto_number(&outside, &journal, past), 15);
        assert_eq!(goto_number(&record, &journal, past), 9);
        assert_eq!(goto_number(&record, &journal, 0), 16);
        journal[0] ^= 8;
        assert_eq!(goto_number(&record, &journal, past), 9);
        assert_eq!(goto_number(&record, &journal, 0), 0);
    }
}

/// 15: the number kept below the applied moves or above 4,000, at every call that takes a session;
/// pictures and turns ahead do not look at it.
#[test]
fn kept_out_of_range() {
    let k7 = worked::k7();
    let journal = k7.journal();
    for from in [1, 7, k7.moves.len()] {
        let record = k7.record_at(from);
        for kept in [0, from - 1, 4_001, 4_002, 32_768, 65_535] {
            let wrong = Record { kept: kept as u16, ..record };
            assert_eq!(wrong.state(), None);
            assert_eq!(tested(&wrong, &journal), 15);
            let front = session::front(&wrong, &journal);
            assert_eq!((front.number, front.value.len()), (15, 0));
            assert_eq!(picture::write(&wrong.snapshot, &mut [0; 296]), 0);
            assert_ne!(session::ahead(&wrong.snapshot, 2), session::Ahead::Refused(15));
        }
        // Within the range it is no cause of 15, and more moves than the journal has are one of 16.
        for kept in [from as u16, k7.moves.len() as u16] {
            assert_eq!(tested(&Record { kept, ..record }, &journal), 0);
        }
        for kept in [k7.moves.len() as u16 + 1, 4_000] {
            assert_eq!(tested(&Record { kept, ..record }, &journal), 16);
        }
    }
    let full = worked::k10(4_000);
    assert_eq!(tested(&full.record(), &full.journal()), 0);
    assert_eq!(tested(&Record { kept: 3_999, ..full.record() }, &full.journal()), 15);
    assert_eq!(tested(&Record { kept: 4_001, ..full.record() }, &full.journal()), 15);
}

/// A thread owns mutex 1; it is at App at step 2, at L1 again after 3 moves, and the others at App.
fn owned() -> Worked {
    let begun = Worked::new(Config::new(3, 4, 1, 3));
    begun.call(1, LOCK, 1).go(1, 1).call(1, LOCK, 1).go(1, 1).call(2, YIELD, 0)
}

/// An accepted move at each step drops what is kept beyond it: those steps are then refused by 9.
#[test]
fn a_move_drops_what_is_kept() {
    for worked in sessions() {
        for from in 0..=worked.moves.len() {
            let (record, mut journal) = (worked.record_at(from), worked.journal());
            let mut driver = Driver::new(from as u64, Rates::ACCEPTED);
            let made = driver.likely_move(&worked.front(from).state());
            assert_eq!(move_number(&record, &journal, made), 0);
            let moved = session::make_move(&record, &mut journal, made).value;
            let other = Worked { moves: [&worked.moves[..from], &[made]].concat(), ..worked };
            assert_eq!(moved, other.record());
            for past in from + 2..=worked.moves.len() + 1 {
                assert_eq!(goto_number(&moved, &journal, past), 9);
            }
            for to in 0..=from + 1 {
                assert_eq!(session::goto(&moved, &journal, to).value, other.record_at(to));
            }
        }
    }
}

/// The same move as was kept there drops the others too.
#[test]
fn the_same_move_again() {
    let k5 = worked::k5();
    let mut journal = k5.journal();
    let moved = session::make_move(&k5.record_at(3), &mut journal, k5.moves[3]);
    assert_eq!((moved.number, moved.value), (0, k5.front(4).record()));
    assert!(journal == k5.journal());
    assert_eq!(goto_number(&moved.value, &journal, 5), 9);
}

/// Refused moves, turns and classes, by each of their numbers, drop nothing.
#[test]
fn refused_calls_drop_nothing() {
    let worked = owned();
    let (record, journal) = (worked.record_at(2), worked.journal());
    for (made, number) in [
        ([0, GO, 0], 2),
        ([4, GO, 0], 2),
        ([1, 7, 0], 3),
        ([1, GO, 1], 3),
        ([1, GO, 0], 5),
        ([2, UNLOCK, 1], 6),
        ([2, CREATE, 1], 7),
        ([1, EXIT, 0], 21),
    ] {
        assert_eq!(move_number(&record, &journal, made), number);
    }
    let away = worked.record_at(3);
    assert_eq!(move_number(&away, &journal, [1, LOCK, 1]), 4);
    let scripts = |call| [script(&[]), script(&[call]), script(&[]), script(&[])].concat();
    for (call, p, number) in [
        ([0, 0], 2, 19),
        ([LOCK, 1], 0, 2),
        ([LOCK, 2], 2, 3),
        ([UNLOCK, 1], 2, 6),
        ([CREATE, 1], 2, 7),
        ([LOCK, 1], 1, 21),
    ] {
        let scripts = scripts(call);
        assert_eq!(turn_number(&record, &journal, &scripts, p), number);
        let turns = if number == 19 { vec![] } else { vec![p; 3] };
        let taken = class(&record, &journal, &scripts, &turns);
        assert_eq!(taken, (if number == 19 { 19 } else { 0 }, record));
    }
    for (length, number) in [(JOURNAL - 1, 10), (JOURNAL, 0)] {
        assert_eq!(class(&record, &journal[..length], &EXITS, &[]), (number, record));
    }
    assert_eq!(goto_number(&record, &journal, worked.moves.len()), 0);
}

/// A class drops what is kept with its first accepted turn, wherever that stands.
#[test]
fn classes_drop_with_their_first_accepted_turn() {
    let worked = owned();
    let (record, journal) = (worked.record_at(2), worked.journal());
    for (turns, accepted) in [
        (&[][..], 0),
        (&[0], 0),
        (&[1, 0, 9, 1], 0),
        (&[2], 1),
        (&[1, 1, 2], 1),
        (&[2, 0, 3, 1], 2),
    ] {
        let (number, after) = class(&record, &journal, &EXITS, turns);
        assert_eq!(number, 0);
        let kept = if accepted == 0 { 5 } else { 2 + accepted };
        assert_eq!((after.snapshot.applied, after.kept), (2 + accepted, kept));
    }
}

/// 8 looks at the standing moves: with 4,000 kept a move is taken at 3,999.
#[test]
fn most_moves() {
    let full = worked::k10(4_000);
    let mut journal = full.journal();
    assert_eq!(move_number(&full.record(), &journal, [1, GO, 0]), 8);
    assert_eq!(turn_number(&full.record(), &journal, &EXITS, 1), 8);
    assert_eq!(goto_number(&full.record(), &journal, 4_000), 0);
    assert_eq!(goto_number(&full.record(), &journal, 4_001), 9);
    let back = full.record_at(3_999);
    assert_eq!(session::goto(&full.record(), &journal, 3_999).value, back);
    assert_eq!(move_number(&back, &journal, [2, GO, 0]), 2);
    let moved = session::make_move(&back, &mut journal, [1, GO, 0]);
    assert_eq!((moved.number, moved.value), (0, full.record()));
    for (from, kept) in [(0, 1), (2_000, 2_001), (3_998, 3_999)] {
        let made = if from == 0 { [1, EXIT, 0] } else { [1, GO, 0] };
        let moved = session::make_move(&full.record_at(from), &mut journal, made).value;
        assert_eq!(moved.kept, kept);
        assert_eq!(goto_number(&moved, &journal, 4_000), 9);
    }
}

/// Back by single steps over 4,000 lively moves and forward again, and from end to end.
#[test]
fn back_and_forward_over_4_000_moves() {
    let mut driver = Driver::new(3, Rates::ACCEPTED);
    let mut trail = Trail::new(Config::new(4, 9, 2, 8).with_stealing(1));
    while trail.kept() < MOST_MOVES {
        let made = driver.likely_move(trail.state());
        assert_eq!(trail.call(Call::Move(made)), 0);
    }
    let mut journal = trail.moves.concat();
    journal.push(FILLER);
    let mut record = Record::of(trail.state(), 8);
    let mut go = |step: u16| {
        let answer = session::goto(&record, &journal, step.into());
        assert_eq!((answer.number, trail.call(Call::Goto(step))), (0, 0));
        record = answer.value;
        assert_eq!(record, Record { kept: 4_000, ..Record::of(trail.state(), 8) });
    };
    (0..4_000).rev().for_each(&mut go);
    (1..=4_000).for_each(&mut go);
    [0, 3_999, 4_000, 0, 4_000, 1, 2_000].into_iter().for_each(&mut go);
}

/// What stands after these moves from a start, if all are accepted.
fn made(config: Config, moves: &[Move]) -> Option<State> {
    let mut state = State::start(config);
    moves.iter().try_for_each(|&made| state.try_move(made)).ok()?;
    Some(state)
}

/// Each byte of each kept move, with every value, from every step: 16 where a standing move leads to
/// another record or a kept one is refused, else the edited moves are those that are gone to.
#[test]
fn edited_moves() {
    let mut met = BTreeMap::new();
    for worked in [owned(), worked::k5(), worked::own_queues().front(12)] {
        let (config, count) = (worked.config, worked.moves.len());
        for at in 0..3 * count {
            for other in 0..=255 {
                let mut edited = worked.clone();
                edited.moves[at / 3][at % 3] = other;
                let journal = edited.journal();
                for from in [0, at / 3, at / 3 + 1, count] {
                    let stands =
                        made(config, &edited.moves[..from]) == Some(worked.front(from).state());
                    let accepted = stands && made(config, &edited.moves).is_some();
                    let number = goto_number(&worked.record_at(from), &journal, 0);
                    assert_eq!(number, if accepted { 0 } else { 16 });
                    *met.entry((from > at / 3, number)).or_insert(0) += 1;
                    if accepted {
                        let there = session::goto(&worked.record_at(from), &journal, count).value;
                        assert_eq!(there, edited.record());
                    }
                }
            }
        }
    }
    // Standing and kept moves were both edited, with both outcomes.
    assert!(met.values().all(|&count| count > 20) && met.len() == 4, "{met:?}");
}

/// At every call; bytes beyond the kept moves change nothing.
#[test]
fn edited_moves_at_every_call() {
    for worked in sessions() {
        let count = worked.moves.len();
        for from in [0, 1, count / 2, count - 1, count] {
            let (record, mut journal) = (worked.record_at(from), worked.journal());
            assert_eq!(tested(&record, &journal), 0);
            for at in (0..count).flat_map(|k| [3 * k, 3 * k + 1]) {
                journal[at] ^= 8;
                assert_eq!(tested(&record, &journal), 16, "byte {at} from step {from}");
                journal[at] ^= 8;
            }
            for at in [3 * count, 3 * count + 1, JOURNAL - 1] {
                journal[at] ^= 255;
                assert_eq!(tested(&record, &journal), 0);
                journal[at] ^= 255;
            }
            // One move less kept: that move's bytes do not matter any more.
            if from < count {
                let fewer = Record { kept: record.kept - 1, ..record };
                journal[3 * count - 3] ^= 8;
                assert_eq!(tested(&fewer, &journal), 0);
            }
        }
    }
}

/// A kept move that is accepted is gone to, whoever wrote it; turns count the standing calls alone.
#[test]
fn other_kept_moves() {
    let config = Config::new(2, 2, 1, 2);
    let one = Worked::new(config).call(1, YIELD, 0).go(1, 1).call(2, LOCK, 1);
    let other = one.front(1).go(1, 1).call(1, TRYLOCK, 1);
    let journal = other.journal();
    assert_eq!(goto_number(&one.record(), &journal, 0), 16);
    let there = session::goto(&one.record_at(1), &journal, 3);
    assert_eq!((there.number, there.value), (0, other.record()));
    let scripts = [script(&[[YIELD, 0], [LOCK, 1], [UNLOCK, 1]]), script(&[[LOCK, 1]])].concat();
    for (step, call) in [(0, [1, YIELD, 0]), (2, [1, LOCK, 1])] {
        let mut after = journal.clone();
        assert_eq!(script::turn(&other.record_at(step), &mut after, &scripts, 1).number, 0);
        assert_eq!(after[3 * step..][..3], call);
    }
}

/// A session that is called on a record, and its plain session.
struct Sitting {
    plain: Plain,
    record: Record,
    journal: Vec<u8>,
    scripts: Vec<u8>,
    met: BTreeMap<(&'static str, u8), usize>,
}

impl Sitting {
    fn new(config: Config, generator: &mut Generator) -> Sitting {
        let mut journal = generator.bytes(JOURNAL);
        journal.extend([FILLER; 2]);
        Sitting {
            plain: Plain::new(config),
            record: session::start(config).value,
            journal,
            scripts: generator.scripts(config),
            met: BTreeMap::new(),
        }
    }

    fn state(&self) -> State {
        self.plain.work_out().0
    }

    /// One call, as the plain session answers it.
    fn call(&mut self, call: Call) {
        let (name, answer, number) = match call {
            Call::Move(made) => {
                let step = session::make_move(&self.record, &mut self.journal, made);
                ("move", step.answer(), self.plain.make_move(made))
            }
            Call::Goto(step) => {
                let answer = session::goto(&self.record, &self.journal, step.into());
                ("goto", answer, self.plain.goto(step.into()))
            }
        };
        assert_eq!(answer.number, number, "{call:?}");
        self.taken(name, number, answer.value);
    }

    fn turn(&mut self, p: u8) {
        let made = self.plain.turn(&self.state(), &self.scripts, p);
        let answer = script::turn(&self.record, &mut self.journal, &self.scripts, p);
        assert_eq!(answer.number, self.plain.make_move(made));
        self.taken("turn", answer.number, answer.value);
    }

    fn class(&mut self, turns: &[u8]) {
        let config = self.plain.config;
        let length = picture::length(config.processors, config.threads, config.mutexes);
        let mut answers = vec![FILLER; turns.len()];
        let mut pictures = vec![FILLER; turns.len() * length];
        let (journal, scripts) = (&mut self.journal, &self.scripts);
        let done =
            script::class(&self.record, journal, scripts, turns, &mut answers, &mut pictures);
        for (&p, &answer) in turns.iter().zip(&answers) {
            let made = self.plain.turn(&self.state(), &self.scripts, p);
            assert_eq!(answer, self.plain.make_move(made));
        }
        self.taken("class", done.number, done.value);
    }

    /// Calls lent another journal or a damaged record, which are refused and change nothing.
    fn strange(&mut self, generator: &mut Generator) {
        let (mut record, mut journal) = (self.record, self.journal.clone());
        let kept = 3 * usize::from(self.record.kept);
        let number = match generator.below(4) {
            0 => {
                journal.truncate(generator.below(JOURNAL));
                10
            }
            1 => {
                record.kept = generator.pick(&[record.snapshot.applied.wrapping_sub(1), 4_001]);
                15
            }
            2 if kept > 0 => {
                journal[3 * generator.below(kept / 3)] = 0;
                16
            }
            _ => return,
        };
        assert_eq!(goto_number(&record, &journal, generator.below(kept / 3 + 1)), number);
        assert_eq!(move_number(&record, &journal, [1, GO, 0]), number);
        assert_eq!(turn_number(&record, &journal, &self.scripts, 1), number);
        *self.met.entry(("strange", number)).or_default() += 1;
    }

    /// Takes a call's record: it is the plain session's, and the journal begins with what is kept.
    fn taken(&mut self, name: &'static str, number: u8, record: Record) {
        self.record = record;
        *self.met.entry((name, number)).or_default() += 1;
        let kept = self.plain.kept.concat();
        let wanted = Record::of(&self.state(), self.plain.config.born);
        assert_eq!(record, Record { kept: self.plain.kept.len() as u16, ..wanted });
        assert_eq!(self.journal[..kept.len()], kept);
        assert_eq!(self.journal[JOURNAL..], [FILLER; 2]);
        let front = session::front(&record, &self.journal);
        assert_eq!((front.number, front.value), (0, &kept[..3 * self.plain.standing]));
    }
}

/// Moves, turns, classes and goings in any order, with strange journals between.
#[test]
fn random_sittings() {
    let rates = Rates { refused: 8, back: 40, goto: 8, owner_exits: 15 };
    let mut met = BTreeMap::new();
    for seed in 0..120 {
        let mut driver = Driver::new(seed, rates);
        let config = driver.generator.config().with_stealing((seed % 2) as u8);
        let mut sitting = Sitting::new(config, &mut driver.generator);
        for _ in 0..150 {
            let call = driver.next_call(&sitting.state(), sitting.record.kept);
            let most = driver.generator.pick(&[2, 4, 12]);
            match (call, driver.generator.below(8)) {
                (Call::Move([p, ..]), 0..=1) => sitting.turn(p),
                (Call::Move(_), 2) => sitting.class(&driver.generator.turns(config, most)),
                (Call::Goto(_), 0) => sitting.class(&[0, 255, 0][..most / 4]),
                _ => sitting.call(call),
            }
            sitting.strange(&mut driver.generator);
        }
        for (key, count) in sitting.met {
            *met.entry(key).or_insert(0) += count;
        }
    }
    println!("{met:?}");
    let wanted = [("goto", 0), ("goto", 9), ("move", 21), ("turn", 21), ("class", 0)];
    for key in wanted.into_iter().chain([10, 15, 16].map(|number| ("strange", number))) {
        assert!(met.get(&key).is_some_and(|&count| count > 20), "{key:?}");
    }
}
