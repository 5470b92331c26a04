//! The journal's test (document 02, No. 6): 16 unless the applied moves give the record, its place
//! among the other numbers, and journals of other sessions that give the same record. `goto.rs` has
//! moves that are kept beyond the applied ones.

use independent::journal::JOURNAL;
use independent::machine::{
    Config, Move, Position, State, CREATE, EXIT, GO, LOCK, TRYLOCK, UNLOCK, YIELD,
};
use independent::owners;
use independent::picture;
use independent::random::{Driver, Generator, Rates};
use independent::record::Record;
use independent::script::{self, script, SCRIPT};
use independent::session;
use independent::worked::{self, Worked, FILLER};
use independent::Answer;

/// The scripts of threads that exit.
const EXITS: [u8; 32 * SCRIPT] = [0; 32 * SCRIPT];

/// The number of a call lent a journal; refused, it changes neither record nor journal, accepted,
/// the journal holds one move more.
fn called(record: &Record, journal: &[u8], call: impl FnOnce(&mut [u8]) -> Answer<Record>) -> u8 {
    let mut after = journal.to_vec();
    let answer = call(&mut after);
    if answer.is_accepted() {
        assert_eq!(given(&answer.value, &after), Some(answer.value));
        let at = 3 * usize::from(record.snapshot.applied);
        assert!(after[..at] == journal[..at] && after[at + 3..] == journal[at + 3..]);
    } else {
        assert!(answer.value == *record && after == journal);
    }
    answer.number
}

/// What as many moves of the journal as a record has give from its start table, if all are accepted.
fn given(record: &Record, journal: &[u8]) -> Option<Record> {
    let mut state = State::start(record.config());
    for made in journal.chunks(3).take(usize::from(record.snapshot.applied)) {
        state.try_move([made[0], made[1], made[2]]).ok()?;
    }
    Some(Record::of(&state, record.born))
}

fn move_number(record: &Record, journal: &[u8], made: Move) -> u8 {
    called(record, journal, |journal| session::make_move(record, journal, made).answer())
}

fn turn_number(record: &Record, journal: &[u8], scripts: &[u8], p: u8) -> u8 {
    called(record, journal, |journal| script::turn(record, journal, scripts, p).answer())
}

/// Calls each entry point with a record and a journal of the least length; all give the number of
/// the journal's test, 0 where it passes, which is checked here.
fn tested(record: &Record, journal: &[u8]) -> u8 {
    let number = if record.state().is_none() {
        15
    } else if given(record, journal) != Some(*record) {
        16
    } else {
        0
    };
    let absent = if number == 0 { 2 } else { number };
    assert_eq!(move_number(record, journal, [0, 9, 9]), absent);
    assert_eq!(turn_number(record, journal, &EXITS, 0), absent);
    let class = script::class(record, &mut journal.to_vec(), &EXITS, &[], &mut [], &mut []);
    assert_eq!(class.number, number);
    let applied = usize::from(record.snapshot.applied);
    for step in [0, applied / 2, applied.saturating_sub(1), applied] {
        assert_eq!(session::goto(record, journal, step).number, number);
    }
    let past = if number == 15 { 15 } else { 9 };
    assert_eq!(session::goto(record, journal, applied + 1).number, past);
    number
}

/// A thread owns a mutex and is at L1 of it again, another is at App, the third is unborn.
fn owned() -> Worked {
    let begun = Worked::new(Config::new(2, 3, 1, 2));
    begun.call(1, LOCK, 1).go(1, 1).call(1, LOCK, 1)
}

/// Processors 2 and 3 have no thread; thread 1 yields in vain.
fn idle() -> Worked {
    let begun = Worked::new(Config::new(3, 2, 1, 1));
    begun.go(2, 1).go(3, 1).call(1, YIELD, 0).go(1, 1).go(2, 2)
}

fn sessions() -> Vec<Worked> {
    let (k4, k5, k6, k7) = (worked::k4(), worked::k5(), worked::k6(), worked::k7());
    let each = [worked::steals(2), worked::own_queues()];
    [k4, k5, k6, k7, worked::k8(), owned(), idle()].into_iter().chain(each).collect()
}

/// Each number of a move alone, and with an edited journal, which is 16.
#[test]
fn before_the_causes_of_a_move() {
    let worked = owned();
    let (record, journal) = (worked.record(), worked.journal());
    let mut edited = journal.clone();
    edited[8] = 2;
    for (made, number) in [
        ([0, GO, 0], 2),
        ([2, 7, 0], 3),
        ([1, LOCK, 1], 4),
        ([2, GO, 0], 5),
        ([2, UNLOCK, 1], 6),
        ([2, CREATE, 1], 7),
        ([2, CREATE, 3], 0),
    ] {
        assert_eq!(move_number(&record, &journal, made), number);
        assert_eq!(move_number(&record, &edited, made), 16);
    }
    let owner = worked.front(2);
    assert_eq!(move_number(&owner.record(), &journal, [1, EXIT, 0]), 21);
    edited[2] = 2;
    assert_eq!(move_number(&owner.record(), &edited, [1, EXIT, 0]), 16);
    let full = worked::k10(4_000);
    let mut journal = full.journal();
    assert_eq!(move_number(&full.record(), &journal, [1, GO, 0]), 8);
    journal[JOURNAL - 1] = 1;
    assert_eq!(move_number(&full.record(), &journal, [1, GO, 0]), 16);
}

/// The same of a turn.
#[test]
fn before_the_causes_of_a_turn() {
    let worked = owned();
    let (record, journal) = (worked.record(), worked.journal());
    let mut edited = journal.clone();
    edited[8] = 2;
    let scripts = |call| [script(&[]), script(&[call]), script(&[])].concat();
    for (call, p, number) in [
        ([0, 0], 2, 19),
        ([LOCK, 1], 3, 2),
        ([LOCK, 2], 2, 3),
        ([UNLOCK, 1], 2, 6),
        ([CREATE, 1], 2, 7),
        ([CREATE, 3], 2, 0),
        ([CREATE, 3], 1, 0),
    ] {
        assert_eq!(turn_number(&record, &journal, &scripts(call), p), number);
        assert_eq!(turn_number(&record, &edited, &scripts(call), p), 16);
    }
}

/// 10, then 15, then 16, at a move and a turn.
#[test]
fn after_10_and_15() {
    let worked = worked::k7();
    let mut journal = worked.journal();
    journal[0] = 9;
    let record = worked.record();
    let outside = Record { born: 4, ..record };
    for (record, length, number) in [
        (outside, JOURNAL - 1, 10),
        (record, JOURNAL - 1, 10),
        (outside, JOURNAL, 15),
        (record, JOURNAL, 16),
    ] {
        assert_eq!(move_number(&record, &journal[..length], [9, 9, 9]), number);
        assert_eq!(turn_number(&record, &journal[..length], &[], 9), number);
    }
}

/// Each byte of each applied move, with every value: 16, but where the same state is reached.
#[test]
fn edited_bytes() {
    let mut passed = 0;
    for worked in sessions() {
        let (record, mut journal) = (worked.record(), worked.journal());
        for at in 0..3 * worked.moves.len() {
            let byte = journal[at];
            for other in (0..=255).filter(|&other| other != byte) {
                journal[at] = other;
                passed += usize::from(tested(&record, &journal) == 0);
            }
            journal[at] = byte;
        }
        assert_eq!(tested(&record, &journal), 0);
    }
    // A lock at once as a trylock, in seven sessions, and a go of another processor without a thread.
    assert_eq!(passed, 7 + 4);
}

/// Each byte of the picture of a record, and B: 15 or 16, but where another number of moves or
/// another choice of ready queues gives the same state.
#[test]
fn changed_records() {
    let mut met = [0; 17];
    for worked in sessions() {
        let (record, journal) = (worked.record(), worked.journal());
        let bytes = worked.picture();
        for at in 3..bytes.len() {
            for other in [0, 1, 2, 3, 5, bytes[at] ^ 1, bytes[at].wrapping_sub(1), 255] {
                let mut changed = bytes.clone();
                changed[at] = other;
                let (snapshot, named) = picture::raw_fields(&changed).expect("the sizes stay");
                if named && snapshot != record.snapshot {
                    let number = tested(&Record::new(snapshot, record.born), &journal);
                    assert!(number != 0 || [5, 7].contains(&at));
                    met[usize::from(number)] += 1;
                }
            }
        }
        for born in (0..=33).filter(|&born| born != record.born) {
            let number = tested(&Record { born, ..record }, &journal);
            let within = (1..=worked.config.threads).contains(&born);
            assert_eq!(number, if within { 16 } else { 15 });
        }
    }
    assert!(met[0] > 0 && met[15] > 1_000 && met[16] > 100, "{met:?}");
}

/// Two neighbouring moves exchanged: where the same state is reached, a call with that journal goes
/// on from it, and a going back goes back in it.
#[test]
fn exchanged_neighbours() {
    let mut passed = 0;
    for worked in sessions() {
        let record = worked.record();
        for at in 1..worked.moves.len() {
            let mut other = worked.clone();
            other.moves.swap(at - 1, at);
            let journal = other.journal();
            if tested(&record, &journal) == 0 && other != worked {
                passed += 1;
                let back = session::goto(&record, &journal, at);
                assert_eq!(back.value, other.record_at(at));
            }
        }
    }
    assert!(passed > 20, "{passed}");
}

/// A turn counts the calls of the journal that it is lent.
#[test]
fn turns_by_another_journal() {
    let scripts = [script(&[[TRYLOCK, 1], [LOCK, 1]]), script(&[[TRYLOCK, 1], [YIELD, 0]])];
    let begun = Worked::new(Config::new(2, 2, 2, 2));
    let one = begun.clone().call(1, YIELD, 0).go(1, 1);
    let two = begun.call(2, YIELD, 0).go(2, 1);
    assert_eq!(one.record(), two.record());
    for (worked, p, call) in [
        (&one, 1, [LOCK, 1]),
        (&one, 2, [TRYLOCK, 1]),
        (&two, 1, [TRYLOCK, 1]),
        (&two, 2, [YIELD, 0]),
    ] {
        let mut journal = worked.journal();
        assert_eq!(script::turn(&one.record(), &mut journal, &scripts.concat(), p).number, 0);
        assert_eq!(journal[6..9], [p, call[0], call[1]]);
    }
}

/// Whatever stands past the applied moves; only the new move's bytes change.
#[test]
fn bytes_past_the_applied_moves() {
    let mut generator = Generator::new(6);
    for worked in sessions() {
        let (record, journal) = (worked.record(), worked.journal());
        let past = 3 * worked.moves.len();
        let mut driver = Driver::new(7, Rates::ACCEPTED);
        for _ in 0..40 {
            let mut other = journal.clone();
            other[past..].iter_mut().for_each(|byte| *byte = generator.byte());
            assert_eq!(tested(&record, &other), 0);
            let made = driver.likely_move(&worked.state());
            assert_eq!(move_number(&record, &other, made), 0);
            let here = *worked.state().processor(made[0]);
            let at_app = here.position == Position::App;
            let refused = at_app && worked.state().owns_any(here.current);
            let number = if refused { 21 } else { 0 };
            assert_eq!(turn_number(&record, &other, &EXITS, made[0]), number);
        }
    }
}

/// A move less or more than stands: 16, but where that move changes nothing else.
#[test]
fn one_move_less_or_more() {
    let said = |worked: &Worked, applied: usize| {
        let mut snapshot = worked.snapshot();
        snapshot.applied = applied as u16;
        Record::new(snapshot, worked.config.born)
    };
    for worked in sessions() {
        let count = worked.moves.len();
        let last = worked.moves[count - 1];
        let idle_go = worked.front(count - 1).record() == said(&worked, count - 1);
        let less = tested(&said(&worked, count - 1), &worked.journal());
        assert_eq!(less, if idle_go { 0 } else { 16 });
        assert_eq!(tested(&said(&worked, count + 1), &worked.journal()), 16);
        let more = Worked { config: worked.config, moves: [&worked.moves[..], &[last]].concat() };
        let more = tested(&said(&worked, count + 1), &more.journal());
        assert_eq!(more, if idle_go { 0 } else { 16 });
        // The last move alone is missing.
        let missing = worked.front(count - 1).journal();
        assert_eq!(tested(&worked.record(), &missing), 16);
    }
    let idle_go = |worked: &Worked| worked.moves[worked.moves.len() - 1] == [2, GO, 0];
    assert!(sessions().iter().any(idle_go));
}

/// With nothing applied any journal passes, and only the record of a start.
#[test]
fn nothing_applied() {
    for config in [Config::new(1, 1, 1, 1), Config::new(3, 5, 2, 4).with_stealing(1)] {
        let begun = Worked::new(config);
        for byte in [0, 1, FILLER, 255] {
            assert_eq!(move_number(&begun.record(), &[byte; JOURNAL], [1, YIELD, 0]), 0);
            assert_eq!(turn_number(&begun.record(), &[byte; JOURNAL], &EXITS, 1), 0);
        }
        let mut snapshot = begun.call(1, EXIT, 0).snapshot();
        snapshot.applied = 0;
        let record = Record::new(snapshot, config.born);
        assert_eq!(move_number(&record, &[0; JOURNAL], [1, GO, 0]), 16);
        assert_eq!(turn_number(&record, &[0; JOURNAL], &EXITS, 1), 16);
    }
}

/// A journal in which an owner exits is refused at every call, also with the record that was given
/// while such an exit was carried out; its moves before the exit are as good as ever.
#[test]
fn exits_by_owners() {
    for old in owners::old() {
        let (record, journal) = (old.record(), old.session.journal());
        assert_eq!(tested(&record, &journal), 16, "{}", old.name);
        for made in [[1, GO, 0], [1, YIELD, 0], [2, GO, 0], [1, LOCK, 1]] {
            assert_eq!(move_number(&record, &journal, made), 16);
        }
        for p in 1..=old.session.config.processors {
            assert_eq!(turn_number(&record, &journal, &EXITS, p), 16);
        }
        let before = old.before_exit();
        assert_eq!(tested(&before.record(), &journal), 0);
        assert_eq!(tested(&before.record(), &before.journal()), 0);
        // With one move more the exit is among them, whatever record is lent.
        let mut more = before.snapshot();
        more.applied += 1;
        assert_eq!(tested(&Record::new(more, before.config.born), &journal), 16);
        // The front is had without a replay.
        assert_eq!(session::front(&record, &journal).value, old.session.moves.concat());
    }
}

/// A session's journal with an edit: a byte, a move, two moves exchanged, a move left out or put in.
fn edited(generator: &mut Generator, moves: &[Move]) -> Vec<Move> {
    let mut edited = moves.to_vec();
    let at = generator.below(moves.len());
    match generator.below(5) {
        0 => edited[at][generator.below(3)] = generator.between(0, 8),
        1 => edited[at] = generator.pick(moves),
        2 => edited.swap(at, generator.below(moves.len())),
        3 => drop(edited.remove(at)),
        _ => edited.insert(at, generator.pick(moves)),
    }
    edited
}

/// Random sessions whose journals were edited.
#[test]
fn random_edits() {
    let (mut passed, mut refused) = (0, 0);
    for seed in 0..600 {
        let mut driver = Driver::new(seed, Rates::ACCEPTED);
        let config = driver.generator.config().with_stealing((seed % 2) as u8);
        let mut worked = Worked::new(config);
        let mut state = worked.state();
        for _ in 0..1 + driver.generator.below(150) {
            let made = driver.likely_move(&state);
            state.try_move(made).unwrap();
            worked.moves.push(made);
        }
        let record = worked.record();
        for _ in 0..40 {
            let moves = edited(&mut driver.generator, &worked.moves);
            let journal = Worked { config, moves }.journal();
            let number = tested(&record, &journal);
            assert_eq!(move_number(&record, &journal, driver.likely_move(&state)), number);
            *(if number == 0 { &mut passed } else { &mut refused }) += 1;
        }
    }
    assert!(passed > 1_000 && refused > 10_000, "{passed} passed, {refused} refused");
}
