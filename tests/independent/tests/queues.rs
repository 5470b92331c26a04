//! A ready queue for each processor (document 02, No. 13), one thing at a time: the start, which
//! queue a thread joins, looks and their numbers, pictures and records, scripts.

use independent::journal::{Replay, JOURNAL};
use independent::machine::{Config, Position, State, CREATE, EXIT, GO, LOCK, YIELD};
use independent::picture::{self, raw_bytes};
use independent::record::{Record, Snapshot};
use independent::script::{self, script, SCRIPT};
use independent::session;
use independent::worked::{self, Worked};

fn each(p: u8, t: u8, m: u8, b: u8) -> Config {
    Config::new(p, t, m, b).with_stealing(1)
}

fn queues(state: &State) -> Vec<Vec<u8>> {
    state.ready.iter().map(|queue| queue.iter().copied().collect()).collect()
}

#[test]
fn starts() {
    let begun = |config| queues(&State::start(config));
    assert_eq!(begun(each(3, 12, 1, 11)), [[4, 7, 10].to_vec(), vec![5, 8, 11], vec![6, 9]]);
    assert_eq!(begun(each(3, 12, 1, 2)), [[]; 3]);
    assert_eq!(begun(each(1, 4, 1, 3)), [[2, 3]]);
    assert_eq!(begun(Config::new(3, 12, 1, 8)), [[4, 5, 6, 7, 8]]);
    for fifth in 2..=255 {
        let config = Config::new(3, 12, 1, 8).with_stealing(fifth);
        for answer in [session::start(config), script::start(config, &[])] {
            assert_eq!((answer.number, answer.value), (1, Record::default()));
        }
    }
    // 1, then 19.
    let scripts = [0; 12 * SCRIPT];
    for fifth in [0, 1] {
        let config = Config::new(3, 12, 1, 8).with_stealing(fifth);
        assert_eq!(script::start(config, &scripts), session::start(config));
        let answer = script::start(config, &scripts[1..]);
        assert_eq!((answer.number, answer.value), (19, Record::default()));
    }
}

/// The look number before each go at CI2, and the threads that are taken.
#[test]
fn stolen_threads_and_look_numbers() {
    for p in 1..=3 {
        let worked = worked::steals(p);
        let (mut state, mut looks, mut taken) = (State::start(worked.config), vec![], vec![]);
        for &made in &worked.moves {
            let here = *state.processor(made[0]);
            state.try_move(made).unwrap();
            let after = state.processor(made[0]);
            if made[1] == GO && here.position == Position::CI2 {
                looks.push(here.probe);
            }
            if (here.position, after.position) == (Position::CI2, Position::CI3) {
                assert_eq!(after.probe, 0);
                taken.push(after.transit);
            }
        }
        assert_eq!(looks, [0, 0, 1, 0, 1, 2, 0, 1, 2, 0, 1]);
        assert_eq!(taken, [p + 3, p % 3 + 4, (p + 1) % 3 + 4, 7]);
        assert!(state.none_ready());
    }
}

/// A thread that is yielded, created or handed a mutex joins the queue of its processor.
#[test]
fn threads_join_their_own_queue() {
    let worked = worked::own_queues();
    let after = |count| queues(&worked.front(count).state());
    assert_eq!(after(0), [[3, 5].to_vec(), vec![4]]);
    assert_eq!(after(6), [[5, 1].to_vec(), vec![4]]);
    assert_eq!(after(8), [[5, 1].to_vec(), vec![4, 6]]);
    assert_eq!(after(14), [[5, 1].to_vec(), vec![6, 2]]);
    assert_eq!(after(23), [[5, 1].to_vec(), vec![2]]);
    assert_eq!(after(27), [[5, 1, 4].to_vec(), vec![2]]);
    assert_eq!(worked.state().mutex(1).owner, 4);
}

/// Y1 looks at its own queue only.
#[test]
fn yields_in_vain() {
    let alone = Worked::new(each(2, 4, 1, 4)).call(1, EXIT, 0).go(1, 2).call(1, YIELD, 0).go(1, 1);
    let state = alone.state();
    assert_eq!(state.processor(1).position, Position::App);
    assert_eq!(queues(&state), [vec![], vec![4]]);
    let single = Worked { config: alone.config.with_stealing(0), ..alone };
    assert_eq!(single.state().processor(1).position, Position::Y2);
}

/// The bytes that tell the choice, the look number, the chains and the queue of a ready thread.
#[test]
fn pictures() {
    let worked = worked::steals(2);
    // Processor 2 has looked twice; thread 4 is in queue 1.
    let bytes = worked.front(12).picture();
    assert_eq!(bytes[..8], [3, 7, 1, 0, 0, 12, 0, 1]);
    let processors: Vec<[u8; 3]> =
        bytes[8..44].chunks(12).map(|row| [row[0], row[5], row[11]]).collect();
    assert_eq!(processors, [[0, 0, 4], [Position::CI2.number(), 2, 0], [0, 0, 0]]);
    assert_eq!(bytes[52 + 4 * 3..][..4], [1, 1, 0, 0]);
    assert_eq!(picture::read(&bytes).number, 0);
    let with = |edits: &[(usize, u8)]| {
        let mut other = bytes.clone();
        edits.iter().for_each(|&(at, value)| other[at] = value);
        picture::read(&other).number
    };
    let (look, first, holder) = (8 + 12 + 5, 8 + 11, 52 + 4 * 3 + 1);
    // The choice, the single chain's first, look numbers from P on and elsewhere than at CI2.
    assert_eq!([0, 2, 255].map(|value| with(&[(7, value)])), [12; 3]);
    assert_eq!([1, 4, 7].map(|value| with(&[(3, value)])), [12; 3]);
    assert_eq!([0, 1, 3, 255].map(|value| with(&[(look, value)])), [0, 0, 12, 12]);
    assert_eq!([1, 2, 3].map(|value| with(&[(8 + 5, value)])), [12; 3]);
    // The chain's first, and the queue of a ready thread.
    assert_eq!([0, 1, 7, 8].map(|value| with(&[(first, value)])), [13, 13, 13, 12]);
    assert_eq!([0, 2, 3, 4].map(|value| with(&[(holder, value)])), [12, 13, 13, 12]);
    assert_eq!(with(&[(first, 0), (first + 24, 4), (holder, 3)]), 0);
    assert_eq!(with(&[(first + 12, 4)]), 13);
    // The length comes first.
    let mut longer = [&bytes[..], &[0]].concat();
    longer[7] = 2;
    assert_eq!([picture::read(&longer[..59]), picture::read(&longer)].map(|a| a.number), [11; 2]);
}

/// With a single ready queue the bytes of the other choice stay zero.
#[test]
fn pictures_of_a_single_queue() {
    let bytes = Worked::new(Config::new(3, 7, 1, 2)).picture();
    let look_at_ci2 = 8 + 24 + 5;
    for at in [8 + 5, look_at_ci2, 8 + 11, 8 + 23] {
        for value in [1, 2, 255] {
            let mut other = bytes.clone();
            other[at] = value;
            assert_eq!(picture::read(&other).number, 12);
        }
    }
    // With nobody ready the choice alone differs.
    let mut other = bytes.clone();
    other[7] = 1;
    assert_eq!(picture::read(&other).number, 0);
    other[look_at_ci2] = 2;
    assert_eq!(picture::read(&other).number, 0);
    let mut ready = Worked::new(Config::new(3, 7, 1, 4)).picture();
    ready[7] = 1;
    assert_eq!(picture::read(&ready).number, 12);
}

/// Steps back over looks and steals, and journals of other sessions.
#[test]
fn steps_back() {
    for p in 1..=3 {
        let worked = worked::steals(p);
        let journal = worked.journal();
        let mut record = worked.record();
        for left in (0..worked.moves.len()).rev() {
            let mut other = record;
            other.snapshot.stealing = 0;
            assert!([15, 16].contains(&session::goto(&other, &journal, left).number));
            let answer = session::goto(&record, &journal, left);
            assert_eq!(answer.number, 0);
            record = answer.value;
            assert_eq!(record, worked.record_at(left));
        }
        let last = worked.moves.len();
        assert_eq!(session::goto(&record, &journal, last + 1).number, 9);
        assert_eq!(session::goto(&record, &journal, last).value, worked.record());
    }
    // A look number that the moves do not give.
    let idle = Worked::new(each(2, 2, 1, 1)).go(2, 3);
    let (mut record, journal) = (idle.record(), idle.journal());
    assert_eq!(record.snapshot.processor_rows[1].probe, 1);
    record.snapshot.processor_rows[1].probe = 0;
    assert_eq!(session::goto(&record, &journal, 2).number, 16);
}

/// A stolen thread goes on with its script.
#[test]
fn stolen_threads_have_their_progress() {
    let scripts = [
        script(&[[YIELD, 0], [LOCK, 1]]),
        script(&[]),
        script(&[[CREATE, 4], [YIELD, 0]]),
        script(&[]),
    ]
    .concat();
    let config = each(2, 4, 1, 3);
    let turns = [
        // Thread 1 yields to thread 3 on processor 1, which creates thread 4 there.
        1, 1, 1, 1, 1, 1, 1, 1, //
        // Processor 2 exits thread 2, finds its own queue empty, takes thread 1 and locks.
        2, 2, 2, 2, 2,
    ];
    let mut journal = vec![0; JOURNAL];
    let (mut answers, mut pictures) = ([9; 13], [0; 13 * 56]);
    let begun = script::start(config, &scripts).value;
    let done = script::class(&begun, &mut journal, &scripts, &turns, &mut answers, &mut pictures);
    assert_eq!((done.number, answers), (0, [0; 13]));
    assert_eq!(journal[3 * 12..][..3], [2, LOCK, 1]);
    let progress = Replay::of(config, &journal, 13).unwrap().progress;
    assert_eq!([1, 2, 3, 4].map(|thread| progress.thread(thread)), [2, 1, 1, 0]);
    let last = &pictures[12 * 56..];
    assert_eq!(last, raw_bytes(&done.value.snapshot));
    assert_eq!(queues(&done.value.state().unwrap()), [vec![4], vec![]]);
}

/// A record keeps the rules of its own choice.
#[test]
fn records() {
    let whole = worked::steals(1).front(12).snapshot();
    assert_eq!(whole.broken_rule(), None);
    type Edit = fn(&mut Snapshot);
    let edits: [(Edit, u8); 12] = [
        (|s| s.stealing = 0, 12),
        (|s| s.stealing = 2, 12),
        (|s| s.ready_first = 6, 12),
        (|s| s.processor_rows[0].probe = 3, 12),
        (|s| s.processor_rows[1].probe = 1, 12),
        (|s| s.processor_rows[3].probe = 1, 12),
        (|s| s.processor_rows[3].first = 6, 12),
        (|s| s.processor_rows[2].first = 0, 13),
        (|s| s.processor_rows[0].first = 6, 13),
        (|s| s.thread_rows[5].holder = 0, 12),
        (|s| s.thread_rows[5].holder = 4, 12),
        (|s| s.thread_rows[5].holder = 1, 13),
    ];
    for (edit, number) in edits {
        let mut shown = whole;
        edit(&mut shown);
        assert_eq!(shown.broken_rule(), Some(number), "{shown:?}");
        let record = Record::new(shown, 6);
        let mut journal = vec![0; JOURNAL];
        assert_eq!(session::make_move(&record, &mut journal, [1, GO, 0]).number, 15);
        assert_eq!(session::goto(&record, &journal, 0).number, 15);
    }
}
