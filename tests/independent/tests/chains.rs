//! The rule of chains (13): each picture made for it gets the number that it is made for, read,
//! written and as a record.

use independent::chains::{all, neighbours, one_queue, orders, queues, Case, Queue};
use independent::journal::JOURNAL;
use independent::machine::{Config, GO};
use independent::picture::{self, raw_bytes};
use independent::record::{Record, Snapshot};
use independent::session::{self, ahead, Ahead};
use independent::worked::FILLER;

/// Tables of each size, with either choice of ready queues.
fn tables() -> Vec<Config> {
    let sizes = [(1, 1, 1), (1, 2, 1), (1, 31, 1), (1, 32, 1), (2, 32, 2), (8, 32, 8), (8, 31, 8)];
    let both = |(p, t, m)| [0, 1].map(|choice| Config::new(p, t, m, t).with_stealing(choice));
    sizes.into_iter().flat_map(both).collect()
}

/// A record is refused by 15 where its picture does not read, else by 16 at a move, since it is no
/// start's.
fn as_record(case: &Case) {
    let record = Record::new(case.shown, 1);
    let mut journal = vec![FILLER; JOURNAL];
    let answer = session::make_move(&record, &mut journal, [1, GO, 0]);
    let number = if case.number == 0 { 16 } else { 15 };
    assert_eq!((answer.number, answer.value), (number, record), "{}", case.name);
    assert!(journal.iter().all(|&byte| byte == FILLER));
    if case.number == 0 {
        let mut state = case.shown.state().unwrap();
        assert_eq!(state.try_move([1, GO, 0]), Ok(()), "{}", case.name);
        assert_eq!(Snapshot::of(&state).broken_rule(), None);
        return;
    }
    assert_eq!(session::goto(&record, &journal, 0).number, 15);
    assert_eq!(session::front(&record, &journal).number, 15);
    assert_eq!(picture::write(&case.shown, &mut [0; 296]), 15);
    assert_eq!(ahead(&case.shown, 1), Ahead::Refused(15));
}

#[test]
fn each_gets_its_number() {
    let mut met = [0; 16];
    for case in tables().into_iter().flat_map(all) {
        let answer = picture::read(&raw_bytes(&case.shown));
        assert_eq!(answer.number, case.number, "{}", case.name);
        let shown = if case.number == 0 { case.shown } else { Snapshot::default() };
        assert_eq!(answer.value, shown);
        as_record(&case);
        met[usize::from(case.number)] += 1;
    }
    assert_eq!(met[0] + met[12] + met[13] + met[14], met.iter().sum::<usize>());
    assert!([0, 12, 13, 14].iter().all(|&number| met[number] > 60), "{met:?}");
}

/// The links of one chain of three threads, in the picture's bytes.
#[test]
fn one_chain() {
    let config = Config::new(1, 4, 1, 4);
    let cases = one_queue(config, (Queue::Mutex(1), &[2, 4, 1]));
    let links = |case: &Case| {
        let bytes = raw_bytes(&case.shown);
        [bytes[21], bytes[30], bytes[34], bytes[38], bytes[42]]
    };
    let all: Vec<([u8; 5], u8)> = cases.iter().map(|case| (links(case), case.number)).collect();
    let wanted = [
        ([2, 0, 4, 0, 1], 0),
        // The end leads back.
        ([2, 2, 4, 0, 1], 13),
        ([2, 4, 4, 0, 1], 13),
        ([2, 1, 4, 0, 1], 13),
        // The first and the middle lead to themselves, the middle to the first.
        ([2, 0, 2, 0, 1], 13),
        ([2, 0, 4, 0, 4], 13),
        ([2, 0, 4, 0, 2], 13),
        // The first, the middle, the last and all are missed.
        ([4, 0, 4, 0, 1], 13),
        ([2, 0, 1, 0, 1], 13),
        ([2, 0, 4, 0, 0], 13),
        ([0, 0, 4, 0, 1], 13),
        // One in no queue, and one that is not there.
        ([2, 3, 4, 0, 1], 13),
        ([5, 0, 4, 0, 1], 12),
        ([2, 5, 4, 0, 1], 12),
    ];
    assert_eq!(all, wanted);
}

#[test]
fn orders_and_queues() {
    for n in [1, 2, 31, 32] {
        for mut threads in orders(n) {
            threads.sort_unstable();
            assert!(threads.into_iter().eq(1..=n));
        }
    }
    let config = Config::new(8, 32, 8, 32);
    assert_eq!(neighbours(config).len(), 9);
    assert_eq!(neighbours(config)[8], [Queue::Mutex(8), Queue::Ready]);
    let each = config.with_stealing(1);
    assert_eq!(queues(each)[7..9], [Queue::Own(8), Queue::Mutex(1)]);
    assert_eq!(neighbours(each)[15], [Queue::Mutex(8), Queue::Own(1)]);
}
