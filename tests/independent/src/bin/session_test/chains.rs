//! The rule of chains in records: queues with all 32 threads, threads in two queues, links changed
//! one by one, and sessions that lead to such queues.

use crate::commands::{Fields, FIELDS};
use crate::script::Script;
use independent::chains::{all_queues, neighbouring, neighbours, one_queue, orders, Case, Queue};
use independent::machine::{Config, LOCK, YIELD};
use independent::record::{Record, Snapshot};
use independent::session;
use independent::worked::Worked;

fn fields(shown: Snapshot, born: u8) -> Fields {
    Fields::of(&Record::new(shown, born))
}

/// Changes what differs between two records.
fn changes(s: &mut Script, from: &Fields, to: &Fields) {
    for i in (0..FIELDS).filter(|&i| from.at(i) != to.at(i)) {
        s.say(&format!("c {i} {}", to.at(i)));
    }
}

/// A going, the last thread's turns ahead, a move, the picture and a last call after it; then record
/// and journal are brought back.
fn calls(s: &mut Script, threads: u8, last: &str) {
    s.all(&["g 0", &format!("q {threads}"), "m 1 0 0", "p", last, "a"]);
}

/// From a start, the record of the first case; then from it that of each case in turn. With chains
/// that are wrong they are refused by 15, with right ones moves and turns are refused by 16.
fn records(s: &mut Script, config: Config, cases: &[Case]) {
    s.start(config);
    let begun = Fields::of(&session::start(config).value);
    let right = fields(cases[0].shown, config.born);
    changes(s, &begun, &right);
    s.say("keep");
    for case in cases {
        changes(s, &right, &fields(case.shown, config.born));
        calls(s, config.threads, "t 1");
    }
    s.say("hash");
}

/// All threads in one queue, those of 32 in each order.
fn whole(s: &mut Script) {
    s.say("# chains: all threads in one queue");
    for (choice, queue) in [(0, Queue::Ready), (0, Queue::Mutex(1)), (1, Queue::Own(1))] {
        for (threads, orders) in [1, 2, 31, 32].map(|threads| (threads, orders(threads))) {
            let config = Config::new(1, threads, 1, threads).with_stealing(choice);
            for order in if threads == 32 { &orders[..] } else { &orders[2..] } {
                records(s, config, &one_queue(config, (queue, order)));
            }
        }
    }
}

/// A thread in two queues, and all threads in all queues.
fn several(s: &mut Script) {
    s.say("# chains: two queues, and all");
    for choice in [0, 1] {
        let config = Config::new(2, 32, 2, 2).with_stealing(choice);
        for pair in neighbours(config) {
            records(s, config, &neighbouring(config, pair));
        }
        let config = Config::new(8, 32, 8, 32).with_stealing(choice);
        records(s, config, &all_queues(config));
    }
}

/// A session, its picture and the calls at its end.
fn reached(s: &mut Script, worked: &Worked) {
    s.start(worked.config);
    worked.moves.iter().for_each(|&made| s.make(made));
    s.all(&["keep", "picture"]);
    calls(s, worked.config.threads, &format!("g {}", worked.moves.len()));
    s.say("hash");
}

/// Sessions that put all 32 threads into one queue: thread 1 yields; each thread locks a mutex, and
/// thread 1 once more.
fn sessions(s: &mut Script) {
    s.say("# chains: sessions");
    for choice in [0, 1] {
        let config = Config::new(1, 32, 1, 32).with_stealing(choice);
        reached(s, &Worked::new(config).call(1, YIELD, 0).go(1, 3));
    }
    let mut waits = Worked::new(Config::new(1, 32, 1, 32)).call(1, LOCK, 1).go(1, 1);
    for _ in 0..32 {
        waits = waits.call(1, LOCK, 1).go(1, 6);
    }
    reached(s, &waits);
}

pub fn add(s: &mut Script) {
    s.say("noise 11");
    whole(s);
    several(s);
    sessions(s);
}
