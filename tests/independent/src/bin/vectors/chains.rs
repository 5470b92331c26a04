//! Pictures for the rule of chains, and the numbers that reading them gets.

use crate::Folder;
use independent::chains::{
    all, all_queues, neighbouring, neighbours, one_queue, orders, Case, Queue,
};
use independent::machine::Config;
use independent::picture::{self, hex, raw_bytes};
use std::io;

/// A line for each picture; none twice.
fn list(cases: &[Case]) -> String {
    let mut lines: Vec<String> = Vec::new();
    for case in cases {
        let bytes = raw_bytes(&case.shown);
        let line = format!("{} {}\n", picture::read(&bytes).number, hex(&bytes));
        if !lines.contains(&line) {
            lines.push(line);
        }
    }
    lines.concat()
}

/// Every case of one thread and of two, and of two queues and of all with 32 threads.
fn queues(choice: u8) -> Vec<Case> {
    let table = |p, t, m| Config::new(p, t, m, t).with_stealing(choice);
    let mut cases =
        [all(table(1, 1, 1)), all(table(1, 2, 1)), all_queues(table(2, 32, 2))].concat();
    for pair in neighbours(table(2, 32, 2)) {
        cases.extend(neighbouring(table(2, 32, 2), pair));
    }
    cases
}

/// All 32 threads in one queue.
fn whole(choice: u8, queue: Queue, order: usize) -> Vec<Case> {
    let config = Config::new(1, 32, 1, 32).with_stealing(choice);
    one_queue(config, (queue, &orders(32)[order]))
}

pub fn write_all(folder: &Folder) -> io::Result<()> {
    let single = [
        queues(0),
        whole(0, Queue::Ready, 0),
        whole(0, Queue::Ready, 2),
        whole(0, Queue::Mutex(1), 1),
    ];
    let each = [queues(1), whole(1, Queue::Own(1), 2)];
    folder.write("chains.list", list(&single.concat()).as_bytes())?;
    folder.write("each-chains.list", list(&each.concat()).as_bytes())
}
