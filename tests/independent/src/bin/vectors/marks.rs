//! Marks of candidates' pictures, and their refusals.

use crate::{field, states, Folder};
use independent::machine::Config;
use independent::marks::{answer, parts_of};
use independent::picture::{hex, raw_bytes, HEADER};
use independent::random::Generator;
use independent::worked::{self, Worked};
use std::io;

/// A picture with the last byte of some records changed: those whose bit is set, from the lowest.
pub fn wrong_in(picture: &[u8], records: u64) -> Vec<u8> {
    let mut bytes = picture.to_vec();
    for (at, part) in parts_of(picture).iter().enumerate() {
        bytes[part.bytes.end - 1] ^= (records >> at & 1) as u8;
    }
    bytes
}

/// K7's picture and changed ones at the boundaries of 11 to 14.
pub fn machines() -> Vec<Vec<u8>> {
    let picture = worked::k7().picture();
    let length = picture.len();
    let changed = |changes: &[(usize, u8)]| {
        let mut bytes = picture.clone();
        changes.iter().for_each(|&(at, value)| bytes[at] = value);
        bytes
    };
    let mut all = vec![picture.clone(), [&picture[..], &[0]].concat()];
    all.extend([0, 1, 7, 8, 9, length - 1].map(|count| picture[..count].to_vec()));
    all.extend([vec![9; 7], vec![9; 8], vec![0; 8], vec![255; length]]);
    // Sizes within their ranges and outside.
    for (at, most) in [(0, 8), (1, 32), (2, 8)] {
        all.extend([0, 2, 4, most, most + 1, 255].map(|value| changed(&[(at, value)])));
    }
    for (at, value) in [(3, 4), (6, 1), (7, 1), (7, 2), (8, 24), (8, 25), (length - 1, 1)] {
        all.push(changed(&[(at, value)]));
    }
    // Chains and registers: thread 1 is current and becomes ready, ended or in transit.
    let thread = parts_of(&picture)[4].bytes.start;
    let (ready, ended) = ([(thread, 1), (thread + 1, 0)], [(thread, 5), (thread + 1, 0)]);
    all.extend([changed(&[(3, 1)]), changed(&ready), changed(&ended), changed(&[(thread, 4)])]);
    // Two causes.
    all.extend([changed(&[&[(3, 1)], &ended[..]].concat()), changed(&[(7, 2), (3, 1)])]);
    all
}

/// A file of candidates for one picture, which reads.
fn marked(machine: &[u8], candidates: &[Vec<u8>]) -> String {
    let line =
        |candidate: &Vec<u8>| format!("{} {}\n", answer(machine, candidate), field(candidate));
    format!("machine {}\n", hex(machine)) + &candidates.iter().map(line).collect::<String>()
}

/// Every choice of wrong records.
fn choices(machine: &[u8]) -> String {
    let all = 0..1 << parts_of(machine).len();
    marked(machine, &all.map(|records| wrong_in(machine, records)).collect::<Vec<_>>())
}

/// All records right, all wrong, one alone wrong, one alone right.
fn single_records(machine: &[u8]) -> String {
    let count = parts_of(machine).len();
    let all = (1 << count) - 1;
    let mut choices = vec![0, all];
    choices.extend((0..count).map(|one| 1 << one));
    choices.extend((0..count).map(|one| all ^ 1 << one));
    let wrong: Vec<Vec<u8>> = choices.iter().map(|&records| wrong_in(machine, records)).collect();
    marked(machine, &wrong)
}

/// Each byte changed in turn, the header's too.
fn each_byte(machine: &[u8]) -> String {
    let changed = |at: usize| {
        let mut bytes = machine.to_vec();
        bytes[at] = bytes[at].wrapping_add([1, 128][at % 2]);
        bytes
    };
    marked(machine, &(0..machine.len()).map(changed).collect::<Vec<_>>())
}

/// The header right, damaged, of other sizes; with all records right and with the last one wrong.
fn headers(machine: &[u8]) -> String {
    let (header, records) = machine.split_at(HEADER);
    let mut headers = vec![header.to_vec(), vec![0; HEADER], vec![255; HEADER]];
    for sizes in [[1, 4, 1], [3, 1, 1], [1, 2, 2], [2, 2, 9], [0, 0, 0], [9, 33, 9], [8, 32, 8]] {
        headers.push([&sizes, &header[3..]].concat());
    }
    for at in 0..HEADER {
        for value in [0, 1, 2, 3, 255] {
            headers.push(header.to_vec());
            headers.last_mut().unwrap()[at] = value;
        }
    }
    let wrong = wrong_in(machine, 1 << (parts_of(machine).len() - 1));
    let both = [records, &wrong[HEADER..]];
    let with = |header: &Vec<u8>| both.map(|records| [header, records].concat());
    marked(machine, &headers.iter().flat_map(with).collect::<Vec<_>>())
}

fn line(machine: &[u8], candidate: &[u8]) -> String {
    format!("{} {} {}\n", answer(machine, candidate), field(machine), field(candidate))
}

/// Machine's pictures at the boundaries of each number, each with a right candidate and with
/// candidates whose length may be wrong too.
fn refusals() -> String {
    let picture = worked::k7().picture();
    let longer = [&picture[..], &[0]].concat();
    let mut text = String::new();
    for machine in machines() {
        for candidate in [&machine[..], &picture, &picture[1..], &longer, &[]] {
            text += &line(&machine, candidate);
        }
    }
    text
}

/// Random candidates for the named states.
fn random() -> String {
    let mut generator = Generator::new(120);
    let mut text = String::new();
    for one in states::all().iter().chain(&states::each()) {
        let machine = raw_bytes(&one.snapshot);
        for _ in 0..6 {
            text += &line(&machine, &generator.candidate(&machine));
        }
    }
    text
}

pub fn write_all(folder: &Folder) -> io::Result<()> {
    let start = |config| Worked::new(config).picture();
    let k5 = worked::k5().picture();
    let all = [
        ("k5-choices.txt", choices(&k5)),
        ("k5-headers.txt", headers(&k5)),
        ("k5-bytes.txt", each_byte(&k5)),
        ("k7-bytes.txt", each_byte(&worked::k7().picture())),
        ("each-own-bytes.txt", each_byte(&worked::own_queues().picture())),
        ("smallest.txt", choices(&start(Config::new(1, 1, 1, 1)))),
        ("largest.txt", single_records(&start(Config::new(8, 32, 8, 20)))),
        ("each-largest.txt", single_records(&start(Config::new(8, 32, 8, 32).with_stealing(1)))),
        ("refusals.list", refusals()),
        ("random.list", random()),
    ];
    for (name, text) in all {
        folder.write(name, text.as_bytes())?;
    }
    Ok(())
}
