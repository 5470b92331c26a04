//! Pictures, and the numbers that reading damaged ones gets.

use crate::{states, Folder};
use independent::picture::{self, hex, raw_bytes, HEADER, MUTEX_RECORD, PROCESSOR_RECORD};
use independent::random::Generator;
use independent::record::Snapshot;
use std::fmt::Write;
use std::io;

fn number(bytes: &[u8]) -> u8 {
    picture::read(bytes).number
}

fn joined(numbers: impl Iterator<Item = u8>) -> String {
    numbers.map(|number| number.to_string()).collect::<Vec<_>>().join(" ")
}

/// What reading gets with the byte at each place changed in turn.
fn damaged(bytes: &[u8], change: impl Fn(u8) -> u8) -> String {
    joined((0..bytes.len()).map(|at| {
        let mut other = bytes.to_vec();
        other[at] = change(other[at]);
        number(&other)
    }))
}

fn with_damages(bytes: &[u8]) -> String {
    let longer = [bytes, &[0]].concat();
    let mut text = String::new();
    writeln!(text, "picture {}", hex(bytes)).unwrap();
    writeln!(text, "whole {}", number(bytes)).unwrap();
    writeln!(text, "xor1 {}", damaged(bytes, |byte| byte ^ 1)).unwrap();
    writeln!(text, "add128 {}", damaged(bytes, |byte| byte.wrapping_add(128))).unwrap();
    writeln!(text, "short {}", number(&bytes[..bytes.len() - 1])).unwrap();
    writeln!(text, "long {}", number(&longer)).unwrap();
    writeln!(text, "prefixes {}", joined((0..=9).map(|count| number(&bytes[..count])))).unwrap();
    text
}

/// For each place the numbers of all 256 values, as runs FIRST-LAST=NUMBER.
fn all_values(bytes: &[u8]) -> String {
    let mut text = format!("picture {}\n", hex(bytes));
    for at in 0..bytes.len() {
        let mut other = bytes.to_vec();
        let mut runs: Vec<(u8, u8, u8)> = Vec::new();
        for value in 0..=255 {
            other[at] = value;
            let got = number(&other);
            match runs.last_mut() {
                Some((_, last, same)) if *same == got => *last = value,
                _ => runs.push((value, value, got)),
            }
        }
        write!(text, "{at}").unwrap();
        for (first, last, got) in runs {
            write!(text, " {first}-{last}={got}").unwrap();
        }
        text.push('\n');
    }
    text
}

/// Short buffers, sizes out of range, lengths beside the full one.
fn heads() -> String {
    let mut buffers: Vec<Vec<u8>> = Vec::new();
    for count in 0..=9 {
        buffers.push(vec![0; count]);
        buffers.push(vec![255; count]);
    }
    let sizes =
        [[0, 1, 1], [1, 0, 1], [1, 1, 0], [9, 1, 1], [1, 33, 1], [1, 1, 9], [8, 32, 8], [1, 1, 1]];
    for [p, t, m] in sizes {
        for length in [3, 7, 8, 9, 31, 32, 33, 295, 296, 297] {
            let mut bytes = vec![0; length];
            bytes[..3].copy_from_slice(&[p, t, m]);
            buffers.push(bytes);
        }
    }
    let mut text = String::new();
    for bytes in buffers {
        writeln!(
            text,
            "{} {}",
            number(&bytes),
            if bytes.is_empty() { "-".into() } else { hex(&bytes) }
        )
        .unwrap();
    }
    text
}

/// Where the byte of a field is.
fn processor_byte(p: usize, at: usize) -> usize {
    HEADER + PROCESSOR_RECORD * p + at
}

fn mutex_byte(shown: &Snapshot, m: usize, at: usize) -> usize {
    processor_byte(usize::from(shown.processors), 0) + MUTEX_RECORD * m + at
}

fn thread_byte(shown: &Snapshot, t: usize, at: usize) -> usize {
    mutex_byte(shown, usize::from(shown.mutexes), 0) + 4 * t + at
}

/// One random edit of a chain, a place or a register; most keep all fields in range.
fn edit(shown: &Snapshot, bytes: &mut [u8], generator: &mut Generator) {
    let (p, t, m) = (shown.processors, shown.threads, shown.mutexes);
    let any_p = generator.below(p.into());
    let any_t = generator.below(t.into());
    let any_m = generator.below(m.into());
    let thread = generator.between(0, t);
    match generator.below(9) {
        0 => bytes[3] = thread,
        1 => bytes[mutex_byte(shown, any_m, 1)] = thread,
        2 => bytes[thread_byte(shown, any_t, 2)] = thread,
        3 => {
            let (place, holder) = match generator.below(6) {
                2 => (2, generator.between(1, m)),
                place @ (3 | 4) => (place as u8, generator.between(1, p)),
                place => (place as u8, 0),
            };
            bytes[thread_byte(shown, any_t, 0)] = place;
            bytes[thread_byte(shown, any_t, 1)] = holder;
            if place != 1 && place != 2 {
                bytes[thread_byte(shown, any_t, 2)] = 0;
            }
        }
        4 => bytes[processor_byte(any_p, 1)] = thread,
        5 => bytes[processor_byte(any_p, 2)] = thread,
        6 => {
            let other = generator.below(p.into());
            bytes.swap(processor_byte(any_p, 1), processor_byte(other, 1));
        }
        7 => {
            let other = generator.below(t.into());
            for at in 0..3 {
                bytes.swap(thread_byte(shown, any_t, at), thread_byte(shown, other, at));
            }
        }
        _ => bytes[mutex_byte(shown, any_m, 2)] = thread,
    }
}

/// The same where each processor has a ready queue: now and then of a chain's first, of the queue
/// of a ready thread or of a look number.
fn edit_each(shown: &Snapshot, bytes: &mut [u8], generator: &mut Generator) {
    let (p, t) = (shown.processors, shown.threads);
    let any_p = generator.below(p.into());
    let any_t = generator.below(t.into());
    match generator.below(6) {
        0 => bytes[processor_byte(any_p, 11)] = generator.between(0, t),
        1 => {
            bytes[thread_byte(shown, any_t, 0)] = 1;
            bytes[thread_byte(shown, any_t, 1)] = generator.between(0, p + 1);
        }
        2 => bytes[processor_byte(any_p, 5)] = generator.between(0, p),
        _ => edit(shown, bytes, generator),
    }
}

/// Pictures after one to three edits, some of each number.
fn edits(named: &[states::Named], edit: fn(&Snapshot, &mut [u8], &mut Generator)) -> String {
    let mut generator = Generator::new(77);
    let mut text = String::new();
    for one in named {
        let bytes = raw_bytes(&one.snapshot);
        let mut left = [12usize, 6, 18, 12];
        for _ in 0..4_000 {
            let mut other = bytes.clone();
            for _ in 0..=generator.below(3) {
                edit(&one.snapshot, &mut other, &mut generator);
            }
            let got = number(&other);
            let slot = &mut left[if got == 0 { 0 } else { usize::from(got) - 11 }];
            if *slot > 0 && other != bytes {
                *slot -= 1;
                writeln!(text, "{got} {}", hex(&other)).unwrap();
            }
        }
    }
    text
}

pub fn write_all(folder: &Folder) -> io::Result<()> {
    let (named, each) = (states::all(), states::each());
    let with_values = [
        "start-1-1-1-1",
        "k4-end",
        "k5-l8",
        "k6-h3",
        "k7-gt3",
        "deep-3-7-2",
        "each-start-3-8-2-7",
        "each-look-2",
        "each-deep-3-7-2",
        "terminated-owner",
        "each-terminated-owner-waited-for",
    ];
    for one in named.iter().chain(&each).chain(&states::old()) {
        let bytes = raw_bytes(&one.snapshot);
        assert_eq!(number(&bytes), 0);
        folder.write(&format!("{}.txt", one.name), with_damages(&bytes).as_bytes())?;
        if with_values.contains(&one.name) {
            folder.write(&format!("{}.values", one.name), all_values(&bytes).as_bytes())?;
        }
    }
    folder.write("heads.list", heads().as_bytes())?;
    folder.write("edits.list", edits(&named, edit).as_bytes())?;
    folder.write("each-edits.list", edits(&each, edit_each).as_bytes())
}
