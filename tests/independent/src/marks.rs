//! Marks for a handed-in picture (document 02, No. 12): the candidate's bytes against the
//! machine's picture, record by record.

use crate::picture::{self, HEADER, MUTEX_RECORD, PROCESSOR_RECORD, THREAD_RECORD};
use std::ops::Range;

/// The mark where all records agree; marks are in hundredths.
pub const FULL: u16 = 10_000;

/// Added to the number of a refusal.
pub const REFUSED: u16 = 20_000;

/// A record of a picture and what it earns.
#[derive(Clone, PartialEq, Eq, Debug)]
pub struct Part {
    pub bytes: Range<usize>,
    pub points: u32,
}

/// The records of a picture with these sizes, in their order.
pub fn parts(processors: u8, threads: u8, mutexes: u8) -> Vec<Part> {
    let kinds = [
        (processors, PROCESSOR_RECORD, 5),
        (mutexes, MUTEX_RECORD, 3),
        (threads, THREAD_RECORD, 2),
    ];
    let mut parts = Vec::new();
    let mut at = HEADER;
    for (count, length, points) in kinds {
        for _ in 0..count {
            parts.push(Part { bytes: at..at + length, points });
            at += length;
        }
    }
    parts
}

/// The records of a picture.
pub fn parts_of(picture: &[u8]) -> Vec<Part> {
    parts(picture[0], picture[1], picture[2])
}

/// The mark in hundredths; refused as reading refuses the machine's picture, then by 11 where the
/// candidate's has another length. Nothing else of the candidate's is refused.
pub fn mark(machine: &[u8], candidate: &[u8]) -> Result<u16, u8> {
    let read = picture::read(machine);
    if !read.is_accepted() {
        return Err(read.number);
    }
    if candidate.len() != machine.len() {
        return Err(11);
    }
    let parts = parts_of(machine);
    let possible: u32 = parts.iter().map(|part| part.points).sum();
    let equal = |part: &&Part| machine[part.bytes.clone()] == candidate[part.bytes.clone()];
    let earned: u32 = parts.iter().filter(equal).map(|part| part.points).sum();
    Ok((u32::from(FULL) * earned / possible) as u16)
}

/// Mark or refusal as one number.
pub fn answer(machine: &[u8], candidate: &[u8]) -> u16 {
    match mark(machine, candidate) {
        Ok(mark) => mark,
        Err(number) => REFUSED + u16::from(number),
    }
}

/// A mark with a point and two digits.
pub fn shown(mark: u16) -> String {
    format!("{}.{:02}", mark / 100, mark % 100)
}
