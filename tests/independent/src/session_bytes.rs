//! A session as bytes that a caller keeps: the picture of its state, then B, then the number of moves
//! kept in two bytes, high byte first. It is the front of a buffer, whose bytes behind it are neither
//! looked at nor changed. The calls are those of `session` and `script` on such bytes and a journal;
//! refused, they change nothing.

use crate::journal::JOURNAL;
use crate::machine::{sizes_in_range, Config, Move};
use crate::picture;
use crate::record::Record;
use crate::{script, session, Answer};

/// The bytes behind the picture.
const TAIL: usize = 3;

/// What is added to the number that refuses a front.
pub const FRONT_REFUSED: u16 = 20_000;

/// The length of a session with these sizes.
pub fn length(processors: u8, threads: u8, mutexes: u8) -> usize {
    picture::length(processors, threads, mutexes) + TAIL
}

/// The bytes of a record, rules or not.
pub fn encode(record: &Record) -> Vec<u8> {
    let [high, low] = record.kept.to_be_bytes();
    [&picture::raw_bytes(&record.snapshot)[..], &[record.born, high, low]].concat()
}

/// The record at the front of a buffer, or none where that is no session.
pub fn decode(buffer: &[u8]) -> Option<Record> {
    let &[p, t, m, ..] = buffer else {
        return None;
    };
    if !sizes_in_range(p, t, m) {
        return None;
    }
    let bytes = buffer.get(..length(p, t, m))?;
    let (shown, tail) = bytes.split_at(picture::length(p, t, m));
    let read = picture::read(shown);
    let kept = u16::from_be_bytes([tail[1], tail[2]]);
    let record = Record { snapshot: read.value, born: tail[0], kept };
    (read.is_accepted() && record.state().is_some()).then_some(record)
}

/// Puts bytes at the front of a buffer, or gives 10 where they do not fit.
fn put(buffer: &mut [u8], bytes: &[u8]) -> u8 {
    match buffer.get_mut(..bytes.len()) {
        None => 10,
        Some(front) => {
            front.copy_from_slice(bytes);
            0
        }
    }
}

/// The session of a call that is lent a journal; refused by 10, 15.
fn lent(buffer: &[u8], journal: &[u8]) -> Result<Record, u8> {
    if journal.len() < JOURNAL {
        return Err(10);
    }
    decode(buffer).ok_or(15)
}

/// The number of an answer, whose record is written where it is accepted.
fn taken(buffer: &mut [u8], answer: Answer<Record>) -> u8 {
    match answer.number {
        0 => put(buffer, &encode(&answer.value)),
        number => number,
    }
}

/// Begins a session; refused by 1, 10.
pub fn start(config: Config, buffer: &mut [u8]) -> u8 {
    taken(buffer, session::start(config))
}

/// Makes a move; refused by 10, 15, 16, then as it is on a record.
pub fn make_move(buffer: &mut [u8], journal: &mut [u8], made: Move) -> u8 {
    match lent(buffer, journal) {
        Err(number) => number,
        Ok(record) => taken(buffer, session::make_move(&record, journal, made).answer()),
    }
}

/// Takes a turn for processor p; refused by 10, 15, 16, 19, then as its move is.
pub fn turn(buffer: &mut [u8], journal: &mut [u8], scripts: &[u8], p: u8) -> u8 {
    match lent(buffer, journal) {
        Err(number) => number,
        Ok(record) => taken(buffer, script::turn(&record, journal, scripts, p).answer()),
    }
}

/// Goes to a step; refused by 10, 15, 9, 16.
pub fn goto(buffer: &mut [u8], journal: &[u8], step: usize) -> u8 {
    match lent(buffer, journal) {
        Err(number) => number,
        Ok(record) => taken(buffer, session::goto(&record, journal, step)),
    }
}

/// Writes the picture at the front of another buffer; refused by 15, 10.
pub fn picture(buffer: &[u8], picture: &mut [u8]) -> u8 {
    match decode(buffer) {
        None => 15,
        Some(record) => put(picture, &picture::raw_bytes(&record.snapshot)),
    }
}

/// The length of the journal's front, or 20,000 and the number that refuses it, 10 or 15.
pub fn front(buffer: &[u8], journal: &[u8]) -> u16 {
    match lent(buffer, journal) {
        Err(number) => FRONT_REFUSED + u16::from(number),
        Ok(record) => 3 * record.snapshot.applied,
    }
}
