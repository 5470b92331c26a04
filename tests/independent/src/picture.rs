//! Pictures: a snapshot's bytes, written and read.

use crate::machine::{sizes_in_range, Token};
use crate::record::{MutexRow, ProcessorRow, Snapshot, ThreadRow};
use crate::Answer;

pub const HEADER: usize = 8;
pub const PROCESSOR_RECORD: usize = 12;
pub const MUTEX_RECORD: usize = 8;
pub const THREAD_RECORD: usize = 4;

/// The length of a picture with these sizes.
pub fn length(processors: u8, threads: u8, mutexes: u8) -> usize {
    HEADER
        + PROCESSOR_RECORD * usize::from(processors)
        + MUTEX_RECORD * usize::from(mutexes)
        + THREAD_RECORD * usize::from(threads)
}

/// The fields as bytes, rules or not; only rows within the sizes.
pub fn raw_bytes(shown: &Snapshot) -> Vec<u8> {
    let mut bytes = Vec::new();
    lay(shown, |part| bytes.extend(part));
    bytes
}

/// Fills a buffer of exactly the picture's length with the fields, rules or not.
pub fn fill(shown: &Snapshot, mut buffer: &mut [u8]) {
    lay(shown, |part| {
        let (front, rest) = std::mem::take(&mut buffer).split_at_mut(part.len());
        front.copy_from_slice(part);
        buffer = rest;
    });
}

/// Hands out a picture's bytes in order, a few at a time.
fn lay(shown: &Snapshot, mut put: impl FnMut(&[u8])) {
    let [high, low] = shown.applied.to_be_bytes();
    put(&[shown.processors, shown.threads, shown.mutexes, shown.ready_first]);
    put(&[high, low, 0, shown.stealing]);
    for row in shown.processor_rows.iter().take(usize::from(shown.processors)) {
        let [observed, own] = [row.observed.sequence, row.sequence].map(u16::to_be_bytes);
        put(&[row.position, row.current, row.transit, row.mutex]);
        put(&[row.observed.processor, row.probe]);
        put(&[observed[0], observed[1], own[0], own[1], row.answer, row.first]);
    }
    for row in shown.mutex_rows.iter().take(usize::from(shown.mutexes)) {
        let [high, low] = row.token.sequence.to_be_bytes();
        put(&[row.count, row.first, row.owner, row.token.processor, high, low, 0, 0]);
    }
    for row in shown.thread_rows.iter().take(usize::from(shown.threads)) {
        put(&[row.place, row.holder, row.next, 0]);
    }
}

/// The fields of bytes that are exactly a picture's length, rules or not, and whether
/// all unnamed bytes are zero. None if the sizes or the length are wrong.
pub fn raw_fields(bytes: &[u8]) -> Option<(Snapshot, bool)> {
    let &[processors, threads, mutexes, ..] = bytes else {
        return None;
    };
    if !sizes_in_range(processors, threads, mutexes)
        || bytes.len() != length(processors, threads, mutexes)
    {
        return None;
    }
    let wide = |at: usize| u16::from_be_bytes([bytes[at], bytes[at + 1]]);
    let mut shown = Snapshot {
        processors,
        threads,
        mutexes,
        ready_first: bytes[3],
        stealing: bytes[7],
        applied: wide(4),
        ..Snapshot::default()
    };
    let mut unnamed = vec![6];
    let mut at = HEADER;
    for row in shown.processor_rows.iter_mut().take(usize::from(processors)) {
        *row = ProcessorRow {
            position: bytes[at],
            current: bytes[at + 1],
            transit: bytes[at + 2],
            mutex: bytes[at + 3],
            observed: Token { processor: bytes[at + 4], sequence: wide(at + 6) },
            sequence: wide(at + 8),
            answer: bytes[at + 10],
            probe: bytes[at + 5],
            first: bytes[at + 11],
        };
        at += PROCESSOR_RECORD;
    }
    for row in shown.mutex_rows.iter_mut().take(usize::from(mutexes)) {
        *row = MutexRow {
            count: bytes[at],
            first: bytes[at + 1],
            owner: bytes[at + 2],
            token: Token { processor: bytes[at + 3], sequence: wide(at + 4) },
        };
        unnamed.extend([at + 6, at + 7]);
        at += MUTEX_RECORD;
    }
    for row in shown.thread_rows.iter_mut().take(usize::from(threads)) {
        *row = ThreadRow { place: bytes[at], holder: bytes[at + 1], next: bytes[at + 2] };
        unnamed.push(at + 3);
        at += THREAD_RECORD;
    }
    Some((shown, unnamed.iter().all(|&i| bytes[i] == 0)))
}

/// Writes a snapshot's picture at the buffer's front; refused by 15, 10, the buffer unchanged.
pub fn write(shown: &Snapshot, buffer: &mut [u8]) -> u8 {
    if shown.broken_rule().is_some() {
        return 15;
    }
    let bytes = raw_bytes(shown);
    match buffer.get_mut(..bytes.len()) {
        None => 10,
        Some(front) => {
            front.copy_from_slice(&bytes);
            0
        }
    }
}

/// Reads a picture; refused by 11, 12 (sizes), 11 (length), 12, 13, 14 with an all-zero snapshot.
pub fn read(bytes: &[u8]) -> Answer<Snapshot> {
    let refused = |number: u8| Answer::refused(number, Snapshot::default());
    if bytes.len() < HEADER {
        return refused(11);
    }
    if !sizes_in_range(bytes[0], bytes[1], bytes[2]) {
        return refused(12);
    }
    let Some((shown, zeros)) = raw_fields(bytes) else {
        return refused(11);
    };
    if !zeros {
        return refused(12);
    }
    match shown.broken_rule() {
        Some(number) => refused(number),
        None => Answer::accepted(shown),
    }
}

/// Two lower-case hexadecimal digits a byte.
pub fn hex(bytes: &[u8]) -> String {
    bytes.iter().map(|byte| format!("{byte:02x}")).collect()
}
