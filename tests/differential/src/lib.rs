//! A safe wrapper over the static library of the proved machine (`include/humdayeg.h`), and in
//! `expected` the same answers worked out by the package `independent`. `sitting` has the calls on a
//! session that is kept as bytes.

pub mod classes;
pub mod expected;
pub mod sessions;
pub mod sitting;

mod c {
    extern "C" {
        pub fn humdayeg_replay(
            p: u8,
            t: u8,
            m: u8,
            b: u8,
            moves: *const u8,
            moves_len: usize,
            picture: *mut u8,
            picture_len: usize,
            place: *mut u32,
        ) -> u8;
        pub fn humdayeg_replay_with(
            p: u8,
            t: u8,
            m: u8,
            b: u8,
            stealing: u8,
            moves: *const u8,
            moves_len: usize,
            picture: *mut u8,
            picture_len: usize,
            place: *mut u32,
        ) -> u8;
        pub fn humdayeg_words(
            p: u8,
            t: u8,
            m: u8,
            b: u8,
            stealing: u8,
            moves: *const u8,
            moves_len: usize,
            words: *mut u8,
            words_len: usize,
            place: *mut u32,
        ) -> u8;
        pub fn humdayeg_independent(
            p: u8,
            t: u8,
            m: u8,
            b: u8,
            stealing: u8,
            moves: *const u8,
            moves_len: usize,
            first: u32,
            place: *mut u32,
        ) -> u8;
        pub fn humdayeg_class(
            p: u8,
            t: u8,
            m: u8,
            b: u8,
            scripts: *const u8,
            scripts_len: usize,
            turns: *const u8,
            turns_len: usize,
            answers: *mut u8,
            answers_len: usize,
            pictures: *mut u8,
            pictures_len: usize,
        ) -> u8;
        pub fn humdayeg_class_with(
            p: u8,
            t: u8,
            m: u8,
            b: u8,
            stealing: u8,
            scripts: *const u8,
            scripts_len: usize,
            turns: *const u8,
            turns_len: usize,
            answers: *mut u8,
            answers_len: usize,
            pictures: *mut u8,
            pictures_len: usize,
        ) -> u8;
        pub fn humdayeg_read(picture: *const u8, picture_len: usize) -> u8;
        pub fn humdayeg_ahead(picture: *const u8, picture_len: usize, thread: u8) -> u8;
        pub fn humdayeg_mark(
            machine: *const u8,
            machine_len: usize,
            candidate: *const u8,
            candidate_len: usize,
        ) -> u16;
    }
}

/// The longest picture.
pub const MOST_PICTURE: usize = 296;

/// The bytes of a move's words.
pub const TOUCH: usize = 4;

/// P, T, M and B.
pub type Table = [u8; 4];

/// The number of a refusal, 0 for none, and the place of the refused move, 0 for none.
#[derive(Clone, Copy, PartialEq, Eq, Debug)]
pub struct Replayed {
    pub number: u8,
    pub place: u32,
}

/// What is known of a thread's turns.
#[derive(Clone, Copy, PartialEq, Eq, Debug)]
pub enum Ahead {
    Waits(u8),
    NotWaiting,
    Refused(u8),
}

/// Replays moves, three bytes each, from a start table, and writes the picture of the state
/// that they lead to; refused, it writes nothing.
pub fn replay(table: Table, moves: &[u8], picture: &mut [u8]) -> Replayed {
    let [p, t, m, b] = table;
    let mut place = u32::MAX;
    // Both slices and the number live through the call, which keeps none of them.
    let number = unsafe {
        c::humdayeg_replay(
            p,
            t,
            m,
            b,
            moves.as_ptr(),
            moves.len(),
            picture.as_mut_ptr(),
            picture.len(),
            &mut place,
        )
    };
    Replayed { number, place }
}

/// A function that makes moves from a start table with a fifth number and writes into a buffer.
type Replaying =
    unsafe extern "C" fn(u8, u8, u8, u8, u8, *const u8, usize, *mut u8, usize, *mut u32) -> u8;

fn replaying(
    call: Replaying,
    table: Table,
    stealing: u8,
    moves: &[u8],
    out: &mut [u8],
) -> Replayed {
    let [p, t, m, b] = table;
    let mut place = u32::MAX;
    // As above.
    let number = unsafe {
        call(
            p,
            t,
            m,
            b,
            stealing,
            moves.as_ptr(),
            moves.len(),
            out.as_mut_ptr(),
            out.len(),
            &mut place,
        )
    };
    Replayed { number, place }
}

/// The same of a table with a fifth number.
pub fn replay_with(table: Table, stealing: u8, moves: &[u8], picture: &mut [u8]) -> Replayed {
    replaying(c::humdayeg_replay_with, table, stealing, moves, picture)
}

/// Writes the words that each move of a list reads and writes, four bytes a move; refused, it writes
/// nothing.
pub fn words(table: Table, stealing: u8, moves: &[u8], words: &mut [u8]) -> Replayed {
    replaying(c::humdayeg_words, table, stealing, moves, words)
}

/// Whether the moves at places `first` and `first + 1` of a list may change places, 1 or 0, or 200 and
/// the number of a refusal; then the place of the refused move, 0 for none.
pub fn neighbours(table: Table, stealing: u8, moves: &[u8], first: u32) -> (u8, u32) {
    let [p, t, m, b] = table;
    let mut place = u32::MAX;
    // As above.
    let answer = unsafe {
        c::humdayeg_independent(
            p,
            t,
            m,
            b,
            stealing,
            moves.as_ptr(),
            moves.len(),
            first,
            &mut place,
        )
    };
    (answer, place)
}

/// Takes the turns of a class under scripts from a start table, with the number of each turn in
/// `answers` and the picture after each in `pictures`; refused as a whole, it writes nothing.
pub fn class(
    table: Table,
    scripts: &[u8],
    turns: &[u8],
    answers: &mut [u8],
    pictures: &mut [u8],
) -> u8 {
    let [p, t, m, b] = table;
    // All four slices live through the call, which keeps none of them.
    unsafe {
        c::humdayeg_class(
            p,
            t,
            m,
            b,
            scripts.as_ptr(),
            scripts.len(),
            turns.as_ptr(),
            turns.len(),
            answers.as_mut_ptr(),
            answers.len(),
            pictures.as_mut_ptr(),
            pictures.len(),
        )
    }
}

/// The same of a table with a fifth number.
pub fn class_with(
    table: Table,
    stealing: u8,
    scripts: &[u8],
    turns: &[u8],
    answers: &mut [u8],
    pictures: &mut [u8],
) -> u8 {
    let [p, t, m, b] = table;
    // As above.
    unsafe {
        c::humdayeg_class_with(
            p,
            t,
            m,
            b,
            stealing,
            scripts.as_ptr(),
            scripts.len(),
            turns.as_ptr(),
            turns.len(),
            answers.as_mut_ptr(),
            answers.len(),
            pictures.as_mut_ptr(),
            pictures.len(),
        )
    }
}

/// The number that reading a picture gets.
pub fn read(picture: &[u8]) -> u8 {
    unsafe { c::humdayeg_read(picture.as_ptr(), picture.len()) }
}

/// Turns ahead of a thread in a picture.
pub fn ahead(picture: &[u8], thread: u8) -> Ahead {
    match unsafe { c::humdayeg_ahead(picture.as_ptr(), picture.len(), thread) } {
        turns @ 0..=32 => Ahead::Waits(turns),
        100 => Ahead::NotWaiting,
        number @ 201..=216 => Ahead::Refused(number - 200),
        other => panic!("no answer: {other}"),
    }
}

/// The mark of a candidate's picture against the machine's in hundredths, or 20,000 and the number
/// of the refusal.
pub fn mark(machine: &[u8], candidate: &[u8]) -> u16 {
    // Both slices live through the call, which keeps neither.
    unsafe {
        c::humdayeg_mark(machine.as_ptr(), machine.len(), candidate.as_ptr(), candidate.len())
    }
}
