//! A session as bytes and its journal: the library's calls, and both with the independent
//! implementation's, compared byte for byte.

use crate::{expected, Table};
use independent::machine::Move;
use independent::record::Record;
use independent::session_bytes;

mod c {
    extern "C" {
        pub fn humdayeg_session_start(
            p: u8,
            t: u8,
            m: u8,
            b: u8,
            stealing: u8,
            session: *mut u8,
            session_len: usize,
        ) -> u8;
        pub fn humdayeg_session_move(
            session: *mut u8,
            session_len: usize,
            journal: *mut u8,
            journal_len: usize,
            processor: u8,
            action: u8,
            operand: u8,
        ) -> u8;
        pub fn humdayeg_session_turn(
            session: *mut u8,
            session_len: usize,
            journal: *mut u8,
            journal_len: usize,
            scripts: *const u8,
            scripts_len: usize,
            processor: u8,
        ) -> u8;
        pub fn humdayeg_session_goto(
            session: *mut u8,
            session_len: usize,
            journal: *const u8,
            journal_len: usize,
            step: usize,
        ) -> u8;
        pub fn humdayeg_session_picture(
            session: *const u8,
            session_len: usize,
            picture: *mut u8,
            picture_len: usize,
        ) -> u8;
        pub fn humdayeg_session_front(
            session: *const u8,
            session_len: usize,
            journal: *const u8,
            journal_len: usize,
        ) -> u16;
    }
}

/// The longest session.
pub const MOST_SESSION: usize = 299;

/// Begins a session at the front of a buffer; refused, it writes nothing.
pub fn start([p, t, m, b]: Table, stealing: u8, session: &mut [u8]) -> u8 {
    // The slices of each call live through it, and it keeps none of them.
    unsafe { c::humdayeg_session_start(p, t, m, b, stealing, session.as_mut_ptr(), session.len()) }
}

/// Makes a move; refused, it writes nothing.
pub fn make_move(session: &mut [u8], journal: &mut [u8], [p, action, operand]: Move) -> u8 {
    unsafe {
        c::humdayeg_session_move(
            session.as_mut_ptr(),
            session.len(),
            journal.as_mut_ptr(),
            journal.len(),
            p,
            action,
            operand,
        )
    }
}

/// Takes a turn for processor p; refused, it writes nothing.
pub fn turn(session: &mut [u8], journal: &mut [u8], scripts: &[u8], p: u8) -> u8 {
    unsafe {
        c::humdayeg_session_turn(
            session.as_mut_ptr(),
            session.len(),
            journal.as_mut_ptr(),
            journal.len(),
            scripts.as_ptr(),
            scripts.len(),
            p,
        )
    }
}

/// Goes to a step; refused, it writes nothing.
pub fn goto(session: &mut [u8], journal: &[u8], step: usize) -> u8 {
    unsafe {
        c::humdayeg_session_goto(
            session.as_mut_ptr(),
            session.len(),
            journal.as_ptr(),
            journal.len(),
            step,
        )
    }
}

/// Writes the picture of a session at the front of a buffer; refused, it writes nothing.
pub fn picture(session: &[u8], picture: &mut [u8]) -> u8 {
    unsafe {
        c::humdayeg_session_picture(
            session.as_ptr(),
            session.len(),
            picture.as_mut_ptr(),
            picture.len(),
        )
    }
}

/// The length of the journal's front, or 20,000 and the number of the refusal.
pub fn front(session: &[u8], journal: &[u8]) -> u16 {
    unsafe {
        c::humdayeg_session_front(session.as_ptr(), session.len(), journal.as_ptr(), journal.len())
    }
}

/// A call on a session that is kept as bytes.
#[derive(Clone, PartialEq, Eq, Debug)]
pub enum Call {
    Start(Table, u8),
    Move(Move),
    Turn(Vec<u8>, u8),
    Goto(usize),
    /// With the length of the buffer for it.
    Picture(usize),
    Front,
}

/// What the caller keeps.
#[derive(Clone, PartialEq, Eq)]
pub struct Kept {
    pub session: Vec<u8>,
    pub journal: Vec<u8>,
}

impl Kept {
    pub fn record(&self) -> Option<Record> {
        session_bytes::decode(&self.session)
    }

    /// Makes a call through the library and compares its answer, what it leaves of both buffers and
    /// the picture written with the independent implementation's. The answer is its number; a
    /// front's is its length or its refusal.
    pub fn compare(&mut self, call: &Call) -> u16 {
        let mut wanted = self.clone();
        let (theirs, written) = wanted.expected(call);
        let (ours, shown) = self.called(call);
        assert_eq!(
            ours,
            theirs,
            "{call:?}, {} and {} bytes",
            self.session.len(),
            self.journal.len()
        );
        assert!(self.session == wanted.session, "the session after {call:?}, {ours}");
        assert!(self.journal == wanted.journal, "the journal after {call:?}, {ours}");
        assert!(shown == written, "the picture after {call:?}, {ours}");
        ours
    }

    /// Through the library: the answer, and the picture's buffer.
    fn called(&mut self, call: &Call) -> (u16, Vec<u8>) {
        let (session, journal) = (&mut self.session, &mut self.journal);
        let mut shown = buffer(call);
        let number = match call {
            Call::Start(table, stealing) => start(*table, *stealing, session),
            Call::Move(made) => make_move(session, journal, *made),
            Call::Turn(scripts, p) => turn(session, journal, scripts, *p),
            Call::Goto(step) => goto(session, journal, *step),
            Call::Picture(_) => picture(session, &mut shown),
            Call::Front => return (front(session, journal), shown),
        };
        (number.into(), shown)
    }

    /// The same by the independent implementation.
    fn expected(&mut self, call: &Call) -> (u16, Vec<u8>) {
        let (session, journal) = (&mut self.session, &mut self.journal);
        let mut shown = buffer(call);
        let number = match call {
            Call::Start(table, stealing) => {
                session_bytes::start(expected::config(*table).with_stealing(*stealing), session)
            }
            Call::Move(made) => session_bytes::make_move(session, journal, *made),
            Call::Turn(scripts, p) => session_bytes::turn(session, journal, scripts, *p),
            Call::Goto(step) => session_bytes::goto(session, journal, *step),
            Call::Picture(_) => session_bytes::picture(session, &mut shown),
            Call::Front => return (session_bytes::front(session, journal), shown),
        };
        (number.into(), shown)
    }
}

/// The buffer for a call's picture.
fn buffer(call: &Call) -> Vec<u8> {
    match call {
        Call::Picture(length) => crate::sessions::patterned(*length),
        _ => Vec::new(),
    }
}
