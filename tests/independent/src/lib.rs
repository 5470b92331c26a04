//! An independent implementation of the hand-off machine of document 01, of the
//! journal's test at each call (document 02, No. 6), of scripted threads (No. 7),
//! of exits that owners are refused (No. 9), of goings to a step (No. 10), of marks
//! (No. 12), of a ready queue for each processor (No. 13), of the words that a move
//! touches (No. 4) and of neighbours that may change places (No. 5).
//!
//! Terms of document 01 and the names used here: loaded is `current`, hand is
//! `transit`, rank is `sequence`, seen is `observed`, standing moves are
//! `applied`, turns ahead is `ahead`, a thread's place in its script is its
//! progress, a class session is a `class`, the choice of ready queues is
//! `stealing`, the look number is `probe`. A picture is the byte form of a
//! `Snapshot`, which is the state as fixed tables with chains.
//!
//! - `machine`: the state with plain queues, the start and the lines.
//! - `touch`: which words a move reads and writes.
//! - `independence`: which neighbouring moves may change places.
//! - `record`: the state as tables with chains, its rules, both conversions.
//! - `picture`: a snapshot's bytes, written and read.
//! - `journal`: a lent journal's replay and test.
//! - `session`: the calls on a session record and a lent journal.
//! - `session_bytes`: a session as bytes, and the calls on it.
//! - `script`: scripts, turns and classes.
//! - `marks`: marks for handed-in pictures.
//! - `plain`: the plain session, ownership by history and the laws.
//! - `lines`: what line programs share: lines, answers, numbers, bytes.
//! - `program`: the line program.
//! - `course`: the line program for people; `view` and `chart` are its tables.
//! - `chains`: pictures for the rule of chains, right and wrong.
//! - `random`: random sessions from a seed.
//! - `random_scripts`: random scripts and lists of turns.
//! - `random_marks`: random pictures to mark.
//! - `random_course`: random inputs for the program `course`.
//! - `spelling`: commands as lines.
//! - `slips`: lines that are no command of it.
//! - `worked`: the worked sessions of document 01.
//! - `owners`: owners by each line, and sessions from before No. 9 in which one exits.

pub mod chains;
pub mod chart;
pub mod course;
pub mod independence;
pub mod journal;
pub mod lines;
pub mod machine;
pub mod marks;
pub mod owners;
pub mod picture;
pub mod plain;
pub mod program;
pub mod random;
pub mod random_course;
pub mod random_marks;
pub mod random_scripts;
pub mod record;
pub mod script;
pub mod session;
pub mod session_bytes;
pub mod slips;
pub mod spelling;
pub mod touch;
pub mod view;
pub mod worked;

/// A value with the number of its refusal, 0 when accepted.
#[derive(Clone, Copy, PartialEq, Eq, Debug)]
pub struct Answer<T> {
    pub number: u8,
    pub value: T,
}

impl<T> Answer<T> {
    pub fn accepted(value: T) -> Self {
        Answer { number: 0, value }
    }

    pub fn refused(number: u8, value: T) -> Self {
        Answer { number, value }
    }

    pub fn is_accepted(&self) -> bool {
        self.number == 0
    }
}
