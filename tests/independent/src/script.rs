//! Scripted threads (document 02, No. 7): scripts, turns and classes.
//!
//! A script is 13 bytes: its number of calls, then six pairs of action and operand, of which
//! those past the number are unread. The scripts of a session are lent as the scripts of its
//! threads, thread 1 first. A thread's place in its script, here its progress, is the number of
//! calls that it has made among the applied moves; those kept beyond them do not count.

use crate::journal::{self, Replay};
use crate::machine::{Config, Move, Position, State, CREATE, EXIT, GO, LOCK};
use crate::picture;
use crate::record::{Record, Snapshot};
use crate::session::{self, Step};
use crate::touch::Touch;
use crate::Answer;

/// The bytes of a script.
pub const SCRIPT: usize = 13;

/// The most calls of a script.
pub const MOST_CALLS: u8 = 6;

/// Action and operand.
pub type Call = [u8; 2];

/// The call of a thread whose script is spent.
pub const SPENT: Call = [EXIT, 0];

/// The scripts of all threads.
#[derive(Clone, PartialEq, Eq, Debug)]
pub struct Scripts {
    calls: Vec<Vec<Call>>,
}

impl Scripts {
    /// The scripts of so many threads, or none where 19 refuses the bytes. Bytes after them are
    /// not looked at.
    pub fn read(bytes: &[u8], threads: u8) -> Option<Scripts> {
        let bytes = bytes.get(..SCRIPT * usize::from(threads))?;
        let calls = bytes.chunks_exact(SCRIPT).map(read_calls).collect::<Option<_>>()?;
        Some(Scripts { calls })
    }

    /// The next call of a thread that has made `progress` calls.
    pub fn next_call(&self, thread: u8, progress: u16) -> Call {
        let calls = &self.calls[usize::from(thread) - 1];
        calls.get(usize::from(progress)).copied().unwrap_or(SPENT)
    }
}

/// The calls of one script; operands are not looked at.
fn read_calls(script: &[u8]) -> Option<Vec<Call>> {
    let (&count, pairs) = script.split_first()?;
    if count > MOST_CALLS {
        return None;
    }
    let pairs = pairs.chunks_exact(2).take(usize::from(count));
    pairs.map(|pair| (LOCK..=CREATE).contains(&pair[0]).then_some([pair[0], pair[1]])).collect()
}

/// One script of at most six calls; its unread pairs are zero.
pub fn script(calls: &[Call]) -> [u8; SCRIPT] {
    let mut bytes = [0; SCRIPT];
    bytes[0] = calls.len() as u8;
    bytes[1..][..2 * calls.len()].copy_from_slice(&calls.concat());
    bytes
}

/// The move of a turn for processor p, whether it is there or not.
fn next_move(now: &Replay, scripts: &Scripts, p: u8) -> Move {
    let here = usize::from(p).checked_sub(1).and_then(|at| now.state.processors.get(at));
    match here {
        Some(here) if here.position == Position::App => {
            let thread = here.current;
            let [action, operand] = scripts.next_call(thread, now.progress.thread(thread));
            [p, action, operand]
        }
        _ => [p, GO, 0],
    }
}

/// Begins a session under scripts; refused by 1, 19 with an all-zero record.
pub fn start(config: Config, scripts: &[u8]) -> Answer<Record> {
    let begun = session::start(config);
    if begun.is_accepted() && Scripts::read(scripts, config.threads).is_none() {
        return Answer::refused(19, Record::default());
    }
    begun
}

/// Takes a turn for processor p; refused by 10, 15, 16, 19, then as its move is, with the record
/// handed in, the journal unchanged.
pub fn turn(record: &Record, journal: &mut [u8], scripts: &[u8], p: u8) -> Step {
    Step::of(record, turned(record, journal, scripts, p))
}

fn turned(
    record: &Record,
    journal: &mut [u8],
    scripts: &[u8],
    p: u8,
) -> Result<(State, Touch), u8> {
    let mut replay = journal::test(record, journal)?;
    let scripts = Scripts::read(scripts, replay.state.thread_count()).ok_or(19)?;
    let made = next_move(&replay, &scripts, p);
    let touch = replay.extend(journal, made)?;
    Ok((replay.state, touch))
}

/// Takes a turn for each listed processor, with the number of each in `answers` and the picture
/// after each in `pictures`, one behind the other. Where no turn is accepted, record and journal stay.
/// Refused as a whole by 10, 15, 10 (`answers` or `pictures` too short), 16, 19 with the record handed
/// in and nothing changed.
pub fn class(
    record: &Record,
    journal: &mut [u8],
    scripts: &[u8],
    turns: &[u8],
    answers: &mut [u8],
    pictures: &mut [u8],
) -> Answer<Record> {
    record.answer(turned_all(record, journal, scripts, turns, answers, pictures))
}

fn turned_all(
    record: &Record,
    journal: &mut [u8],
    scripts: &[u8],
    turns: &[u8],
    answers: &mut [u8],
    pictures: &mut [u8],
) -> Result<Record, u8> {
    let state = journal::state(record, journal)?;
    let shown = &record.snapshot;
    let length = picture::length(shown.processors, shown.threads, shown.mutexes);
    if answers.len() < turns.len() || pictures.len() / length < turns.len() {
        return Err(10);
    }
    let mut replay = journal::replay(record, &state, journal)?;
    let scripts = Scripts::read(scripts, state.thread_count()).ok_or(19)?;
    let pictures = pictures.chunks_exact_mut(length);
    for ((&p, answer), picture) in turns.iter().zip(answers).zip(pictures) {
        let made = next_move(&replay, &scripts, p);
        *answer = replay.extend(journal, made).err().unwrap_or(0);
        picture::fill(&Snapshot::of(&replay.state), picture);
    }
    let taken = replay.state.applied > state.applied;
    Ok(if taken { record.moved(&replay.state) } else { *record })
}

#[cfg(test)]
mod tests {
    use super::*;
    use crate::machine::{TRYLOCK, UNLOCK, YIELD};

    #[test]
    fn calls_in_order_and_exit_at_last() {
        let all = [[LOCK, 1], [TRYLOCK, 2], [UNLOCK, 1], [YIELD, 0], [EXIT, 0], [CREATE, 9]];
        for count in 0..=all.len() {
            let scripts = Scripts::read(&script(&all[..count]), 1).unwrap();
            for (progress, &call) in (0..).zip(&all[..count]) {
                assert_eq!(scripts.next_call(1, progress), call);
            }
            for progress in [count as u16, count as u16 + 1, 7, 4_000] {
                assert_eq!(scripts.next_call(1, progress), SPENT);
            }
        }
    }

    #[test]
    fn each_thread_has_its_own() {
        let bytes = [script(&[[LOCK, 3]]), script(&[]), script(&[[YIELD, 0], [LOCK, 4]])].concat();
        let scripts = Scripts::read(&bytes, 3).unwrap();
        assert_eq!([1, 2, 3].map(|thread| scripts.next_call(thread, 0)[0]), [LOCK, EXIT, YIELD]);
        assert_eq!(scripts.next_call(3, 1), [LOCK, 4]);
        assert_eq!(Scripts::read(&bytes, 2).unwrap().calls, scripts.calls[..2]);
    }

    #[test]
    fn operands_are_not_looked_at() {
        for operand in 0..=255 {
            let scripts = Scripts::read(&script(&[[YIELD, operand], [LOCK, operand]]), 1).unwrap();
            assert_eq!(scripts.next_call(1, 0), [YIELD, operand]);
            assert_eq!(scripts.next_call(1, 1), [LOCK, operand]);
        }
    }
}
