//! The calls on a session record and a lent journal, each with its refusals in order.

use crate::journal::{self, Replay};
use crate::machine::{Config, Move, State};
use crate::record::{Record, Snapshot};
use crate::touch::Touch;
use crate::Answer;

/// Begins a session; refused by 1 with an all-zero record.
pub fn start(config: Config) -> Answer<Record> {
    if !config.in_range() {
        return Answer::refused(1, Record::default());
    }
    Answer::accepted(Record::of(&State::start(config), config.born))
}

/// The answer of a move or a turn: that of another call, and what it touched, nothing where it is
/// refused.
#[derive(Clone, Copy, PartialEq, Eq, Debug)]
pub struct Step {
    pub number: u8,
    pub value: Record,
    pub touch: Touch,
}

impl Step {
    /// The answer of a step on a record, from the state that it gives or its refusal.
    pub fn of(record: &Record, after: Result<(State, Touch), u8>) -> Step {
        let touch = after.as_ref().map_or(Touch::NONE, |(_, touch)| *touch);
        let Answer { number, value } = record.answer(after.map(|(state, _)| record.moved(&state)));
        Step { number, value, touch }
    }

    pub fn answer(self) -> Answer<Record> {
        Answer { number: self.number, value: self.value }
    }
}

/// Makes a move and notes it in the journal, where it drops what was kept beyond the applied moves;
/// refused by 10, 15, 16, 2, 3, 8, 4 or 5, then 6, 7 or 21 with the record handed in, the journal
/// unchanged. No step from a tested journal is refused by 15.
pub fn make_move(record: &Record, journal: &mut [u8], made: Move) -> Step {
    Step::of(record, moved(record, journal, made))
}

fn moved(record: &Record, journal: &mut [u8], made: Move) -> Result<(State, Touch), u8> {
    let mut replay = journal::test(record, journal)?;
    let touch = replay.extend(journal, made)?;
    Ok((replay.state, touch))
}

/// Goes to a step, back or forward, by replay: so many of the kept moves are applied then. Refused by
/// 10, 15, 9 (more than are kept), 16 with the record handed in.
pub fn goto(record: &Record, journal: &[u8], step: usize) -> Answer<Record> {
    record.answer(gone(record, journal, step))
}

fn gone(record: &Record, journal: &[u8], step: usize) -> Result<Record, u8> {
    let state = journal::state(record, journal)?;
    let step = u16::try_from(step).ok().filter(|&step| step <= record.kept).ok_or(9)?;
    journal::replay(record, &state, journal)?;
    let there = Replay::of(record.config(), journal, step).expect("kept moves replay");
    Ok(record.gone(&there.state))
}

/// The applied moves as the journal's front; refused by 10, 15 with the empty front.
pub fn front<'a>(record: &Record, journal: &'a [u8]) -> Answer<&'a [u8]> {
    match journal::state(record, journal) {
        Err(number) => Answer::refused(number, &journal[..0]),
        Ok(state) => Answer::accepted(&journal[..3 * usize::from(state.applied)]),
    }
}

/// What the last applied move touched; nothing where no move is applied, or where 10, 15 or 16 would
/// refuse a move.
pub fn last_touch(record: &Record, journal: &[u8]) -> Touch {
    let applied = journal::test(record, journal).map_or(0, |now| now.state.applied);
    let Some(before) = applied.checked_sub(1) else {
        return Touch::NONE;
    };
    let last = &journal[3 * usize::from(before)..];
    let replay = Replay::of(record.config(), journal, before).expect("a front replays");
    Touch::of(&replay.state, [last[0], last[1], last[2]])
}

/// The answer about turns ahead.
#[derive(Clone, Copy, PartialEq, Eq, Debug)]
pub enum Ahead {
    Waits(u8),
    NotWaiting,
    Refused(u8),
}

/// Turns ahead of a thread; refused by 15, 3.
pub fn ahead(shown: &Snapshot, thread: u8) -> Ahead {
    let Some(state) = shown.state() else {
        return Ahead::Refused(15);
    };
    if !(1..=state.thread_count()).contains(&thread) {
        return Ahead::Refused(3);
    }
    match state.ahead(thread) {
        Some(turns) => Ahead::Waits(turns),
        None => Ahead::NotWaiting,
    }
}
