//! A lent journal: what its applied moves replay to, the test of it that moves, turns, goings and
//! classes begin with (document 02, Nos. 6 and 10), and how a move joins it. Bytes past the kept
//! moves do not matter.

use crate::machine::{Config, Move, State, GO};
use crate::record::Record;
use crate::touch::Touch;

/// Least length of a journal: 4,000 moves of 3 bytes.
pub const JOURNAL: usize = 12_000;

/// How many calls each thread has made.
#[derive(Clone, PartialEq, Eq, Debug)]
pub struct Progress {
    made: Vec<u16>,
}

impl Progress {
    pub fn thread(&self, thread: u8) -> u16 {
        self.made[usize::from(thread) - 1]
    }
}

/// The state after moves from a start table, with the progress of its threads.
#[derive(Clone, PartialEq, Eq, Debug)]
pub struct Replay {
    pub state: State,
    pub progress: Progress,
}

impl Replay {
    fn start(config: Config) -> Replay {
        let made = vec![0; usize::from(config.threads)];
        Replay { state: State::start(config), progress: Progress { made } }
    }

    /// Of the first `count` moves of a journal, or none if one is refused.
    pub fn of(config: Config, journal: &[u8], count: u16) -> Option<Replay> {
        let mut replay = Replay::start(config);
        for made in first_moves(journal, count) {
            replay.make_move(made).ok()?;
        }
        Some(replay)
    }

    /// Whether the journal's next moves, up to the number kept, are accepted one after the other.
    fn goes_on(&self, journal: &[u8], kept: u16) -> bool {
        let mut state = self.state.clone();
        let mut rest = first_moves(journal, kept).skip(usize::from(state.applied));
        rest.all(|made| state.try_move(made).is_ok())
    }

    fn make_move(&mut self, made: Move) -> Result<(), u8> {
        let [p, action, _] = made;
        let before = self.state.processors.get(usize::from(p).wrapping_sub(1));
        let thread = before.map_or(0, |here| here.current);
        self.state.try_move(made)?;
        if action != GO {
            self.progress.made[usize::from(thread) - 1] += 1;
        }
        Ok(())
    }

    /// Makes a move and notes it in the journal, or changes neither; gives what it touched.
    pub fn extend(&mut self, journal: &mut [u8], made: Move) -> Result<Touch, u8> {
        let at = 3 * usize::from(self.state.applied);
        let touch = Touch::of(&self.state, made);
        self.make_move(made)?;
        journal[at..at + 3].copy_from_slice(&made);
        Ok(touch)
    }
}

/// The first `count` moves of a journal.
fn first_moves(journal: &[u8], count: u16) -> impl Iterator<Item = Move> + '_ {
    journal.chunks_exact(3).take(usize::from(count)).map(|made| [made[0], made[1], made[2]])
}

/// The state of a record that a journal is lent with; refused by 10, 15.
pub fn state(record: &Record, journal: &[u8]) -> Result<State, u8> {
    if journal.len() < JOURNAL {
        return Err(10);
    }
    record.state().ok_or(15)
}

/// What the applied moves of a record with this state replay to; refused by 16 where a kept move is
/// refused, or where the applied ones give another state.
pub fn replay(record: &Record, state: &State, journal: &[u8]) -> Result<Replay, u8> {
    let replay = Replay::of(record.config(), journal, state.applied);
    let same = replay.filter(|replay| replay.state == *state);
    same.filter(|replay| replay.goes_on(journal, record.kept)).ok_or(16)
}

/// Tests a journal against a record; refused by 10, 15, 16.
pub fn test(record: &Record, journal: &[u8]) -> Result<Replay, u8> {
    replay(record, &state(record, journal)?, journal)
}

#[cfg(test)]
mod tests {
    use super::*;
    use crate::machine::{LOCK, YIELD};

    #[test]
    fn calls_are_counted_up_to_a_refused_move() {
        let config = Config::new(2, 2, 1, 2);
        let moves = [[1, YIELD, 0], [1, GO, 0], [2, LOCK, 1], [1, YIELD, 0], [2, LOCK, 1]];
        let made = [[0, 0], [1, 0], [1, 0], [1, 1], [2, 1]];
        let replay = |count| Replay::of(config, &moves.concat(), count);
        for (count, made) in (0..).zip(made) {
            assert_eq!(replay(count).unwrap().progress.made, made, "{count} moves");
        }
        assert_eq!(replay(5), None);
    }
}
