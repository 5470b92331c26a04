//! Neighbours that may change places (document 02, No. 5): accepted moves of two processors, one
//! right after the other, with no word that one of them writes and the other touches.

use crate::machine::{Config, Move, State};
use crate::touch::{self, Touch, Word};

/// Why two neighbours may not change places; the first that holds.
#[derive(Clone, Copy, PartialEq, Eq, PartialOrd, Ord, Hash, Debug)]
pub enum Bar {
    OneProcessor,
    BothWrite,
    /// The first writes the word that the second only reads.
    FirstWrites,
    /// The second writes the word that the first only reads.
    SecondWrites,
}

impl Bar {
    /// Between two moves, each with the words that it touches where it stands.
    pub fn of(moves: [Move; 2], touches: [Touch; 2]) -> Option<Bar> {
        let [first, second] = touches;
        let same = |word: Word, other: Word| word != Word::None && word == other;
        [
            (moves[0][0] == moves[1][0], Bar::OneProcessor),
            (same(first.written, second.written), Bar::BothWrite),
            (same(first.written, second.read), Bar::FirstWrites),
            (same(first.read, second.written), Bar::SecondWrites),
        ]
        .into_iter()
        .find_map(|(holds, bar)| holds.then_some(bar))
    }
}

/// Two moves made one after the other.
#[derive(Clone, PartialEq, Eq, Debug)]
pub struct Pair {
    pub moves: [Move; 2],
    pub touches: [Touch; 2],
    pub after: State,
}

impl Pair {
    /// Makes both from a state, or gives the number of the one that is refused.
    pub fn make(before: &State, moves: [Move; 2]) -> Result<Pair, u8> {
        let (mut after, mut touches) = (before.clone(), [Touch::NONE; 2]);
        for (touch, made) in touches.iter_mut().zip(moves) {
            *touch = Touch::of(&after, made);
            after.try_move(made)?;
        }
        Ok(Pair { moves, touches, after })
    }

    pub fn bar(&self) -> Option<Bar> {
        Bar::of(self.moves, self.touches)
    }

    /// The moves in the other order, from the same state.
    pub fn exchanged(&self, before: &State) -> Result<Pair, u8> {
        let [first, second] = self.moves;
        Pair::make(before, [second, first])
    }
}

/// What bars each move of a list but the last from changing places with the next, or the refusal
/// that `touch::of_list` gives.
pub fn of_list(config: Config, moves: &[u8]) -> Result<Vec<Option<Bar>>, (u8, u32)> {
    let touches = touch::of_list(config, moves)?;
    let made = moves.chunks_exact(3).map(|made| [made[0], made[1], made[2]]);
    let all: Vec<(Move, Touch)> = made.zip(touches).collect();
    let bar = |pair: &[(Move, Touch)]| Bar::of([pair[0].0, pair[1].0], [pair[0].1, pair[1].1]);
    Ok(all.windows(2).map(bar).collect())
}

/// What is added to the number of a refusal, as 1 is an answer too.
pub const REFUSED: u8 = 200;

/// The answer about the moves at places `first` and `first + 1` of a list, counted from 1, with the
/// place of a refused move, 0 for none. It is 1 where the two may change places, 0 where not, else
/// refused: by the table, then by the moves, then by 3 where there are no two moves.
pub fn answer(config: Config, moves: &[u8], first: u32) -> (u8, u32) {
    if !config.in_range() {
        return (REFUSED + 1, 0);
    }
    let bars = match of_list(config, moves) {
        Ok(bars) => bars,
        Err((number, place)) => return (REFUSED + number, place),
    };
    match first.checked_sub(1).and_then(|at| bars.get(at as usize)) {
        None => (REFUSED + 3, 0),
        Some(bar) => (u8::from(bar.is_none()), 0),
    }
}
