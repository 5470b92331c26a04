//! Which shared words a move reads and writes (document 02, No. 4): the count, the token or the queue
//! of a mutex, a ready queue, the birth of a thread, or none. The owner is no word, nor is a register.

use crate::machine::{Config, Move, Position, State, Token, CREATE, GO};
use std::fmt;

/// A word that processors share.
#[derive(Clone, Copy, PartialEq, Eq, PartialOrd, Ord, Hash, Debug)]
pub enum Word {
    None,
    /// Of a mutex.
    Count(u8),
    Token(u8),
    Queue(u8),
    /// Of a processor; the single ready queue is that of processor 1.
    Ready(u8),
    /// Of a thread.
    Birth(u8),
}

impl Word {
    /// Its kind and its number.
    pub fn bytes(self) -> [u8; 2] {
        match self {
            Word::None => [0, 0],
            Word::Count(mutex) => [1, mutex],
            Word::Token(mutex) => [2, mutex],
            Word::Queue(mutex) => [3, mutex],
            Word::Ready(processor) => [4, processor],
            Word::Birth(thread) => [5, thread],
        }
    }
}

impl fmt::Display for Word {
    fn fmt(&self, f: &mut fmt::Formatter) -> fmt::Result {
        match self {
            Word::None => write!(f, "none"),
            Word::Count(mutex) => write!(f, "count {mutex}"),
            Word::Token(mutex) => write!(f, "token {mutex}"),
            Word::Queue(mutex) => write!(f, "queue {mutex}"),
            Word::Ready(processor) => write!(f, "ready {processor}"),
            Word::Birth(thread) => write!(f, "birth {thread}"),
        }
    }
}

/// The word that a move reads and the one that it writes.
#[derive(Clone, Copy, PartialEq, Eq, PartialOrd, Ord, Hash, Debug)]
pub struct Touch {
    pub read: Word,
    pub written: Word,
}

impl Touch {
    pub const NONE: Touch = Touch { read: Word::None, written: Word::None };

    pub const fn reads(word: Word) -> Touch {
        Touch { read: word, written: Word::None }
    }

    pub const fn writes(word: Word) -> Touch {
        Touch { read: Word::None, written: word }
    }

    /// Reads and writes a word.
    pub const fn changes(word: Word) -> Touch {
        Touch { read: word, written: word }
    }

    /// What a move touches in the state before it; nothing where it is refused.
    pub fn of(before: &State, made: Move) -> Touch {
        let [p, action, operand] = made;
        match action {
            _ if before.cause(made).is_some() => Touch::NONE,
            GO => of_line(before, p),
            CREATE => Touch::changes(Word::Birth(operand)),
            _ => Touch::NONE,
        }
    }

    /// The bytes of the word read, then those of the word written.
    pub fn bytes(self) -> [u8; 4] {
        let ([read, read_number], [written, written_number]) =
            (self.read.bytes(), self.written.bytes());
        [read, read_number, written, written_number]
    }

    /// What a table has behind the value of a word.
    pub fn mark(self, word: Word) -> &'static str {
        match (self.read == word, self.written == word) {
            (false, false) => "",
            (true, false) => " r",
            (false, true) => " w",
            (true, true) => " rw",
        }
    }
}

impl fmt::Display for Touch {
    fn fmt(&self, f: &mut fmt::Formatter) -> fmt::Result {
        write!(f, "reads {} writes {}", self.read, self.written)
    }
}

/// What the line touches where processor p is: all but H5 read their word, and some write it where
/// they find it as they want it.
fn of_line(before: &State, p: u8) -> Touch {
    use Position::*;
    let here = before.processor(p);
    let m = here.mutex;
    let token_is = |token: Token| before.mutex(m).token == token;
    let (word, writes) = match here.position {
        App | CI3 | L3 | L10 | Y2 => return Touch::NONE,
        H5 => return Touch::writes(Word::Token(m)),
        CI2 => {
            let q = ready_queue(before, p, here.probe);
            (Word::Ready(q), !before.ready[usize::from(q) - 1].is_empty())
        }
        Y1 => (Word::Ready(ready_queue(before, p, 0)), false),
        H3 | Y3 | C2 => (Word::Ready(ready_queue(before, p, 0)), true),
        L1 | TL3 | U1 => (Word::Count(m), true),
        TL1 => (Word::Count(m), before.mutex(m).count == 0),
        L6 | GT1 => (Word::Token(m), false),
        L8 | GT3 => (Word::Token(m), token_is(here.observed)),
        H8 => (Word::Token(m), token_is(Token { processor: p, sequence: here.sequence })),
        L7 | H6 => (Word::Queue(m), false),
        L4 | L9 => (Word::Queue(m), true),
        H2 => (Word::Queue(m), !before.mutex(m).queue.is_empty()),
    };
    if writes {
        Touch::changes(word)
    } else {
        Touch::reads(word)
    }
}

/// The number of the ready queue so many places after processor p's own.
fn ready_queue(state: &State, p: u8, places: u8) -> u8 {
    match state.stealing {
        0 => 1,
        _ => (p - 1 + places) % state.processor_count() + 1,
    }
}

/// What each move of a list touches, three bytes a move, from an accepted start table; or the number
/// and the place, from 1, of the first that is refused. Bytes left over are a move refused by 3.
pub fn of_list(config: Config, moves: &[u8]) -> Result<Vec<Touch>, (u8, u32)> {
    let mut state = State::start(config);
    let mut all = Vec::new();
    for (place, bytes) in (1..).zip(moves.chunks(3)) {
        let &[p, action, operand] = bytes else {
            return Err((3, place));
        };
        all.push(Touch::of(&state, [p, action, operand]));
        state.try_move([p, action, operand]).map_err(|number| (number, place))?;
    }
    Ok(all)
}

/// The bytes of what moves touch, one after the other.
pub fn bytes(all: &[Touch]) -> Vec<u8> {
    all.iter().flat_map(|touch| touch.bytes()).collect()
}
