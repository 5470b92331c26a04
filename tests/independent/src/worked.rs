//! The worked sessions of document 01 as start tables and lists of moves, and two with a ready
//! queue for each processor (document 02, No. 13).

use crate::journal::JOURNAL;
use crate::machine::{
    Config, Move, Position, State, CREATE, EXIT, GO, LOCK, TRYLOCK, UNLOCK, YIELD,
};
use crate::picture;
use crate::record::{Record, Snapshot, ThreadRow, ENDED};

/// What a journal is filled with.
pub const FILLER: u8 = 0xa5;

/// A start table and moves that are all accepted.
#[derive(Clone, PartialEq, Eq, Debug)]
pub struct Worked {
    pub config: Config,
    pub moves: Vec<Move>,
}

impl Worked {
    pub fn new(config: Config) -> Worked {
        Worked { config, moves: Vec::new() }
    }

    pub fn call(mut self, p: u8, action: u8, operand: u8) -> Worked {
        self.moves.push([p, action, operand]);
        self
    }

    pub fn go(mut self, p: u8, times: usize) -> Worked {
        self.moves.extend(vec![[p, GO, 0]; times]);
        self
    }

    pub fn with_stealing(self, stealing: u8) -> Worked {
        Worked { config: self.config.with_stealing(stealing), ..self }
    }

    /// The session's first `count` moves.
    pub fn front(&self, count: usize) -> Worked {
        Worked { config: self.config, moves: self.moves[..count].to_vec() }
    }

    pub fn state(&self) -> State {
        let mut state = State::start(self.config);
        for &made in &self.moves {
            state.try_move(made).expect("worked moves are accepted");
        }
        state
    }

    pub fn snapshot(&self) -> Snapshot {
        Snapshot::of(&self.state())
    }

    pub fn picture(&self) -> Vec<u8> {
        picture::raw_bytes(&self.snapshot())
    }

    pub fn record(&self) -> Record {
        Record::new(self.snapshot(), self.config.born)
    }

    /// The record after a going to a step, all moves being kept.
    pub fn record_at(&self, step: usize) -> Record {
        Record { kept: self.moves.len() as u16, ..self.front(step).record() }
    }

    /// A journal with its moves; bytes past them are filled with one that no move has.
    pub fn journal(&self) -> Vec<u8> {
        let mut bytes = self.moves.concat();
        bytes.resize(JOURNAL, FILLER);
        bytes
    }
}

/// One thread waits for itself.
pub fn k4() -> Worked {
    Worked::new(Config::new(1, 1, 1, 1)).call(1, LOCK, 1).go(1, 1).call(1, LOCK, 1).go(1, 5)
}

/// Session S with n processors and threads: token (1,1), count 1, processor 1 at H6, 2 at L3.
pub fn session_s(n: u8) -> Worked {
    Worked::new(Config::new(n, n, 1, n))
        .call(1, LOCK, 1)
        .call(2, LOCK, 1)
        .go(1, 1)
        .go(2, 1)
        .call(1, UNLOCK, 1)
        .go(1, 3)
}

/// Processor 1 leaves at H6; processor 2 wins the token and runs thread 2.
pub fn k5() -> Worked {
    session_s(2).go(1, 1).go(2, 7)
}

/// Processor 1 takes its token back and makes thread 2 ready.
pub fn k6() -> Worked {
    session_s(2).go(2, 2).go(1, 4).go(2, 1)
}

/// A trylock takes the token first.
pub fn k7() -> Worked {
    session_s(3).go(2, 2).go(1, 1).call(3, TRYLOCK, 1).go(3, 3).go(1, 1).go(3, 1)
}

/// Processor 2 sees (1,1) and is at L8 while processor 1 takes its token back, runs thread 2 and
/// hands off by (1,2); the queue is empty, and the last move leads to CI2.
pub fn k8() -> Worked {
    Worked::new(Config::new(3, 3, 1, 3))
        .call(1, LOCK, 1)
        .go(1, 1)
        .call(2, LOCK, 1)
        .go(2, 1)
        .call(3, LOCK, 1)
        .go(3, 1)
        .call(1, UNLOCK, 1)
        .go(1, 3)
        .go(2, 4)
        .go(1, 4)
        .call(1, YIELD, 0)
        .go(1, 5)
        .call(1, UNLOCK, 1)
        .go(1, 3)
        .go(2, 1)
}

/// The same of processor 2 among four, where trylocks take the tokens.
pub fn k8_with_trylocks() -> Worked {
    session_s(4)
        .go(1, 1)
        // Processor 2 queues thread 2 and observes (1,1).
        .go(2, 4)
        // Thread 3 takes the token, unlocks and makes thread 2 ready.
        .call(3, TRYLOCK, 1)
        .go(3, 4)
        .call(3, UNLOCK, 1)
        .go(3, 3)
        // Processor 3 runs thread 2.
        .call(3, YIELD, 0)
        .go(3, 5)
        // Thread 4 is about to queue; thread 2 unlocks, thread 1 takes its token and unlocks.
        .call(4, LOCK, 1)
        .go(4, 1)
        .call(3, UNLOCK, 1)
        .go(3, 4)
        .call(1, TRYLOCK, 1)
        .go(1, 4)
        .call(1, UNLOCK, 1)
        .go(1, 4)
        .go(2, 1)
}

/// K4 to K8.
pub fn hand_offs() -> [Worked; 6] {
    [k4(), k5(), k6(), k7(), k8(), k8_with_trylocks()]
}

/// Three processors at App go on with what the sessions above leave out: a trylock at once, one
/// without a token, one that is late, an unlock with nobody waiting, L7 with an empty queue.
pub fn other_outcomes(before: Worked) -> Worked {
    let mut first = before
        .call(1, TRYLOCK, 1)
        .go(1, 1)
        .call(2, TRYLOCK, 1)
        .go(2, 2)
        .call(1, UNLOCK, 1)
        .go(1, 1);
    first.moves.extend(session_s(3).moves);
    first.go(2, 3).call(3, TRYLOCK, 1).go(3, 2).go(1, 4).go(2, 1).go(3, 1)
}

/// The only thread exits, and its processor goes on: so many moves.
pub fn k10(count: usize) -> Worked {
    Worked::new(Config::new(1, 1, 1, 1)).call(1, EXIT, 0).go(1, count - 1)
}

/// With a ready queue for each of three processors: p exits its threads one after the other and
/// takes those of its own queue, of the next and of the one after that; it yields in vain while
/// only other queues have a thread, looks round at empty ones, and gets what the next makes ready.
pub fn steals(p: u8) -> Worked {
    let next = p % 3 + 1;
    Worked::new(Config::new(3, 7, 1, 6).with_stealing(1))
        .call(p, EXIT, 0)
        .go(p, 2)
        .call(p, YIELD, 0)
        .go(p, 1)
        .call(p, EXIT, 0)
        .go(p, 3)
        .call(p, EXIT, 0)
        .go(p, 4)
        .call(p, EXIT, 0)
        .go(p, 4)
        .call(next, CREATE, 7)
        .go(next, 1)
        .go(p, 2)
}

/// What two processors with a ready queue each make ready joins their own queues: threads that
/// yield, are created and are handed a mutex.
pub fn own_queues() -> Worked {
    Worked::new(Config::new(2, 6, 1, 5).with_stealing(1))
        .call(1, YIELD, 0)
        .go(1, 5)
        .call(2, CREATE, 6)
        .go(2, 1)
        .call(2, YIELD, 0)
        .go(2, 5)
        .call(1, LOCK, 1)
        .go(1, 1)
        .call(2, LOCK, 1)
        .go(2, 6)
        .call(1, UNLOCK, 1)
        .go(1, 3)
}

/// A record that no moves give: processor 2 at L8 with (1,1) observed, token (1,2), thread 2 queued.
pub fn k8_record() -> Record {
    let mut snapshot = session_s(2).go(1, 1).go(2, 4).snapshot();
    snapshot.mutex_rows[0].token.sequence = 2;
    Record::new(snapshot, 2)
}

/// A start's record, but for the number of moves.
pub fn k10_record(applied: u16) -> Record {
    let mut snapshot = Worked::new(Config::new(2, 1, 1, 1)).snapshot();
    snapshot.applied = applied;
    Record::new(snapshot, 1)
}

/// Records with a line that would leave the rules, each with its processor: L1 and TL3 at
/// count T + 1, U1 at count 0, H5 at sequence 4,000, L9 with an empty queue. No moves give them.
pub fn steps_out_of_rules() -> Vec<(&'static str, Record, u8)> {
    let one = Worked::new(Config::new(1, 1, 1, 1));
    let mut at_l1 = one.clone().call(1, LOCK, 1).snapshot();
    at_l1.mutex_rows[0].count = 2;
    let mut at_u1 = one.call(1, LOCK, 1).go(1, 1).call(1, UNLOCK, 1).snapshot();
    at_u1.mutex_rows[0].count = 0;
    let mut at_h5 = session_s(2).snapshot();
    at_h5.processor_rows[0].position = Position::H5.number();
    at_h5.processor_rows[0].sequence = 4_000;
    let k7 = k7();
    let mut at_tl3 = k7.front(k7.moves.len() - 1).snapshot();
    at_tl3.mutex_rows[0].count = 4;
    let k5 = k5();
    let mut at_l9 = k5.front(k5.moves.len() - 2).snapshot();
    at_l9.mutex_rows[0].first = 0;
    at_l9.thread_rows[1] = ThreadRow { place: ENDED, holder: 0, next: 0 };
    vec![
        ("L1", Record::new(at_l1, 1), 1),
        ("TL3", Record::new(at_tl3, 3), 3),
        ("U1", Record::new(at_u1, 1), 1),
        ("H5", Record::new(at_h5, 2), 1),
        ("L9", Record::new(at_l9, 2), 2),
    ]
}
