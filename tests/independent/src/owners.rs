//! Exits by owners (document 02, No. 9): threads that came to own a mutex by each line that makes
//! an owner, and sessions from before such an exit was refused, with the pictures written then.

use crate::lines;
use crate::machine::{Config, Position, EXIT, LOCK, TRYLOCK, UNLOCK, YIELD};
use crate::picture;
use crate::record::Record;
use crate::worked::{self, Worked};

/// A session at whose end processor p is at App and its thread owns mutex 1.
#[derive(Clone, PartialEq, Eq, Debug)]
pub struct Owning {
    /// The line that made it the owner.
    pub line: Position,
    pub session: Worked,
    pub p: u8,
}

impl Owning {
    /// The session with its unlock begun, and after each line of that up to App.
    pub fn unlocks(&self) -> Vec<Worked> {
        let mut now = self.session.clone().call(self.p, UNLOCK, 1);
        let mut all = vec![now.clone()];
        while now.state().processor(self.p).position != Position::App {
            now = now.go(self.p, 1);
            all.push(now.clone());
        }
        all
    }
}

/// One for each line that makes an owner.
pub fn owning(stealing: u8) -> [Owning; 5] {
    let begun = Worked::new(Config::new(2, 3, 1, 2));
    [
        (Position::L1, begun.clone().call(1, LOCK, 1).go(1, 1), 1),
        (Position::TL1, begun.call(1, TRYLOCK, 1).go(1, 1), 1),
        (Position::GT3, worked::k7(), 3),
        (Position::L9, worked::k5(), 2),
        // Thread 2 is served and made ready by processor 1, which runs it after a yield.
        (Position::H2, worked::k6().call(1, YIELD, 0).go(1, 5), 1),
    ]
    .map(|(line, session, p)| Owning { line, session: session.with_stealing(stealing), p })
}

/// A session with an exit by an owner, from when that was carried out and all its moves were
/// accepted, and the picture of its end.
#[derive(Clone, PartialEq, Eq, Debug)]
pub struct Old {
    pub name: &'static str,
    pub session: Worked,
    pub picture: Vec<u8>,
}

impl Old {
    fn new(name: &'static str, session: Worked, digits: &str) -> Old {
        let picture = lines::bytes(digits.as_bytes()).expect("digits");
        Old { name, session, picture }
    }

    pub fn record(&self) -> Record {
        let snapshot = picture::read(&self.picture).value;
        Record::new(snapshot, self.session.config.born)
    }

    /// The moves before the exit.
    pub fn before_exit(&self) -> Worked {
        let exit = self.session.moves.iter().position(|made| made[1] == EXIT).expect("an exit");
        self.session.front(exit)
    }
}

/// The owner of the only mutex exits, and its processor runs the next thread.
fn exited() -> Worked {
    Worked::new(Config::new(1, 2, 1, 2)).call(1, LOCK, 1).go(1, 1).call(1, EXIT, 0).go(1, 2)
}

/// The owner of three mutexes exits.
fn exited_with_three() -> Worked {
    Worked::new(Config::new(2, 4, 3, 3))
        .call(1, LOCK, 1)
        .go(1, 1)
        .call(1, LOCK, 3)
        .go(1, 1)
        .call(1, TRYLOCK, 2)
        .go(1, 1)
        .call(1, EXIT, 0)
}

/// The owner of mutex 2 exits while thread 2 waits for it; then thread 4 waits too, and thread 3 is
/// at L3.
fn exited_while_waited_for() -> Worked {
    Worked::new(Config::new(3, 5, 2, 4))
        .call(1, LOCK, 2)
        .go(1, 1)
        .call(2, LOCK, 2)
        .go(2, 1)
        .call(3, LOCK, 2)
        .go(2, 3)
        .call(1, EXIT, 0)
        .go(1, 2)
        .call(1, LOCK, 2)
        .go(3, 1)
        .go(1, 4)
        .go(2, 1)
}

/// With a single ready queue and, names beginning with `each-`, with one for each processor.
pub fn old() -> Vec<Old> {
    let each = |worked: Worked| worked.with_stealing(1);
    vec![
        Old::new(
            "terminated-owner",
            exited(),
            "010201000005000000020000000000000000000001000100000000000500000003010000",
        ),
        Old::new(
            "terminated-owner-of-three",
            exited_with_three(),
            "0204030300070000010000000000000000000000000200000000000000000000010001000000000001000100\
             00000000010001000000000005000000030200000100000000000000",
        ),
        Old::new(
            "terminated-owner-waited-for",
            exited_while_waited_for(),
            "0305020000120000010000000000000000000000010000000000000000000000040300020000000000000000\
             000000000000000004020100000000000500000002020400030300000202000000000000",
        ),
        Old::new(
            "each-terminated-owner",
            each(exited()),
            "010201000005000100020000000000000000000001000100000000000500000003010000",
        ),
        Old::new(
            "each-terminated-owner-of-three",
            each(exited_with_three()),
            "0204030000070001010000000000000000000003000200000000000000000000010001000000000001000100\
             00000000010001000000000005000000030200000101000000000000",
        ),
        Old::new(
            "each-terminated-owner-waited-for",
            each(exited_while_waited_for()),
            "0305020000120001010000000000000000000000010000000001000000000000040300020000000000000000\
             000000000000000004020100000000000500000002020400030300000202000000000000",
        ),
    ]
}
