//! Classes to compare.

use crate::sessions::patterned;
use crate::{class, class_with, expected, replay_with, Replayed, Table};
use independent::picture;

/// What a class is given, but for its buffers.
#[derive(Clone)]
pub struct Class {
    pub table: Table,
    /// The choice of ready queues.
    pub stealing: u8,
    pub scripts: Vec<u8>,
    pub turns: Vec<u8>,
}

/// What a class answers, the numbers of its turns, and its moves, as long as it is accepted.
pub struct Taken {
    pub number: u8,
    pub answers: Vec<u8>,
    pub moves: Vec<u8>,
}

impl Class {
    /// The length of a picture; of any table, as the library is asked about bad ones too.
    pub fn picture_length(&self) -> usize {
        let [p, t, m, _] = self.table;
        picture::length(p, t, m)
    }

    /// The buffers' least lengths.
    pub fn rooms(&self) -> (usize, usize) {
        (self.turns.len(), self.turns.len() * self.picture_length())
    }

    /// Compares the class with buffers of just the length needed.
    pub fn compare(&self) -> Taken {
        let (answers, pictures) = self.rooms();
        self.compare_in(answers, pictures)
    }

    /// Compares the class with each choice of ready queues, and gives what comes of its own.
    pub fn compare_in(&self, answers: usize, pictures: usize) -> Taken {
        let mut taken = None;
        for stealing in [0, 1, 2] {
            let got = Class { stealing, ..self.clone() }.compare_one(answers, pictures);
            if stealing == self.stealing {
                taken = Some(got);
            }
        }
        taken.expect("a choice from 0 to 2")
    }

    /// Compares the answer and every byte of both buffers, and the last picture with a replay of
    /// the class's moves.
    fn compare_one(&self, answers: usize, pictures: usize) -> Taken {
        let Class { table, stealing, scripts, turns } = self;
        let (mut theirs, mut wanted) = (patterned(answers), patterned(pictures));
        let (number, moves) =
            expected::class(*table, *stealing, scripts, turns, &mut theirs, &mut wanted);
        let check = |got: u8, ours: Vec<u8>, shown: Vec<u8>| {
            let what = || format!("{table:?} {stealing}, scripts {scripts:?}, turns {turns:?}");
            assert_eq!(got, number, "{}, buffers {answers}, {pictures}", what());
            assert!(ours == theirs, "answers of {}", what());
            assert!(shown == wanted, "pictures of {}", what());
        };
        let (mut ours, mut shown) = (patterned(answers), patterned(pictures));
        let got = class_with(*table, *stealing, scripts, turns, &mut ours, &mut shown);
        check(got, ours, shown);
        if *stealing == 0 {
            let (mut ours, mut shown) = (patterned(answers), patterned(pictures));
            let got = class(*table, scripts, turns, &mut ours, &mut shown);
            check(got, ours, shown);
        }
        if number == 0 && !turns.is_empty() {
            self.replays(&moves, &wanted);
        }
        theirs.truncate(turns.len());
        Taken { number, answers: theirs, moves }
    }

    /// The library replays the moves to the picture after the last turn.
    fn replays(&self, moves: &[u8], pictures: &[u8]) {
        let length = self.picture_length();
        let mut last = vec![0; length];
        let answer = replay_with(self.table, self.stealing, moves, &mut last);
        assert_eq!(answer, Replayed { number: 0, place: 0 });
        assert!(last == pictures[length * (self.turns.len() - 1)..][..length]);
    }
}
