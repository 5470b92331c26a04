//! A session of the line program for people, asked a line at a time.

use independent::course::Reader;
use independent::record::Record;

/// A session with its answers, a line at a time.
pub struct Session {
    reader: Reader,
}

impl Session {
    /// After these lines, each of which is accepted.
    pub fn after(lines: &[&str]) -> Session {
        let mut session = Session { reader: Reader::default() };
        lines.iter().for_each(|line| session.accepts(line));
        session
    }

    /// The answer's number is 0.
    pub fn accepts(&mut self, line: impl AsRef<[u8]>) {
        let answer = self.ask(&line);
        let line = String::from_utf8_lossy(line.as_ref());
        assert_eq!(answer.split_whitespace().next(), Some("0"), "{line}");
    }

    pub fn ask(&mut self, line: impl AsRef<[u8]>) -> String {
        assert_eq!(self.reader.feed(line.as_ref()), "");
        self.reader.feed(b"\n")
    }

    pub fn record(&self) -> Record {
        *self.reader.program().record().expect("a session")
    }

    /// All that the session shows, and what its scripts give next, with the state left as it was.
    fn all(&mut self) -> Vec<String> {
        let applied = self.record().snapshot.applied;
        let mut all = ["view", "chart", "show"].map(|line| self.ask(line)).to_vec();
        let turns = [1, 2, 1, 2, 1, 2, 1, 1, 1, 2, 2, 2];
        for p in turns {
            all.push(self.ask(format!("turn {p}")) + &self.ask("show"));
        }
        self.accepts(format!("goto {applied}"));
        all
    }

    /// The line gets this answer, and nothing changes.
    pub fn keeps(&mut self, line: impl AsRef<[u8]>, answer: &str) {
        let line = line.as_ref();
        let (before, record) = (self.all(), self.record());
        let shown = String::from_utf8_lossy(line).into_owned();
        assert_eq!(self.ask(line), answer, "{shown:?}");
        assert_eq!(self.record(), record, "{shown:?}");
        assert_eq!(self.all(), before, "{shown:?}");
    }
}
