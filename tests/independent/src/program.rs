//! The line program: `start P T M B`, which may have a fifth number, `move p a o`, `goto k`, `show`;
//! anything else gets `?`.

use crate::journal::JOURNAL;
use crate::lines::{self, number, step, words, LineProgram};
use crate::machine::{Config, Move};
use crate::picture;
use crate::record::Record;
use crate::session;

/// A line's command.
#[derive(Clone, Copy, PartialEq, Eq, Debug)]
pub enum Command {
    Start(Config),
    Move(Move),
    Goto(u16),
    Show,
}

impl Command {
    pub fn parse(line: &[u8]) -> Option<Command> {
        match words(line)[..] {
            [b"start", p, t, m, b] => {
                Some(Command::Start(Config::new(number(p)?, number(t)?, number(m)?, number(b)?)))
            }
            [b"start", p, t, m, b, stealing] => {
                let config = Config::new(number(p)?, number(t)?, number(m)?, number(b)?);
                Some(Command::Start(config.with_stealing(number(stealing)?)))
            }
            [b"move", p, a, o] => Some(Command::Move([number(p)?, number(a)?, number(o)?])),
            [b"goto", k] => Some(Command::Goto(step(k)?)),
            [b"show"] => Some(Command::Show),
            _ => None,
        }
    }
}

/// The program's session, if a start was accepted, and its journal.
pub struct Program {
    record: Option<Record>,
    journal: Vec<u8>,
}

impl Default for Program {
    fn default() -> Self {
        Program { record: None, journal: vec![0; JOURNAL] }
    }
}

impl LineProgram for Program {
    const LONGEST_LINE: usize = 64;

    fn command(&mut self, line: &[u8]) -> Option<String> {
        self.obey(Command::parse(line)?)
    }
}

impl Program {
    pub fn record(&self) -> Option<&Record> {
        self.record.as_ref()
    }

    /// The session and its journal, if a start was accepted.
    pub fn session(&mut self) -> Option<(&mut Record, &mut [u8])> {
        self.record.as_mut().map(|record| (record, &mut self.journal[..]))
    }

    /// The answer to a command, or none where there is no session for it.
    pub fn obey(&mut self, command: Command) -> Option<String> {
        if let Command::Start(config) = command {
            return Some(self.start(config).to_string());
        }
        let (record, journal) = self.session()?;
        let changed = match command {
            Command::Move(made) => session::make_move(record, journal, made).answer(),
            Command::Goto(k) => session::goto(record, journal, k.into()),
            _ => return Some(picture::hex(&shown(record))),
        };
        *record = changed.value;
        Some(changed.number.to_string())
    }

    /// Begins a session, or keeps the one that is there and gives the refusal.
    pub fn start(&mut self, config: Config) -> u8 {
        let begun = session::start(config);
        if begun.is_accepted() {
            self.record = Some(begun.value);
        }
        begun.number
    }
}

/// The picture of a session.
pub fn shown(record: &Record) -> Vec<u8> {
    let shown = &record.snapshot;
    let mut bytes = vec![0; picture::length(shown.processors, shown.threads, shown.mutexes)];
    let number = picture::write(shown, &mut bytes);
    assert_eq!(number, 0);
    bytes
}

/// Cuts input into lines and answers each.
pub type Reader = lines::Reader<Program>;

/// All output for a whole input.
pub fn run(input: &[u8]) -> String {
    lines::run::<Program>(input)
}
