//! The line program for people: the lines of `program`, answered alike but for what an accepted move
//! touched, and `script`, `turn`, `turns`, `view`, `chart`, `mark`, `help`. An answer for people has
//! several lines, the last one empty.

use crate::chart::chart;
use crate::lines::{self, bytes, number, words, LineProgram};
use crate::machine::{Config, Move, CREATE, LOCK, MOST_THREADS};
use crate::marks;
use crate::picture;
use crate::program::{self, Program};
use crate::record::Record;
use crate::script::{self, Call, MOST_CALLS, SCRIPT};
use crate::session::{self, Step};
use crate::view::view;

/// The bytes of all scripts.
const SCRIPTS: usize = SCRIPT * MOST_THREADS as usize;

const HELP: &str = "\
start P T M B    begin a session: processors, threads, mutexes, threads created at first
start P T M B S  the same with the choice of ready queues: 0 a single one, 1 one for each processor
move p a o       processor p: 0 go, 1 lock, 2 trylock, 3 unlock mutex o, 4 yield, 5 exit, 6 create thread o
                 accepted, a move or a turn names the words that it read and wrote
goto k           go to step k, back or forward: so many of the moves kept stand then
show             the picture in hexadecimal
script k a o ..  the script of thread k: up to 6 calls, each an action and an operand
turn p           a turn of processor p, by its thread's script
turns p p ..     turns one after the other: for each its number, then the picture
view             the state as a table, r and w behind the words that the last move read and wrote
chart            the moves that stand, a column for each processor
mark HEX HEX     the mark of a picture: the machine's, then the candidate's
mark HEX         the mark of a candidate's picture against the session's
help             these lines
";

enum Command {
    Plain(program::Command),
    Script(u8, Vec<Call>),
    Turn(u8),
    Turns(Vec<u8>),
    View,
    Chart,
    /// The machine's picture, where it is not the session's, and the candidate's.
    Mark(Option<Vec<u8>>, Vec<u8>),
    Help,
}

fn parse(line: &[u8]) -> Option<Command> {
    let words = words(line);
    match words[..] {
        [b"script", thread, ref pairs @ ..] => {
            Some(Command::Script(number(thread)?, calls(&numbers(pairs)?)?))
        }
        [b"turn", p] => Some(Command::Turn(number(p)?)),
        [b"turns", _, ..] => Some(Command::Turns(numbers(&words[1..])?)),
        [b"view"] => Some(Command::View),
        [b"chart"] => Some(Command::Chart),
        [b"mark", machine, candidate] => {
            Some(Command::Mark(Some(bytes(machine)?), bytes(candidate)?))
        }
        [b"mark", candidate] => Some(Command::Mark(None, bytes(candidate)?)),
        [b"help"] => Some(Command::Help),
        _ => program::Command::parse(line).map(Command::Plain),
    }
}

fn numbers(words: &[&[u8]]) -> Option<Vec<u8>> {
    words.iter().map(|word| number(word)).collect()
}

/// Numbers as calls; none if one is left over.
fn calls(numbers: &[u8]) -> Option<Vec<Call>> {
    let pairs = numbers.chunks_exact(2);
    pairs.remainder().is_empty().then(|| pairs.map(|pair| [pair[0], pair[1]]).collect())
}

/// The plain program with its session, and the scripts.
pub struct Course {
    program: Program,
    scripts: [u8; SCRIPTS],
}

impl Default for Course {
    fn default() -> Self {
        Course { program: Program::default(), scripts: [0; SCRIPTS] }
    }
}

impl LineProgram for Course {
    const LONGEST_LINE: usize = 2_048;

    /// What is for people has a line feed at each line's end, so that the one that ends the
    /// answer makes an empty line.
    fn command(&mut self, line: &[u8]) -> Option<String> {
        match parse(line)? {
            Command::Plain(command) => self.plain(command),
            Command::Script(thread, calls) => self.script(thread, &calls),
            Command::Turn(p) => self.turn(p),
            Command::Turns(turns) => self.turns(&turns),
            Command::View => self.view(),
            Command::Chart => self.chart(),
            Command::Mark(machine, candidate) => self.mark(machine, &candidate),
            Command::Help => Some(HELP.to_string()),
        }
    }
}

impl Course {
    /// The session, if a start was accepted.
    pub fn record(&self) -> Option<&Record> {
        self.program.record()
    }

    fn plain(&mut self, command: program::Command) -> Option<String> {
        match command {
            program::Command::Start(config) => Some(self.start(config).to_string()),
            program::Command::Move(made) => self.make_move(made),
            _ => self.program.obey(command),
        }
    }

    /// An accepted start empties all scripts.
    fn start(&mut self, config: Config) -> u8 {
        let number = self.program.start(config);
        if number == 0 {
            self.scripts = [0; SCRIPTS];
        }
        number
    }

    fn make_move(&mut self, made: Move) -> Option<String> {
        let (record, journal) = self.program.session()?;
        let moved = session::make_move(record, journal, made);
        *record = moved.value;
        Some(answer(&moved))
    }

    /// Refused by 3, 19.
    fn script(&mut self, thread: u8, calls: &[Call]) -> Option<String> {
        let threads = self.record()?.config().threads;
        let number = if !(1..=threads).contains(&thread) {
            3
        } else if !is_script(calls) {
            19
        } else {
            let at = SCRIPT * (usize::from(thread) - 1);
            self.scripts[at..at + SCRIPT].copy_from_slice(&script::script(calls));
            0
        };
        Some(number.to_string())
    }

    fn turn(&mut self, p: u8) -> Option<String> {
        let (record, journal) = self.program.session()?;
        let turned = script::turn(record, journal, &self.scripts, p);
        *record = turned.value;
        Some(answer(&turned))
    }

    /// For each turn its number and, on a line of its own, the picture after it.
    fn turns(&mut self, turns: &[u8]) -> Option<String> {
        let (record, journal) = self.program.session()?;
        let shown = &record.snapshot;
        let length = picture::length(shown.processors, shown.threads, shown.mutexes);
        let mut answers = vec![0; turns.len()];
        let mut pictures = vec![0; turns.len() * length];
        let class =
            script::class(record, journal, &self.scripts, turns, &mut answers, &mut pictures);
        if !class.is_accepted() {
            return Some(class.number.to_string());
        }
        *record = class.value;
        let both = answers.iter().zip(pictures.chunks_exact(length));
        let lines = both.map(|(answer, picture)| format!("{answer}\n{}", picture::hex(picture)));
        Some(lines.collect::<Vec<_>>().join("\n"))
    }

    /// With what the last move touched.
    fn view(&mut self) -> Option<String> {
        let (record, journal) = self.program.session()?;
        Some(view(&record.state()?, session::last_touch(record, journal)))
    }

    fn chart(&mut self) -> Option<String> {
        let (record, journal) = self.program.session()?;
        let front = session::front(record, journal).value;
        let moves: Vec<Move> =
            front.chunks_exact(3).map(|made| [made[0], made[1], made[2]]).collect();
        Some(chart(record.config(), &moves))
    }

    /// The mark, or the refusal's number; only the session's picture needs a session.
    fn mark(&self, machine: Option<Vec<u8>>, candidate: &[u8]) -> Option<String> {
        let machine = match machine {
            Some(bytes) => bytes,
            None => program::shown(self.record()?),
        };
        Some(match marks::mark(&machine, candidate) {
            Ok(mark) => marks::shown(mark),
            Err(number) => number.to_string(),
        })
    }
}

/// A step's number and, where it is accepted, what it touched.
fn answer(step: &Step) -> String {
    match step.number {
        0 => format!("0 {}", step.touch),
        number => number.to_string(),
    }
}

fn is_script(calls: &[Call]) -> bool {
    calls.len() <= usize::from(MOST_CALLS)
        && calls.iter().all(|[action, _]| (LOCK..=CREATE).contains(action))
}

/// Cuts input into lines and answers each.
pub type Reader = lines::Reader<Course>;

/// All output for a whole input.
pub fn run(input: &[u8]) -> String {
    lines::run::<Course>(input)
}

/// An output with the numbers of accepted moves and turns alone, as the plain program answers.
pub fn without_words(output: &str) -> String {
    let number = |line: &str| match line.split_once(" reads ") {
        Some((number, _)) => format!("{number}\n"),
        None => format!("{line}\n"),
    };
    output.lines().map(number).collect()
}
