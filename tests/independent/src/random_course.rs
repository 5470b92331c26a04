//! Random inputs for the line program `course` from a seed: lively sessions of moves, goings, scripts,
//! turns and classes, looked at and marked now and then, or looked at after most of them, with wrong
//! lines between. They are made along the program's own session, so that most calls are accepted.
//!
//! ```
//! use independent::{course, random_course};
//!
//! let input = random_course::input(1, 200, random_course::ANY_STEP);
//! assert!(course::run(&input).lines().count() >= 200);
//! ```

use crate::course::Reader;
use crate::machine::{Config, Position, State};
use crate::program;
use crate::random::{is_stuck, step_back, Call, Driver, Generator, Rates};
use crate::spelling;
use crate::worked::Worked;

/// Goings are single steps back.
pub const STEPS_BACK: Rates = Rates { refused: 12, back: 60, goto: 0, owner_exits: 0 };
/// Goings are to any step, also between turns; wrong lines are made of them too.
pub const ANY_STEP: Rates = Rates { back: 120, goto: 12, ..STEPS_BACK };

/// An input of so many lines, or a few more. The last line may have no line feed.
pub fn input(seed: u64, lines: usize, rates: Rates) -> Vec<u8> {
    let mut writer = Writer::new(seed, rates);
    for _ in 0..writer.driver.generator.below(4) {
        let line = writer.any_line();
        writer.add(&line);
    }
    while writer.lines < lines {
        writer.go_on();
    }
    if writer.driver.generator.once_in(4) {
        writer.input.pop();
    }
    writer.input
}

/// The same with views between: mostly one after a move, a turn, a class or a going.
pub fn viewed(seed: u64, lines: usize, rates: Rates) -> Vec<u8> {
    let mut generator = Generator::new(!seed);
    let mut all = Vec::new();
    for line in input(seed, lines, rates).split_inclusive(|&byte| byte == b'\n') {
        all.extend(line);
        let steps = ["move ", "turn", "goto"].iter().any(|word| line.starts_with(word.as_bytes()));
        if steps && line.ends_with(b"\n") && !generator.once_in(4) {
            all.extend(b"view\n");
        }
    }
    all
}

/// The input so far, and the program's session after it.
struct Writer {
    driver: Driver,
    rates: Rates,
    reader: Reader,
    input: Vec<u8>,
    lines: usize,
    /// Of 100 calls so many are turns, the others are moves; chosen anew at each start.
    turns: usize,
    /// A picture shown some time before, by this session or an earlier one.
    earlier: Vec<u8>,
}

impl Writer {
    fn new(seed: u64, rates: Rates) -> Writer {
        Writer {
            driver: Driver::new(seed, rates),
            rates,
            reader: Reader::default(),
            input: Vec::new(),
            lines: 0,
            turns: 0,
            earlier: Worked::new(Config::new(2, 2, 1, 2)).picture(),
        }
    }

    /// Where the session is at its start, the driver forgets the one before.
    fn add(&mut self, line: &[u8]) {
        let ended = [line, b"\n"].concat();
        self.reader.feed(&ended);
        self.input.extend(&ended);
        self.lines += 1;
        if self.reader.program().record().is_some_and(|record| record.snapshot.applied == 0) {
            self.driver = Driver::new(self.driver.generator.next_word(), self.rates);
        }
    }

    fn state(&self) -> Option<State> {
        self.reader.program().record()?.state()
    }

    fn config(&self) -> Option<Config> {
        self.reader.program().record().map(|record| record.config())
    }

    fn kept(&self) -> u16 {
        self.reader.program().record().map_or(0, |record| record.kept)
    }

    /// A new session now and then and where the old one is at its end, else one line more.
    fn go_on(&mut self) {
        let Some(state) = self.state() else {
            return self.begin();
        };
        let stuck = is_stuck(&state);
        if self.driver.generator.once_in(if stuck { 12 } else { 400 }) {
            self.begin();
        } else if stuck && self.driver.generator.once_in(8) {
            let steps = 1 + self.driver.generator.below(usize::from(state.applied).min(60) + 1);
            (0..steps).for_each(|_| self.step_back());
        } else {
            let line = self.line(&state);
            self.add(&line);
        }
    }

    fn step_back(&mut self) {
        let applied = self.state().map_or(0, |state| state.applied);
        self.add(spelling::goto(step_back(applied, self.kept())).as_bytes());
    }

    /// A start of either choice, mostly with scripts for all threads.
    fn begin(&mut self) {
        let generator = &mut self.driver.generator;
        let config = generator.config().with_stealing(generator.between(0, 1));
        self.turns = generator.pick(&[0, 20, 60, 100]);
        let scripts = generator.scripts(config);
        self.add(spelling::start(config).as_bytes());
        for line in spelling::scripts(config, &scripts) {
            if !self.driver.generator.once_in(8) {
                self.add(line.as_bytes());
            }
        }
    }

    fn line(&mut self, state: &State) -> Vec<u8> {
        if self.rates.goto != 0 && self.driver.generator.once_in(self.rates.goto) {
            return self.going_line(state);
        }
        match self.driver.generator.below(100) {
            0..=4 => b"view".to_vec(),
            5..=6 => b"show".to_vec(),
            7 if self.driver.generator.once_in(2) => b"chart".to_vec(),
            8 if self.driver.generator.once_in(5) => b"help".to_vec(),
            9..=15 => self.any_line(),
            16..=20 => self.mark_line(),
            _ if self.driver.generator.below(100) < self.turns => self.turn_line(state),
            _ => self.call_line(state),
        }
    }

    fn call_line(&mut self, state: &State) -> Vec<u8> {
        match self.driver.next_call(state, self.kept()) {
            Call::Move(made) => spelling::make_move(made).into_bytes(),
            Call::Goto(step) => spelling::goto(step).into_bytes(),
        }
    }

    /// A going to any step, now and then with a slip.
    fn going_line(&mut self, state: &State) -> Vec<u8> {
        let line = spelling::goto(self.driver.any_step(state.applied, self.kept())).into_bytes();
        let generator = &mut self.driver.generator;
        if generator.once_in(6) {
            return damaged(generator, line);
        }
        line
    }

    /// One turn or a class; those of idle processors are rare.
    fn turn_line(&mut self, state: &State) -> Vec<u8> {
        let config = self.config().expect("a session");
        let generator = &mut self.driver.generator;
        if generator.once_in(3) {
            let most = generator.pick(&[4, 4, 8, 8, 60]);
            let count = 1 + generator.below(most);
            return spelling::turns(&generator.turns(config, count)).into_bytes();
        }
        let idle = |p: u8| state.processor(p).position == Position::CI2 && state.none_ready();
        let busy: Vec<u8> = (1..=config.processors).filter(|&p| !idle(p)).collect();
        let p = match busy[..] {
            [] => generator.between(1, config.processors),
            _ => generator.pick(&busy),
        };
        format!("turn {p}").into_bytes()
    }

    /// The picture that `show` gives.
    fn picture(&self) -> Option<Vec<u8>> {
        self.reader.program().record().map(program::shown)
    }

    /// A mark against the session's picture, or of two pictures, each of which may be an earlier one.
    fn mark_line(&mut self) -> Vec<u8> {
        let now = self.picture().unwrap_or(self.earlier.clone());
        let generator = &mut self.driver.generator;
        let machine = generator.pick(&[&now, &now, &self.earlier]);
        let start = Worked::new(generator.config()).picture();
        let meant = generator.pick(&[machine, machine, machine, &now, &self.earlier, &start]);
        let candidate = generator.candidate(meant);
        let line = match generator.below(4) {
            0 => spelling::mark(&candidate),
            1 => spelling::mark_of(&generator.broken(machine), &candidate),
            _ => spelling::mark_of(machine, &candidate),
        };
        if generator.once_in(6) {
            self.earlier = now;
        }
        match generator.below(12) {
            0 => line.to_uppercase().replacen("MARK", "mark", 1).into_bytes(),
            1 => damaged(generator, line.into_bytes()),
            _ => line.into_bytes(),
        }
    }

    /// A line that may be refused or no command.
    fn any_line(&mut self) -> Vec<u8> {
        let config = self.config().unwrap_or(Config::new(2, 3, 1, 2));
        let generator = &mut self.driver.generator;
        match generator.below(9) {
            0..=1 => any_script(generator, config).into_bytes(),
            2 => odd_turns(generator, config).into_bytes(),
            3 => refused_start(generator).into_bytes(),
            4 => long_line(generator),
            5 => {
                let length = generator.below(30);
                generator.bytes(length)
            }
            6 => self.mark_line(),
            _ => {
                let line = command(generator, config);
                damaged(generator, line.into_bytes())
            }
        }
    }
}

/// A script for any thread, now and then of too many or odd calls or for no thread.
fn any_script(generator: &mut Generator, config: Config) -> String {
    let thread = match generator.below(6) {
        0 => generator.pick(&[0, config.threads + 1, 33, 255]),
        _ => generator.between(1, config.threads),
    };
    if !generator.once_in(3) {
        return spelling::script(thread, &generator.scripts(config));
    }
    let count = 2 * generator.below(9) + usize::from(generator.once_in(8));
    let numbers: Vec<u8> = (0..count).map(|_| generator.between(0, 7)).collect();
    format!("script {thread}{}", spelling::numbers(&numbers))
}

/// Turns with some of processors that are not there.
fn odd_turns(generator: &mut Generator, config: Config) -> String {
    let count = generator.below(6);
    let turns: Vec<u8> = (0..count)
        .map(|_| match generator.below(3) {
            0 => generator.pick(&[0, config.processors + 1, 9, 255]),
            _ => generator.between(1, config.processors),
        })
        .collect();
    format!("{}{}", generator.pick(&["turn", "turns"]), spelling::numbers(&turns))
}

fn refused_start(generator: &mut Generator) -> String {
    let config = generator.config();
    spelling::start(match generator.below(5) {
        0 => Config { processors: generator.pick(&[0, 9, 255]), ..config },
        1 => Config { threads: generator.pick(&[0, 33, 255]), ..config },
        2 => Config { mutexes: generator.pick(&[0, 9, 255]), ..config },
        3 => Config { born: generator.pick(&[0, config.threads + 1, 255]), ..config },
        _ => Config { stealing: generator.pick(&[2, 255]), ..config },
    })
}

/// What a long line begins with.
const LONG_LINES: [&str; 7] =
    ["view", "chart", "turns 1", "script 1", "mark 01", "mark 01 01", "help"];

/// A command with spaces, numbers or letters up to about the longest line.
fn long_line(generator: &mut Generator) -> Vec<u8> {
    let mut line = generator.pick(&LONG_LINES).to_string();
    let filler = generator.pick(&[" ", " 0", " 1", " 1 1", "x", "0", "00"]);
    let length = usize::from(generator.between(0, 4)) + generator.pick(&[62, 1_022, 2_046]);
    while line.len() < length {
        line.push_str(filler);
    }
    line.into_bytes()
}

fn command(generator: &mut Generator, config: Config) -> String {
    match generator.below(12) {
        0 => spelling::start(config),
        1 => spelling::make_move([
            generator.between(1, 8),
            generator.between(0, 6),
            generator.between(0, 8),
        ]),
        2..=4 => spelling::script(generator.between(1, config.threads), &generator.scripts(config)),
        5 => format!("turn {}", generator.between(1, 8)),
        6..=7 => {
            let count = 1 + generator.below(5);
            spelling::turns(&generator.turns(config, count))
        }
        // The last is none any more.
        _ => generator.pick(&["view", "chart", "help", "show", "back"]).to_string(),
    }
}

/// A line with one slip.
fn damaged(generator: &mut Generator, mut line: Vec<u8>) -> Vec<u8> {
    let at = generator.below(line.len());
    let is_at = |wanted: fn(&u8) -> bool| line.iter().position(wanted).unwrap_or(at);
    match generator.below(10) {
        0 => line.push(b' '),
        1 => line.push(b'\r'),
        2 => line.insert(is_at(|&byte| byte == b' '), b' '),
        3 => line.insert(is_at(u8::is_ascii_digit), b'0'),
        4 => line[at] = line[at].to_ascii_uppercase(),
        5 => line.extend(b" 256"),
        6 => line.extend(b" 1"),
        7 => drop(line.remove(at)),
        8 => line.insert(at, generator.byte()),
        _ => line.truncate(at),
    }
    line
}
