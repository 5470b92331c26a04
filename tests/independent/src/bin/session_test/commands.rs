//! The script's commands, over the independent implementation.
//!
//! A command is known by its word's first letter. Each of the first group prints a line.
//!
//! - `start P T M B`, with a fifth number or without, `move p a o`, `goto k`: the refusal, whether a
//!   field of the record changed and whether a byte of the journal did; a move then the word that it
//!   read and the one that it wrote, kind and number each. A start's record is taken, refused or not.
//! - `xtouch`: the words of the last standing move, in the same way.
//! - `front`: the refusal, the front's length and its bytes.
//! - `picture`, or `picture n` for a buffer of n bytes: the picture or its refusal, B and the number of
//!   moves kept.
//! - `queue t`: the turns ahead of thread t, `-` where it does not wait, `r` before a refusal.
//! - `hash`: a number that stands for the journal's 12,001 bytes.
//! - `journal v p a o`: a number that stands for the refusals of a move where each byte of the kept
//!   moves is raised by v in turn, round from 255 to 0. An accepted one is left in the journal.
//! - `lend n`: so many of the journal's bytes are lent from now on.
//! - `keep`: the record and the journal are stored; `again`: both are brought back;
//!   `recall`: the record alone is.
//! - `change i v`: field i of the record becomes v. `write i v`: byte i of the journal does.
//! - `noise seed`: the journal is filled. `#`: nothing.
//!
//! Of scripted threads, over a buffer of scripts and a list of turns, at first zero:
//!
//! - `init P T M B`, with a fifth number or without: a scripted start; `turn p`: a turn. They print
//!   what a start and a move do.
//! - `drive n a q`: a class of the list's first n turns, lent a bytes of the answers and q of the
//!   pictures. It prints what a start does, and numbers that stand for all answers and pictures.
//! - `edit i a b c`: bytes i to i + 2 of the scripts become a, b, c. `order i a b c`: those of the
//!   list do.
//! - `use n`: so many of the scripts' bytes are lent from now on.
//! - `build seed q`: the list is filled with numbers from 0 to q. `vary seed`: the answers and the
//!   pictures are filled, as `noise` fills a journal.

use independent::journal::JOURNAL;
use independent::machine::{Config, Token};
use independent::picture;
use independent::record::{MutexRow, ProcessorRow, Record, Snapshot, ThreadRow};
use independent::script;
use independent::session::{self, ahead, Ahead, Step};
use independent::touch::Touch;
use independent::Answer;
use std::fmt::Write;

/// Numbers of fields. Each table begins with a row 0 that is zero in a record that keeps the rules.
pub const APPLIED: usize = 3;
pub const BORN: usize = 4;
pub const STEALING: usize = 221;
pub const KEPT: usize = 239;
pub const FIELDS: usize = 240;

/// Lengths of the buffers of scripts, turns, answers and pictures.
pub const SCRIPTS: usize = 420;
pub const TURNS: usize = 128;
pub const ANSWERS: usize = 130;
pub const PICTURES: usize = 20_000;

pub fn first(queue: usize) -> usize {
    5 + queue
}

pub fn processor(p: usize, field: usize) -> usize {
    14 + 8 * p + field
}

pub fn mutex(m: usize, field: usize) -> usize {
    86 + 4 * m + field
}

pub fn thread(k: usize, field: usize) -> usize {
    122 + 3 * k + field
}

/// The first of processor p's own ready queue.
pub fn own_first(p: usize) -> usize {
    221 + p
}

pub fn probe(p: usize) -> usize {
    230 + p
}

/// A session record as its fields.
#[derive(Clone, PartialEq)]
pub struct Fields([u16; FIELDS]);

impl Fields {
    pub fn of(record: &Record) -> Fields {
        let shown = &record.snapshot;
        let mut fields = Fields([0; FIELDS]);
        let sizes = [shown.processors, shown.threads, shown.mutexes];
        fields.0[..3].copy_from_slice(&sizes.map(u16::from));
        fields.0[APPLIED] = shown.applied;
        fields.0[BORN] = u16::from(record.born);
        fields.0[first(0)] = u16::from(shown.ready_first);
        fields.0[STEALING] = u16::from(shown.stealing);
        fields.0[KEPT] = record.kept;
        for (p, row) in (1..).zip(&shown.processor_rows) {
            let bytes = [row.position, row.current, row.transit, row.mutex, row.observed.processor];
            fields.0[processor(p, 0)..][..5].copy_from_slice(&bytes.map(u16::from));
            let rest = [row.observed.sequence, row.sequence, u16::from(row.answer)];
            fields.0[processor(p, 5)..][..3].copy_from_slice(&rest);
            fields.0[own_first(p)] = u16::from(row.first);
            fields.0[probe(p)] = u16::from(row.probe);
        }
        for (m, row) in (1..).zip(&shown.mutex_rows) {
            fields.0[first(m)] = u16::from(row.first);
            let bytes = [row.count, row.owner, row.token.processor].map(u16::from);
            fields.0[mutex(m, 0)..][..3].copy_from_slice(&bytes);
            fields.0[mutex(m, 3)] = row.token.sequence;
        }
        for (k, row) in (1..).zip(&shown.thread_rows) {
            let bytes = [row.place, row.holder, row.next].map(u16::from);
            fields.0[thread(k, 0)..][..3].copy_from_slice(&bytes);
        }
        fields
    }

    pub fn at(&self, i: usize) -> u16 {
        self.0[i]
    }

    fn byte(&self, i: usize) -> u8 {
        self.0[i] as u8
    }

    fn token(&self, i: usize) -> Token {
        Token { processor: self.byte(i), sequence: self.0[i + 1] }
    }

    /// The record, or none if a row 0 is not zero.
    fn record(&self) -> Option<Record> {
        let zero = |from: usize, count: usize| self.0[from..][..count].iter().all(|&v| v == 0);
        if !(zero(processor(0, 0), 8)
            && zero(mutex(0, 0), 4)
            && zero(thread(0, 0), 3)
            && zero(probe(0), 1))
        {
            return None;
        }
        let mut shown = Snapshot {
            processors: self.byte(0),
            threads: self.byte(1),
            mutexes: self.byte(2),
            ready_first: self.byte(first(0)),
            stealing: self.byte(STEALING),
            applied: self.0[APPLIED],
            ..Snapshot::default()
        };
        for (p, row) in (1..).zip(&mut shown.processor_rows) {
            *row = ProcessorRow {
                position: self.byte(processor(p, 0)),
                current: self.byte(processor(p, 1)),
                transit: self.byte(processor(p, 2)),
                mutex: self.byte(processor(p, 3)),
                observed: self.token(processor(p, 4)),
                sequence: self.0[processor(p, 6)],
                answer: self.byte(processor(p, 7)),
                probe: self.byte(probe(p)),
                first: self.byte(own_first(p)),
            };
        }
        for (m, row) in (1..).zip(&mut shown.mutex_rows) {
            *row = MutexRow {
                count: self.byte(mutex(m, 0)),
                first: self.byte(first(m)),
                owner: self.byte(mutex(m, 1)),
                token: self.token(mutex(m, 2)),
            };
        }
        for (k, row) in (1..).zip(&mut shown.thread_rows) {
            *row = ThreadRow {
                place: self.byte(thread(k, 0)),
                holder: self.byte(thread(k, 1)),
                next: self.byte(thread(k, 2)),
            };
        }
        Some(Record { snapshot: shown, born: self.byte(BORN), kept: self.0[KEPT] })
    }

    /// Whether field i has two bytes: moves applied and kept, sequences.
    fn is_wide(i: usize) -> bool {
        i == APPLIED
            || i == KEPT
            || (processor(0, 0)..mutex(0, 0)).contains(&i) && matches!((i - 14) % 8, 5 | 6)
            || (mutex(0, 0)..thread(0, 0)).contains(&i) && (i - 86) % 4 == 3
    }

    fn change(&mut self, i: usize, value: u16) {
        self.0[i] = if Fields::is_wide(i) { value } else { value % 256 };
    }
}

fn mixed(word: u64, byte: u8) -> u64 {
    (257 * word + u64::from(byte) + 1) % 1_000_000_007
}

fn hash(bytes: &[u8]) -> u64 {
    bytes.iter().fold(0, |hash, &byte| mixed(hash, byte))
}

/// Any bytes, from a seed.
fn noise(seed: u16, bytes: &mut [u8]) {
    let mut word = u64::from(seed);
    for byte in bytes {
        word = mixed(word, 0);
        *byte = word as u8;
    }
}

fn edit(bytes: &mut [u8], at: u16, new: [u8; 3]) {
    bytes[usize::from(at)..][..3].copy_from_slice(&new);
}

/// The bytes of a touch.
fn numbers(touch: Touch) -> String {
    touch.bytes().map(|byte| byte.to_string()).join(" ")
}

/// What scripted threads need: how many bytes of the scripts are lent, and the four buffers.
struct Scripted {
    used: usize,
    scripts: Vec<u8>,
    turns: Vec<u8>,
    answers: Vec<u8>,
    pictures: Vec<u8>,
}

impl Scripted {
    fn new() -> Scripted {
        Scripted {
            used: SCRIPTS,
            scripts: vec![0; SCRIPTS],
            turns: vec![0; TURNS],
            answers: vec![0; ANSWERS],
            pictures: vec![0; PICTURES],
        }
    }

    fn build(&mut self, seed: u16, most: u8) {
        noise(seed, &mut self.turns);
        for turn in &mut self.turns {
            *turn = (u16::from(*turn) % (u16::from(most) + 1)) as u8;
        }
    }

    fn vary(&mut self, seed: u16) {
        noise(seed, &mut self.answers);
        noise(seed, &mut self.pictures);
    }
}

struct Runner {
    fields: Fields,
    journal: Vec<u8>,
    stored: (Fields, Vec<u8>),
    lent: usize,
    scripted: Scripted,
    out: String,
}

impl Runner {
    fn new() -> Runner {
        let fields = Fields([0; FIELDS]);
        let journal = vec![0; JOURNAL + 1];
        let stored = (fields.clone(), journal.clone());
        let scripted = Scripted::new();
        Runner { fields, journal, stored, lent: JOURNAL + 1, scripted, out: String::new() }
    }

    fn line(&mut self, line: std::fmt::Arguments) {
        writeln!(self.out, "{line}").unwrap();
    }

    /// The refusal of a record with a row 0 that is not zero.
    fn unreadable(&self) -> u8 {
        if self.lent < JOURNAL {
            10
        } else {
            15
        }
    }

    fn report(&mut self, answer: Option<Answer<Record>>, journal: &[u8]) {
        let report = self.taken(answer, journal);
        self.line(format_args!("{report}"));
    }

    /// Takes an answer's record: its refusal, whether a field changed, whether the journal did.
    fn taken(&mut self, answer: Option<Answer<Record>>, journal: &[u8]) -> String {
        let (number, after) = match answer {
            None => (self.unreadable(), self.fields.clone()),
            Some(answer) => (answer.number, Fields::of(&answer.value)),
        };
        let record = u8::from(after != self.fields);
        let journal = u8::from(journal != self.journal);
        self.fields = after;
        format!("{number} {record} {journal}")
    }

    /// The same of a move or a turn, and what it touched.
    fn report_step(&mut self, step: Option<Step>, journal: &[u8]) {
        let touch = numbers(step.map_or(Touch::NONE, |step| step.touch));
        let report = self.taken(step.map(Step::answer), journal);
        self.line(format_args!("{report} {touch}"));
    }

    fn start(&mut self, config: Config) {
        let journal = self.journal.clone();
        self.report(Some(session::start(config)), &journal);
    }

    fn init(&mut self, config: Config) {
        let journal = self.journal.clone();
        let scripts = &self.scripted.scripts[..self.scripted.used];
        let answer = script::start(config, scripts);
        self.report(Some(answer), &journal);
    }

    fn turn(&mut self, p: u8) {
        let before = self.journal.clone();
        let lent = &mut self.journal[..self.lent];
        let scripts = &self.scripted.scripts[..self.scripted.used];
        let record = self.fields.record();
        let step = record.map(|record| script::turn(&record, lent, scripts, p));
        self.report_step(step, &before);
    }

    fn drive(&mut self, [turns, answers, pictures]: [usize; 3]) {
        let before = self.journal.clone();
        let lent = &mut self.journal[..self.lent];
        let all = &mut self.scripted;
        let answer = self.fields.record().map(|record| {
            script::class(
                &record,
                lent,
                &all.scripts[..all.used],
                &all.turns[..turns],
                &mut all.answers[..answers],
                &mut all.pictures[..pictures],
            )
        });
        let report = self.taken(answer, &before);
        let [answers, pictures] =
            [&self.scripted.answers, &self.scripted.pictures].map(|b| hash(b));
        self.line(format_args!("{report} {answers} {pictures}"));
    }

    fn make_move(&mut self, made: [u8; 3]) {
        let before = self.journal.clone();
        let lent = &mut self.journal[..self.lent];
        let step = self.fields.record().map(|record| session::make_move(&record, lent, made));
        self.report_step(step, &before);
    }

    fn last_touch(&mut self) {
        let lent = &self.journal[..self.lent];
        let record = self.fields.record();
        let touch = record.map_or(Touch::NONE, |record| session::last_touch(&record, lent));
        self.line(format_args!("{}", numbers(touch)));
    }

    fn sweep(&mut self, raise: u8, made: [u8; 3]) {
        let record = self.fields.record();
        let mut refusals = Vec::new();
        for i in 0..3 * usize::from(self.fields.at(KEPT)) {
            let byte = self.journal[i];
            self.journal[i] = byte.wrapping_add(raise);
            let lent = &mut self.journal[..self.lent];
            let answer = record.map(|record| session::make_move(&record, lent, made).number);
            refusals.push(answer.unwrap_or(self.unreadable()));
            self.journal[i] = byte;
        }
        let hash = hash(&refusals);
        self.line(format_args!("{hash}"));
    }

    fn goto(&mut self, step: u16) {
        let before = self.journal.clone();
        let lent = &self.journal[..self.lent];
        let record = self.fields.record();
        let answer = record.map(|record| session::goto(&record, lent, step.into()));
        self.report(answer, &before);
    }

    fn front(&mut self) {
        let lent = &self.journal[..self.lent];
        let (number, bytes) = match self.fields.record() {
            None => (self.unreadable(), &lent[..0]),
            Some(record) => {
                let answer = session::front(&record, lent);
                (answer.number, answer.value)
            }
        };
        let line = format!("{number} {} {}", bytes.len(), picture::hex(bytes));
        self.line(format_args!("{line}"));
    }

    fn picture(&mut self, room: usize) {
        let mut bytes = [0; 296];
        let record = self.fields.record();
        let lent = &mut bytes[..room];
        let number = record.map_or(15, |record| picture::write(&record.snapshot, lent));
        let [born, kept] = [BORN, KEPT].map(|i| self.fields.at(i));
        if number != 0 {
            return self.line(format_args!("{number} {born} {kept}"));
        }
        let [p, t, m] = [0, 1, 2].map(|i| self.fields.byte(i));
        let shown = picture::hex(&bytes[..picture::length(p, t, m)]);
        self.line(format_args!("{shown} {born} {kept}"));
    }

    fn hash(&mut self) {
        let hash = hash(&self.journal);
        self.line(format_args!("{hash}"));
    }

    fn queue(&mut self, thread: u8) {
        let record = self.fields.record();
        let turns = record.map_or(Ahead::Refused(15), |record| ahead(&record.snapshot, thread));
        match turns {
            Ahead::Waits(turns) => self.line(format_args!("{turns}")),
            Ahead::NotWaiting => self.line(format_args!("-")),
            Ahead::Refused(number) => self.line(format_args!("r{number}")),
        }
    }

    fn execute(&mut self, line: &str) {
        let numbers: Vec<u16> =
            line.split(' ').skip(1).map(|word| word.parse().unwrap_or(0)).collect();
        let number = |i: usize| numbers[i];
        let byte = |i: usize| u8::try_from(numbers[i]).unwrap();
        let config = || {
            let fifth = numbers.get(4).map_or(0, |_| byte(4));
            Config::new(byte(0), byte(1), byte(2), byte(3)).with_stealing(fifth)
        };
        match line.as_bytes()[0] {
            b's' => self.start(config()),
            b'm' => self.make_move([byte(0), byte(1), byte(2)]),
            b'g' => self.goto(number(0)),
            b'x' => self.last_touch(),
            b'f' => self.front(),
            b'p' => self.picture(numbers.first().map_or(296, |&n| usize::from(n))),
            b'q' => self.queue(byte(0)),
            b'h' => self.hash(),
            b'j' => self.sweep(byte(0), [byte(1), byte(2), byte(3)]),
            b'l' => self.lent = usize::from(number(0)),
            b'k' => self.stored = (self.fields.clone(), self.journal.clone()),
            b'a' => (self.fields, self.journal) = self.stored.clone(),
            b'r' => self.fields = self.stored.0.clone(),
            b'c' => self.fields.change(usize::from(number(0)), number(1)),
            b'w' => self.journal[usize::from(number(0))] = byte(1),
            b'n' => noise(number(0), &mut self.journal),
            b'i' => self.init(config()),
            b't' => self.turn(byte(0)),
            b'd' => self.drive([0, 1, 2].map(|i| usize::from(number(i)))),
            b'e' => edit(&mut self.scripted.scripts, number(0), [byte(1), byte(2), byte(3)]),
            b'o' => edit(&mut self.scripted.turns, number(0), [byte(1), byte(2), byte(3)]),
            b'u' => self.scripted.used = usize::from(number(0)),
            b'b' => self.scripted.build(number(0), byte(1)),
            b'v' => self.scripted.vary(number(0)),
            b'#' => {}
            _ => panic!("no such command: {line}"),
        }
    }
}

/// What the script's calls print.
pub fn answers(script: &str) -> String {
    let mut runner = Runner::new();
    script.lines().for_each(|line| runner.execute(line));
    runner.out
}
