//! Writes the script's lines on scripted threads.

use crate::commands::{BORN, PICTURES, SCRIPTS, TURNS};
use crate::script::{table, Script};
use independent::journal::JOURNAL;
use independent::machine::Config;
use independent::picture;
use independent::script::{script, Call};
use std::fmt::Write;

/// Writes the script, and knows what it has put into the buffers.
pub struct Writer<'a> {
    pub s: &'a mut Script,
    scripts: [u8; SCRIPTS],
    turns: [u8; TURNS],
}

pub fn picture_length(config: Config) -> usize {
    picture::length(config.processors, config.threads, config.mutexes)
}

/// Lines that change bytes to others, three at a time, where they differ.
fn changes(word: &str, old: &mut [u8], new: &[u8]) -> String {
    let mut text = String::new();
    for at in (0..new.len()).step_by(3) {
        let at = at.min(old.len() - 3);
        let three: Vec<u8> = (at..at + 3).map(|i| *new.get(i).unwrap_or(&old[i])).collect();
        if old[at..at + 3] != three {
            old[at..at + 3].copy_from_slice(&three);
            let &[a, b, c] = &three[..] else { unreachable!() };
            writeln!(text, "{word} {at} {a} {b} {c}").unwrap();
        }
    }
    text
}

impl Writer<'_> {
    pub fn new(s: &mut Script) -> Writer<'_> {
        Writer { s, scripts: [0; SCRIPTS], turns: [0; TURNS] }
    }

    pub fn say(&mut self, line: &str) {
        self.s.say(line);
    }

    /// The first two causes of a call, each where it is wanted: a journal one byte short, a wrong B.
    pub fn lend_or_break(&mut self, short: bool, broken: bool) {
        self.s.lend(if short { JOURNAL - 1 } else { JOURNAL });
        if broken {
            self.s.change(BORN, 0);
        }
    }

    pub fn all(&mut self, lines: &[&str]) {
        self.s.all(lines);
    }

    pub fn init(&mut self, config: Config) {
        self.say(&format!("init {}", table(config)));
    }

    /// Puts scripts, as bytes, at the front of their buffer.
    pub fn scripts(&mut self, bytes: &[u8]) {
        let lines = changes("e", &mut self.scripts, bytes);
        self.s.raw(&lines);
    }

    pub fn calls(&mut self, scripts: &[&[Call]]) {
        let bytes: Vec<u8> = scripts.iter().flat_map(|calls| script(calls)).collect();
        self.scripts(&bytes);
    }

    pub fn script_byte(&mut self, at: usize, byte: u8) {
        let mut bytes = self.scripts;
        bytes[at] = byte;
        self.scripts(&bytes);
    }

    pub fn order(&mut self, turns: &[u8]) {
        let lines = changes("o", &mut self.turns, turns);
        self.s.raw(&lines);
    }

    /// The list of turns is filled with numbers from 0 to `most`.
    pub fn build(&mut self, seed: u64, most: u8) {
        self.say(&format!("build {seed} {most}"));
        self.turns = [255; TURNS];
    }

    pub fn lend_scripts(&mut self, length: usize) {
        self.say(&format!("use {length}"));
    }

    pub fn turns(&mut self, processors: &[u8]) {
        for p in processors {
            self.say(&format!("t {p}"));
        }
    }

    /// A class of so many turns, both buffers of just the length needed.
    pub fn drive(&mut self, config: Config, turns: usize) {
        self.drive_in(turns, turns, turns * picture_length(config));
    }

    /// So many accepted turns of one processor, by classes.
    pub fn drive_all(&mut self, config: Config, p: u8, count: usize) {
        self.order(&[p; TURNS]);
        let most = TURNS.min(PICTURES / picture_length(config));
        let mut left = count;
        while left > 0 {
            self.drive(config, left.min(most));
            left -= left.min(most);
        }
    }

    pub fn drive_in(&mut self, turns: usize, answers: usize, pictures: usize) {
        self.say(&format!("drive {turns} {answers} {pictures}"));
    }

    /// A start, a turn and a class with the scripts as they are, all from what was kept.
    pub fn probe(&mut self, config: Config) {
        self.init(config);
        self.all(&["a", "t 1", "a"]);
        self.drive(config, 2);
        self.say("a");
    }
}
