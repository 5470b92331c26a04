//! The script: the sessions of document 01, and each refusal at its boundaries.

use crate::chains;
use crate::commands::{
    first, mutex, processor, thread, Fields, APPLIED, BORN, FIELDS, KEPT, STEALING,
};
use crate::goings;
use crate::journals;
use crate::owner_exits;
use crate::scripted;
use crate::writer::Writer;
use independent::journal::JOURNAL;
use independent::machine::{
    Config, Move, Position, State, CREATE, EXIT, GO, LOCK, TRYLOCK, UNLOCK, YIELD,
};
use independent::random::{Call, Driver, Rates, Trail};
use independent::record::Record;
use independent::worked::{self, Worked};
use std::fmt::Write;

/// The least length of a journal, one byte less and one more.
pub const LENGTHS: [usize; 3] = [JOURNAL - 1, JOURNAL, JOURNAL + 1];
pub const MOST: u16 = 4_000;

/// What stands behind a start's four numbers.
pub const FIFTHS: [&str; 5] = ["", " 0", " 1", " 2", " 255"];

/// A start table's numbers; the fifth is left out where it is 0.
pub fn table(config: Config) -> String {
    let Config { processors, threads, mutexes, born, stealing } = config;
    let fifth = if stealing == 0 { String::new() } else { format!(" {stealing}") };
    format!("{processors} {threads} {mutexes} {born}{fifth}")
}

#[derive(Default)]
pub struct Script(String);

impl Script {
    pub fn say(&mut self, line: &str) {
        self.0.push_str(line);
        self.0.push('\n');
    }

    /// Adds whole lines.
    pub fn raw(&mut self, lines: &str) {
        self.0.push_str(lines);
    }

    pub fn all(&mut self, lines: &[&str]) {
        lines.iter().for_each(|line| self.say(line));
    }

    pub fn start(&mut self, config: Config) {
        writeln!(self.0, "start {}", table(config)).unwrap();
    }

    pub fn make(&mut self, [p, a, o]: Move) {
        writeln!(self.0, "m {p} {a} {o}").unwrap();
    }

    pub fn change(&mut self, field: usize, value: u16) {
        writeln!(self.0, "c {field} {value}").unwrap();
    }

    /// So many moves are said to stand and to be kept.
    pub fn say_applied(&mut self, applied: u16) {
        self.raw(&said(applied));
    }

    pub fn goto(&mut self, step: usize) {
        writeln!(self.0, "g {step}").unwrap();
    }

    pub fn write(&mut self, at: usize, byte: u8) {
        writeln!(self.0, "w {at} {byte}").unwrap();
    }

    pub fn lend(&mut self, length: usize) {
        writeln!(self.0, "lend {length}").unwrap();
    }

    pub fn played(&mut self, worked: &Worked) {
        self.start(worked.config);
        worked.moves.iter().for_each(|&made| self.make(made));
    }

    /// A call after an edit, which is lines; then record and journal are brought back.
    pub fn edited(&mut self, edit: &str, call: &str) {
        self.raw(edit);
        self.all(&[call, "a"]);
    }

    /// After an edit the last move's words, a going, a move and its processor's turn, each from what
    /// was stored.
    pub fn tried(&mut self, edit: &str, [p, a, o]: Move) {
        let calls =
            ["x".to_string(), "g 0".to_string(), format!("m {p} {a} {o}"), format!("t {p}")];
        for call in calls {
            self.edited(edit, &call);
        }
    }

    /// Tries a move and brings record and journal back.
    fn try_move(&mut self, [p, a, o]: Move) {
        self.edited("", &format!("m {p} {a} {o}"));
    }

    /// Tries a move with each byte of the kept moves changed in turn, to two others.
    pub fn swept(&mut self, [p, a, o]: Move) {
        writeln!(self.0, "keep\njournal 1 {p} {a} {o}\njournal 255 {p} {a} {o}\nagain").unwrap();
    }

    /// Sets all fields that differ from the all-zero record's, which a refused start gives.
    pub fn load(&mut self, record: &Record) {
        self.start(Config::new(0, 0, 0, 0));
        let fields = Fields::of(record);
        for i in (0..FIELDS).filter(|&i| fields.at(i) != 0) {
            self.change(i, fields.at(i));
        }
    }
}

/// Lines by which so many moves are said to stand and to be kept.
pub fn said(applied: u16) -> String {
    format!("c {APPLIED} {applied}\nc {KEPT} {applied}\n")
}

/// Every call, with an operand that fits.
fn calls(p: u8) -> [Move; 6] {
    [[p, LOCK, 1], [p, TRYLOCK, 1], [p, UNLOCK, 1], [p, YIELD, 0], [p, EXIT, 0], [p, CREATE, 1]]
}

/// 1: all combinations of the boundaries. A refused start's record is all zero.
fn starts(s: &mut Script) {
    s.say("# K1, K2, K3");
    for (p, b) in [(8, 32), (9, 32), (8, 0)] {
        s.start(Config::new(p, 32, 8, b));
        s.all(&["picture", "xtouch", "move 1 0 0", "xtouch", "move 1 4 0", "goto 0", "front"]);
    }
    s.say("# 1 at its boundaries");
    for p in [0, 1, 8, 9, 255] {
        for t in [0u8, 1, 32, 33, 255] {
            for m in [0, 1, 8, 9, 255] {
                for b in [0, 1, t, t.wrapping_add(1)] {
                    s.start(Config::new(p, t, m, b));
                }
            }
        }
    }
    s.say("# a fifth number");
    for fifth in FIFTHS {
        writeln!(s.0, "start 3 9 1 8{fifth}").unwrap();
        s.all(&["picture", "move 1 4 0", "move 1 0 0", "goto 1", "front"]);
        writeln!(s.0, "start 3 9 1 10{fifth}\nstart 3 3 1 1{fifth}").unwrap();
        s.say("picture");
    }
    for (p, t, m, b) in
        [(1, 1, 1, 1), (1, 2, 1, 1), (2, 5, 2, 4), (3, 5, 1, 2), (8, 32, 8, 1), (8, 9, 3, 9)]
    {
        s.start(Config::new(p, t, m, b));
        s.say("picture");
    }
}

/// A session with its pictures and words, each move after what is refused by 4 or 5 there, then back
/// to its start, past its end and forward again.
fn there_and_back(s: &mut Script, name: &str, worked: &Worked) {
    writeln!(s.0, "# {name}").unwrap();
    s.start(worked.config);
    s.say("p");
    let mut state = State::start(worked.config);
    for &made in &worked.moves {
        let p = made[0];
        if state.processor(p).position == Position::App {
            s.make([p, GO, 0]);
        } else {
            calls(p).into_iter().for_each(|call| s.make(call));
        }
        s.say("x");
        s.make(made);
        s.all(&["x", "p"]);
        state.try_move(made).expect("worked moves are accepted");
    }
    s.all(&["front", "hash"]);
    let kept = worked.moves.len();
    for step in (0..kept).rev().chain([kept + 1]).chain((2..=kept).step_by(5)) {
        s.goto(step);
        s.say("x");
        if step % 3 == 0 {
            s.say("p");
        }
    }
    s.all(&["front", "hash"]);
}

/// Creates, yields and exits.
fn creates_yields_exits() -> Worked {
    Worked::new(Config::new(2, 4, 1, 1))
        .call(1, CREATE, 3)
        .go(1, 1)
        .go(2, 2)
        .call(2, CREATE, 2)
        .go(2, 1)
        .call(1, YIELD, 0)
        .go(1, 5)
        .call(2, EXIT, 0)
        .go(2, 2)
        .call(2, YIELD, 0)
        .go(2, 1)
        .call(1, EXIT, 0)
        .go(1, 2)
}

fn worked_sessions(s: &mut Script) {
    s.say("noise 1");
    there_and_back(s, "K4", &worked::k4());
    there_and_back(s, "K5", &worked::k5());
    s.say("noise 2");
    there_and_back(s, "K6", &worked::k6());
    there_and_back(s, "K7", &worked::k7());
    there_and_back(s, "K8", &worked::k8());
    there_and_back(s, "K8 with trylocks", &worked::k8_with_trylocks());
    there_and_back(s, "creates, yields, exits", &creates_yields_exits());
    there_and_back(
        s,
        "other outcomes",
        &worked::other_outcomes(Worked::new(Config::new(3, 3, 1, 3))),
    );
    for p in 1..=3 {
        there_and_back(s, &format!("processor {p} takes from all queues"), &worked::steals(p));
    }
    there_and_back(s, "threads that join their own queues", &worked::own_queues());
    s.say("# 16: no moves give this record, at L8");
    s.load(&worked::k8_record());
    s.all(&["picture", "x", "move 2 0 0", "turn 2", "picture", "front", "goto 0"]);
    s.say("# K9");
    s.played(&Worked::new(Config::new(2, 2, 1, 2)).call(1, LOCK, 1).go(1, 1));
    s.all(&["move 2 3 1", "picture", "move 1 3 1", "picture"]);
    s.say("# 16 and 15: so many moves are said to stand");
    for applied in [1, MOST - 1, MOST, MOST + 1] {
        s.say("noise 3");
        s.load(&worked::k10_record(applied));
        s.all(&["picture", "x", "move 2 0 0", "turn 2", "picture", "hash"]);
    }
    s.say("# Run");
    for length in [JOURNAL, JOURNAL - 1] {
        s.start(Config::new(1, 1, 1, 1));
        s.lend(length);
        s.all(&["move 1 1 1", "x", "front", "hash"]);
    }
    s.lend(JOURNAL + 1);
}

/// 2 and 3 at the boundaries of processor, action and operand, at App and elsewhere.
fn wrong_moves(s: &mut Script) {
    for (p, t, m, b) in [(1, 1, 1, 1), (2, 3, 2, 2), (8, 32, 8, 32)] {
        writeln!(s.0, "# 2, 3 with {p} processors, {t} threads, {m} mutexes").unwrap();
        for locks in [false, true] {
            s.start(Config::new(p, t, m, b));
            if locks {
                s.make([1, LOCK, 1]);
            }
            s.say("keep");
            for wrong in [0, p, p + 1, 255] {
                for made in [[wrong, GO, 0], [wrong, LOCK, m], [wrong, 7, 0], [wrong, 255, 255]] {
                    s.try_move(made);
                }
            }
            let mut operands = vec![0, 1, m, m + 1, t, t + 1, 255];
            operands.sort_unstable();
            operands.dedup();
            for action in [0, 1, 2, 3, 4, 5, 6, 7, 128, 255] {
                operands.iter().for_each(|&operand| s.try_move([1, action, operand]));
            }
            s.say("# 16 comes before 2, 3, 8 and the rest, where 4,000 are said to stand");
            s.say_applied(MOST);
            calls_at_most(s, p, t, m);
        }
    }
}

/// Moves that are refused where 4,000 stand: by 2, by 3, by 8 alone and with 4, 5, 6 or 7.
pub fn calls_at_most(s: &mut Script, p: u8, t: u8, m: u8) {
    for made in [[0, 9, 9], [p + 1, GO, 0], [1, 7, 0], [1, GO, 1], [1, LOCK, m + 1]] {
        s.make(made);
    }
    for made in [[1, GO, 0], [1, LOCK, 1], [1, UNLOCK, 1], [1, CREATE, t], [p, EXIT, 0]] {
        s.make(made);
    }
}

/// 6: nobody owns, another does, the owner has yielded, runs again, has tried to exit.
fn unlocks(s: &mut Script) {
    s.say("# 6");
    let begun = Worked::new(Config::new(1, 2, 2, 2));
    let owning = begun.clone().call(1, LOCK, 1).go(1, 1);
    let yielded = owning.clone().call(1, YIELD, 0).go(1, 5);
    let runs = yielded.clone().call(1, YIELD, 0).go(1, 5);
    let unlocked = runs.clone().call(1, UNLOCK, 1).go(1, 1);
    let tried = owning.clone().call(1, EXIT, 0).go(1, 2);
    for one in [begun, owning, yielded, runs, unlocked, tried, worked::k6(), worked::k7()] {
        s.played(&one);
        s.say("keep");
        for p in 1..=one.config.processors {
            for m in 1..=one.config.mutexes {
                s.try_move([p, UNLOCK, m]);
            }
        }
        s.say("hash");
    }
}

/// 7: threads new, ready, waiting, current, in transit and terminated.
fn creates(s: &mut Script) {
    s.say("# 7");
    let config = Config::new(3, 7, 1, 5);
    let mixed = Worked::new(config)
        .call(1, LOCK, 1)
        .go(1, 1)
        .call(2, LOCK, 1)
        .go(2, 4)
        .call(3, EXIT, 0)
        .go(3, 1)
        .go(2, 2);
    for one in [mixed.clone(), mixed.call(1, CREATE, 7).go(1, 1)] {
        s.played(&one);
        s.all(&["picture", "keep"]);
        for p in [1, 2, 3] {
            for t in 0..=config.threads + 1 {
                s.try_move([p, CREATE, t]);
            }
        }
        s.say("hash");
    }
}

/// Every processor's go and calls, from states inside calls and at their ends; the picture in a
/// buffer of no bytes, and turns ahead of each thread.
fn every_move(s: &mut Script) {
    s.say("# every move");
    let (k5, k6, k7) = (worked::k5(), worked::k6(), worked::k7());
    let (steals, own) = (worked::steals(2), worked::own_queues());
    let some = random(Config::new(3, 7, 2, 7), 11, 150);
    let each = random(Config::new(3, 7, 2, 7).with_stealing(1), 11, 150);
    let less: [(&Worked, &[usize]); 9] = [
        (&worked::k4(), &[0]),
        (&worked::session_s(2), &[0]),
        (&k5, &[3, 1, 0]),
        (&k6, &[4, 2, 0]),
        (&k7, &[6, 3, 1, 0]),
        (&steals, &[16, 11, 10, 5]),
        (&own, &[0]),
        (&some, &[0]),
        (&each, &[0]),
    ];
    for (worked, less) in less {
        for less in less {
            s.played(&worked.front(worked.moves.len() - less));
            s.all(&["keep", "p", "p 0", "x"]);
            for p in 1..=worked.config.processors {
                s.try_move([p, GO, 0]);
                calls(p).into_iter().for_each(|call| s.try_move(call));
            }
            (0..=worked.config.threads + 1).for_each(|t| s.say(&format!("q {t}")));
        }
    }
}

/// 9, and the order 10, 15, 9, 16: a journal of any bytes is no cause where nothing is kept.
fn goings_with_none(s: &mut Script) {
    s.say("# 9");
    s.say("noise 4");
    for config in [Config::new(1, 1, 1, 1), Config::new(8, 32, 8, 20)] {
        s.start(config);
        for length in LENGTHS {
            s.lend(length);
            s.all(&["goto 1", "goto 0", "goto 65535", "front", "x"]);
        }
        s.say("keep");
        for born in [0, u16::from(config.threads) + 1] {
            s.change(BORN, born);
            s.all(&["goto 1", "goto 0", "again"]);
        }
    }
    s.say("# nothing applied, and yet not the start's state");
    s.played(&worked::k5());
    for field in [APPLIED, KEPT] {
        s.change(field, 0);
        s.all(&["x", "goto 1", "goto 0", "move 1 1 1", "turn 1", "front", "goto 17"]);
    }
}

/// 10 for move, going and front, before every other number, and no words.
fn short_journals(s: &mut Script) {
    s.say("# 10");
    let k7 = worked::k7();
    for length in [0, 1, JOURNAL - 3, JOURNAL - 2].into_iter().chain(LENGTHS) {
        s.say("noise 5");
        s.played(&k7);
        s.say("keep");
        s.lend(length);
        for made in [[1, LOCK, 1], [1, GO, 0], [9, 9, 9], [1, UNLOCK, 1]] {
            s.try_move(made);
        }
        s.all(&["x", "front", "goto 15", "x", "front", "hash", "again"]);
        for (field, value) in [(BORN, 0), (APPLIED, 0), (APPLIED, MOST), (processor(0, 0), 1)] {
            s.change(field, value);
            s.try_move([9, 9, 9]);
            s.change(field, value);
            s.all(&["x", "goto 99", "front", "again"]);
        }
        s.say_applied(MOST - 1);
        s.all(&["move 1 1 1", "hash"]);
        s.lend(JOURNAL + 1);
    }
}

/// The highest value that field i's rule allows in a record of these sizes; rows 0 and rows past
/// the sizes are zero.
fn highest(fields: &Fields, i: usize) -> u16 {
    let [p, t, m] = [fields.at(0), fields.at(1), fields.at(2)];
    let within = |row: usize, size: u16, high: u16| {
        if (1..=usize::from(size)).contains(&row) {
            high
        } else {
            0
        }
    };
    match i {
        0 | 2 => 8,
        1 => 32,
        APPLIED => MOST,
        BORN => t,
        5 => t * (1 - fields.at(STEALING)),
        6..=13 => within(i - 5, m, t),
        14..=85 => within((i - 14) / 8, p, [24, t, t, m, p, MOST, MOST, 2][(i - 14) % 8]),
        86..=121 => within((i - 86) / 4, m, [t + 1, t, p, MOST][(i - 86) % 4]),
        122..=220 => within((i - 122) / 3, t, [5, p.max(m), t][(i - 122) % 3]),
        STEALING => 1,
        KEPT => MOST,
        222..=229 => within(i - 221, p, t * fields.at(STEALING)),
        _ => within(i - 230, p, (p - 1) * fields.at(STEALING)),
    }
}

/// Values that a field does not have: around its own, its rule's highest and one more, the
/// largest of all.
fn damages(fields: &Fields, i: usize, few: bool) -> Vec<u16> {
    let (value, high) = (fields.at(i), highest(fields, i));
    if high == 0 {
        return vec![1];
    }
    let mut values = vec![0, value.wrapping_add(1), high + 1];
    if !few {
        values.extend([value.saturating_sub(1), high, 65_535]);
    }
    values.sort_unstable();
    values.dedup();
    values.retain(|&one| one != value && (i != APPLIED || one != high));
    values
}

/// 15 and 16: each field of a record changed, then the last move's words, a going, the front, the
/// picture, turns ahead, a move, a turn and the words again. With more threads or mutexes, or with the
/// other choice of ready queues where none was used, the same moves give the record.
fn damaged(s: &mut Script, name: &str, record: &Record, made: Move, few: bool) {
    writeln!(s.0, "# 15, 16: fields of {name}").unwrap();
    s.all(&["keep", "picture"]);
    let fields = Fields::of(record);
    let ([p, a, o], step) = (made, record.kept - 1);
    let looks = if few { "p\nq 1\n" } else { "p\np 0\nq 0\nq 1\nq 33\n" };
    for i in 0..FIELDS {
        for value in damages(&fields, i, few) {
            let calls = format!("x\ng {step}\nf\n{looks}m {p} {a} {o}\nt {p}\nx\na\n");
            write!(s.0, "c {i} {value}\n{calls}").unwrap();
        }
    }
    s.say("hash");
}

/// An accepted session of random moves.
fn random(config: Config, seed: u64, count: usize) -> Worked {
    Driver::new(seed, Rates::ACCEPTED).session(config, count)
}

fn damaged_records(s: &mut Script) {
    let k7 = worked::k7();
    let at_gt3 = k7.front(k7.moves.len() - 3);
    let full = random(Config::new(8, 32, 8, 20), 5, 40);
    let each = random(Config::new(4, 9, 2, 8).with_stealing(1), 7, 60);
    for (name, one, made, few) in [
        ("K7 at GT3", at_gt3, [3, GO, 0], false),
        ("a full record", full, [0, GO, 0], true),
        ("a record with a ready queue for each processor", each, [0, GO, 0], true),
        ("a third look", worked::steals(1).front(12), [1, GO, 0], false),
    ] {
        s.say("noise 6");
        s.played(&one);
        damaged(s, name, &one.record(), made, few);
    }
}

/// Records with a line that would leave the rules, and with one less. No session has them, so 15 is
/// no number of a step any more: 16 comes before it.
fn damaging_steps(s: &mut Script) {
    s.say("# 16: steps that would leave the rules");
    for (name, record, p) in worked::steps_out_of_rules() {
        writeln!(s.0, "# at {name}").unwrap();
        s.load(&record);
        s.all(&["keep", "picture"]);
        for made in [[p, GO, 0], [p, LOCK, 1], [p, GO, 1], [9, GO, 0]] {
            s.try_move(made);
        }
        s.say_applied(MOST);
        s.try_move([p, GO, 0]);
        let (field, value) = match name {
            "L1" => (mutex(1, 0), 1),
            "TL3" => (mutex(1, 0), 3),
            "U1" => (mutex(1, 0), 1),
            "H5" => (processor(1, 6), MOST - 1),
            _ => (first(1), 2),
        };
        s.change(field, value);
        if name == "L9" {
            s.change(thread(2, 0), 2);
            s.change(thread(2, 1), 1);
        }
        let calls = [format!("move {p} 0 0"), format!("turn {p}")];
        s.all(&["picture", &calls[0], &calls[1], "x", "front", "hash"]);
    }
}

/// A random session with refused calls and goings, its words and pictures now and then.
fn random_calls(s: &mut Script, config: Config, seed: u64) {
    s.start(config);
    let mut driver = Driver::new(seed, Rates { refused: 8, back: 60, goto: 12, owner_exits: 0 });
    let mut trail = Trail::new(config);
    for count in 1..=250 {
        let call = driver.next_call(trail.state(), trail.kept());
        trail.call(call);
        match call {
            Call::Move(made) => s.make(made),
            Call::Goto(step) => s.goto(step.into()),
        }
        if count % 3 == 0 {
            s.say("x");
        }
        if count % 25 == 0 {
            s.say("p");
        }
    }
}

fn random_sessions(s: &mut Script) {
    for (seed, (p, t, m, b, stealing)) in (1..).zip([
        (2, 3, 1, 3, 0),
        (3, 4, 2, 2, 0),
        (5, 9, 2, 9, 0),
        (8, 32, 8, 12, 0),
        (3, 9, 1, 8, 1),
        (8, 32, 2, 24, 1),
    ]) {
        let config = Config::new(p, t, m, b).with_stealing(stealing);
        writeln!(s.0, "# random session {seed}").unwrap();
        writeln!(s.0, "noise {seed}").unwrap();
        random_calls(s, config, seed);
        s.all(&["front", "hash"]);
        s.swept([1, LOCK, 1]);
    }
}

/// The move that the session of 4,000 once had there, an exit by an owner; it is tried and refused.
const OWNER_EXIT: (usize, Move) = (621, [8, EXIT, 0]);

/// 4,000 moves, the refused ones after them, edited journals, goings from the end, other moves.
fn longest(s: &mut Script) {
    s.say("# 4,000 moves");
    let worked = random(Config::new(8, 32, 8, 24), 9, usize::from(MOST));
    s.say("noise 9");
    s.start(worked.config);
    for (count, &made) in (1..).zip(&worked.moves) {
        if count == OWNER_EXIT.0 {
            s.make(OWNER_EXIT.1);
        }
        s.make(made);
        if count % 500 == 0 {
            s.all(&["p", "h", "x"]);
        }
    }
    s.say("hash");
    full(s);
    for length in LENGTHS {
        s.lend(length);
        s.say("front");
    }
    s.say("# 16 in a full journal, where a move would be refused by 8");
    edited_places(s, &worked, &[0, 2_000, 3_999]);
    s.write(JOURNAL, 77);
    s.all(&["goto 3999", "picture", "again"]);
    s.say("# 16 with 3,999 moves that stand, all kept");
    s.all(&["goto 3999", "keep"]);
    edited_places(s, &worked, &[0, 1, 1_333, 3_000, 3_997, 3_998, 3_999]);
    s.say("# 16 with 3,999 moves");
    s.all(&[&format!("c {KEPT} 3999"), "keep"]);
    edited_places(s, &worked, &[0, 3_998, 3_999]);
    s.swept(worked.moves[3_999]);
    s.make(worked.moves[3_999]);
    other_end(s, &worked);
    full(s);
    s.all(&["goto 3999", "picture", "hash", "move 9 9 9", "goto 3998", "hash"]);
}

/// Goings from the end of 4,000 moves and over all of them, and other moves in the last ones' place.
fn other_end(s: &mut Script, worked: &Worked) {
    s.say("# back over 4,000 moves and forward again, and other moves");
    let less = 100;
    let near = [3_999, 3_998, 3_990, 3_950];
    let far = [0, 4_001, 3_999, 4_000, 1, 2_000, 4_000];
    for step in near.into_iter().chain(far).chain([worked.moves.len() - less]) {
        s.goto(step);
        s.all(&["picture", "hash"]);
    }
    let mut state = worked.front(worked.moves.len() - less).state();
    let mut driver = Driver::new(10, Rates::ACCEPTED);
    for _ in 0..less {
        let made = driver.likely_move(&state);
        state.try_move(made).expect("a likely move is accepted");
        s.make(made);
        s.goto(usize::from(state.applied) + 1);
    }
    s.all(&["picture", "hash"]);
}

/// All bytes of some moves changed, each to two others; calls with the last move.
fn edited_places(s: &mut Script, worked: &Worked, places: &[usize]) {
    let bytes = worked.moves.concat();
    for at in places.iter().flat_map(|place| 3 * place..3 * place + 3) {
        for other in [bytes[at] ^ 1, 255] {
            s.tried(&format!("w {at} {other}\n"), worked.moves[worked.moves.len() - 1]);
        }
    }
}

/// With 4,000 moves applied: the refused 4,001st, and each length lent.
fn full(s: &mut Script) {
    s.say("# the 4,001st");
    for made in [[1, GO, 0], [1, LOCK, 1], [9, GO, 0], [1, 7, 0], [8, UNLOCK, 1], [8, GO, 0]] {
        s.make(made);
    }
    s.say("keep");
    for length in LENGTHS {
        s.lend(length);
        s.all(&["x", "move 1 0 0", "goto 4001", "goto 3999", "hash", "again"]);
    }
}

/// The whole script.
pub fn whole() -> String {
    let mut script = Script::default();
    let s = &mut script;
    starts(s);
    worked_sessions(s);
    wrong_moves(s);
    unlocks(s);
    creates(s);
    every_move(s);
    goings_with_none(s);
    short_journals(s);
    damaged_records(s);
    damaging_steps(s);
    random_sessions(s);
    chains::add(s);
    longest(s);
    let w = &mut Writer::new(s);
    scripted::add(w);
    journals::add(w);
    owner_exits::add(w);
    goings::add(w);
    script.0
}
