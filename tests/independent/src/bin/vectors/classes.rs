//! Classes with the answers and the pictures that they must give.

use crate::{field, Folder};
use independent::journal::JOURNAL;
use independent::machine::{Config, State, CREATE, EXIT, GO, LOCK, TRYLOCK, UNLOCK, YIELD};
use independent::picture::{self, hex};
use independent::random::Generator;
use independent::script::{self, script, Call, SCRIPT};
use independent::spelling::table;
use independent::worked::{self, Worked};
use std::fmt::Write;
use std::io;

/// A class from a start.
struct Class {
    config: Config,
    scripts: Vec<u8>,
    turns: Vec<u8>,
}

/// What a class gives: its number, and what it wrote.
struct Taken {
    number: u8,
    answers: Vec<u8>,
    pictures: Vec<u8>,
}

impl Class {
    fn new(config: Config, scripts: &[&[Call]], turns: &[u8]) -> Class {
        let scripts = scripts.iter().flat_map(|calls| script(calls)).collect();
        Class { config, scripts, turns: turns.to_vec() }
    }

    /// The worked session as a class: its calls as scripts, its processors as turns.
    fn of(worked: &Worked) -> Class {
        let mut calls = vec![Vec::new(); usize::from(worked.config.threads)];
        let mut state = State::start(worked.config);
        for &[p, action, operand] in &worked.moves {
            if action != GO {
                calls[usize::from(state.processor(p).current) - 1].push([action, operand]);
            }
            state.try_move([p, action, operand]).expect("worked moves are accepted");
        }
        let scripts: Vec<&[Call]> = calls.iter().map(|calls| &calls[..]).collect();
        let turns: Vec<u8> = worked.moves.iter().map(|made| made[0]).collect();
        Class::new(worked.config, &scripts, &turns)
    }

    fn random(seed: u64, config: Config, turns: usize) -> Class {
        let mut generator = Generator::new(seed);
        let scripts = generator.scripts(config);
        Class { config, scripts, turns: generator.turns(config, turns) }
    }

    fn picture_length(&self) -> usize {
        picture::length(self.config.processors, self.config.threads, self.config.mutexes)
    }

    /// The buffers' least lengths.
    fn rooms(&self) -> (usize, usize) {
        (self.turns.len(), self.turns.len() * self.picture_length())
    }

    fn take(&self, answers: usize, pictures: usize) -> Taken {
        let (mut answers, mut pictures) = (vec![0; answers], vec![0; pictures]);
        let mut taken = script::start(self.config, &self.scripts);
        if taken.is_accepted() {
            taken = script::class(
                &taken.value,
                &mut [0; JOURNAL],
                &self.scripts,
                &self.turns,
                &mut answers,
                &mut pictures,
            );
        }
        Taken { number: taken.number, answers, pictures }
    }

    /// The file of an accepted class, with its pictures or their hash alone.
    fn text(&self, with_pictures: bool) -> String {
        let (answers, pictures) = self.rooms();
        let taken = self.take(answers, pictures);
        assert_eq!(taken.number, 0);
        let mut text = format!("table {}\n", table(self.config));
        writeln!(text, "scripts {}", field(&self.scripts)).unwrap();
        writeln!(text, "turns {}", field(&self.turns)).unwrap();
        writeln!(text, "answers {}", field(&taken.answers)).unwrap();
        writeln!(text, "hash {:016x}", hash(&taken.pictures)).unwrap();
        for shown in taken.pictures.chunks(self.picture_length()).filter(|_| with_pictures) {
            writeln!(text, "picture {}", hex(shown)).unwrap();
        }
        text
    }

    /// A line of the list of refused classes.
    fn line(&self, answers: usize, pictures: usize) -> String {
        let number = self.take(answers, pictures).number;
        let (scripts, turns) = (field(&self.scripts), field(&self.turns));
        let table = table(self.config);
        format!("{number} {table} {answers} {pictures} {scripts} {turns}\n")
    }
}

/// FNV-1a with 64 bits.
fn hash(bytes: &[u8]) -> u64 {
    let step = |hash: u64, &byte: &u8| (hash ^ u64::from(byte)).wrapping_mul(0x100_0000_01b3);
    bytes.iter().fold(0xcbf2_9ce4_8422_2325, step)
}

/// Each answer of a turn but 8, and calls tried again after others have moved.
fn refused_turns() -> Class {
    let scripts: [&[Call]; 5] = [
        &[[LOCK, 1], [UNLOCK, 2], [YIELD, 0]],
        &[[YIELD, 0], [LOCK, 3]],
        &[[CREATE, 5], [CREATE, 4], [CREATE, 5]],
        &[[TRYLOCK, 1], [TRYLOCK, 2], [UNLOCK, 2], [UNLOCK, 1]],
        &[[YIELD, 1]],
    ];
    let turns = [
        0, 1, 2, 3, 4, 1, 2, 3, 4, 1, 2, 3, 4, 1, 2, 3, 4, 4, 4, 4, 4, 4, 5, 255, 3, 1, 2, 4, 4, 4,
        3, 2, 1, 0,
    ];
    Class::new(Config::new(4, 5, 2, 4), &scripts, &turns)
}

/// Threads without calls exit at once, others when theirs are made; one is left an owner and may not.
fn spent() -> Class {
    let scripts: [&[Call]; 4] = [&[], &[[LOCK, 1]], &[[YIELD, 0]; 6], &[[LOCK, 1], [UNLOCK, 1]]];
    Class::new(Config::new(2, 4, 1, 4), &scripts, &[1, 2].repeat(30))
}

/// Owners whose scripts are spent: one by each way of locking at once, one that is handed the mutex;
/// a scripted exit; the last thread owns nothing.
fn owner_exits() -> Class {
    let scripts: [&[Call]; 6] = [
        &[[LOCK, 1], [LOCK, 2], [UNLOCK, 1]],
        &[[TRYLOCK, 3], [EXIT, 0], [UNLOCK, 3]],
        &[[LOCK, 1]],
        &[[YIELD, 0]],
        &[[TRYLOCK, 1], [YIELD, 0]],
        &[],
    ];
    Class::new(Config::new(4, 6, 3, 6), &scripts, &[1, 2, 3, 4, 1, 3, 4].repeat(12))
}

/// An owner's spent script at the end of 4,000 turns: 21, then 8.
fn owner_at_most_moves() -> Class {
    let mut turns = vec![1, 1, 1];
    turns.extend(vec![2; 3_996]);
    turns.extend([1, 2, 1, 2, 1, 3, 2]);
    Class::new(Config::new(2, 1, 1, 1), &[&[[LOCK, 1]]], &turns)
}

/// Yields that bring threads to other processors, in the midst of their scripts.
fn migrations() -> Class {
    let calls: [Call; 6] = [[YIELD, 0], [LOCK, 1], [YIELD, 0], [UNLOCK, 1], [YIELD, 0], [YIELD, 0]];
    let turns = [1, 1, 2, 1, 2, 2, 2, 1, 1, 1, 2].repeat(9);
    Class::new(Config::new(2, 3, 1, 3), &[&calls, &calls, &calls], &turns)
}

/// One thread at first; each creates the next.
fn creates() -> Class {
    let scripts: [&[Call]; 4] =
        [&[[CREATE, 2], [YIELD, 0]], &[[CREATE, 3]], &[[YIELD, 0], [CREATE, 4]], &[[YIELD, 0]]];
    Class::new(Config::new(2, 4, 1, 1), &scripts, &[1, 2, 1].repeat(16))
}

/// 4,000 accepted turns, then 8, with 2 and 3 before it.
fn most_moves() -> Class {
    let scripts: [&[Call]; 3] = [&[[LOCK, 2]], &[[YIELD, 0]], &[]];
    let mut turns = vec![3; 3_990];
    turns.extend([1, 2, 2, 0, 2, 2, 4, 3, 1].repeat(4));
    Class::new(Config::new(3, 3, 1, 2), &scripts, &turns)
}

fn named() -> Vec<(String, String)> {
    let worked = [
        ("k4", worked::k4()),
        ("k5", worked::k5()),
        ("k6", worked::k6()),
        ("k7", worked::k7()),
        ("k8", worked::k8_with_trylocks()),
    ];
    let mut all: Vec<(String, String)> = worked
        .iter()
        .map(|(name, worked)| (name.to_string(), Class::of(worked).text(true)))
        .collect();
    let shown = [
        ("refused-turns", refused_turns()),
        ("spent", spent()),
        ("owner-exits", owner_exits()),
        ("migrations", migrations()),
        ("creates", creates()),
        ("no-turns", Class::new(Config::new(1, 1, 1, 1), &[&[[YIELD, 0]]], &[])),
        ("random-2-3-1", Class::random(1, Config::new(2, 3, 1, 3), 60)),
        ("random-3-5-2", Class::random(2, Config::new(3, 5, 2, 3), 60)),
    ];
    all.extend(shown.iter().map(|(name, class)| (name.to_string(), class.text(true))));
    all.push(("most-moves".to_string(), most_moves().text(false)));
    all.push(("owner-at-most-moves".to_string(), owner_at_most_moves().text(false)));
    let mut generator = Generator::new(12);
    for seed in 1..=24 {
        let class = Class::random(seed, generator.config(), 40 * seed as usize);
        all.push((format!("long-{seed:02}"), class.text(false)));
    }
    let largest = Class::random(25, Config::new(8, 32, 8, 20), 4_200);
    all.push(("long-8-32-8".to_string(), largest.text(false)));
    all
}

/// Classes with a ready queue for each processor.
fn each() -> Vec<(String, String)> {
    let worked = [
        ("k5", worked::k5().with_stealing(1)),
        ("steals-1", worked::steals(1)),
        ("steals-3", worked::steals(3)),
        ("own-queues", worked::own_queues()),
    ];
    let mut all: Vec<(String, String)> = worked
        .iter()
        .map(|(name, worked)| (format!("each-{name}"), Class::of(worked).text(true)))
        .collect();
    for (name, class) in [
        ("migrations", migrations()),
        ("creates", creates()),
        ("spent", spent()),
        ("owner-exits", owner_exits()),
    ] {
        let config = class.config.with_stealing(1);
        all.push((format!("each-{name}"), Class { config, ..class }.text(true)));
    }
    let mut generator = Generator::new(13);
    for seed in 1..=8 {
        let config = generator.config().with_stealing(1);
        let class = Class::random(seed, config, 60 * seed as usize);
        all.push((format!("each-long-{seed}"), class.text(false)));
    }
    all
}

/// A fifth number in its range and outside it, with other causes after it.
fn each_boundaries() -> String {
    let calls: [&[Call]; 3] = [&[[YIELD, 0]; 2], &[], &[[LOCK, 1]]];
    let mut text = String::new();
    for fifth in [1, 2, 3, 128, 255] {
        let config = Config::new(2, 3, 1, 3).with_stealing(fifth);
        let mut class = Class::new(config, &calls, &[1, 2, 1, 2, 9]);
        let (answers, pictures) = class.rooms();
        text += &class.line(answers, pictures);
        text += &class.line(answers - 1, pictures);
        text += &class.line(answers, pictures - 1);
        class.scripts.pop();
        text += &class.line(answers, pictures);
        text += &class.line(0, 0);
        class.config.born = 4;
        text += &class.line(0, 0);
    }
    text
}

/// Classes at the boundaries of 1, 19 and 10, accepted ones between them.
fn boundaries() -> String {
    let mut text = String::new();
    let calls = |count: usize| vec![[YIELD, 0]; count];
    let whole = Class::new(Config::new(2, 3, 1, 2), &[&calls(2), &calls(6), &calls(0)], &[1, 2, 9]);
    let (answers, pictures) = whole.rooms();
    let with = |scripts: Vec<u8>| Class { scripts, turns: whole.turns.clone(), ..whole };
    for answers in [0, answers - 1, answers, answers + 1] {
        for pictures in [0, pictures - 1, pictures, pictures + 1] {
            text += &whole.line(answers, pictures);
            text += &with(whole.scripts[1..].to_vec()).line(answers, pictures);
        }
    }
    for length in [0, 1, SCRIPT, 3 * SCRIPT - 1, 3 * SCRIPT, 3 * SCRIPT + 1, 5 * SCRIPT] {
        let mut scripts = whole.scripts.clone();
        scripts.resize(length, 7);
        text += &with(scripts).line(answers, pictures);
    }
    for at in 0..3 * SCRIPT {
        for value in [0, 1, 2, 6, 7, 255] {
            let mut scripts = whole.scripts.clone();
            scripts[at] = value;
            text += &with(scripts).line(answers, pictures);
        }
    }
    for (p, t, m, b) in [(9, 3, 1, 2), (0, 3, 1, 2), (2, 33, 1, 2), (2, 3, 9, 2), (2, 3, 1, 4)] {
        for class in [with(whole.scripts.clone()), with(Vec::new())] {
            text += &Class { config: Config::new(p, t, m, b), ..class }.line(answers, pictures);
        }
    }
    text
}

pub fn write_all(folder: &Folder) -> io::Result<()> {
    for (name, text) in named().into_iter().chain(each()) {
        folder.write(&format!("{name}.txt"), text.as_bytes())?;
    }
    folder.write("boundaries.list", boundaries().as_bytes())?;
    folder.write("each-boundaries.list", each_boundaries().as_bytes())
}
