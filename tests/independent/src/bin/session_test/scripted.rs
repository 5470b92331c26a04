//! The script's part on scripted threads: 19 at its boundaries, the order of refusals, which call
//! is next, classes and their buffers.

use crate::commands::{processor, ANSWERS, APPLIED, BORN, KEPT, PICTURES, SCRIPTS, TURNS};
use crate::script::{said, FIFTHS, LENGTHS, MOST};
use crate::writer::{picture_length, Writer};
use independent::journal::JOURNAL;
use independent::machine::{Config, CREATE, EXIT, LOCK, TRYLOCK, UNLOCK, YIELD};
use independent::random::Generator;
use independent::script::{Call, SCRIPT};
use independent::worked::{self, Worked};

/// 19: the lengths of the scripts' buffer.
fn lengths(w: &mut Writer) {
    for config in [Config::new(1, 1, 1, 1), Config::new(2, 3, 1, 2), Config::new(8, 32, 8, 32)] {
        w.say(&format!("# 19: scripts' bytes with {} threads", config.threads));
        w.s.start(config);
        w.say("keep");
        let whole = SCRIPT * usize::from(config.threads);
        for length in [0, 1, whole - SCRIPT, whole - 1, whole, whole + 1, SCRIPTS] {
            w.lend_scripts(length);
            w.probe(config);
        }
    }
}

/// 19: numbers of calls and actions, read and unread, of the first and the last thread; those of
/// the thread after it are not looked at.
fn numbers_and_actions(w: &mut Writer) {
    let config = Config::new(2, 3, 1, 2);
    w.s.start(config);
    w.say("keep");
    for thread in [1, 3, 4] {
        w.say(&format!("# 19: the script of thread {thread} of 3"));
        let at = SCRIPT * (thread - 1);
        let yields = [[YIELD, 0]; 6];
        w.calls(&[&yields[..2], &yields[..2], &yields[..2], &yields[..2]]);
        for number in [0, 1, 3, 7, 255] {
            w.script_byte(at, number);
            w.probe(config);
        }
        w.calls(&[&yields, &yields, &yields, &yields]);
        for number in [5, 6, 7, 128] {
            w.script_byte(at, number);
            w.probe(config);
        }
        for number in [2, 5, 6] {
            w.calls(&[&yields, &yields, &yields, &yields]);
            w.script_byte(at, number);
            for pair in [0, usize::from(number) - 1, usize::from(number).min(5)] {
                for action in [0, 1, 6, 7, 255] {
                    w.script_byte(at + 1 + 2 * pair, action);
                    w.probe(config);
                }
                w.script_byte(at + 1 + 2 * pair, YIELD);
            }
        }
    }
    w.say("# operands are not looked at by 19");
    for operand in [0, 1, 2, 255] {
        w.calls(&[&[[LOCK, operand], [YIELD, operand]], &[[CREATE, operand]], &[[EXIT, operand]]]);
        w.probe(config);
        w.all(&["t 2", "a"]);
    }
}

/// 1 before 19 at a start.
fn order_at_starts(w: &mut Writer) {
    w.say("# 1, then 19");
    w.scripts(&[0; SCRIPTS]);
    for length in [0, SCRIPTS] {
        w.lend_scripts(length);
        for (p, t, m, b) in [(9, 3, 1, 2), (0, 3, 1, 2), (2, 0, 1, 1), (2, 33, 1, 2), (2, 3, 1, 4)]
        {
            w.init(Config::new(p, t, m, b));
            w.say("picture");
        }
        w.init(Config::new(2, 3, 1, 2));
        w.say("picture");
    }
    w.say("# a fifth number: 1, then 19");
    for length in [9 * SCRIPT - 1, 9 * SCRIPT] {
        w.lend_scripts(length);
        for fifth in FIFTHS {
            w.all(&[&format!("init 3 9 1 8{fifth}"), "picture"]);
        }
    }
}

/// 10, 15, 16, 19, 2, 3 at a turn; no words in the first three.
fn order_at_turns(w: &mut Writer) {
    w.say("# 10, 15, 16, 19, 2, 3, 6");
    w.say("noise 11");
    let config = Config::new(2, 3, 1, 2);
    w.calls(&[&[[LOCK, 2]], &[[UNLOCK, 1]], &[]]);
    w.s.start(config);
    w.say("keep");
    for (applied, born) in [(0, 2), (0, 3), (0, 4), (MOST, 2), (MOST, 0), (MOST + 1, 2)] {
        for scripts in [3 * SCRIPT - 1, 3 * SCRIPT] {
            for journal in [JOURNAL - 1, JOURNAL] {
                w.s.lend(journal);
                w.lend_scripts(scripts);
                for p in [0, 1, 2, 3] {
                    w.s.say_applied(applied);
                    w.say(&format!("c {BORN} {born}"));
                    w.turns(&[p]);
                    w.all(&["x", "a"]);
                }
            }
        }
    }
    w.s.lend(JOURNAL + 1);
    w.say("# 15 at a row 0, 16 where a step would leave the rules");
    w.s.change(processor(0, 0), 1);
    w.turns(&[0, 1]);
    for (_, record, p) in worked::steps_out_of_rules() {
        w.s.load(&record);
        w.turns(&[p, 9]);
    }
}

/// A session of turns, its pictures now and then, goings in it, and all of it as a class.
fn taken(w: &mut Writer, name: &str, config: Config, scripts: &[&[Call]], turns: &[u8]) {
    w.say(&format!("# {name}"));
    w.calls(scripts);
    w.lend_scripts(SCRIPT * scripts.len());
    w.init(config);
    w.say("keep");
    for (count, &p) in (1..).zip(turns) {
        w.turns(&[p]);
        if count % 3 == 0 {
            w.say("x");
        }
        if count % 8 == 0 {
            w.say("p");
        }
    }
    w.all(&["p", "x", "front", "hash"]);
    w.all(&["goto 5", "x", "goto 2", "x", "goto 4", "x"]);
    w.turns(&turns[..3]);
    w.all(&["p", "hash", "a"]);
    w.say("vary 3");
    w.order(turns);
    w.drive(config, turns.len());
    w.all(&["p", "x", "front", "hash"]);
}

fn next_calls(w: &mut Writer) {
    let locks: &[Call] = &[[LOCK, 1], [UNLOCK, 1], [TRYLOCK, 1], [YIELD, 0], [UNLOCK, 1]];
    let config = Config::new(2, 2, 1, 2);
    let k5: Vec<u8> = worked::k5().moves.iter().map(|made| made[0]).collect();
    taken(w, "K5 by scripts", config, &[&locks[..2], &locks[..1]], &k5);
    let none: &[Call] = &[];
    taken(w, "scripts without calls", Config::new(2, 3, 1, 3), &[none; 3], &[1, 2].repeat(6));
    for count in 0..=6 {
        let config = Config::new(1, 1, 1, 1);
        let calls = [[LOCK, 1], [UNLOCK, 1], [YIELD, 0], [TRYLOCK, 1], [UNLOCK, 1], [YIELD, 0]];
        taken(w, "a script to its end", config, &[&calls[..count]], &vec![1; 2 * count + 4]);
    }
    let yields: &[Call] =
        &[[YIELD, 0], [LOCK, 1], [YIELD, 0], [UNLOCK, 1], [YIELD, 0], [TRYLOCK, 1]];
    let migrating = [1, 1, 2, 1, 2, 2, 2, 1, 1, 1, 2].repeat(9);
    taken(w, "threads that migrate", Config::new(2, 3, 1, 3), &[yields; 3], &migrating);
    let each = Config::new(2, 3, 1, 3).with_stealing(1);
    taken(w, "threads that stay", each, &[yields; 3], &migrating);
    let idle: [&[Call]; 4] =
        [&[[CREATE, 4], [YIELD, 0], [LOCK, 1]], &[], &[[LOCK, 1]], &[[YIELD, 0]]];
    let each = Config::new(3, 4, 1, 3).with_stealing(1);
    taken(w, "threads that are stolen", each, &idle, &[2, 3, 1, 2, 2, 1, 2].repeat(8));
    let creates: [&[Call]; 4] =
        [&[[CREATE, 2], [YIELD, 0]], &[[CREATE, 3]], &[[YIELD, 0], [CREATE, 4]], &[[YIELD, 0]]];
    taken(w, "creates", Config::new(2, 4, 1, 1), &creates, &[1, 2, 1].repeat(16));
    let refused: [&[Call]; 4] =
        [&[[UNLOCK, 1]], &[[YIELD, 0], [LOCK, 2]], &[[CREATE, 3]], &[[LOCK, 1], [EXIT, 0]]];
    let turns = [0, 1, 2, 3, 4, 5, 255, 1, 2, 2, 3, 4, 4, 1, 2, 3, 4, 4, 3, 2, 1];
    taken(w, "refused turns", Config::new(4, 4, 1, 4), &refused, &turns);
}

/// A create that another has made is refused until it does not stand any more.
fn tried_again(w: &mut Writer) {
    w.say("# a refused call stays next");
    w.calls(&[&[[CREATE, 3], [LOCK, 1]], &[[CREATE, 3]], &[]]);
    w.lend_scripts(3 * SCRIPT);
    w.init(Config::new(3, 3, 1, 2));
    w.turns(&[2, 1, 2, 3, 3, 1]);
    for step in [3, 2, 4, 1, 0] {
        w.s.goto(step);
        w.turns(&[1]);
    }
    w.turns(&[2, 1, 1]);
    w.all(&["front", "picture"]);
}

/// Calls by plain moves count; goes and refused moves do not.
fn plain_calls(w: &mut Writer) {
    w.say("# calls by plain moves");
    w.calls(&[&[[LOCK, 1], [UNLOCK, 1], [YIELD, 0], [LOCK, 1]], &[[CREATE, 3]], &[]]);
    let config = Config::new(2, 3, 1, 2);
    w.init(config);
    w.all(&["move 1 1 1", "move 1 0 0", "move 1 0 0"]);
    w.turns(&[1]);
    w.all(&["move 1 0 0", "move 1 2 1", "move 1 4 0", "move 1 0 0", "keep"]);
    w.turns(&[1, 1, 1]);
    w.all(&["front", "again"]);
    w.order(&[1, 2, 1, 2, 1, 1, 2]);
    w.drive(config, 7);
    w.all(&["front", "again", "move 1 4 0", "move 1 0 0", "move 1 5 0"]);
    w.drive(config, 7);
    w.say("front");
}

/// The same record with other journals: a turn and a class count the calls of one that gives the
/// record, and are refused by 16 with one that does not.
fn journals(w: &mut Writer) {
    w.say("# one record, other journals");
    let config = Config::new(2, 2, 1, 2);
    w.calls(&[&[[YIELD, 0], [LOCK, 1]], &[[YIELD, 0], [TRYLOCK, 1]]]);
    w.lend_scripts(2 * SCRIPT);
    w.order(&[1, 2, 2]);
    for p in [1, 2] {
        for next in [1, 2] {
            w.say("noise 12");
            w.init(config);
            w.turns(&[p, p, next]);
            w.say("front");
        }
    }
    w.say("noise 13");
    w.s.played(&Worked::new(config).call(2, YIELD, 0).go(2, 1).call(2, YIELD, 0).go(2, 1));
    w.say("keep");
    let edits: [&[(usize, u8)]; 7] = [
        &[],
        &[(0, 1), (3, 1)],
        &[(0, 1), (3, 1), (6, 1), (9, 1)],
        &[(0, 1), (3, 1), (6, 1), (7, 9)],
        &[(0, 9)],
        &[(10, 4)],
        &[(12, 77)],
    ];
    for edit in edits {
        for p in [1, 2] {
            for &(at, byte) in edit {
                w.s.write(at, byte);
            }
            w.turns(&[p]);
            w.all(&["x", "front", "a"]);
        }
        for &(at, byte) in edit {
            w.s.write(at, byte);
        }
        w.drive(config, 3);
        w.all(&["front", "a"]);
    }
    other_records(w, config);
}

/// What was kept with another B, and with another number of moves.
fn other_records(w: &mut Writer, config: Config) {
    w.say("# another B, another number of moves");
    let mut edits = vec![format!("c {BORN} 1\n"), format!("c {KEPT} 3\n"), format!("c {KEPT} 5\n")];
    edits.extend([0, 3, 5].map(|applied| format!("c {APPLIED} {applied}\n")));
    edits.extend([0, 3, 5].map(said));
    for edit in edits {
        w.s.raw(&edit);
        w.turns(&[1]);
        w.all(&["hash", "a"]);
        w.s.raw(&edit);
        w.drive(config, 3);
        w.all(&["hash", "a"]);
    }
}

/// 10, 15, 10, 16, 19 at a class: each cause alone and with all that come after it.
fn order_at_classes(w: &mut Writer) {
    w.say("# 10, 15, 10, 16, 19");
    let k7 = worked::k7();
    let pictures = 3 * picture_length(k7.config);
    w.say("noise 14");
    w.s.played(&k7);
    w.say("keep");
    w.calls(&[&[], &[[LOCK, 1]], &[[YIELD, 0]]]);
    w.order(&[1, 2, 3]);
    for from in 0..=5 {
        for only in [true, false] {
            let there = |cause: usize| cause == from || !only && cause > from;
            w.lend_or_break(there(0), there(1));
            if there(3) {
                w.s.write(4, 7);
            }
            w.lend_scripts(if there(4) { 3 * SCRIPT - 1 } else { 3 * SCRIPT });
            let room = if there(2) { pictures - 1 } else { pictures };
            w.drive_in(3, 3, room);
            w.all(&["p", "hash", "again"]);
        }
    }
    w.s.lend(JOURNAL + 1);
}

/// Buffers exact, a byte short, longer; bytes after what is written are kept.
fn buffers(w: &mut Writer) {
    w.say("# buffers of a class");
    for (config, turns) in [
        (Config::new(1, 1, 1, 1), 5),
        (Config::new(2, 3, 1, 3), TURNS),
        (Config::new(8, 32, 8, 20), PICTURES / 296),
    ] {
        let length = picture_length(config);
        let scripts = Generator::new(turns as u64).scripts(config);
        w.scripts(&scripts[..SCRIPT * usize::from(config.threads)]);
        w.lend_scripts(SCRIPTS);
        w.build(turns as u64, config.processors + 1);
        w.init(config);
        w.say("keep");
        let pictures = turns * length;
        for (answers, pictures) in [
            (turns, pictures),
            (turns, pictures - 1),
            (turns - 1, pictures),
            (turns + 1, pictures + 1),
            (ANSWERS, PICTURES),
            (0, PICTURES),
            (ANSWERS, 0),
        ] {
            w.say("vary 5");
            w.drive_in(turns, answers, pictures);
            w.all(&["p", "hash", "a"]);
        }
        for count in [0, 1, 2] {
            w.drive_in(count, count, count * length);
            w.drive_in(count, 0, 0);
            w.all(&["front", "a"]);
        }
    }
}

/// Random scripts, several classes one after the other, plain moves and goings between them.
fn random_classes(w: &mut Writer) {
    for (seed, (p, t, m, b, stealing)) in (1..).zip([
        (2, 3, 1, 3, 0),
        (3, 5, 2, 3, 0),
        (4, 4, 1, 4, 0),
        (5, 9, 2, 9, 0),
        (8, 32, 8, 20, 0),
        (3, 9, 1, 8, 1),
        (8, 32, 8, 20, 1),
    ]) {
        let config = Config::new(p, t, m, b).with_stealing(stealing);
        w.say(&format!("# random class {seed}"));
        let mut generator = Generator::new(seed);
        let scripts = generator.scripts(config);
        w.scripts(&scripts[..SCRIPT * usize::from(t)]);
        w.lend_scripts(SCRIPT * usize::from(t));
        w.say(&format!("noise {seed}"));
        w.init(config);
        for part in 1..=8 {
            let most = TURNS.min(PICTURES / picture_length(config));
            let turns = 1 + generator.below(most);
            w.build(10 * seed + part, p + generator.between(0, 1));
            w.drive(config, turns);
            w.all(&["p", "hash"]);
            w.say("x");
            match part % 3 {
                0 => (0..3).for_each(|_| w.s.goto(generator.below(120))),
                1 => w.turns(&[1, 2, 1]),
                _ => w.all(&["m 1 0 0", "m 1 4 0", "m 2 0 0", "m 2 5 0"]),
            }
        }
        w.say("front");
    }
}

/// The end of 4,000 moves: turns and classes that reach it, and what comes before 8.
fn at_the_end(w: &mut Writer) {
    w.say("# 3,996 moves by classes");
    let config = Config::new(2, 1, 1, 1);
    w.calls(&[&[[YIELD, 0], [LOCK, 2]]]);
    w.lend_scripts(SCRIPT);
    w.init(config);
    w.drive_all(config, 2, usize::from(MOST) - 4);
    w.all(&["p", "hash", "keep"]);
    w.say("# the last moves by turns");
    w.turns(&[1, 1, 1, 2, 2, 2, 1, 0, 3]);
    w.all(&["p", "hash", "goto 3999"]);
    w.turns(&[1, 2, 2]);
    w.all(&["hash", "again"]);
    for turns in [&[1, 1, 1, 2, 2, 2, 1, 0, 3, 255][..], &[2; 6], &[1, 2, 2]] {
        w.say("vary 6");
        w.order(turns);
        w.drive(config, turns.len());
        w.all(&["p", "hash"]);
        w.drive(config, turns.len());
        w.all(&["p", "hash", "again"]);
    }
    for length in LENGTHS {
        w.s.lend(length);
        w.say("x");
        w.turns(&[2]);
        w.drive(config, 3);
        w.all(&["hash", "again"]);
    }
    w.s.lend(JOURNAL + 1);
}

pub fn add(w: &mut Writer) {
    lengths(w);
    numbers_and_actions(w);
    order_at_starts(w);
    order_at_turns(w);
    next_calls(w);
    tried_again(w);
    plain_calls(w);
    journals(w);
    order_at_classes(w);
    buffers(w);
    random_classes(w);
    at_the_end(w);
}
