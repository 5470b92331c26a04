//! The script's part on exits by owners: 21 at moves, turns and classes, its place among the other
//! numbers, until when it is there; 16 for records and journals from before it.

use crate::commands::BORN;
use crate::script::{said, Script, LENGTHS, MOST};
use crate::writer::Writer;
use independent::machine::{Config, Move, EXIT, GO, LOCK, TRYLOCK, UNLOCK, YIELD};
use independent::owners::{self, Old};
use independent::script::{Call, SCRIPT};
use independent::worked::Worked;

const EXIT_OF_1: Move = [1, EXIT, 0];

/// Owners by each line: 21 at App, 4 in their unlocks, then the exit.
fn by_each_line(w: &mut Writer, stealing: u8) {
    for owning in owners::owning(stealing) {
        let (config, p) = (owning.session.config, owning.p);
        w.say(&format!("# 21: an owner by {}", owning.line.name()));
        w.s.played(&owning.session);
        w.s.make([p, EXIT, 0]);
        w.turns(&[p]);
        w.order(&[p, p, 0]);
        w.drive(config, 3);
        w.all(&["p", "x", "front", "hash"]);
        w.s.make([p, UNLOCK, 1]);
        for _ in 1..owning.unlocks().len() {
            w.s.make([p, EXIT, 0]);
            w.s.make([p, GO, 0]);
        }
        w.s.make([p, EXIT, 0]);
        w.say("p");
        w.s.goto(owning.session.moves.len() + owning.unlocks().len());
        w.turns(&[p]);
        w.all(&["p", "hash"]);
    }
}

/// Each mutex alone, then all eight: 21 up to the last unlock's end.
fn each_mutex(w: &mut Writer) {
    let config = Config::new(2, 3, 8, 3);
    for m in 1..=8 {
        w.say(&format!("# 21: the owner of mutex {m}"));
        w.s.played(&Worked::new(config).call(1, LOCK, m).go(1, 1));
        for made in [EXIT_OF_1, [2, EXIT, 0], [1, UNLOCK, m], EXIT_OF_1, [1, GO, 0], EXIT_OF_1] {
            w.s.make(made);
        }
        w.say("p");
    }
    w.say("# 21: the owner of all mutexes");
    let locks = |worked: Worked, m| worked.call(1, LOCK, m).go(1, 1);
    w.s.played(&(1..=8).fold(Worked::new(config), locks));
    for m in [5, 1, 8, 3, 7, 2, 6, 4] {
        for made in [EXIT_OF_1, [1, UNLOCK, m], EXIT_OF_1, [1, GO, 0]] {
            w.s.make(made);
        }
        w.turns(&[1]);
    }
    w.all(&["p", "hash"]);
}

/// Other calls after the lock, and other threads: who is asked is the thread, about every mutex.
fn other_calls(w: &mut Writer) {
    for stealing in [0, 1] {
        w.say("# 21: the last call was on another mutex, the owner has yielded, waits for itself");
        w.s.start(Config::new(2, 3, 2, 3).with_stealing(stealing));
        for (call, goes) in [
            ([1, LOCK, 2], 1),
            ([1, TRYLOCK, 1], 1),
            ([1, UNLOCK, 1], 1),
            ([2, TRYLOCK, 2], 2),
            ([1, YIELD, 0], 5),
            ([1, YIELD, 0], 5),
            ([1, LOCK, 2], 6),
        ] {
            w.s.make(call);
            (0..goes).for_each(|_| w.s.make([call[0], GO, 0]));
            w.say("keep");
            for p in [1, 2] {
                w.s.edited("", &format!("m {p} 5 0"));
                w.s.edited("", &format!("t {p}"));
            }
        }
        w.all(&["p", "hash"]);
    }
}

/// 10, 15, 16, 19, 2, 3 and 4 before 21, at moves and turns.
fn order(w: &mut Writer) {
    w.say("# 10, 15, 16, 19, 2, 3, 4, then 21");
    let owner = Worked::new(Config::new(2, 3, 2, 3)).call(1, LOCK, 2).go(1, 1);
    for worked in [owner.clone(), owner.call(1, LOCK, 2)] {
        w.s.played(&worked);
        w.say("keep");
        let exits = [[0, EXIT, 0], [3, EXIT, 0], [1, EXIT, 1], [1, EXIT, 255], EXIT_OF_1];
        for [p, a, o] in exits.into_iter().chain([[2, EXIT, 0]]) {
            for edit in ["", "w 2 1\n", &format!("c {BORN} 0\n")] {
                w.s.edited(edit, &format!("m {p} {a} {o}"));
                w.s.edited(edit, &format!("t {p}"));
            }
        }
        for length in LENGTHS {
            w.s.lend(length);
            w.s.edited("", "m 1 5 0");
            w.s.edited("", "t 1");
        }
        w.lend_scripts(3 * SCRIPT - 1);
        w.s.edited("", "t 1");
        w.lend_scripts(3 * SCRIPT);
    }
}

/// 21 with 3,999 moves, 8 with 4,000.
fn most_moves(w: &mut Writer) {
    w.say("# 21 with 3,999 moves, 8 with 4,000");
    let config = Config::new(2, 1, 1, 1);
    w.s.played(&Worked::new(config).call(1, LOCK, 1).go(1, 1));
    w.drive_all(config, 2, usize::from(MOST) - 3);
    for _ in 0..2 {
        for made in [EXIT_OF_1, [1, EXIT, 1], [3, EXIT, 0], [2, EXIT, 0]] {
            w.s.make(made);
        }
        w.turns(&[1]);
        w.order(&[1, 3, 1]);
        w.drive(config, 3);
        w.s.make([2, GO, 0]);
    }
    w.all(&["p", "hash"]);
}

/// Spent scripts that leave owners, among others; a scripted exit; a plain unlock as a way out.
fn scripted(w: &mut Writer) {
    for stealing in [0, 1] {
        w.say("# 21: spent scripts");
        let config = Config::new(3, 4, 2, 4).with_stealing(stealing);
        let one: &[Call] = &[[LOCK, 1]];
        let two: &[Call] = &[[TRYLOCK, 2], [EXIT, 0], [UNLOCK, 2]];
        w.calls(&[one, two, &[[YIELD, 0], [LOCK, 1]], &[]]);
        w.lend_scripts(4 * SCRIPT);
        w.init(config);
        w.say("keep");
        let turns: Vec<u8> = [1, 2, 3, 1, 3].repeat(7);
        w.turns(&turns);
        w.all(&["p", "front", "g 7", "t 1", "t 2", "again", "vary 4"]);
        w.order(&turns);
        w.drive(config, turns.len());
        w.all(&["p", "front", "hash", "m 1 3 1"]);
        w.turns(&[1, 1, 1, 1, 1, 1, 1, 2]);
        w.all(&["m 2 3 2", "t 2", "t 2", "p", "front"]);
    }
}

/// The record that an exit by an owner led to, with the journal that has it.
fn load_old(s: &mut Script, old: &Old) {
    for (at, &byte) in old.session.moves.concat().iter().enumerate() {
        s.write(at, byte);
    }
    s.load(&old.record());
}

/// 16 at every call that tests the journal; writing and turns ahead take such a record.
fn old_records(w: &mut Writer) {
    w.scripts(&[0; 5 * SCRIPT]);
    w.lend_scripts(5 * SCRIPT);
    w.order(&[1, 1]);
    for old in owners::old() {
        let config = old.session.config;
        w.say(&format!("# 16: {}", old.name));
        w.say("noise 21");
        load_old(w.s, &old);
        w.all(&["p", "x", "front", "g 0", "m 1 0 0", "m 1 4 0", "m 0 5 0", "t 1"]);
        w.drive(config, 2);
        (1..=config.threads).for_each(|thread| w.say(&format!("q {thread}")));
        w.all(&["hash", "# its moves up to the exit, and the exit"]);
        let before = old.before_exit();
        w.s.load(&before.record());
        w.s.make(old.session.moves[before.moves.len()]);
        w.say("keep");
        w.s.tried("", [1, YIELD, 0]);
        w.s.tried(&said(before.moves.len() as u16 + 1), [1, YIELD, 0]);
    }
}

pub fn add(w: &mut Writer) {
    let none: &[Call] = &[];
    w.calls(&[none; 4]);
    w.lend_scripts(4 * SCRIPT);
    by_each_line(w, 0);
    by_each_line(w, 1);
    each_mutex(w);
    other_calls(w);
    order(w);
    most_moves(w);
    scripted(w);
    old_records(w);
}
