//! The script's part on goings: every step and those past the kept moves, 10, 15, 9, 16, what is kept and
//! what is dropped, edited journals at steps inside a session, and the end of 4,000 moves.

use crate::commands::{APPLIED, KEPT};
use crate::script::{LENGTHS, MOST};
use crate::writer::Writer;
use independent::journal::JOURNAL;
use independent::machine::{Config, Move, CREATE, EXIT, GO, LOCK, TRYLOCK, UNLOCK, YIELD};
use independent::script::{Call, SCRIPT};
use independent::worked::{self, Worked};

/// A thread owns mutex 1 at step 2, waits for itself from step 6 on; the second is at App, the third is
/// new.
fn owned() -> Worked {
    let begun = Worked::new(Config::new(2, 3, 1, 2));
    begun.call(1, LOCK, 1).go(1, 1).call(1, LOCK, 1).go(1, 3).call(2, YIELD, 0).go(2, 1)
}

/// Goings at n, 0, the number kept and past it, from several steps.
fn every_step(w: &mut Writer) {
    for (name, worked) in [("K5", worked::k5()), ("own queues", worked::own_queues())] {
        let kept = worked.moves.len();
        w.say(&format!("# steps of {name}"));
        w.say("noise 31");
        w.s.played(&worked);
        for from in [kept, 0, 1, kept / 2, kept - 1, kept] {
            w.s.goto(from);
            w.all(&["p", "x", "front", "hash", "keep"]);
            for to in [from, 0, 1, kept / 3, kept - 1, kept, kept + 1, kept + 2, 4_000, 65_535] {
                w.s.goto(to);
                w.all(&["p", "x", "a"]);
            }
        }
    }
}

/// 10, 15, 9, 16: each alone and with all that come after it.
fn order(w: &mut Writer) {
    w.say("# 10, 15, 9, 16 at a going");
    w.say("noise 32");
    w.s.played(&owned());
    w.all(&["g 4", "keep"]);
    for from in 0..=4 {
        for only in [true, false] {
            let there = |cause: usize| cause == from || !only && cause > from;
            w.lend_or_break(there(0), there(1));
            if there(3) {
                w.s.write(16, 7);
            }
            w.s.goto(if there(2) { 9 } else { 3 });
            w.all(&["p", "again"]);
        }
    }
    for length in LENGTHS {
        w.s.lend(length);
        w.all(&["g 8", "p", "g 9", "a", "g 0", "p", "front", "x", "a"]);
    }
    w.s.lend(JOURNAL + 1);
}

/// 15: the number kept at its boundaries; pictures and turns ahead do not look at it.
fn kept_numbers(w: &mut Writer) {
    w.say("# 15, 16: the number kept");
    w.say("noise 33");
    let worked = owned();
    w.s.played(&worked);
    w.all(&["g 4", "keep"]);
    w.order(&[1, 2, 0]);
    for kept in [0, 3, 4, 5, 7, 8, 9, 3_999, 4_000, 4_001, 4_002, 32_768, 65_535] {
        let edit = format!("c {KEPT} {kept}\n");
        w.s.tried(&edit, [2, LOCK, 1]);
        for call in ["g 4", "g 8", "g 9", "f", "p", "q 1"] {
            w.s.edited(&edit, call);
        }
        w.s.raw(&edit);
        w.drive(worked.config, 3);
        w.all(&["p", "a"]);
    }
    w.say("# as many moves as stand, and fewer");
    for applied in [3, 4, 5, 8, 9] {
        w.s.tried(&format!("c {APPLIED} {applied}\n"), [2, LOCK, 1]);
    }
}

/// A call, then whether the steps beyond it are kept.
fn asked(w: &mut Writer, call: &str) {
    w.all(&[call, "p", "front", "hash", "g 8", "g 3", "g 4", "p", "a"]);
}

/// Accepted moves, turns and classes drop what is kept beyond the standing moves; refused ones, and
/// classes without an accepted turn, do not.
fn dropped(w: &mut Writer) {
    let worked = owned();
    w.say("# what is kept, what is dropped");
    w.say("noise 34");
    w.s.played(&worked);
    w.all(&["g 2", "keep"]);
    let taken = [[1, LOCK, 1], [1, TRYLOCK, 1], [1, UNLOCK, 1], [2, CREATE, 3], [2, EXIT, 0]];
    let wrong = [[0, GO, 0], [3, GO, 0], [1, 7, 0], [1, GO, 1], [1, GO, 0], [2, UNLOCK, 1]];
    for [p, a, o] in taken.into_iter().chain(wrong).chain([[2, CREATE, 1], [1, EXIT, 0]]) {
        asked(w, &format!("m {p} {a} {o}"));
    }
    for call in [[LOCK, 1], [LOCK, 2], [UNLOCK, 1], [CREATE, 1], [CREATE, 3], [7, 0]] {
        let calls: [&[Call]; 3] = [&[[YIELD, 0]], &[call], &[]];
        w.calls(&calls);
        for p in 0..=3 {
            asked(w, &format!("t {p}"));
        }
        for turns in [&[][..], &[0], &[1, 0, 3], &[2, 2], &[0, 1, 2], &[2, 0, 1]] {
            w.order(turns);
            w.drive(worked.config, turns.len());
            w.all(&["p", "front", "hash", "g 8", "g 3", "p", "a"]);
        }
    }
    w.say("# 4 at a step inside a call");
    w.all(&["g 4", "keep"]);
    asked(w, "m 1 1 1");
    w.all(&["# the same move again", "m 1 0 0", "p", "hash", "g 6", "g 5", "p"]);
}

/// Each byte of the kept moves changed, from steps inside the session; bytes past them.
fn edited(w: &mut Writer, worked: &Worked, steps: &[usize], [p, a, o]: Move) {
    w.say("noise 35");
    w.s.played(worked);
    w.say("keep");
    for &step in steps {
        w.all(&["a", &format!("g {step}"), "keep"]);
        w.s.swept([p, a, o]);
        let next = 3 * worked.moves.len();
        for at in [3 * step, 3 * step + 1, next - 3, next - 1, next, next + 2, JOURNAL - 1] {
            w.s.tried(&format!("w {at} 6\n"), [p, a, o]);
        }
        w.say("# another kept move that is accepted");
        w.s.edited(&format!("w {} 2\n", next - 3), &format!("g {}", worked.moves.len()));
    }
}

fn edited_moves(w: &mut Writer) {
    w.say("# 16: kept moves edited");
    edited(w, &worked::k5(), &[0, 4, 8, 15, 16], [2, YIELD, 0]);
    edited(w, &worked::k7(), &[7, 12], [1, LOCK, 1]);
    let idle = Worked::new(Config::new(3, 2, 1, 1)).go(2, 1).call(1, YIELD, 0).go(1, 1).go(3, 2);
    edited(w, &idle, &[0, 2, 3, 5], [2, GO, 0]);
}

/// A thread's place in its script counts standing moves only, back and forward.
fn places(w: &mut Writer) {
    w.say("# places in scripts");
    w.say("noise 36");
    w.calls(&[&[[YIELD, 0], [LOCK, 1], [UNLOCK, 1]], &[[LOCK, 1]], &[]]);
    w.lend_scripts(3 * SCRIPT);
    let config = Config::new(2, 3, 1, 2);
    w.init(config);
    w.turns(&[1, 1, 2, 1, 2, 1]);
    w.say("keep");
    for step in [0, 1, 2, 3, 4, 5, 6] {
        for p in [1, 2] {
            w.s.goto(step);
            w.turns(&[p]);
            w.all(&["p", "front", "a"]);
        }
        w.s.goto(step);
        w.order(&[1, 2, 1, 2, 1]);
        w.drive(config, 5);
        w.all(&["front", "a"]);
    }
}

/// 4,000 kept: 8 looks at those that stand.
fn most_moves(w: &mut Writer) {
    w.say("# 4,000 kept");
    let config = worked::k10(1).config;
    w.say("noise 37");
    w.calls(&[&[]]);
    w.lend_scripts(SCRIPT);
    w.init(config);
    w.drive_all(config, 1, usize::from(MOST));
    w.say("keep");
    for from in [4_000, 3_999, 2_000, 1, 0] {
        w.s.goto(from);
        w.all(&["p", "x", "m 1 0 0", "p", "t 1", "g 4000", "g 3999", "g 4001", "hash", "a"]);
        w.s.goto(from);
        w.order(&[0, 1, 1]);
        w.drive(config, 3);
        w.all(&["p", "g 4000", "a"]);
    }
    for at in [0, 1, 6_000, JOURNAL - 3, JOURNAL - 1, JOURNAL] {
        for from in [0, 3_999] {
            w.s.goto(from);
            w.all(&[&format!("w {at} 9"), "g 4000", "g 0", "m 1 0 0", "a"]);
        }
    }
}

pub fn add(w: &mut Writer) {
    w.calls(&[&[], &[], &[]]);
    w.lend_scripts(3 * SCRIPT);
    every_step(w);
    order(w);
    kept_numbers(w);
    dropped(w);
    w.calls(&[&[], &[], &[]]);
    edited_moves(w);
    places(w);
    most_moves(w);
}
