//! The script's part on the journal's test: edited journals and wrong numbers of moves, journals of
//! other sessions, 16 among the other numbers, and the end of 4,000 moves, each at moves and turns.

use crate::commands::{own_first, probe, thread, APPLIED, BORN, STEALING};
use crate::script::{calls_at_most, said, LENGTHS, MOST};
use crate::writer::Writer;
use independent::journal::JOURNAL;
use independent::machine::{Config, Move, CREATE, GO, LOCK, TRYLOCK, UNLOCK, YIELD};
use independent::script::{Call, SCRIPT};
use independent::worked::{self, Worked};

/// A session of 6 moves in which the processors 2 and 3 have no thread.
fn idle() -> Worked {
    let begun = Worked::new(Config::new(3, 2, 1, 1));
    begun.go(2, 1).go(3, 1).call(1, YIELD, 0).go(1, 1).go(3, 1).go(2, 1)
}

/// Each byte of the standing moves changed; bytes past them.
fn edited_bytes(w: &mut Writer) {
    for (name, worked, made) in [
        ("K5", worked::k5(), [2, YIELD, 0]),
        ("K7", worked::k7(), [3, UNLOCK, 1]),
        ("idle processors", idle(), [1, LOCK, 1]),
    ] {
        w.say(&format!("# 16: bytes of {name}"));
        w.say("noise 7");
        w.s.played(&worked);
        w.say("keep");
        let bytes = worked.moves.concat();
        for (at, &byte) in bytes.iter().enumerate() {
            for other in [0, 1, 2, 3, 255].into_iter().filter(|&other| other != byte) {
                w.s.tried(&format!("w {at} {other}\n"), made);
            }
        }
        w.say("# past them");
        let next = bytes.len();
        for at in [next, next + 1, next + 2, JOURNAL - 1, JOURNAL] {
            w.s.tried(&format!("w {at} 77\n"), made);
        }
        w.say("hash");
    }
}

/// A move less and a move more than stands, and the last move missing.
fn counts(w: &mut Writer) {
    for (worked, made) in [
        (worked::k5(), [2, YIELD, 0]),
        (idle(), [2, GO, 0]),
        (worked::own_queues(), [1, LOCK, 1]),
        (worked::steals(2).front(12), [2, GO, 0]),
    ] {
        let count = worked.moves.len();
        w.say(&format!("# 16: a move less and more than {count}"));
        w.say("noise 8");
        w.s.played(&worked);
        w.say("keep");
        let (less, more) = (said(count as u16 - 1), said(count as u16 + 1));
        w.s.tried(&format!("c {APPLIED} {}\n", count - 1), made);
        w.s.tried(&less, made);
        w.s.tried(&more, made);
        let next: String = (3 * count..).zip(made).map(|(i, b)| format!("w {i} {b}\n")).collect();
        w.s.tried(&next, made);
        w.s.tried(&format!("{next}{more}"), made);
        w.all(&["# its last move is missing", "noise 9"]);
        w.s.played(&worked.front(count - 1));
        w.all(&["recall", "x", "g 0", "hash"]);
        let [p, a, o] = made;
        w.all(&[&format!("m {p} {a} {o}"), &format!("t {p}"), "hash"]);
    }
}

/// A session's record with another one's journal, from there on moves, a turn and goings.
fn lent_another(w: &mut Writer, one: &Worked, other: &Worked, [p, a, o]: Move) {
    let count = one.moves.len();
    w.s.played(one);
    w.say("keep");
    w.s.played(other);
    let [less, same, more] = [count - 1, count, count + 1].map(|step| format!("g {step}"));
    w.all(&["recall", "x", "front", &less, "x", "p", "recall", "hash"]);
    w.all(&[&format!("t {p}"), "p", "front", &same, &format!("m {p} {a} {o}"), "p", "front"]);
    w.all(&["t 1", "x", &more, "x", &same, "x", &less, "p", &more, "hash"]);
}

/// Journals of other sessions, first those that give another record.
fn other_sessions(w: &mut Writer) {
    w.say("# 16: the journal of another session");
    lent_another(w, &worked::k5(), &worked::k6(), [2, YIELD, 0]);
    w.all(&["again", "g 0", "hash"]);
    w.say("# the journal of another session that gives the same record");
    let exchanged = |worked: &Worked, at: usize| {
        let mut other = worked.clone();
        other.moves.swap(at, at + 1);
        other
    };
    let mut tried_first = worked::k7();
    tried_first.moves[0] = [1, TRYLOCK, 1];
    let own = worked::own_queues();
    let looks = Worked::new(Config::new(3, 3, 1, 1).with_stealing(1)).go(2, 3).go(3, 1);
    for (one, other, made) in [
        (worked::k5(), exchanged(&worked::k5(), 0), [2, YIELD, 0]),
        (worked::k7(), tried_first, [3, UNLOCK, 1]),
        (own.clone(), exchanged(&own, 5), [1, LOCK, 1]),
        (idle(), Worked::new(idle().config).go(3, 6), [2, GO, 0]),
        (looks.clone(), exchanged(&looks, 2), [3, GO, 0]),
    ] {
        lent_another(w, &one, &other, made);
    }
    w.say("# one record, two journals, two next calls");
    let begun = Worked::new(Config::new(2, 2, 1, 2));
    let yields = |p: u8| begun.clone().call(p, YIELD, 0).go(p, 1);
    w.calls(&[&[[YIELD, 0], [LOCK, 1]], &[[YIELD, 0], [TRYLOCK, 1]]]);
    for (one, other) in [(1, 1), (1, 2), (2, 1), (2, 2)] {
        for p in [1, 2] {
            lent_another(w, &yields(one), &yields(other), [p, LOCK, 1]);
        }
    }
}

/// The start table is read off the record.
fn other_starts(w: &mut Writer) {
    w.say("# 16: the same moves from another start");
    w.s.played(&worked::k5());
    w.say("keep");
    for (field, value) in [(BORN, 1), (1, 3), (2, 2), (STEALING, 1)] {
        w.s.tried(&format!("c {field} {value}\n"), [2, YIELD, 0]);
    }
    w.s.tried("noise 8\n", [2, YIELD, 0]);
    w.say("# 16: another look number, another queue");
    w.s.played(&worked::steals(2).front(12));
    w.say("keep");
    for value in [0, 1] {
        w.s.tried(&format!("c {} {value}\n", probe(2)), [2, GO, 0]);
    }
    let moved = [(own_first(1), 0), (own_first(3), 4), (thread(4, 1), 3)];
    let moved: String = moved.iter().map(|(field, value)| format!("c {field} {value}\n")).collect();
    w.s.tried(&moved, [2, GO, 0]);
}

/// Each number of a move and of a turn, then the same with edited journals.
fn order(w: &mut Writer) {
    w.say("# 16 comes before 2, 3, 4, 5, 6, 7");
    w.say("noise 9");
    let begun = Worked::new(Config::new(2, 3, 1, 2));
    w.s.played(&begun.call(1, LOCK, 1).go(1, 1).call(1, LOCK, 1));
    w.say("keep");
    let edits = ["", "w 8 2\n", "w 3 2\n"];
    let wrong = [[0, GO, 0], [2, 7, 0], [2, LOCK, 2], [1, LOCK, 1], [2, GO, 0], [2, UNLOCK, 1]];
    for [p, a, o] in wrong.into_iter().chain([[2, CREATE, 1], [2, CREATE, 3], [1, GO, 0]]) {
        for edit in edits {
            w.s.edited(edit, &format!("m {p} {a} {o}"));
        }
    }
    w.say("# and before 19");
    for call in [[7, 0], [LOCK, 2], [UNLOCK, 1], [CREATE, 1], [CREATE, 3]] {
        w.calls(&[&[], &[call], &[]]);
        for (p, edit) in (0..=3).flat_map(|p| edits.map(|edit| (p, edit))) {
            w.s.edited(edit, &format!("t {p}"));
        }
    }
    w.say("# 10, then 15, then 16");
    for length in LENGTHS {
        w.s.lend(length);
        for (born, edit) in [2, 0].into_iter().flat_map(|born| edits.map(|edit| (born, edit))) {
            for call in ["m 9 9 9", "m 1 0 0", "t 9", "t 1", "x"] {
                w.s.edited(&format!("c {BORN} {born}\n{edit}"), call);
            }
        }
    }
}

/// The 4,000th move and the one after it, by moves and by turns.
fn k10(w: &mut Writer) {
    w.say("# K10: 3,999 moves");
    let config = worked::k10(1).config;
    w.say("noise 3");
    w.calls(&[&[]]);
    w.lend_scripts(SCRIPT);
    w.init(config);
    w.drive_all(config, 1, usize::from(MOST) - 1);
    w.all(&["p", "hash", "keep"]);
    for length in LENGTHS {
        w.s.lend(length);
        for call in ["m 1 0 0", "t 1"] {
            w.all(&["x", call, "x", "p", "hash", call, "hash", "g 3999", "p", "a"]);
        }
    }
    w.say("# what stands past them, a move edited, a move less and more");
    for (at, byte) in [(JOURNAL - 3, 9), (JOURNAL - 1, 9), (JOURNAL - 4, 1), (1, GO), (5_001, 2)] {
        w.s.tried(&format!("w {at} {byte}\n"), [1, GO, 0]);
    }
    for applied in [MOST - 2, MOST, MOST + 1] {
        w.s.tried(&format!("c {APPLIED} {applied}\n"), [1, GO, 0]);
        w.s.tried(&said(applied), [1, GO, 0]);
    }
    let another = format!("w 11997 1\nw 11998 0\nw 11999 0\n{}", said(MOST));
    w.s.tried(&another, [1, GO, 0]);
}

/// 8 after 2 and 3 and before the rest, with processor 1 at App and at L1; 16 and 19 before them.
fn most_moves(w: &mut Writer) {
    for (p, t, m) in [(2, 3, 2), (8, 32, 8)] {
        for locks in [0, 1] {
            w.say(&format!("# 4,000 moves with {p} processors, {t} threads, {m} mutexes"));
            let config = Config::new(p, t, m, 1);
            w.say("noise 10");
            w.lend_scripts(SCRIPT * usize::from(t));
            w.init(config);
            let lock = Worked::new(config).call(1, LOCK, 1);
            lock.moves[..locks].iter().for_each(|&made| w.s.make(made));
            w.drive_all(config, 2, usize::from(MOST) - locks);
            w.say("keep");
            for edit in ["", "w 11999 1\n", "w 1 3\n"] {
                w.s.raw(edit);
                calls_at_most(w.s, p, t, m);
                turns_at_most(w, p, t, m);
                w.all(&["x", "a"]);
            }
        }
    }
}

/// Turns of processor 1, another and none, with each next call of thread 1 that may be refused.
fn turns_at_most(w: &mut Writer, p: u8, t: u8, m: u8) {
    let calls: [Call; 4] = [[LOCK, m + 1], [UNLOCK, 1], [CREATE, 1], [CREATE, t]];
    for call in calls {
        w.calls(&[&[call]]);
        w.turns(&[1, 2, 0, p + 1]);
        w.lend_scripts(SCRIPT * usize::from(t) - 1);
        w.turns(&[1, 0]);
        w.lend_scripts(SCRIPT * usize::from(t));
    }
}

pub fn add(w: &mut Writer) {
    let yields: &[Call] = &[[YIELD, 0]; 6];
    w.calls(&[yields; 7]);
    w.lend_scripts(7 * SCRIPT);
    edited_bytes(w);
    counts(w);
    other_starts(w);
    other_sessions(w);
    order(w);
    k10(w);
    most_moves(w);
}
