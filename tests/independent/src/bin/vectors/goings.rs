//! Inputs of both line programs with goings (document 02, No. 10): each step, the steps past the kept
//! moves, what is kept and what is dropped.

use crate::sessions::{busy_moves, random_session};
use independent::machine::Config;
use independent::random::Rates;
use independent::random_course::{self, ANY_STEP};
use independent::spelling;
use independent::worked::{self, Worked};

/// The example for users.
const EXAMPLE: &[u8] = include_bytes!("../../../../../examples/goto.txt");

const RATES: Rates = Rates { refused: 8, back: 60, goto: 8, owner_exits: 20 };

/// Each line followed by `look`.
fn each_shown(lines: &[&str], look: &str) -> Vec<String> {
    lines.iter().flat_map(|line| [line.to_string(), look.to_string()]).collect()
}

/// Before a start, at one, back and forward, at the boundaries of 9, past 4,000; moves after a going,
/// accepted and refused; starts after one.
const BOUNDARIES: [&str; 56] = [
    "goto 0",
    "goto 4000",
    "start 0 1 1 1",
    "goto 0",
    "start 2 3 1 2",
    "goto 0",
    "goto 1",
    "goto 4000",
    "goto 4001",
    "goto 01",
    "goto",
    "back",
    "move 1 1 1",
    "move 1 0 0",
    "move 2 1 1",
    "move 2 0 0",
    "move 2 0 0",
    "goto 5",
    "goto 6",
    "goto 3",
    "goto 5",
    "goto 0",
    "goto 5",
    "goto 4",
    "goto 6",
    // Refused moves drop nothing
    "goto 2",
    "move 0 0 0",
    "move 1 7 0",
    "move 1 0 0",
    "move 2 3 1",
    "move 1 6 2",
    "move 1 5 0",
    "goto 3",
    "move 2 1 1",
    "goto 5",
    // Nor do lines that are no command and refused starts
    "goto 2",
    "back",
    "goto 00",
    "start 9 3 1 2",
    "goto 5",
    // The next move again drops the others
    "goto 2",
    "move 2 1 1",
    "goto 4",
    "goto 3",
    // Another move
    "goto 1",
    "move 2 6 3",
    "goto 3",
    "goto 2",
    "goto 0",
    "move 2 4 0",
    "goto 2",
    "goto 1",
    // A start keeps none
    "start 1 1 1 1",
    "goto 1",
    "goto 0",
    "goto 4000",
];

/// All moves, every step down and up again with the picture after each, then another move from the
/// middle.
fn every_step(worked: &Worked) -> Vec<u8> {
    let kept = worked.moves.len() as u16;
    let mut lines = vec![spelling::start(worked.config)];
    lines.extend(worked.moves.iter().map(|&made| spelling::make_move(made)));
    for step in (0..=kept).rev().chain(0..=kept + 1).chain([kept / 2]) {
        lines.extend([spelling::goto(step), "show".to_string()]);
    }
    lines.push(spelling::make_move(worked.moves[usize::from(kept) / 2]));
    for step in [kept, kept / 2 + 2, kept / 2 + 1, 0] {
        lines.extend([spelling::goto(step), "show".to_string()]);
    }
    spelling::input(&lines)
}

/// Over the whole of 4,000 moves, end to end and in steps of 100; 8 at the end, a move one step before
/// it, and one in the middle that drops the rest.
fn most_moves() -> Vec<u8> {
    let config = Config::new(3, 6, 2, 4);
    let moves = busy_moves(config);
    let mut lines = vec![spelling::start(config)];
    lines.extend(moves.iter().map(|&made| spelling::make_move(made)));
    let mut go = |step: u16| lines.extend([spelling::goto(step), "show".to_string()]);
    [4_000, 0, 3_999, 4_000, 4_001, 1, 4_000].into_iter().for_each(&mut go);
    (0..40).rev().map(|count| 100 * count).for_each(&mut go);
    (1..=40).map(|count| 100 * count).for_each(&mut go);
    let next = |at: usize| spelling::make_move(moves[at]);
    lines.extend([next(3_999), "goto 3999".to_string(), next(3_999), next(3_999)]);
    lines.extend(["goto 2000".to_string(), next(2_000), "show".to_string()]);
    lines.extend(["goto 4000", "goto 2002", "goto 2001", "goto 0", "show"].map(String::from));
    spelling::input(&lines)
}

/// Turns, classes and moves after goings in `course`: what the view and the chart show, places in
/// scripts, classes of refused turns.
const COURSE: [&str; 40] = [
    "goto 0",
    "start 2 3 1 2",
    "script 1 4 0 1 1 3 1",
    "script 2 1 1 6 3 3 1",
    "goto 1",
    "turns 1 1 1 1 2 2",
    "goto 7",
    "goto 6",
    "goto 3",
    "turns 0 3 255",
    "goto 6",
    "goto 2",
    "turn 9",
    "move 1 0 0",
    "mark 00",
    "script 3 4 0",
    "script 3 9 9",
    "back",
    "goto 6",
    // The lock again, by its thread's place in the script
    "goto 2",
    "turn 1",
    "goto 4",
    "goto 3",
    // A class drops with its first accepted turn
    "goto 1",
    "turns 9 2 1 0 1 2",
    "goto 6",
    "goto 5",
    "goto 0",
    // Another move, another place
    "move 1 1 1",
    "turn 1",
    "turn 1",
    "goto 1",
    "goto 3",
    "move 1 4 0",
    "goto 2",
    "turns 1",
    "goto 0",
    "start 2 3 1 2 1",
    "goto 1",
    "turn 2",
];

pub fn sessions() -> Vec<(String, Vec<u8>)> {
    let mut all = vec![
        ("goto-example".to_string(), EXAMPLE.to_vec()),
        ("goto-boundaries".to_string(), spelling::input(&each_shown(&BOUNDARIES, "show"))),
        ("goto-k7".to_string(), every_step(&worked::k7())),
        ("each-goto-steals".to_string(), every_step(&worked::steals(2))),
        ("goto-most-moves".to_string(), most_moves()),
    ];
    for (seed, (p, t, m)) in (1..).zip([(2, 3, 1), (3, 5, 2), (4, 4, 1), (8, 32, 8)]) {
        let config = Config::new(p, t, m, t);
        all.push((format!("goto-{seed}"), random_session(config, seed, RATES, 150, 5)));
        let config = config.with_stealing(1);
        all.push((format!("each-goto-{seed}"), random_session(config, seed, RATES, 80, 5)));
    }
    all
}

pub fn course() -> Vec<(String, Vec<u8>)> {
    let viewed = each_shown(&COURSE, "view").into_iter();
    let charted = viewed.flat_map(|line| match &line[..] {
        "view" => vec![line, "chart".to_string()],
        _ => vec![line],
    });
    let boundaries = spelling::input(&charted.collect::<Vec<_>>());
    let mut all = vec![("goto-boundaries".to_string(), boundaries)];
    let random = |seed: u64| (format!("goto-{seed}"), random_course::input(seed, 90, ANY_STEP));
    all.extend((1..=4).map(random));
    let viewed =
        |seed: u64| (format!("viewed-goto-{seed}"), random_course::viewed(seed, 30, ANY_STEP));
    all.extend((1..=2).map(viewed));
    all
}
