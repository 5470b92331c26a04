//! Inputs of the line program `course` with the output it must give.

use crate::sessions::busy_moves;
use crate::{course_marks, goings, owner_exits, Folder};
use independent::machine::{Config, GO};
use independent::random::Generator;
use independent::random_course::STEPS_BACK;
use independent::worked::{self, Worked};
use independent::{course, random_course, slips, spelling};
use std::io;

/// The examples for users.
const CLASS: &[u8] = include_bytes!("../../../../../examples/class.txt");
const K5: &[u8] = include_bytes!("../../../../../examples/course_k5.txt");

/// Random inputs from before exits by owners were refused: they were chosen along the states that
/// such an exit led to, so their seeds do not give them any more.
const KEPT: [(u64, &[u8]); 5] = [
    (5, include_bytes!("../../../../vectors/course/random-05.in")),
    (18, include_bytes!("../../../../vectors/course/random-18.in")),
    (19, include_bytes!("../../../../vectors/course/random-19.in")),
    (28, include_bytes!("../../../../vectors/course/random-28.in")),
    (36, include_bytes!("../../../../vectors/course/random-36.in")),
];

fn random(seed: u64) -> Vec<u8> {
    let kept = KEPT.iter().find(|(of, _)| *of == seed);
    let steps_back = || random_course::input(seed, 100, STEPS_BACK);
    kept.map_or_else(steps_back, |(_, input)| input.to_vec())
}

/// A session with the view after the start and after each move, then the chart.
fn viewed(worked: &Worked) -> Vec<u8> {
    let mut lines = vec![spelling::start(worked.config), "view".to_string()];
    for &made in &worked.moves {
        lines.extend([spelling::make_move(made), "view".to_string()]);
    }
    lines.push("chart".to_string());
    spelling::input(&lines)
}

/// Moves, turns and steps back, some of them refused, each with the view after it: a create, looks, a
/// hand-off by token that a trylock takes, yields.
fn touched(stealing: u8) -> Vec<u8> {
    let config = Config::new(3, 5, 2, 3).with_stealing(stealing);
    let mut lines = vec![spelling::start(config)];
    lines.extend(["script 1 6 5 1 2 3 2 4 0", "script 2 1 2", "script 3 2 2"].map(String::from));
    let turns = [1, 1, 1, 2, 1, 2, 0, 1, 1, 1, 1, 2, 2, 9, 1, 2];
    lines.extend(turns.map(|p| format!("turn {p}")));
    let moves = [[3, 2, 2], [3, 0, 0], [3, 7, 0], [3, 0, 0], [3, 0, 0], [3, 1, 2], [3, 0, 0]];
    lines.extend(moves.map(spelling::make_move));
    lines.push("turns 1 1 1 1 1 2 2 2 2 2 2".to_string());
    spelling::add_steps_back(&mut lines, 1);
    lines.extend(["turns 0 9", "turns 1 1", "start 9 9 9 9"].map(String::from));
    spelling::add_steps_back(&mut lines, 38);
    let viewed = lines.into_iter().flat_map(|line| [line, "view".to_string()]);
    spelling::input(&viewed.collect::<Vec<_>>())
}

/// The class of the examples, turn by turn, and back to its start with a chart after each step.
fn turn_by_turn() -> Vec<u8> {
    let mut lines =
        ["start 2 2 1 2", "script 1 1 1 3 1", "script 2 1 1 3 1"].map(String::from).to_vec();
    for p in [1, 2, 1, 2, 2, 2, 2, 3, 1, 1, 1, 1, 1, 1, 2, 1, 1, 1, 2, 1, 1, 2] {
        lines.extend([format!("turn {p}"), "show".to_string(), "view".to_string()]);
    }
    for _ in 0..22 {
        lines.push("chart".to_string());
        spelling::add_steps_back(&mut lines, 1);
    }
    lines.extend(["show", "turns 1", "chart"].map(String::from));
    spelling::input(&lines)
}

/// Scripts at the boundaries of 3 and 19, some set again, and what they then do.
fn scripts() -> Vec<u8> {
    let mut lines = vec!["start 2 5 2 3".to_string()];
    let pairs = |count: usize| " 4 0".repeat(count);
    for thread in [0, 1, 5, 6, 32, 33, 255] {
        for count in [0, 1, 5, 6, 7, 8, 50] {
            lines.push(format!("script {thread}{}", pairs(count)));
            lines.push(format!("script {thread}{} 1", pairs(count)));
        }
        for action in [0, 1, 2, 3, 4, 5, 6, 7, 8, 128, 255] {
            lines.push(format!("script {thread} {action} 0"));
            lines.push(format!("script {thread} {action} 255{}", pairs(5)));
            lines.push(format!("script {thread}{} {action} 1", pairs(5)));
            lines.push(format!("script {thread}{} {action} 1", pairs(6)));
        }
    }
    let more = [
        // Longer, then shorter: what was behind is gone.
        "script 1 1 1 3 1 4 0 1 2 3 2 6 4",
        "script 1 1 1",
        "script 2 6 4 6 5",
        "script 4 4 0",
        "script 3",
        "turns 1 1 2 2 2 2 1 1 1 1 1 1 1 1 1 1 2 2 2",
        "view",
        // Set while it runs: the calls made count.
        "script 4 4 0 4 0 1 1",
        "script 4 9 9",
        "turns 1 1 1 1 1 1 1 1 1 1 1 2 2 2 2",
        "view",
        "chart",
    ];
    lines.extend(more.map(String::from));
    spelling::input(&lines)
}

/// Turns that 2, 3, 6 and 7 refuse, alone and in classes; calls are tried again.
fn refused_turns() -> Vec<u8> {
    let mut lines = vec!["start 2 3 2 2".to_string()];
    for script in ["", " 1 3", " 1 0", " 4 1", " 5 9", " 3 1", " 6 2", " 6 4", " 6 0", " 6 3 6 3"] {
        lines.push(format!("script 1{script}"));
        for line in ["turn 0", "turn 3", "turn 255", "turn 1", "turns 1 0 1 3 1 255", "view"] {
            lines.push(line.to_string());
        }
        lines.push("start 2 3 2 2".to_string());
    }
    lines.extend(["turns 0", "turns 9 8 7 6 5 4 3", "show", "chart"].map(String::from));
    spelling::input(&lines)
}

/// Starts accepted and refused, what they leave of session and scripts.
fn starts() -> Vec<u8> {
    let first = ["view", "chart", "start 9 1 1 1", "view", "turn 1", "script 1", "help", "goto 0"];
    let begin =
        ["start 2 4 1 3", "script 1 1 1 3 1", "script 2 1 1", "script 4 4 0", "turns 1 2 1"];
    let refused =
        ["start 0 4 1 3", "start 2 33 1 3", "start 2 4 9 3", "start 2 4 1 5", "start 2 4 1 3 2"];
    let mut lines = [&first[..], &begin].concat();
    for line in refused {
        lines.extend([line, "view", "turn 1"]);
    }
    lines.extend(["turns 1 1 2 2 2 2", "view", "chart"]);
    // Scripts are empty again, also those of threads that were not there for a while.
    lines.extend(["start 2 4 1 3 1", "view", "turn 1", "turn 2", "chart"]);
    lines.extend(&begin);
    lines.extend(["start 1 1 1 1", "chart", "script 2", "script 1 4 0", "start 1 1 1 1"]);
    lines.extend(["start 4 4 1 4", "turns 1 2 3 4", "view", "chart", "goto 3", "goto 2", "chart"]);
    spelling::input(&lines)
}

/// Lines that are no command without a session, with one, and between turns.
fn no_commands() -> Vec<u8> {
    let odd = slips::no_commands();
    let mut lines = odd.clone();
    lines.extend(["start 2 3 1 2", "script 1 1 1 3 1", "turns 1 2", "view"].map(String::from));
    for (count, line) in odd.into_iter().enumerate() {
        lines.push(line);
        if count % 100 == 0 {
            lines.extend(["turn 1", "view"].map(String::from));
        }
    }
    lines.extend(["show", "view", "chart"].map(String::from));
    spelling::input(&lines)
}

/// Every byte value in lines of every kind.
fn any_bytes() -> Vec<u8> {
    let mut lines: Vec<Vec<u8>> = vec![b"start 2 3 1 2".to_vec(), b"script 1 1 1 3 1".to_vec()];
    for byte in 0..=255u8 {
        let with = |front: &str, back: &str| [front.as_bytes(), &[byte], back.as_bytes()].concat();
        lines.push(with("", ""));
        lines.push(with("view", ""));
        lines.push(with("", "chart"));
        lines.push(with("he", "lp"));
        lines.push(with("turn 2", ""));
        lines.push(with("turns 0", "0"));
        lines.push(with("script 3 1 ", ""));
        lines.push(with("mark 0", ""));
        lines.push(with("mark 00 ", "0"));
    }
    lines.push((0..=255).collect());
    lines.push((0..=255).rev().collect());
    lines.extend([vec![0; 2_048], vec![255; 2_049], b"vi\0ew".to_vec(), b"vi\xc3\xabw".to_vec()]);
    lines.extend(["view", "chart"].map(|line| line.as_bytes().to_vec()));
    spelling::input(&lines)
}

/// Lines of about 64, 1,024 and 2,048 bytes and of 5,000: commands, fillers, both.
fn long_lines() -> Vec<u8> {
    let mut lines = ["start 1 1 1 1", "script 1 4 0 4 0"].map(String::from).to_vec();
    let turns = spelling::turns(&[255; 510]);
    let script = |thread: u8, count: usize| format!("script {thread}{}", " 4 0".repeat(count));
    for last in [" 1", " 19", " 119", " 1 119", " 1 1 1 1 1 1 1 1"] {
        lines.push(format!("{turns}{last}"));
        lines.push("view".to_string());
    }
    // The most turns that a line can have, and as many with a byte too many.
    for last in [" 1", " 10", " 100"] {
        lines.push(spelling::turns(&[1; 1_020]) + last);
    }
    for (thread, count) in [(1, 6), (1, 509), (1, 510), (1, 511), (2, 510), (10, 509), (10, 510)] {
        lines.push(script(thread, count));
    }
    let machine = Worked::new(Config::new(1, 1, 1, 1)).picture();
    for count in [1_020, 1_021, 1_022, 1_023] {
        lines.push(spelling::mark(&vec![1; count]));
        lines.push(spelling::mark_of(&machine, &vec![1; count - machine.len()]));
        lines.push(spelling::mark_of(&vec![1; count - machine.len()], &machine));
    }
    for length in [63, 64, 65, 1_024, 1_025, 2_047, 2_048, 2_049, 2_050, 5_000] {
        for command in ["view", "turn 1"] {
            lines.push(format!("{command:<length$}"));
            lines.push(format!("{command:>length$}"));
            lines.push(format!("{command:x<length$}"));
            lines.push(format!("{command:x>length$}"));
        }
        lines.push("show".to_string());
    }
    // Commands in parts of some lengths.
    for part in [1_024, 1_025, 2_048, 2_049] {
        lines.push(format!("{:<part$}", "turn 1").repeat(3));
        lines.push(format!("{:<part$}", "turn 1").repeat(2) + "turn 1");
    }
    lines.extend(["turn 1", "view", "chart"].map(String::from));
    spelling::input(&lines)
}

/// 4,000 moves, some of them as turns, the refusals after them, a step back, the whole chart.
fn most_moves() -> Vec<u8> {
    let config = Config::new(3, 6, 2, 4);
    let mut lines = vec![spelling::start(config)];
    for (count, made) in (1..).zip(busy_moves(config)) {
        lines.push(match made {
            [p, GO, _] if count % 20 == 0 => format!("turn {p}"),
            _ => spelling::make_move(made),
        });
        if count % 500 == 0 {
            lines.push("view".to_string());
        }
    }
    let rest = [
        "turn 1",
        "turn 2",
        "turn 3",
        "turn 4",
        "turns 1 0 2 4 3",
        "move 1 0 0",
        "move 1 7 0",
        "move 4 0 0",
        "goto 3999",
        "view",
        "turns 4 3 3 2 1",
        "view",
        "chart",
    ];
    lines.extend(rest.map(String::from));
    spelling::input(&lines)
}

/// The largest table under scripts: hundreds of turns in a line.
fn large(stealing: u8) -> Vec<u8> {
    let config = Config::new(8, 32, 8, 32 - 2 * stealing).with_stealing(stealing);
    let mut generator = Generator::new(13);
    let mut lines = vec![spelling::start(config), "view".to_string()];
    lines.extend(spelling::scripts(config, &generator.scripts(config)));
    for count in [5, 300, 50] {
        lines.extend([spelling::turns(&generator.turns(config, count)), "view".to_string()]);
    }
    lines.push("chart".to_string());
    spelling::input(&lines)
}

/// Whole inputs that are not just ended lines.
fn endings() -> Vec<(&'static str, Vec<u8>)> {
    let begun = |rest: &str| format!("start 2 3 1 2\nscript 1 1 1\n{rest}").into_bytes();
    vec![
        ("end-empty", Vec::new()),
        ("end-line-feed", b"\n".to_vec()),
        ("end-help", b"help".to_vec()),
        ("end-help-help", b"help\nhelp".to_vec()),
        ("end-no-session", b"view".to_vec()),
        ("end-view", begun("turns 1 2 1\nview")),
        ("end-chart", begun("turns 1 2 1\nchart")),
        ("end-script", begun("script 2 1 1")),
        ("end-turn", begun("turn 2")),
        ("end-turns", begun("turns 1 2 3 1 1")),
        ("end-space", begun("view ")),
        ("end-mark", begun("mark 0203010000")),
        ("end-mark-pictures", b"mark 01 02".to_vec()),
        ("end-mark-no-session", b"mark 01".to_vec()),
        ("end-2048", begun(&format!("script 1{}", " 4 0".repeat(510)))),
        ("end-2049", begun(&format!("script 10{}", " 4 0".repeat(510)))),
        ("end-long", begun(&"x".repeat(3_000))),
    ]
}

fn fixed() -> Vec<(&'static str, Vec<u8>)> {
    vec![
        ("class", CLASS.to_vec()),
        ("class-turn-by-turn", turn_by_turn()),
        ("k5", K5.to_vec()),
        ("k5-views", viewed(&worked::k5())),
        ("k6-views", viewed(&worked::k6())),
        ("k7-views", viewed(&worked::k7())),
        ("k8-views", viewed(&worked::k8_with_trylocks())),
        ("each-steals-2-views", viewed(&worked::steals(2))),
        ("each-own-queues-views", viewed(&worked::own_queues())),
        ("touched", touched(0)),
        ("each-touched", touched(1)),
        ("scripts", scripts()),
        ("refused-turns", refused_turns()),
        ("owner-exits", owner_exits::course(0)),
        ("each-owner-exits", owner_exits::course(1)),
        ("starts", starts()),
        ("no-commands", no_commands()),
        ("any-bytes", any_bytes()),
        ("long-lines", long_lines()),
        ("most-moves", most_moves()),
        ("large", large(0)),
        ("each-large", large(1)),
    ]
}

pub fn write_all(folder: &Folder) -> io::Result<()> {
    let mut all: Vec<(String, Vec<u8>)> = Vec::new();
    let named = fixed().into_iter().chain(course_marks::all()).chain(endings());
    all.extend(named.map(|(name, input)| (name.into(), input)));
    all.extend((1..=41).map(|seed| (format!("random-{seed:02}"), random(seed))));
    let viewed = |seed| (format!("viewed-{seed}"), random_course::viewed(seed, 60, STEPS_BACK));
    all.extend((1..=8).map(viewed));
    all.extend(goings::course());
    for (name, input) in all {
        folder.write(&format!("{name}.in"), &input)?;
        folder.write(&format!("{name}.out"), course::run(&input).as_bytes())?;
    }
    Ok(())
}
