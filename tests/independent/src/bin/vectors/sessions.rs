//! Scripts for the line program with the output it must give.

use crate::{goings, owner_exits, Folder};
use independent::machine::{Config, Move, State};
use independent::program;
use independent::random::{is_stuck, Call, Driver, Generator, Rates, Trail};
use independent::spelling;
use independent::worked::{self, Worked};
use std::io;

/// A random session from before exits by owners were refused: it was chosen along the states that
/// such an exit led to, so its seed does not give it any more.
const KEPT_EACH_2: &[u8] = include_bytes!("../../../../vectors/sessions/each-2.in");

/// Goings are single steps back.
const RATES: Rates = Rates { refused: 8, back: 30, goto: 0, owner_exits: 0 };

/// The session with the picture after the start and after each move, then `more`.
fn shown(worked: &Worked, more: &[&str]) -> Vec<u8> {
    let mut lines = vec![spelling::start(worked.config), "show".to_string()];
    for &made in &worked.moves {
        lines.extend([spelling::make_move(made), "show".to_string()]);
    }
    lines.extend(more.iter().map(|line| line.to_string()));
    spelling::input(&lines)
}

pub fn random_session(
    config: Config,
    seed: u64,
    rates: Rates,
    calls: usize,
    show_each: usize,
) -> Vec<u8> {
    let mut driver = Driver::new(seed, rates);
    let mut trail = Trail::new(config);
    let mut lines = vec![spelling::start(config)];
    for count in 1..=calls {
        let call = driver.next_call(trail.state(), trail.kept());
        trail.call(call);
        lines.push(match call {
            Call::Move(made) => spelling::make_move(made),
            Call::Goto(step) => spelling::goto(step),
        });
        if count % show_each == 0 {
            lines.push("show".to_string());
        }
    }
    lines.push("show".to_string());
    spelling::input(&lines)
}

/// 4,000 accepted moves in which the machine never gets stuck.
pub fn busy_moves(config: Config) -> Vec<Move> {
    let mut driver = Driver::new(4, Rates::ACCEPTED);
    let mut state = State::start(config);
    let mut moves = Vec::new();
    while moves.len() < 4_000 {
        let made = driver.likely_move(&state);
        state.try_move(made).expect("an accepted move");
        assert!(!is_stuck(&state));
        moves.push(made);
    }
    moves
}

/// 4,000 accepted moves, refusals at the end, steps back and moves again.
fn most_moves() -> Vec<u8> {
    let config = Config::new(3, 6, 2, 4);
    let moves = busy_moves(config);
    let mut lines = vec![spelling::start(config)];
    for (count, &made) in (1..).zip(&moves) {
        lines.push(spelling::make_move(made));
        if count % 400 == 0 {
            lines.push("show".to_string());
        }
    }
    // The 4,001st: 2 and 3 come first, then 8 whatever the position.
    let mut add = |line: &str| lines.push(line.to_string());
    for p in 1..=3 {
        add(&spelling::make_move([p, 0, 0]));
        add(&spelling::make_move([p, 1, 1]));
        add(&spelling::make_move([p, 3, 1]));
        add(&spelling::make_move([p, 6, 1]));
        add(&spelling::make_move([p, 7, 0]));
        add(&spelling::make_move([p, 0, 1]));
    }
    for line in ["move 0 0 0", "move 4 0 0", "show"] {
        add(line);
    }
    for step in (3_992..4_000).rev() {
        add(&spelling::goto(step));
        add("show");
    }
    for &made in &moves[3_992..] {
        add(&spelling::make_move(made));
    }
    add("show");
    add(&spelling::make_move(moves[3_999]));
    add("goto 3999");
    add(&spelling::make_move(moves[3_999]));
    add("move 1 0 0");
    add("show");
    spelling::input(&lines)
}

fn refusals() -> Vec<u8> {
    spelling::input(&[
        // 1
        "start 0 1 1 1",
        "start 1 0 1 1",
        "start 1 1 0 1",
        "start 1 1 1 0",
        "start 9 32 8 32",
        "start 8 33 8 32",
        "start 8 32 9 32",
        "start 8 32 8 33",
        "start 1 1 1 2",
        "start 255 255 255 255",
        "start 0 0 0 0",
        "start 8 31 8 32",
        // A start; 9
        "start 2 3 2 2",
        "goto 1",
        // 2, also before 3
        "move 0 0 0",
        "move 3 0 0",
        "move 255 0 0",
        "move 0 7 9",
        "move 3 7 9",
        // 3, also before 5
        "move 1 7 0",
        "move 1 255 0",
        "move 1 0 1",
        "move 1 4 1",
        "move 1 5 1",
        "move 1 1 0",
        "move 1 1 3",
        "move 1 2 0",
        "move 1 2 3",
        "move 1 3 0",
        "move 1 3 3",
        "move 1 6 0",
        "move 1 6 4",
        "move 1 6 255",
        // 5, 6, 7
        "move 1 0 0",
        "move 2 0 0",
        "move 1 3 1",
        "move 1 3 2",
        "move 1 6 1",
        "move 1 6 2",
        "show",
        // Create, then 4 for every call, 3 before 4, 7 once created
        "move 1 6 3",
        "show",
        "move 1 1 1",
        "move 1 2 1",
        "move 1 3 1",
        "move 1 4 0",
        "move 1 5 0",
        "move 1 6 3",
        "move 1 6 0",
        "move 1 1 3",
        "move 1 7 0",
        "move 1 0 1",
        "move 2 6 3",
        "move 1 0 0",
        "show",
        "move 1 6 3",
        // Owner 1; others get 6
        "move 1 1 1",
        "move 1 0 0",
        "move 2 3 1",
        "move 1 3 2",
        "show",
        // The owner may not exit, gets 5 for goes, and unlocks; 4 there
        "move 1 5 0",
        "move 1 0 0",
        "move 1 0 0",
        "show",
        "move 1 3 1",
        "move 1 6 1",
        // Back to the start and 9 again
        "goto 4",
        "goto 3",
        "goto 2",
        "goto 1",
        "goto 0",
        "goto 6",
        "goto 6",
        "show",
        "goto 6",
        "show",
    ])
}

/// Random sessions in which owners often try to exit, with either choice of ready queues.
fn random_owners() -> Vec<(String, Vec<u8>)> {
    let rates = Rates { owner_exits: 10, ..RATES };
    let tables = [(2, 3, 1), (3, 5, 2), (4, 9, 3), (8, 32, 8)];
    let all = (1..).zip(tables).flat_map(|(seed, (p, t, m))| {
        let config = Config::new(p, t, m, t);
        let input = |stealing| random_session(config.with_stealing(stealing), seed, rates, 200, 10);
        [(format!("owner-exits-{seed}"), input(0)), (format!("each-owner-exits-{seed}"), input(1))]
    });
    all.collect()
}

/// Lines that are no command, between commands.
fn odd_lines() -> Vec<u8> {
    let odd = [
        "",
        " ",
        "  ",
        "show ",
        " show",
        "show show",
        "show\r",
        "SHOW",
        "Show",
        "sho",
        "showx",
        "show 1",
        "?",
        "0",
        "back",
        "back 1",
        "goto",
        "goto ",
        "goto  1",
        "goto 1 ",
        " goto 1",
        "goto 01",
        "goto 00",
        "goto 0 0",
        "goto 1 2",
        "goto -1",
        "goto +1",
        "goto 1.",
        "goto 0x1",
        "goto 1a",
        "goto a",
        "goto,1",
        "goto\t1",
        "goto 4001",
        "goto 4002",
        "goto 9999",
        "goto 04000",
        "goto 10000",
        "goto 40000",
        "goto 65536",
        "goto 65537",
        "goto 4294967297",
        "goto 18446744073709551617",
        "gotos 1",
        "got 1",
        "Goto 1",
        "GOTO 1",
        "goto1",
        "goto 1\r",
        "move",
        "move ",
        "move 1",
        "move 1 0",
        "move 1 0 ",
        "move 1 0 0 ",
        " move 1 0 0",
        "move  1 0 0",
        "move 1  0 0",
        "move 1 0  0",
        "move 1 0 0 0",
        "move 01 0 0",
        "move 1 00 0",
        "move 1 0 00",
        "move 001 0 0",
        "move 1 1 01",
        "move 256 0 0",
        "move 1 256 0",
        "move 1 0 256",
        "move 257 1 1",
        "move 1 257 1",
        "move 1 1 257",
        "move 999 0 0",
        "move 1000 0 0",
        "move 65537 1 1",
        "move 4294967297 1 1",
        "move 18446744073709551617 1 1",
        "move -1 0 0",
        "move +1 1 1",
        "move 1 1 +1",
        "move 1 1 1.",
        "move 1 1 0x1",
        "move 1 1 1a",
        "move a b c",
        "move 1,1,1",
        "move 1\t1\t1",
        "move\t1 1 1",
        "moves 1 1 1",
        "Move 1 1 1",
        "start",
        "start ",
        "start 1",
        "start 1 1 1",
        "start 1 1 1 ",
        "start 1 1 1 1 ",
        "start 1 1 1 1 1",
        " start 1 1 1 1",
        "start  1 1 1 1",
        "start 1 1  1 1",
        "start 01 1 1 1",
        "start 1 1 1 01",
        "start 00 1 1 1",
        "start 256 1 1 1",
        "start 257 1 1 1",
        "start 1 257 1 1",
        "start 1 1 1 257",
        "start 1 1 1 300",
        "start 4294967297 1 1 1",
        "start -1 1 1 1",
        "START 1 1 1 1",
        "starts 1 1 1 1",
        "start 1 1 1 1\r",
        "start1 1 1 1",
        "stop",
        "go 1",
        "start 1 1 1 1 0",
    ];
    let mut lines = odd.map(str::to_string).to_vec();
    lines.extend(["start 2 2 2 2".to_string(), "move 1 1 1".to_string(), "show".to_string()]);
    lines.extend(odd.map(str::to_string));
    lines.extend(["show", "move 255 255 255", "move 1 0 0", "goto 0", "show"].map(str::to_string));
    spelling::input(&lines)
}

/// Fifth numbers of a start: taken, refused, and lines that are no command.
fn fifth_numbers() -> Vec<u8> {
    let mut lines = Vec::new();
    for fifth in [
        "", " 0", " 1", " 2", " 9", " 255", " 256", " 01", " 00", " 1 ", "  1", " 1 1", " x", " -1",
    ] {
        lines.extend([format!("start 2 5 1 4{fifth}"), "show".to_string()]);
        lines.extend(["move 1 4 0", "move 1 0 0", "show"].map(str::to_string));
    }
    for table in ["0 5 1 4", "2 33 1 4", "2 5 9 4", "2 5 1 6"] {
        lines.extend(["0", "1", "2"].map(|fifth| format!("start {table} {fifth}")));
    }
    lines.push("show".to_string());
    spelling::input(&lines)
}

fn long_lines() -> Vec<u8> {
    let mut lines: Vec<Vec<u8>> = vec![b"start 1 1 1 1".to_vec(), b"show".to_vec()];
    for length in [59, 60, 61, 63, 64, 65, 66, 127, 128, 129, 130, 255, 256, 257] {
        for tail in ["", "show", "goto 0", "move 1 1 1", "start 2 2 2 2"] {
            // After the filler, and before it.
            lines.push([&vec![b'x'; length][..], tail.as_bytes()].concat());
            lines.push([tail.as_bytes(), &vec![b' '; length][..]].concat());
        }
        lines.push(b"show".to_vec());
    }
    for length in [1_000, 4_092, 4_095, 4_096, 4_097, 8_192, 10_000] {
        lines.push([&vec![b'x'; length][..], b"move 1 1 1"].concat());
        lines.push(b"show".to_vec());
    }
    // Commands in parts of 64 and 65 bytes.
    for part in [64, 65] {
        let mut line = Vec::new();
        for _ in 0..3 {
            let mut piece = b"move 1 1 1".to_vec();
            piece.resize(part, b' ');
            line.extend(piece);
        }
        lines.push(line);
    }
    lines.push(b"move 1 1 1".to_vec());
    lines.push(b"show".to_vec());
    spelling::input(&lines)
}

fn any_bytes() -> Vec<u8> {
    let mut lines: Vec<Vec<u8>> = vec![b"start 1 1 1 1".to_vec()];
    for byte in (0..=255u8).filter(|&byte| byte != b'\n') {
        lines.push(vec![byte]);
        lines.push([b"show", &[byte][..]].concat());
        lines.push([&[byte][..], b"show"].concat());
        lines.push([b"move 1 1 ", &[byte][..]].concat());
        lines.push([b"move", &[byte][..], b"9 1 1"].concat());
        lines.push([b"goto ", &[byte][..]].concat());
        lines.push([b"goto", &[byte][..], b"1"].concat());
        lines.push([b"start 1 1 1 1", &[byte][..]].concat());
    }
    lines.push(b"sh\0ow".to_vec());
    lines.push(b"\0\0\0\0".to_vec());
    lines.push(b"move 1 1 \xb1".to_vec());
    lines.push(b"sh\xc3\xb6w".to_vec());
    lines.push(vec![0; 65]);
    lines.push(vec![255; 65]);
    lines.push(b"show".to_vec());
    spelling::input(&lines)
}

/// A line of every length from 0 to 70, random bytes of the commands' letters.
fn noise() -> Vec<u8> {
    let mut generator = Generator::new(9);
    let letters = b"showgotomovestart 0123456789  112";
    let mut lines: Vec<Vec<u8>> = vec![b"start 3 4 2 4".to_vec()];
    for length in (0..=70).chain(0..=24) {
        lines.push((0..length).map(|_| generator.pick(letters)).collect());
    }
    lines.push(b"show".to_vec());
    spelling::input(&lines)
}

/// All moves, then back to the start by single steps, and a going that is refused.
fn there_and_back(worked: &Worked) -> Vec<u8> {
    let mut lines = vec![spelling::start(worked.config)];
    lines.extend(worked.moves.iter().map(|&made| spelling::make_move(made)));
    let kept = worked.moves.len() as u16;
    for step in (0..kept).rev().chain([kept + 1]) {
        lines.extend(["show".to_string(), spelling::goto(step)]);
    }
    lines.push("show".to_string());
    spelling::input(&lines)
}

/// Whole inputs that are not just ended lines.
fn endings() -> Vec<(&'static str, Vec<u8>)> {
    let long = [b'x'; 100];
    vec![
        ("end-empty", Vec::new()),
        ("end-line-feed", b"\n".to_vec()),
        ("end-line-feeds", b"\n\n\n".to_vec()),
        ("end-show", b"start 1 1 1 1\nshow".to_vec()),
        ("end-start", b"start 1 1 1 1".to_vec()),
        ("end-refused", b"start 1 1 1 1\nmove 2 0 0".to_vec()),
        ("end-other", b"start 1 1 1 1\nsho".to_vec()),
        ("end-space", b"start 1 1 1 1\n ".to_vec()),
        ("end-return", b"start 1 1 1 1\nshow\r".to_vec()),
        ("end-nul", b"start 1 1 1 1\n\0".to_vec()),
        ("end-long", [b"start 1 1 1 1\n", &long[..]].concat()),
        ("end-long-show", [b"start 1 1 1 1\n", &long[..], b"show"].concat()),
        ("end-64", [b"start 1 1 1 1\n", &long[..64]].concat()),
        ("end-65", [b"start 1 1 1 1\n", &long[..65]].concat()),
        ("end-line-feed-after-long", [b"start 1 1 1 1\n", &long[..], b"\n"].concat()),
    ]
}

fn fixed() -> Vec<(&'static str, Vec<u8>)> {
    let owned = Worked::new(Config::new(2, 2, 1, 2)).call(1, 1, 1).go(1, 1);
    vec![
        ("example", spelling::input(&["start 1 1 1 1", "show"])),
        ("k1", spelling::input(&["start 8 32 8 32", "show"])),
        ("k2", spelling::input(&["start 9 32 8 32", "show"])),
        ("k3", spelling::input(&["start 8 32 8 0", "show"])),
        ("k4", shown(&worked::k4(), &[])),
        ("k5", shown(&worked::k5(), &[])),
        ("k6", shown(&worked::k6(), &[])),
        ("k7", shown(&worked::k7(), &[])),
        ("k8-by-moves", shown(&worked::k8_with_trylocks(), &[])),
        ("k9", shown(&owned, &["move 2 3 1", "show"])),
        (
            "before-start",
            spelling::input(&[
                "show",
                "goto 0",
                "move 1 0 0",
                "move 0 0 0",
                "start 0 1 1 1",
                "show",
                "goto 1",
                "start 1 1 1",
                "move 1 1 1",
                "start 1 1 1 1",
                "show",
                "goto 1",
            ]),
        ),
        (
            "start-again",
            spelling::input(&[
                "start 1 2 1 2",
                "move 1 4 0",
                "move 1 0 0",
                "show",
                "start 9 1 1 1",
                "show",
                "start 1 1 1 2",
                "move 1 0 0",
                "show",
                "start 2 2 2 1",
                "show",
                "goto 1",
                "move 2 0 0",
                "show",
                "goto 0",
                "show",
                "goto 2",
            ]),
        ),
        ("refusals", refusals()),
        ("owner-exits", owner_exits::session(0)),
        ("each-owner-exits", owner_exits::session(1)),
        ("owner-exits-most-moves", owner_exits::most_moves()),
        ("odd-lines", odd_lines()),
        ("fifth-numbers", fifth_numbers()),
        ("long-lines", long_lines()),
        ("any-bytes", any_bytes()),
        ("noise", noise()),
        ("each-steals-1", shown(&worked::steals(1), &["goto 22", "goto 21", "show"])),
        ("each-steals-2", shown(&worked::steals(2), &["goto 22", "goto 21", "show"])),
        ("each-steals-3", there_and_back(&worked::steals(3))),
        ("each-own-queues", shown(&worked::own_queues(), &[])),
        ("back-k7", there_and_back(&worked::k7())),
        ("back-k8", there_and_back(&worked::k8_with_trylocks())),
        ("most-moves", most_moves()),
    ]
}

pub fn write_all(folder: &Folder) -> io::Result<()> {
    let mut all: Vec<(String, Vec<u8>)> = Vec::new();
    all.extend(fixed().into_iter().chain(endings()).map(|(name, input)| (name.into(), input)));
    let mut generator = Generator::new(4);
    for seed in 1..=24 {
        let config = generator.config();
        all.push((format!("random-{seed:02}"), random_session(config, seed, RATES, 300, 5)));
    }
    let few = [(3, 3, 1), (4, 4, 1), (4, 4, 2), (5, 6, 1)];
    for (seed, (p, t, m)) in (1..).zip(few) {
        let input = random_session(Config::new(p, t, m, t), seed, RATES, 700, 10);
        all.push((format!("contention-{seed}"), input));
    }
    let each = [(1, 3, 1), (2, 5, 1), (3, 9, 2), (5, 12, 1), (8, 32, 2), (8, 24, 8)];
    for (seed, (p, t, m)) in (1..).zip(each) {
        let config = Config::new(p, t, m, t - t / 8).with_stealing(1);
        let input = match seed {
            2 => KEPT_EACH_2.to_vec(),
            _ => random_session(config, seed, RATES, 300, 10),
        };
        all.push((format!("each-{seed}"), input));
    }
    all.extend(random_owners());
    all.extend(goings::sessions());
    for (name, input) in all {
        folder.write(&format!("{name}.in"), &input)?;
        folder.write(&format!("{name}.out"), program::run(&input).as_bytes())?;
    }
    Ok(())
}
