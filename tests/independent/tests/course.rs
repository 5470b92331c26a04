//! The line program for people: its commands, their refusals at the boundaries, lines that are no
//! command, in memory and as a process. `course_tables.rs` has what `view` and `chart` show,
//! `course_marks.rs` the marks.

mod asked;

use asked::Session;
use independent::course::{run, without_words, Reader};
use independent::lines::Reader as LineReader;
use independent::machine::Config;
use independent::picture;
use independent::program::Program;
use independent::random::Generator;
use independent::random_course::{self, ANY_STEP};
use independent::{slips, spelling};
use std::io::{Read, Write};
use std::process::{Command, Stdio};

const HELP: &str = "\
start P T M B    begin a session: processors, threads, mutexes, threads created at first
start P T M B S  the same with the choice of ready queues: 0 a single one, 1 one for each processor
move p a o       processor p: 0 go, 1 lock, 2 trylock, 3 unlock mutex o, 4 yield, 5 exit, 6 create thread o
                 accepted, a move or a turn names the words that it read and wrote
goto k           go to step k, back or forward: so many of the moves kept stand then
show             the picture in hexadecimal
script k a o ..  the script of thread k: up to 6 calls, each an action and an operand
turn p           a turn of processor p, by its thread's script
turns p p ..     turns one after the other: for each its number, then the picture
view             the state as a table, r and w behind the words that the last move read and wrote
chart            the moves that stand, a column for each processor
mark HEX HEX     the mark of a picture: the machine's, then the candidate's
mark HEX         the mark of a candidate's picture against the session's
help             these lines

";

/// Two processors, three threads of which the third is new; scripts for two.
fn small() -> Session {
    Session::after(&["start 2 3 1 2", "script 1 1 1 6 3 3 1", "script 2 1 1 3 1", "move 1 4 0"])
}

#[test]
fn help() {
    assert_eq!(run(b"help\n"), HELP);
    assert_eq!(run(b"help"), HELP);
    small().keeps("help", HELP);
}

#[test]
fn before_a_start() {
    for line in ["move 1 0 0", "goto 0", "show", "script 1", "script 1 1 1", "script 0 9 9"] {
        assert_eq!(run(line.as_bytes()), "?\n", "{line}");
    }
    for line in ["turn 1", "turn 0", "turns 1", "turns 0 9", "view", "chart", "mark 01"] {
        assert_eq!(run(line.as_bytes()), "?\n", "{line}");
        // A refused start begins no session.
        assert_eq!(run(format!("start 9 1 1 1\n{line}").as_bytes()), "1\n?\n", "{line}");
        assert_ne!(run(format!("start 1 1 1 1\n{line}").as_bytes()), "0\n?\n", "{line}");
    }
}

/// Too few words, too many, odd ones; capitals, spaces, other bytes.
#[test]
fn no_commands() {
    let mut session = small();
    let lines = slips::no_commands();
    assert!(lines.len() > 500);
    for line in lines {
        session.keeps(line, "?\n");
    }
}

#[test]
fn any_bytes() {
    let mut session = small();
    for byte in (0..=255).filter(|&byte| byte != b'\n') {
        let with = |front: &str, back: &str| [front.as_bytes(), &[byte], back.as_bytes()].concat();
        for line in [with("", ""), with("view", ""), with("", "chart"), with("he", "lp")] {
            assert_eq!(session.ask(line), "?\n");
        }
        if byte != b' ' {
            assert_eq!(session.ask(with("turns", "1")), "?\n");
            assert_eq!(session.ask(with("script 1 1 1", "3 1")), "?\n");
        }
        if !byte.is_ascii_digit() {
            session.keeps(with("turn ", ""), "?\n");
            assert_eq!(session.ask(with("script 1 1 ", "")), "?\n");
        }
    }
}

/// 3 for a thread that is not there, before 19 for what is no script.
#[test]
fn script_refusals() {
    let mut session = small();
    let pairs = |count: usize| " 4 0".repeat(count);
    for thread in [0, 4, 32, 33, 255] {
        session.keeps(format!("script {thread}"), "3\n");
        session.keeps(format!("script {thread} 1 1"), "3\n");
        session.keeps(format!("script {thread} 7 0"), "3\n");
        session.keeps(format!("script {thread}{}", pairs(7)), "3\n");
        session.keeps(format!("script {thread} 1"), "?\n");
    }
    for thread in 1..=3 {
        for action in [0, 7, 8, 128, 255] {
            session.keeps(format!("script {thread} {action} 0"), "19\n");
            session.keeps(format!("script {thread}{} {action} 0", pairs(5)), "19\n");
            session.keeps(format!("script {thread} {action} 0{}", pairs(5)), "19\n");
        }
        for count in [7, 8, 100, 253] {
            session.keeps(format!("script {thread}{}", pairs(count)), "19\n");
        }
        for action in 1..=6 {
            for operand in [0, 1, 2, 255] {
                session.accepts(format!("script {thread} {action} {operand}"));
            }
        }
        for count in 0..=6 {
            session.accepts(format!("script {thread}{}", pairs(count)));
        }
    }
}

/// The whole script is replaced: what is behind its calls is not made.
#[test]
fn scripts_are_replaced() {
    let chart =
        |lines: &str| run(format!("start 1 2 8 1\n{lines}turns 1 1 1 1 1\nchart").as_bytes());
    let longer = "script 1 1 2 3 2 4 0\n";
    let cells = |lines: &str| -> Vec<String> {
        let chart = chart(lines);
        let rows = chart.lines().skip_while(|line| !line.starts_with("move")).skip(1);
        rows.filter(|row| !row.is_empty()).map(|row| row[6..].trim_end().to_string()).collect()
    };
    assert_eq!(
        cells(longer)[..4],
        ["lock 2", "L1         owner 2: 1", "unlock 2", "U1         owner 2: -"]
    );
    assert_eq!(cells(&format!("{longer}script 1 4 0\n"))[..3], ["yield", "Y1", "exit"]);
    assert_eq!(cells(&format!("{longer}script 1\n"))[0], "exit");
    // Another thread's script, or a refused one, changes nothing.
    assert_eq!(cells(&format!("{longer}script 2 4 0\nscript 1 7 0\nscript 3\n")), cells(longer));
}

/// A script may be set at any time; the calls made so far count.
#[test]
fn scripts_during_a_session() {
    let mut session = Session::after(&["start 1 1 2 1", "script 1 4 0", "turn 1", "turn 1"]);
    session.accepts("script 1 1 1 1 2");
    session.accepts("turn 1");
    assert!(session.ask("chart").contains("\n3     lock 2\n"));
    session.accepts("goto 2");
    session.accepts("script 1 4 0 3 1");
    assert_eq!(session.ask("turn 1"), "6\n");
    session.accepts("script 1 4 0 1 3");
    assert_eq!(session.ask("turn 1"), "3\n");
    session.accepts("script 1");
    session.accepts("turn 1");
    assert!(session.ask("chart").contains("\n3     exit\n"));
}

#[test]
fn turn_refusals() {
    let mut session = small();
    for p in [0, 3, 8, 9, 255] {
        session.keeps(format!("turn {p}"), "2\n");
    }
    for p in [1, 2] {
        session.accepts(format!("turn {p}"));
    }
    // 3, 6 and 7 by a script; 4 and 5 never.
    let mut session = Session::after(&["start 1 1 1 1"]);
    for (script, answer) in [("1 2", "3"), ("7 0", ""), ("3 1", "6"), ("6 1", "7"), ("4 1", "3")] {
        session.ask(format!("script 1 {script}"));
        if !answer.is_empty() {
            session.keeps("turn 1", &format!("{answer}\n"));
        }
    }
    session.accepts("script 1");
    session.accepts("turn 1");
    session.accepts("turn 1");
}

/// 4,000 moves: 8, with 2 before it, and a step back makes room for one turn.
#[test]
fn most_moves() {
    let mut session = Session::after(&["start 2 1 1 1", "script 1 1 9"]);
    let line = spelling::turns(&[2; 500]);
    for _ in 0..8 {
        assert!(session.ask(&line).lines().step_by(2).all(|answer| answer == "0"));
    }
    assert!(session.ask("view").starts_with("moves 4000\n"));
    for (line, answer) in [("turn 2", "8"), ("turn 3", "2"), ("turn 1", "3"), ("move 2 0 0", "8")] {
        assert_eq!(session.ask(line), format!("{answer}\n"), "{line}");
    }
    let picture = session.ask("show");
    let wanted: String = [8, 2, 3, 8].map(|answer| format!("{answer}\n{picture}")).concat();
    assert_eq!(session.ask("turns 2 0 1 2"), wanted);
    let chart = session.ask("chart");
    assert_eq!(chart.lines().count(), 4_002);
    assert!(chart.ends_with("\n4000             CI2\n\n"));
    for line in ["goto 3999", "turn 2"] {
        session.accepts(line);
    }
    assert_eq!(session.ask("turn 2"), "8\n");
    assert_eq!(session.ask("chart"), chart);
}

/// A random start with scripts: its table, and the lines that begin it.
fn scripted(generator: &mut Generator) -> (Config, Vec<u8>) {
    let config = generator.config().with_stealing(generator.between(0, 1));
    let scripts = generator.scripts(config);
    let mut lines = vec![spelling::start(config)];
    lines.extend(spelling::scripts(config, &scripts));
    (config, spelling::input(&lines))
}

/// `turns p q ..` answers as `turn p`, `show`, `turn q`, `show`, .., but for the words.
#[test]
fn turns_are_turns_and_pictures() {
    for seed in 0..150 {
        let mut generator = Generator::new(seed);
        let (config, begun) = scripted(&mut generator);
        let (mut whole, mut single) = (Reader::default(), Reader::default());
        assert_eq!(whole.feed(&begun), single.feed(&begun));
        for count in [1, 2, 1, 30, 100, 7] {
            let turns = generator.turns(config, count);
            let one_by_one: String = turns.iter().map(|p| format!("turn {p}\nshow\n")).collect();
            let got = whole.feed((spelling::turns(&turns) + "\n").as_bytes());
            assert_eq!(got, without_words(&single.feed(one_by_one.as_bytes())));
            assert_eq!(got.lines().count(), 2 * turns.len());
            let length = picture::length(config.processors, config.threads, config.mutexes);
            assert!(got.lines().skip(1).step_by(2).all(|line| line.len() == 2 * length));
        }
        for line in ["view\n", "chart\n"] {
            assert_eq!(whole.feed(line.as_bytes()), single.feed(line.as_bytes()));
        }
    }
}

/// An accepted move or turn names its words, of each kind; whatever is refused, its number alone.
#[test]
fn words_of_moves_and_turns() {
    let mut session = Session::after(&["start 2 4 2 3 1", "script 1 6 4 1 2", "script 2 1 2"]);
    for (line, answer) in [
        ("turn 1", "0 reads birth 4 writes birth 4"),
        ("move 1 0 0", "0 reads ready 1 writes ready 1"),
        ("move 1 0 0", "5"),
        ("turn 1", "0 reads none writes none"),
        ("turn 1", "0 reads count 2 writes count 2"),
        ("turn 2", "0 reads none writes none"),
        ("move 2 0 0", "0 reads count 2 writes count 2"),
        ("move 1 3 2", "0 reads none writes none"),
        ("turn 1", "0 reads count 2 writes count 2"),
        ("turn 1", "0 reads queue 2 writes none"),
        ("turn 1", "0 reads none writes token 2"),
        ("turn 2", "0 reads none writes none"),
        ("turn 2", "0 reads queue 2 writes queue 2"),
        ("turn 2", "0 reads token 2 writes none"),
        ("turn 0", "2"),
        ("move 2 7 0", "3"),
        ("goto 12", "0"),
        ("goto 11", "0"),
        ("start 2 3 1 1 1", "0"),
        ("turn 2", "0 reads ready 2 writes none"),
        ("turn 2", "0 reads ready 1 writes none"),
        ("turn 2", "0 reads ready 2 writes none"),
        ("start 2 3 1 1", "0"),
        ("turn 2", "0 reads ready 1 writes none"),
        ("turn 1", "0 reads none writes none"),
    ] {
        assert_eq!(session.ask(line), format!("{answer}\n"), "{line}");
    }
}

/// The marks are those of the last move that stands, whatever was asked or refused since.
#[test]
fn view_of_the_last_move() {
    let mut session = Session::after(&["start 2 4 1 3"]);
    let mut row = |line: &str, begin: &str| -> String {
        session.ask(line);
        let view = session.ask("view");
        view.lines().find(|row| row.starts_with(begin)).unwrap().to_string()
    };
    for (line, begin, wanted) in [
        ("show", "transit ", "transit     -"),
        ("move 1 6 4", "transit ", "transit     4 rw"),
        ("move 1 6 4", "transit ", "transit     4 rw"),
        ("turn 9", "transit ", "transit     4 rw"),
        ("script 2 1 1", "transit ", "transit     4 rw"),
        ("start 9 9 9 9", "transit ", "transit     4 rw"),
        ("chart", "transit ", "transit     4 rw"),
        ("move 1 0 0", "single", "single       3 4 rw"),
        ("turn 2", "single", "single       3 4"),
        ("turn 2", "1      1", "1      1 rw   2      -           -"),
        ("turns 1 2", "1      1", "1      1      2      -           -"),
        ("goto 4", "1      1", "1      1 rw   2      -           -"),
        ("goto 3", "single", "single       3 4"),
        ("goto 2", "single", "single       3 4 rw"),
        ("goto 1", "transit ", "transit     4 rw"),
        ("goto 0", "new", "new         4"),
        ("goto 6", "new", "new         4"),
        ("goto 2", "single", "single       3 4 rw"),
        ("goto 4", "1      1", "1      1 rw   2      -           -"),
        ("goto 5", "1      1", "1      1      2      -           -"),
    ] {
        assert_eq!(row(line, begin), wanted, "{line}");
    }
}

/// Goings at the boundaries; a move, a turn and a class after one drop what was kept, refused ones do
/// not, nor does a class whose turns are all refused.
#[test]
fn goings() {
    let begun = ["start 2 3 1 2", "script 1 4 0 1 1", "turn 1", "turn 1", "turn 2"];
    for (line, answer, kept) in [
        ("turn 1", "0 reads ready 1 writes none\n", 2),
        ("move 2 1 1", "0 reads none writes none\n", 2),
        ("turns 9 1", "", 2),
        ("move 9 0 0", "2\n", 3),
        ("turn 0", "2\n", 3),
        ("turns 0 3 9", "", 3),
        ("script 1", "0\n", 3),
        ("view", "", 3),
        ("chart", "", 3),
        ("start 9 9 9 9", "1\n", 3),
        ("back", "?\n", 3),
        ("goto 4", "9\n", 3),
        ("goto 4001", "?\n", 3),
        ("goto 2", "0\n", 3),
    ] {
        let mut session = Session::after(&begun);
        session.accepts("goto 1");
        let got = session.ask(line);
        assert!(answer.is_empty() || got == answer, "{line}: {got}");
        for (step, answer) in [(kept + 1, "9\n"), (kept, "0\n"), (0, "0\n"), (kept, "0\n")] {
            assert_eq!(session.ask(format!("goto {step}")), answer, "{line}, then {step}");
        }
    }
    let mut session = small();
    // The session is looked at by 12 turns, which are kept at most.
    for line in ["goto 14", "goto 256", "goto 4000"] {
        session.keeps(line, "9\n");
    }
    for line in ["goto", "goto 01", "goto 4001", "goto 1 1", "back"] {
        session.keeps(line, "?\n");
    }
}

/// View, chart, picture and turns are those of the standing moves alone, wherever they lie.
#[test]
fn shown_by_standing_moves() {
    for seed in 0..40 {
        let mut generator = Generator::new(seed);
        let (config, begun) = scripted(&mut generator);
        let turns = generator.turns(config, 60);
        let looks = |reader: &mut Reader| reader.feed(b"view\nchart\nshow\n");
        let (mut going, mut shown) = (Reader::default(), Vec::new());
        going.feed(&begun);
        shown.push(looks(&mut going));
        for p in &turns {
            if going.feed(format!("turn {p}\n").as_bytes()).starts_with('0') {
                shown.push(looks(&mut going));
            }
        }
        for _ in 0..60 {
            let step = generator.below(shown.len());
            assert_eq!(going.feed(format!("goto {step}\n").as_bytes()), "0\n");
            assert!(looks(&mut going) == shown[step], "seed {seed}, step {step}");
        }
    }
}

/// An owner's exit, by a move and by turns of its spent script, changes nothing; random inputs have
/// such exits too.
#[test]
fn owners_may_not_exit() {
    let mut session = Session::after(&["start 2 3 1 2", "script 1 1 1", "turn 1", "turn 1"]);
    for line in ["move 1 5 0", "turn 1", "turn 1"] {
        session.keeps(line, "21\n");
    }
    let picture = session.ask("show");
    assert_eq!(session.ask("turns 1 3 1"), [21, 2, 21].map(|n| format!("{n}\n{picture}")).concat());
    session.keeps("move 1 5 1", "3\n");
    for line in ["turn 2", "move 1 3 1", "turn 1", "turn 1"] {
        session.accepts(line);
    }
    assert!(session.ask("view").ends_with("terminated  1 2\n\n"));
    let of = |seed| run(&random_course::input(seed, 200, ANY_STEP));
    let refused = (0..60).map(|seed| of(seed).lines().filter(|&line| line == "21").count());
    assert!(refused.sum::<usize>() > 100);
}

/// Scripts are empty after an accepted start, and kept after a refused one.
#[test]
fn starts_and_scripts() {
    let mut session = small();
    for line in
        ["start 0 3 1 2", "start 2 33 1 2", "start 2 3 9 2", "start 2 3 1 4", "start 2 3 1 2 2"]
    {
        session.keeps(line, "1\n");
    }
    for line in ["start 2 3 1 2", "turn 1", "turn 2"] {
        session.accepts(line);
    }
    let exits = session.ask("view");
    assert!(exits.ends_with("terminated  1 2\n\n"), "{exits}");
    // Also those of threads that were there before and come back later.
    let mut session =
        Session::after(&["start 1 2 1 2", "script 2 4 0", "start 1 1 1 1", "start 1 2 1 2"]);
    for line in ["turn 1", "turn 1", "turn 1", "turn 1"] {
        session.accepts(line);
    }
    assert!(session.ask("chart").contains("\n4     exit\n"));
}

/// Lines of 2,048 bytes are read, longer ones are not.
#[test]
fn longest_lines() {
    let mut session = Session::after(&["start 1 1 1 1", "script 1 4 0"]);
    let turns = spelling::turns(&[9; 1_020]);
    assert_eq!(turns.len(), 2_045);
    for (last, read) in [(" 9", true), (" 19", true), (" 119", false)] {
        let line = format!("{turns}{last}");
        let answer = session.ask(&line);
        assert_eq!(answer.lines().count(), if read { 2 * 1_021 } else { 1 }, "{}", line.len());
        assert_eq!(answer == "?\n", !read);
    }
    let script = format!("script 1{}", " 4 0".repeat(510));
    assert_eq!(script.len(), 2_048);
    session.keeps(&script, "19\n");
    session.keeps(format!("{script} 4 0"), "?\n");
    session.keeps(format!("script 10{}", " 4 0".repeat(510)), "?\n");
    for length in [64, 65, 1_000, 1_024, 1_025, 2_047, 2_048, 2_049, 2_050, 5_000] {
        for tail in ["", "view", "chart", "\r"] {
            session.keeps([&vec![b'x'; length][..], tail.as_bytes()].concat(), "?\n");
            session.keeps([b"view", &vec![b' '; length][..]].concat(), "?\n");
        }
    }
}

/// The lines of the plain program are answered alike but for the words, on all its random sessions too.
#[test]
fn plain_lines_alike() {
    for seed in 0..60 {
        let input = random_course::input(seed, 300, ANY_STEP);
        let is_plain = |line: &&[u8]| {
            let plain = ["start", "move", "goto", "show"];
            line.len() <= 64 && plain.iter().any(|word| line.starts_with(word.as_bytes()))
        };
        let (mut plain, mut course) = (LineReader::<Program>::default(), Reader::default());
        for line in input.split(|&byte| byte == b'\n').filter(is_plain) {
            let line = [line, b"\n"].concat();
            assert_eq!(without_words(&course.feed(&line)), plain.feed(&line));
        }
    }
}

/// However the input is cut, the answers are the same.
#[test]
fn cuts() {
    for seed in 0..20 {
        let input = random_course::input(seed, 120, ANY_STEP);
        let whole = run(&input);
        for size in [1, 2, 3, 7, 64, 1_000, 2_048, 2_049] {
            let mut reader = Reader::default();
            let mut output: String = input.chunks(size).map(|part| reader.feed(part)).collect();
            output.push_str(&reader.finish());
            assert_eq!(output, whole);
        }
    }
}

/// Answers come before the next read.
#[test]
fn process_flushes() {
    let mut child = Command::new(env!("CARGO_BIN_EXE_course"))
        .stdin(Stdio::piped())
        .stdout(Stdio::piped())
        .spawn()
        .unwrap();
    let mut stdin = child.stdin.take().unwrap();
    let mut stdout = child.stdout.take().unwrap();
    let mut ask = |input: &[u8], expected: &str| {
        stdin.write_all(input).unwrap();
        stdin.flush().unwrap();
        let mut output = vec![0; expected.len()];
        stdout.read_exact(&mut output).unwrap();
        assert_eq!(output, expected.as_bytes());
    };
    ask(b"help\n", HELP);
    ask(b"start 1 1 1 1\nscr", "0\n");
    let words = "0 reads none writes none\n";
    let chart = "move  1          changes\n1     lock 1\n\n";
    ask(b"ipt 1 1 1\nturn 1\nchart\ntur", &format!("0\n{words}{chart}"));
    stdin.write_all(b"n 2").unwrap();
    drop(stdin);
    let mut rest = String::new();
    stdout.read_to_string(&mut rest).unwrap();
    assert_eq!(rest, "2\n");
    assert!(child.wait().unwrap().success());
}
