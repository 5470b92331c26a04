//! The line program, in memory and as a process.

use independent::journal::JOURNAL;
use independent::program::{run, Reader};
use std::io::{Read, Write};
use std::process::{Command, Stdio};

const EXAMPLE: &str = "0101010000000000000100000000000000000000000000000000000003010000";

#[test]
fn example() {
    assert_eq!(run(b"start 1 1 1 1\nshow\n"), format!("0\n{EXAMPLE}\n"));
    // The last line needs no line feed.
    assert_eq!(run(b"start 1 1 1 1\nshow"), format!("0\n{EXAMPLE}\n"));
    assert_eq!(run(b""), "");
    assert_eq!(run(b"\n"), "?\n");
}

#[test]
fn other_lines() {
    let lines: [&[u8]; 43] = [
        b"",
        b" ",
        b"show ",
        b" show",
        b"show\r",
        b"SHOW",
        b"sho",
        b"showx",
        b"back",
        b"goto",
        b"goto ",
        b"goto 1 ",
        b"goto  1",
        b"goto 01",
        b"goto 1 1",
        b"goto -1",
        b"goto 4001",
        b"goto 04000",
        b"goto 40000",
        b"goto 65536",
        b"GOTO 1",
        b"move",
        b"move 1 0",
        b"move 1 0 0 0",
        b"move  1 0 0",
        b"move 1 0 0 ",
        b"move 01 0 0",
        b"move 1 00 0",
        b"move 1 0 256",
        b"move 1 0 -0",
        b"move +1 0 0",
        b"move 1\t0 0",
        b"start 1 1 1",
        b"start 1 1 1 1 1 1",
        b"start 1 1 1 1 01",
        b"start 1 1 1 1  1",
        b"start 256 1 1 1",
        b"start 1 1 1 1000",
        b"show\0",
        b"\0",
        b"\xff",
        b"move 1 4294967296 0",
        b"start 1 1 1 4294967297",
    ];
    let mut reader = Reader::default();
    assert_eq!(reader.feed(b"start 1 1 1 1\n"), "0\n");
    for line in lines {
        assert_eq!(reader.feed(line), "");
        assert_eq!(reader.feed(b"\n"), "?\n", "{line:?}");
    }
    assert_eq!(reader.feed(b"show\n"), format!("{EXAMPLE}\n"));
}

/// A fifth number over 1 is refused; left out it is 0.
#[test]
fn fifth_number() {
    let own = format!("{}01{}", &EXAMPLE[..14], &EXAMPLE[16..]);
    let input =
        b"start 1 1 1 1 1\nshow\nstart 1 1 1 1 2\nstart 1 1 1 1 255\nshow\nstart 1 1 1 1 0\nshow\n";
    assert_eq!(run(input), format!("0\n{own}\n1\n1\n{own}\n0\n{EXAMPLE}\n"));
}

#[test]
fn before_a_start() {
    let input =
        b"show\ngoto 0\nmove 1 0 0\nstart 0 1 1 1\nshow\nstart 1 1 1 1\nstart 9 1 1 1\nshow\n";
    assert_eq!(run(input), format!("?\n?\n?\n1\n?\n0\n1\n{EXAMPLE}\n"));
}

/// Every step from 0 to 4,000 is a number of the line; those past the kept moves are refused by 9.
#[test]
fn steps() {
    let mut reader = Reader::default();
    assert_eq!(reader.feed(b"goto 0\nstart 1 1 1 1\nmove 1 4 0\nmove 1 0 0\n"), "?\n0\n0\n0\n");
    for step in 0..5_000 {
        let wanted = match step {
            0..=2 => "0\n",
            3..=4_000 => "9\n",
            _ => "?\n",
        };
        assert_eq!(reader.feed(format!("goto {step}\n").as_bytes()), wanted, "{step}");
    }
    // The last going was to step 2; a refused move keeps what a taken one drops.
    assert_eq!(reader.feed(b"goto 1\nmove 1 4 0\ngoto 2\ngoto 1\n"), "0\n4\n0\n0\n");
    assert_eq!(reader.feed(b"move 1 0 0\ngoto 3\ngoto 2\ngoto 0\n"), "0\n9\n0\n0\n");
    assert_eq!(reader.feed(b"show\nmove 1 1 1\ngoto 2\n"), format!("{EXAMPLE}\n0\n9\n"));
    // A start keeps no move.
    assert_eq!(reader.feed(b"start 9 1 1 1\ngoto 1\nstart 1 1 1 1\ngoto 1\n"), "1\n0\n0\n9\n");
}

#[test]
fn long_lines() {
    for length in [64, 65, 66, 128, 130, 5_000] {
        for tail in ["show", "goto 0", "start 1 1 1 1"] {
            let mut input = b"start 1 1 1 1\n".to_vec();
            input.extend(vec![b'x'; length]);
            input.extend(tail.as_bytes());
            assert_eq!(run(&input), "0\n?\n");
            input.extend(b"\nshow\n");
            assert_eq!(run(&input), format!("0\n?\n{EXAMPLE}\n"));
        }
    }
}

/// However the input is cut, the answers are the same.
#[test]
fn cuts() {
    let mut input = Vec::new();
    let lines =
        ["start 2 3 1 2", "move 1 1 1", "show", "", "goto 0", "move 1 6 3", "goto 0", "goto 2"];
    for line in lines {
        input.extend(line.as_bytes());
        input.push(b'\n');
    }
    input.extend(vec![b' '; 200]);
    input.extend(b"\nshow");
    let whole = run(&input);
    for size in 1..40 {
        let mut reader = Reader::default();
        let mut output: String = input.chunks(size).map(|part| reader.feed(part)).collect();
        output.push_str(&reader.finish());
        assert_eq!(output, whole);
    }
}

#[test]
fn most_moves() {
    let mut reader = Reader::default();
    reader.feed(b"start 2 1 1 1\n");
    for _ in 0..JOURNAL / 3 {
        assert_eq!(reader.feed(b"move 2 0 0\n"), "0\n");
    }
    assert_eq!(reader.feed(b"move 2 0 0\nmove 3 0 0\nmove 2 0 1\nmove 2 1 1\n"), "8\n2\n3\n8\n");
    assert_eq!(reader.feed(b"goto 3999\nmove 2 0 0\nmove 2 0 0\n"), "0\n0\n8\n");
    assert_eq!(reader.feed(b"goto 0\ngoto 4001\ngoto 4000\nmove 2 0 0\n"), "0\n?\n0\n8\n");
    assert_eq!(reader.feed(b"goto 2000\nmove 2 0 0\ngoto 2002\ngoto 4000\n"), "0\n0\n9\n9\n");
}

/// Answers come before the next read.
#[test]
fn process_flushes() {
    let mut child = Command::new(env!("CARGO_BIN_EXE_program"))
        .stdin(Stdio::piped())
        .stdout(Stdio::piped())
        .spawn()
        .unwrap();
    let mut stdin = child.stdin.take().unwrap();
    let mut stdout = child.stdout.take().unwrap();
    let mut ask = |input: &[u8], expected: &str| {
        stdin.write_all(input).unwrap();
        stdin.flush().unwrap();
        let mut output = vec![0; expected.len()];
        stdout.read_exact(&mut output).unwrap();
        assert_eq!(output, expected.as_bytes());
    };
    ask(b"start 1 1 1 1\n", "0\n");
    ask(b"show\ngoto 1\nsh", &format!("{EXAMPLE}\n9\n"));
    ask(b"ow\n", &format!("{EXAMPLE}\n"));
    stdin.write_all(b"move 9 0 0").unwrap();
    drop(stdin);
    let mut rest = String::new();
    stdout.read_to_string(&mut rest).unwrap();
    assert_eq!(rest, "2\n");
    assert!(child.wait().unwrap().success());
}
