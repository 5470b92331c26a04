//! The line program's marks: against the session's picture and of two pictures, refusals, spelling,
//! and that nothing changes.

mod asked;

use asked::Session;
use independent::course::{run, Reader};
use independent::machine::Config;
use independent::marks::{self, parts_of};
use independent::picture::hex;
use independent::program;
use independent::random_course::{self, ANY_STEP};
use independent::spelling::{input, make_move, mark, mark_of, start};
use independent::worked::{self, Worked};
use std::collections::BTreeMap;

/// The worked session as the program has it.
fn session(worked: &Worked) -> Session {
    let lines: Vec<String> = [start(worked.config)]
        .into_iter()
        .chain(worked.moves.iter().copied().map(make_move))
        .collect();
    Session::after(&lines.iter().map(String::as_str).collect::<Vec<_>>())
}

/// The answer to one line without a session.
fn alone(line: &str) -> String {
    run(line.as_bytes())
}

/// A picture with other bytes in the records that are not among the right ones.
fn with_right(picture: &[u8], right: &[usize]) -> Vec<u8> {
    let mut bytes = picture.to_vec();
    for (at, part) in parts_of(picture).iter().enumerate() {
        if !right.contains(&at) {
            bytes[part.bytes.start] ^= 0x80;
        }
    }
    bytes
}

/// Answers with each choice of records of K5: processors 0 and 1, mutex 2, threads 3 and 4.
#[test]
fn marks_of_k5() {
    let k5 = worked::k5();
    let picture = k5.picture();
    let mut session = session(&k5);
    let rows: [(&[usize], &str); 12] = [
        (&[], "0.00"),
        (&[3], "11.76"),
        (&[2], "17.64"),
        (&[0], "29.41"),
        (&[0, 2], "47.05"),
        (&[1, 2], "47.05"),
        (&[0, 1], "58.82"),
        (&[0, 2, 3, 4], "70.58"),
        (&[0, 1, 3, 4], "82.35"),
        (&[0, 1, 2, 3], "88.23"),
        (&[0, 1, 2, 4], "88.23"),
        (&[0, 1, 2, 3, 4], "100.00"),
    ];
    for (right, wanted) in rows {
        let mut candidate = with_right(&picture, right);
        for header in
            [picture[..8].to_vec(), vec![0; 8], vec![255; 8], b"\x01\x05\x01\0\0\0\0\0".to_vec()]
        {
            candidate[..8].copy_from_slice(&header);
            session.keeps(mark(&candidate), &format!("{wanted}\n"));
            session.keeps(mark_of(&picture, &candidate), &format!("{wanted}\n"));
            assert_eq!(alone(&mark_of(&picture, &candidate)), format!("{wanted}\n"));
        }
    }
}

/// The smallest marks, one digit before the point, zeros behind it, the full mark.
#[test]
fn small_and_large_marks() {
    let answer = |config, right: &[usize]| {
        let picture = Worked::new(config).picture();
        alone(&mark_of(&picture, &with_right(&picture, right)))
    };
    let largest = Config::new(8, 32, 8, 32);
    assert_eq!(answer(largest, &[]), "0.00\n");
    assert_eq!(answer(largest, &[47]), "1.56\n");
    assert_eq!(answer(largest, &[15]), "2.34\n");
    assert_eq!(answer(largest, &[7]), "3.90\n");
    assert_eq!(answer(largest, &(1..48).collect::<Vec<_>>()), "96.09\n");
    assert_eq!(answer(largest, &(0..47).collect::<Vec<_>>()), "98.43\n");
    assert_eq!(answer(largest, &(0..48).collect::<Vec<_>>()), "100.00\n");
    assert_eq!(answer(Config::new(3, 2, 1, 2), &[5]), "9.09\n");
    assert_eq!(answer(Config::new(1, 1, 2, 1), &[2]), "23.07\n");
    assert_eq!(answer(Config::new(1, 1, 1, 1), &[0]), "50.00\n");
}

/// The session's picture is the one of now: after moves, goings, turns and starts.
#[test]
fn session_picture_is_current() {
    for worked in [worked::k7(), worked::steals(2), worked::own_queues()] {
        let first = Worked::new(worked.config).picture();
        let mut session = session(&Worked::new(worked.config));
        for count in 1..=worked.moves.len() {
            session.accepts(make_move(worked.moves[count - 1]));
            let now = worked.front(count).picture();
            assert_eq!(session.ask("show"), format!("{}\n", hex(&now)));
            assert_eq!(session.ask(mark(&now)), "100.00\n");
            let wanted = marks::shown(marks::mark(&now, &first).unwrap());
            assert_eq!(session.ask(mark(&first)), format!("{wanted}\n"));
            assert_eq!(session.ask(mark_of(&first, &first)), "100.00\n");
        }
        let last = worked.picture();
        assert_ne!(session.ask(mark(&first)), "100.00\n");
        for step in (0..worked.moves.len()).rev() {
            session.accepts(format!("goto {step}"));
        }
        assert_eq!(session.ask(mark(&first)), "100.00\n");
        assert_ne!(session.ask(mark(&last)), "100.00\n");
    }
    let mut session =
        Session::after(&["start 1 1 1 1", "turn 1", "start 1 1 1 1 1", "start 2 2 1 2"]);
    assert_eq!(session.ask("start 9 1 1 1"), "1\n");
    let picture = Worked::new(Config::new(2, 2, 1, 2)).picture();
    assert_eq!(session.ask(mark(&picture)), "100.00\n");
    assert_eq!(session.ask(mark(&Worked::new(Config::new(1, 1, 1, 1)).picture())), "11\n");
}

/// Without a session one picture is no command, two are marked.
#[test]
fn before_a_start() {
    let picture = worked::k5().picture();
    let mut reader = Reader::default();
    let lines = [
        mark(&picture),
        mark_of(&picture, &picture),
        mark_of(&picture, &picture[1..]),
        mark_of(&picture[1..], &picture),
        "start 9 1 1 1".to_string(),
        mark(&picture),
        mark_of(&picture, &with_right(&picture, &[0, 1, 2, 3])),
        "view".to_string(),
        "start 1 1 1 1".to_string(),
        mark(&picture),
        mark_of(&picture, &picture),
    ];
    assert_eq!(reader.feed(&input(&lines)), "?\n100.00\n11\n12\n1\n?\n88.23\n?\n0\n11\n100.00\n");
}

/// The candidate's length, one off and far off; a candidate may be longer than any picture.
#[test]
fn lengths() {
    let k5 = worked::k5();
    let picture = k5.picture();
    let mut session = session(&k5);
    for length in (1..=60).chain([295, 296, 297, 400]) {
        let mut candidate = picture.clone();
        candidate.resize(length, 0);
        let wanted = if length == picture.len() { "100.00\n" } else { "11\n" };
        session.keeps(mark(&candidate), wanted);
        session.keeps(mark_of(&picture, &candidate), wanted);
        // As a machine's picture it is short, long or whole.
        session.keeps(mark_of(&candidate, &candidate), wanted);
    }
}

/// The machine's picture is refused first, by each number.
#[test]
fn refusals() {
    let k7 = worked::k7();
    let picture = k7.picture();
    let thread = parts_of(&picture)[4].bytes.start;
    let mut session = session(&k7);
    let mut broken = |number: u8, changes: &[(usize, u8)]| {
        let mut machine = picture.clone();
        changes.iter().for_each(|&(at, value)| machine[at] = value);
        for candidate in [&picture[..], &machine, &picture[1..], &[0], &[0; 300]] {
            let line = mark_of(&machine, candidate);
            session.keeps(&line, &format!("{number}\n"));
            assert_eq!(alone(&line), format!("{number}\n"));
        }
    };
    broken(11, &[(0, 4)]);
    broken(11, &[(1, 1)]);
    broken(12, &[(0, 0)]);
    broken(12, &[(2, 9)]);
    broken(12, &[(7, 2)]);
    broken(12, &[(8, 25)]);
    broken(13, &[(3, 1)]);
    broken(13, &[(thread, 1), (thread + 1, 0)]);
    broken(14, &[(thread, 5), (thread + 1, 0)]);
    // Under eight bytes 11, whatever they are.
    for length in 1..8 {
        assert_eq!(alone(&mark_of(&vec![9; length], &picture)), "11\n");
    }
    assert_eq!(alone(&mark_of(&[9; 8], &picture)), "12\n");
    // Reading a candidate's picture has no part in it.
    assert_eq!(alone(&mark_of(&picture, &vec![9; picture.len()])), "0.00\n");
}

/// The lines are no commands, with a session and without.
fn no_commands(lines: &[String]) {
    let mut session = session(&worked::k5());
    for line in lines {
        session.keeps(line, "?\n");
        assert_eq!(alone(line), "?\n", "{line}");
    }
}

/// Digits of a picture of K5's length, letters among them.
fn some_digits() -> String {
    let mut candidate = worked::k5().picture();
    candidate[8] = 0xab;
    hex(&candidate)
}

#[test]
fn odd_digits() {
    let digits = some_digits();
    let (upper, mixed) = (digits.replace("ab", "AB"), digits.replace("ab", "aB"));
    let (prefixed, shorter) = (format!("0x{digits}"), &digits[..digits.len() - 1]);
    let odd = [&digits[1..], shorter, &upper, &mixed, &prefixed, "", "0", "A0", "0G", "g0"];
    for word in odd {
        no_commands(&[
            format!("mark {word}"),
            format!("mark {word} {digits}"),
            format!("mark {digits} {word}"),
            format!("mark {word} {word}"),
        ]);
    }
}

#[test]
fn odd_words() {
    let digits = some_digits();
    no_commands(&[
        format!("mark {digits} {digits} {digits}"),
        format!("mark {digits} {digits} "),
        format!("mark {digits} "),
        format!("mark  {digits}"),
        format!("mark {digits}  {digits}"),
        format!(" mark {digits}"),
        format!("mark\t{digits}"),
        format!("mark {digits}\r"),
        format!("mark{digits}"),
        format!("marks {digits}"),
        format!("Mark {digits}"),
        format!("MARK {digits} {digits}"),
        "mark".to_string(),
        "mark 1 2".to_string(),
        "mark 2 2 1 2".to_string(),
    ]);
}

/// Every byte value in the place of a digit.
#[test]
fn digits() {
    let mut session = session(&worked::k4());
    for byte in (0..=255u8).filter(|&byte| byte != b'\n') {
        let is_digit = matches!(byte, b'0'..=b'9' | b'a'..=b'f');
        for (front, back) in [
            ("mark ", "0"),
            ("mark 0", ""),
            ("mark 0", " 00"),
            ("mark 00 ", "0"),
            ("mark 00 0", ""),
        ] {
            let line = [front.as_bytes(), &[byte], back.as_bytes()].concat();
            let wanted = if is_digit { "11\n" } else { "?\n" };
            assert_eq!(session.ask(&line), wanted, "{}", String::from_utf8_lossy(&line));
        }
    }
    // A digit has its value: thread 1's record, the picture's last bytes, is 02010000.
    let picture = worked::k4().picture();
    let (front, last) = picture.split_at(picture.len() - 4);
    assert_eq!(last, [2, 1, 0, 0]);
    for value in 0..=255 {
        let wanted = |right: u8| if value == right { "100.00\n" } else { "80.00\n" };
        assert_eq!(session.ask(format!("mark {}{value:02x}010000", hex(front))), wanted(2));
        assert_eq!(session.ask(format!("mark {}0201{value:02x}00", hex(front))), wanted(0));
    }
}

/// Lines of 2,048 bytes are read, longer ones are not.
#[test]
fn longest_lines() {
    let mut session = Session::after(&["start 1 1 1 1", "script 1 4 0"]);
    let machine = Worked::new(Config::new(1, 1, 1, 1)).picture();
    let long = |count: usize| vec![0; count];
    for (line, length, wanted) in [
        (mark(&long(1_021)), 2_047, "11\n"),
        (mark(&long(1_022)), 2_049, "?\n"),
        (mark_of(&machine, &long(989)), 2_048, "11\n"),
        (mark_of(&machine, &long(990)), 2_050, "?\n"),
        (mark_of(&long(989), &machine), 2_048, "12\n"),
        (mark_of(&long(990), &machine), 2_050, "?\n"),
        (mark_of(&[&machine[..], &long(956)].concat(), &machine), 2_046, "11\n"),
    ] {
        assert_eq!(line.len(), length);
        session.keeps(line, wanted);
    }
    // The largest pictures fit.
    let largest = Worked::new(Config::new(8, 32, 8, 32)).picture();
    session.keeps(mark_of(&largest, &largest), "100.00\n");
}

/// How a line's pictures are marked beside this picture of the session; none if it is no command.
fn wanted(line: &[u8], shown: Option<Vec<u8>>) -> Option<u16> {
    let words = line.split(|&byte| byte == b' ').skip(1);
    let pictures: Vec<Vec<u8>> = words.map(unhex).collect::<Option<_>>()?;
    match &pictures[..] {
        [candidate] => Some(marks::answer(&shown?, candidate)),
        [machine, candidate] => Some(marks::answer(machine, candidate)),
        _ => None,
    }
}

/// Random inputs have marks of all kinds, each answered as its pictures are marked.
#[test]
fn random_inputs() {
    let mut met = BTreeMap::new();
    for seed in 0..150 {
        let mut reader = Reader::default();
        for line in random_course::input(seed, 400, ANY_STEP).split(|&byte| byte == b'\n') {
            let shown = reader.program().record().map(program::shown);
            let answer = reader.feed(&[line, b"\n"].concat());
            if !line.starts_with(b"mark ") || line.len() > 2_048 {
                continue;
            }
            let (text, kind) = match wanted(line, shown) {
                None => ("?".to_string(), "no command"),
                Some(0) => ("0.00".to_string(), "none"),
                Some(marks::FULL) => ("100.00".to_string(), "full"),
                Some(20_011) => ("11".to_string(), "11"),
                Some(20_012) => ("12".to_string(), "12"),
                Some(20_013) => ("13".to_string(), "13"),
                Some(20_014) => ("14".to_string(), "14"),
                Some(mark) => (format!("{}.{}{}", mark / 100, mark / 10 % 10, mark % 10), "other"),
            };
            assert_eq!(answer, format!("{text}\n"));
            *met.entry(kind).or_insert(0) += 1;
        }
    }
    assert_eq!(met.len(), 8);
    assert!(met.values().all(|&count| count > 50), "{met:?}");
}

/// Bytes from their digits, if these are right.
fn unhex(digits: &[u8]) -> Option<Vec<u8>> {
    let text = std::str::from_utf8(digits).ok()?;
    let bytes: Option<Vec<u8>> = (0..text.len())
        .step_by(2)
        .map(|at| u8::from_str_radix(text.get(at..at + 2)?, 16).ok())
        .collect();
    bytes.filter(|bytes| !bytes.is_empty() && hex(bytes) == text)
}
