//! The stored vectors through the static library: pictures, turns ahead, classes, marks, words,
//! neighbours, and the program's sessions, with each answer worked out by a replay and on a session
//! that is kept as bytes.

use differential::sitting;
use differential::{
    ahead, class, class_with, mark, neighbours, read, replay_with, words, Ahead, Replayed, Table,
    MOST_PICTURE, TOUCH,
};
use std::collections::BTreeMap;
use std::fs;
use std::path::{Path, PathBuf};

/// The files of a folder of vectors with an ending, in order.
fn files(folder: &str, ending: &str) -> Vec<PathBuf> {
    let root = Path::new(env!("CARGO_MANIFEST_DIR")).join("../vectors").join(folder);
    let mut all: Vec<PathBuf> = fs::read_dir(root).unwrap().map(|f| f.unwrap().path()).collect();
    all.retain(|path| path.to_str().unwrap().ends_with(ending));
    all.sort();
    assert!(!all.is_empty());
    all
}

fn text(path: &Path) -> String {
    fs::read_to_string(path).unwrap()
}

fn unhex(digits: &str) -> Vec<u8> {
    let byte = |at: usize| u8::from_str_radix(&digits[at..at + 2], 16).unwrap();
    (0..digits.len()).step_by(2).filter(|_| digits != "-").map(byte).collect()
}

fn hex(bytes: &[u8]) -> String {
    bytes.iter().map(|byte| format!("{byte:02x}")).collect()
}

fn numbers(words: &str) -> Vec<u8> {
    words.split_whitespace().map(|word| word.parse().unwrap()).collect()
}

/// The number with one byte changed.
fn changed(picture: &[u8], at: usize, value: u8) -> u8 {
    let mut bytes = picture.to_vec();
    bytes[at] = value;
    read(&bytes)
}

#[test]
fn pictures() {
    for path in files("pictures", ".txt") {
        let mut picture = Vec::new();
        for line in text(&path).lines() {
            let (field, value) = line.split_once(' ').unwrap();
            let all = 0..picture.len();
            let got: Vec<u8> = match field {
                "picture" => {
                    picture = unhex(value);
                    continue;
                }
                "whole" => vec![read(&picture)],
                "xor1" => all.map(|at| changed(&picture, at, picture[at] ^ 1)).collect(),
                "add128" => {
                    all.map(|at| changed(&picture, at, picture[at].wrapping_add(128))).collect()
                }
                "short" => vec![read(&picture[..picture.len() - 1])],
                "long" => vec![read(&[&picture[..], &[0]].concat())],
                "prefixes" => (0..10).map(|n| read(&picture[..n])).collect(),
                _ => panic!("{field}"),
            };
            assert_eq!(got, numbers(value), "{} {field}", path.display());
        }
    }
}

#[test]
fn values_of_each_byte() {
    for path in files("pictures", ".values") {
        let text = text(&path);
        let mut lines = text.lines();
        let picture = unhex(lines.next().unwrap().strip_prefix("picture ").unwrap());
        let mut places = 0;
        for line in lines {
            let (place, runs) = line.split_once(' ').unwrap();
            let at: usize = place.parse().unwrap();
            let mut values = 0;
            for run in runs.split_whitespace() {
                let (range, number) = run.split_once('=').unwrap();
                let (first, last) = range.split_once('-').unwrap();
                let (first, last): (u8, u8) = (first.parse().unwrap(), last.parse().unwrap());
                for value in first..=last {
                    values += 1;
                    let wanted: u8 = number.parse().unwrap();
                    assert_eq!(changed(&picture, at, value), wanted, "{} {line}", path.display());
                }
            }
            assert_eq!(values, 256);
            places += 1;
        }
        assert_eq!(places, picture.len());
    }
}

#[test]
fn lists_of_bytes() {
    for path in files("pictures", ".list") {
        for line in text(&path).lines() {
            let (number, bytes) = line.split_once(' ').unwrap();
            assert_eq!(read(&unhex(bytes)), number.parse::<u8>().unwrap(), "{line}");
        }
    }
}

#[test]
fn turns() {
    for path in files("turns", ".txt") {
        let text = text(&path);
        let mut lines = text.lines();
        let picture = unhex(lines.next().unwrap().strip_prefix("picture ").unwrap());
        for line in lines {
            let words: Vec<&str> = line.split(' ').collect();
            let thread = words[0].parse().unwrap();
            let wanted = match words[1..] {
                ["waits", turns] => Ahead::Waits(turns.parse().unwrap()),
                ["not-waiting"] => Ahead::NotWaiting,
                ["refused", number] => Ahead::Refused(number.parse().unwrap()),
                _ => panic!("{line}"),
            };
            assert_eq!(ahead(&picture, thread), wanted, "{} {line}", path.display());
        }
    }
}

/// A start table, with its fifth number where it has one.
fn table(words: &str) -> (Table, Option<u8>) {
    let numbers = numbers(words);
    let (table, fifth) = numbers.split_at(4);
    (table.try_into().unwrap(), fifth.first().copied())
}

/// A class whose table has four numbers or five.
fn class_of(
    (table, fifth): (Table, Option<u8>),
    scripts: &[u8],
    turns: &[u8],
    answers: &mut [u8],
    pictures: &mut [u8],
) -> u8 {
    match fifth {
        None => class(table, scripts, turns, answers, pictures),
        Some(fifth) => class_with(table, fifth, scripts, turns, answers, pictures),
    }
}

/// FNV-1a with 64 bits.
fn hash(bytes: &[u8]) -> u64 {
    let step = |hash: u64, &byte: &u8| (hash ^ u64::from(byte)).wrapping_mul(0x100_0000_01b3);
    bytes.iter().fold(0xcbf2_9ce4_8422_2325, step)
}

#[test]
fn classes() {
    let mut owner_exits = 0;
    for path in files("classes", ".txt") {
        let text = text(&path);
        let (shown, fields): (Vec<_>, Vec<_>) =
            text.lines().partition(|line| line.starts_with("picture "));
        let fields: BTreeMap<&str, &str> =
            fields.iter().map(|line| line.split_once(' ').unwrap()).collect();
        let (table, turns) = (table(fields["table"]), unhex(fields["turns"]));
        let [p, t, m, _] = table.0.map(usize::from);
        let length = 8 + 12 * p + 8 * m + 4 * t;
        let mut answers = vec![0; turns.len()];
        let mut pictures = vec![0; length * turns.len()];
        let scripts = unhex(fields["scripts"]);
        assert_eq!(class_of(table, &scripts, &turns, &mut answers, &mut pictures), 0);
        assert_eq!(answers, unhex(fields["answers"]), "{}", path.display());
        owner_exits += answers.iter().filter(|&&number| number == 21).count();
        for (got, wanted) in pictures.chunks(length).zip(&shown) {
            assert_eq!(format!("picture {}", hex(got)), *wanted, "{}", path.display());
        }
        assert!(shown.is_empty() || shown.len() == turns.len());
        assert_eq!(format!("{:016x}", hash(&pictures)), fields["hash"], "{}", path.display());
    }
    assert!(owner_exits > 500, "{owner_exits}");
}

/// Their turns one by one, on a session that is kept as bytes.
#[test]
fn turns_of_classes() {
    for path in files("classes", ".txt") {
        let text = text(&path);
        let fields = fields(&text);
        let (table, fifth) = table(fields["table"]);
        let (scripts, turns) = (unhex(fields["scripts"]), unhex(fields["turns"]));
        let (mut kept, mut shown) = (BytesSession::new(), Vec::new());
        assert_eq!(sitting::start(table, fifth.unwrap_or(0), &mut kept.session), 0);
        for (&p, wanted) in turns.iter().zip(unhex(fields["answers"])) {
            let answer = sitting::turn(&mut kept.session, &mut kept.journal, &scripts, p);
            assert_eq!(answer, wanted, "{}", path.display());
            shown.extend(kept.picture());
        }
        assert_eq!(format!("{:016x}", hash(&shown)), fields["hash"], "{}", path.display());
    }
}

#[test]
fn boundaries_of_classes() {
    for path in files("classes", ".list") {
        for line in text(&path).lines() {
            let (number, rest) = line.split_once(' ').unwrap();
            let words: Vec<&str> = rest.split(' ').collect();
            let (numbers, rest) = words.split_at(words.len() - 4);
            let &[answers, pictures, scripts, turns] = rest else { panic!("{line}") };
            let table = table(&numbers.join(" "));
            let mut answers = vec![0xa5; answers.parse().unwrap()];
            let mut pictures = vec![0xa5; pictures.parse().unwrap()];
            let (scripts, turns) = (unhex(scripts), unhex(turns));
            let answer = class_of(table, &scripts, &turns, &mut answers, &mut pictures);
            assert_eq!(answer, number.parse::<u8>().unwrap(), "{line}");
            if answer != 0 {
                assert!(answers.iter().chain(&pictures).all(|&byte| byte == 0xa5), "{line}");
            }
        }
    }
}

#[test]
fn marks() {
    let mut met = Vec::new();
    for path in files("marks", ".txt") {
        let text = text(&path);
        let mut lines = text.lines();
        let machine = unhex(lines.next().unwrap().strip_prefix("machine ").unwrap());
        assert_eq!(read(&machine), 0);
        for line in lines {
            let (answer, candidate) = line.split_once(' ').unwrap();
            let wanted: u16 = answer.parse().unwrap();
            assert_eq!(mark(&machine, &unhex(candidate)), wanted, "{} {line}", path.display());
            met.push(wanted);
        }
    }
    for wanted in [0, 156, 8_823, 9_609, 9_843, 10_000] {
        assert!(met.contains(&wanted), "{wanted}");
    }
}

#[test]
fn lists_of_marks() {
    let mut met = Vec::new();
    for path in files("marks", ".list") {
        for line in text(&path).lines() {
            let words: Vec<&str> = line.split(' ').collect();
            let &[answer, machine, candidate] = &words[..] else { panic!("{line}") };
            let wanted: u16 = answer.parse().unwrap();
            assert_eq!(mark(&unhex(machine), &unhex(candidate)), wanted, "{line}");
            met.push(wanted);
        }
    }
    for wanted in [0, 10_000, 20_011, 20_012, 20_013, 20_014] {
        assert!(met.contains(&wanted), "{wanted}");
    }
}

/// The fields of a file, one a line.
fn fields(text: &str) -> BTreeMap<&str, &str> {
    text.lines().map(|line| line.split_once(' ').unwrap()).collect()
}

/// The moves' words, and no byte behind them.
#[test]
fn words_of_moves() {
    let mut moves_met = 0;
    for path in files("words", ".txt") {
        let text = text(&path);
        let fields = fields(&text);
        let ((table, fifth), moves) = (table(fields["table"]), unhex(fields["moves"]));
        let count = moves.len() / 3;
        let mut got = vec![0xa5; TOUCH * count + 1];
        let answer = words(table, fifth.unwrap_or(0), &moves, &mut got);
        assert_eq!(answer, Replayed { number: 0, place: 0 }, "{}", path.display());
        assert_eq!(got.pop(), Some(0xa5));
        assert!(got == unhex(fields["words"]), "{}", path.display());
        moves_met += count;
    }
    assert!(moves_met > 7_000, "{moves_met}");
}

/// A list of moves at a boundary: the answer and the place, the table with its fifth number, another
/// number, the moves.
fn boundary(line: &str) -> ([u32; 2], Table, u8, u32, Vec<u8>) {
    let (numbers, moves) = line.rsplit_once(' ').unwrap();
    let all: Vec<u32> = numbers.split(' ').map(|word| word.parse().unwrap()).collect();
    let &[answer, place, p, t, m, b, stealing, other] = &all[..] else { panic!("{line}") };
    let table = [p, t, m, b].map(|size| size as u8);
    ([answer, place], table, stealing as u8, other, unhex(moves))
}

#[test]
fn boundaries_of_words() {
    let mut met = BTreeMap::new();
    for path in files("words", ".list") {
        for line in text(&path).lines() {
            let ([number, place], table, stealing, length, moves) = boundary(line);
            let mut buffer = vec![0xa5; length as usize];
            let got = words(table, stealing, &moves, &mut buffer);
            assert_eq!(got, Replayed { number: number as u8, place }, "{line}");
            if number != 0 {
                assert!(buffer.iter().all(|&byte| byte == 0xa5), "{line}");
            }
            *met.entry(number).or_insert(0) += 1;
        }
    }
    assert!(met.into_keys().eq([0, 1, 2, 3, 4, 5, 6, 7, 10, 21]));
}

#[test]
fn neighbours_of_moves() {
    let mut met = [0, 0];
    for path in files("neighbours", ".txt") {
        let text = text(&path);
        let fields = fields(&text);
        let ((table, fifth), moves) = (table(fields["table"]), unhex(fields["moves"]));
        assert_eq!(fields["answers"].len(), moves.len() / 3 - 1);
        for (first, digit) in (1..).zip(fields["answers"].bytes()) {
            let wanted = digit - b'0';
            let got = neighbours(table, fifth.unwrap_or(0), &moves, first);
            assert_eq!(got, (wanted, 0), "{} {first}", path.display());
            met[usize::from(wanted)] += 1;
        }
    }
    assert!(met[0] > 700 && met[1] > 700, "{met:?}");
}

#[test]
fn boundaries_of_neighbours() {
    let mut met = BTreeMap::new();
    for path in files("neighbours", ".list") {
        for line in text(&path).lines() {
            let ([answer, place], table, stealing, first, moves) = boundary(line);
            let got = neighbours(table, stealing, &moves, first);
            assert_eq!(got, (answer as u8, place), "{line}");
            *met.entry(answer).or_insert(0) += 1;
        }
    }
    assert!(met.into_keys().eq([0, 1, 201, 202, 203, 204, 205, 206, 207, 221]));
}

/// A line's word and its numbers.
fn command(line: &str) -> (&str, Vec<usize>) {
    let mut words = line.split(' ');
    let word = words.next().unwrap();
    (word, words.map(|number| number.parse().unwrap()).collect())
}

/// The table and the fifth number of a start's line.
fn start_table(numbers: &[usize]) -> (Table, u8) {
    let bytes: Vec<u8> = numbers.iter().map(|&number| number as u8).collect();
    (bytes[..4].try_into().unwrap(), bytes.get(4).copied().unwrap_or(0))
}

/// The line program's session as a start table, the list of its kept moves and how many bytes of it
/// are moves that stand.
#[derive(Default)]
struct ProgramSession {
    table: Option<Table>,
    stealing: u8,
    moves: Vec<u8>,
    standing: usize,
}

impl ProgramSession {
    /// The answer to a line whose answer is not `?`.
    fn answer(&mut self, line: &str) -> String {
        let mut picture = [0; MOST_PICTURE];
        match command(line) {
            ("start", numbers) => {
                let (table, stealing) = start_table(&numbers);
                let begun = replay_with(table, stealing, &[], &mut picture);
                if begun.number == 0 {
                    *self = ProgramSession { table: Some(table), stealing, ..Default::default() };
                }
                begun.number.to_string()
            }
            ("move", numbers) => self.make_move(&[0, 1, 2].map(|i| numbers[i] as u8)).to_string(),
            ("goto", numbers) if 3 * numbers[0] > self.moves.len() => "9".to_string(),
            ("goto", numbers) => {
                self.standing = 3 * numbers[0];
                "0".to_string()
            }
            _ => {
                let table = self.table.unwrap();
                let [p, t, m, _] = table.map(usize::from);
                let moves = &self.moves[..self.standing];
                let shown = replay_with(table, self.stealing, moves, &mut picture);
                assert_eq!(shown, Replayed { number: 0, place: 0 });
                hex(&picture[..8 + 12 * p + 8 * m + 4 * t])
            }
        }
    }

    fn make_move(&mut self, made: &[u8; 3]) -> u8 {
        let moves = [&self.moves[..self.standing], made].concat();
        let answer =
            replay_with(self.table.unwrap(), self.stealing, &moves, &mut [0; MOST_PICTURE]);
        if answer.number == 0 {
            self.standing = moves.len();
            self.moves = moves;
        } else {
            assert_eq!(answer.place as usize, self.standing / 3 + 1);
        }
        answer.number
    }
}

/// The same as bytes and a journal.
struct BytesSession {
    session: [u8; sitting::MOST_SESSION],
    journal: Vec<u8>,
}

impl BytesSession {
    fn new() -> BytesSession {
        BytesSession { session: [0; sitting::MOST_SESSION], journal: vec![0xa5; 12_000] }
    }

    /// The answer to a line whose answer is not `?`.
    fn answer(&mut self, line: &str) -> String {
        let (session, journal) = (&mut self.session, &mut self.journal);
        let number = match command(line) {
            ("start", numbers) => {
                let (table, stealing) = start_table(&numbers);
                sitting::start(table, stealing, session)
            }
            ("move", numbers) => {
                sitting::make_move(session, journal, [0, 1, 2].map(|i| numbers[i] as u8))
            }
            ("goto", numbers) => sitting::goto(session, journal, numbers[0]),
            _ => return hex(&self.picture()),
        };
        number.to_string()
    }

    fn picture(&self) -> Vec<u8> {
        let mut picture = [0; MOST_PICTURE];
        assert_eq!(sitting::picture(&self.session, &mut picture), 0);
        let [p, t, m] = [0, 1, 2].map(|i| usize::from(self.session[i]));
        picture[..8 + 12 * p + 8 * m + 4 * t].to_vec()
    }
}

#[test]
fn program_sessions() {
    let (mut compared, mut owner_exits) = (0, 0);
    for path in files("sessions", ".in") {
        let mut input = fs::read(&path).unwrap();
        if input.last() == Some(&b'\n') {
            input.pop();
        } else if input.is_empty() {
            continue;
        }
        let output = text(&path.with_extension("out"));
        let (mut session, mut kept) = (ProgramSession::default(), BytesSession::new());
        let lines: Vec<&[u8]> = input.split(|&byte| byte == b'\n').collect();
        assert_eq!(lines.len(), output.lines().count(), "{}", path.display());
        for (line, wanted) in lines.iter().zip(output.lines()) {
            // Lines that are no command are the program's own affair.
            if wanted != "?" {
                let line = std::str::from_utf8(line).unwrap();
                assert_eq!(session.answer(line), wanted, "{} {line}", path.display());
                assert_eq!(kept.answer(line), wanted, "{} {line}", path.display());
                compared += 1;
                owner_exits += usize::from(wanted == "21");
            }
        }
    }
    assert!(compared > 10_000, "{compared}");
    assert!(owner_exits > 80, "{owner_exits}");
}
