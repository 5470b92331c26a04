//! Lines that are no command of the program `course`: too few words, too many, and every command
//! with each slip of spelling.

/// Each command as it is spelled.
const COMMANDS: [&str; 14] = [
    "start 2 3 1 2",
    "start 2 3 1 2 1",
    "move 1 1 1",
    "goto 1",
    "show",
    "script 1",
    "script 1 1 1 3 1",
    "turn 1",
    "turns 1 2 1",
    "view",
    "chart",
    "mark 0a1f",
    "mark 0a1f 3c",
    "help",
];

/// Too few words or too many; of a script's numbers or a picture's digits an odd count.
const COUNTS: [&str; 38] = [
    "start",
    "start 1",
    "start 1 1",
    "start 1 1 1",
    "start 1 1 1 1 1 1",
    "move",
    "move 1",
    "move 1 0",
    "move 1 1 1 1",
    "goto",
    "goto 0 0",
    "goto 1 1 1",
    "goto goto",
    "show 1",
    "script",
    "script 1 1",
    "script 1 1 1 3",
    "script 0 1",
    "script 255 0 0 0",
    "script 1 1 1 3 1 1 1 3 1 1 1 3",
    "script 1 1 1 3 1 1 1 3 1 1 1 3 1 1",
    "script 1 7 0 7",
    "turn",
    "turn 1 1",
    "turn 1 2 1",
    "turns",
    "view 1",
    "view view",
    "chart 1",
    "chart 1 2",
    "mark",
    "mark 1",
    "mark 1 1",
    "mark 01 01 01",
    "mark 01 01 01 01",
    "mark mark 01",
    "help 1",
    "help view",
];

/// What is no word of a command; the first once was one.
const OTHERS: [&str; 16] = [
    "back", "back 1", "", " ", "  ", "?", "-", "0", "1", "1 1", "stop", "go 1", "x", "\0", "\r",
    "\t",
];

/// All of them, none of which is a command.
pub fn no_commands() -> Vec<String> {
    let fixed = OTHERS.iter().chain(&COUNTS).map(|line| line.to_string());
    fixed.chain(COMMANDS.iter().flat_map(|line| slips(line))).collect()
}

/// The line with one slip each.
fn slips(line: &str) -> Vec<String> {
    let (word, numbers) = line.split_once(' ').unwrap_or((line, ""));
    let rest = &line[word.len()..];
    let odd_words = match word {
        "mark" => odd_digits,
        "goto" => odd_steps,
        _ => odd_numbers,
    };
    let mut all = vec![
        format!("{line} "),
        format!("{line}\r"),
        format!("{line}\0"),
        format!("{line}\t"),
        format!(" {line}"),
        line.to_uppercase(),
        format!("{}{}", word[..1].to_uppercase(), &line[1..]),
        format!("{word}x{rest}"),
        format!("{}{rest}", &word[1..]),
        format!("{}{rest}", &word[..word.len() - 2]),
        format!("{word}{numbers}x"),
    ];
    for (at, _) in line.match_indices(' ') {
        let with = |between: &str| format!("{}{between}{}", &line[..at], &line[at + 1..]);
        all.extend(["  ", "\t", ",", "x", " x "].map(with));
        all.extend(odd_words(line, at + 1));
    }
    all
}

/// The line in front of the word that begins at a place, the word, and what is behind it.
fn around(line: &str, at: usize) -> (&str, &str, &str) {
    let (front, back) = line.split_at(at);
    let (word, rest) = back.split_at(back.find(' ').unwrap_or(back.len()));
    (front, word, rest)
}

/// The line with the number that begins at a place replaced by what is none.
fn odd_numbers(line: &str, at: usize) -> Vec<String> {
    odd(line, at, &["256", "257", "999", "1000"])
}

/// The same of a step.
fn odd_steps(line: &str, at: usize) -> Vec<String> {
    odd(line, at, &["4001", "4002", "4999", "9999", "04000", "10000", "40000", "65536", "65537"])
}

/// The line with the number that begins at a place replaced by these, which are too large, and by
/// others.
fn odd(line: &str, at: usize, large: &[&str]) -> Vec<String> {
    let (front, number, rest) = around(line, at);
    let zeros = [format!("0{number}"), format!("00{number}")];
    let signed = [format!("+{number}"), format!("-{number}"), format!("{number}.")];
    let wide = large.iter().chain(&["4294967297", "18446744073709551617", "x", "0x1"]);
    let all = zeros.into_iter().chain(signed).chain(wide.map(|word| word.to_string()));
    all.map(|odd| format!("{front}{odd}{rest}")).collect()
}

/// The line with the digits that begin at a place replaced by what is no byte.
fn odd_digits(line: &str, at: usize) -> Vec<String> {
    let (front, digits, rest) = around(line, at);
    let mut odd = vec![
        String::new(),
        digits[1..].to_string(),
        digits[..digits.len() - 1].to_string(),
        format!("{digits}0"),
        format!("0x{digits}"),
        format!("{}h", &digits[1..]),
        digits.to_uppercase(),
        digits.replace(|digit: char| digit.is_ascii_alphabetic(), "B"),
    ];
    // What stands beside the digits in ASCII, and other signs.
    for sign in ["/", ":", "@", "`", "g", "A", "F", "G", "-", "+", "?", ".", "\0"] {
        odd.push(format!("{sign}{}", &digits[1..]));
        odd.push(format!("{}{sign}", &digits[..digits.len() - 1]));
    }
    // A character of two bytes in the place of two digits.
    odd.push(format!("\u{80}{}", &digits[2..]));
    odd.into_iter().map(|word| format!("{front}{word}{rest}")).collect()
}
