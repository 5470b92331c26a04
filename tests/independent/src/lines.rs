//! What line programs share: input cut into lines, an answer to each, numbers and bytes in a line.

use crate::machine::MOST_MOVES;
use std::io::{self, ErrorKind, Read, Write};

/// A program that answers lines.
pub trait LineProgram: Default {
    /// Longest line, the line feed not counted.
    const LONGEST_LINE: usize;

    /// The answer to a line without the line feed that ends it, or none if it is no command.
    fn command(&mut self, line: &[u8]) -> Option<String>;

    /// The same, `?` for a line that is no command or too long.
    fn answer(&mut self, line: &[u8]) -> String {
        let fits = line.len() <= Self::LONGEST_LINE;
        fits.then(|| self.command(line)).flatten().unwrap_or_else(|| "?".to_string())
    }
}

/// A line's words, separated by single spaces.
pub fn words(line: &[u8]) -> Vec<&[u8]> {
    line.split(|&byte| byte == b' ').collect()
}

/// A decimal number 0 to 255 without leading zeros.
pub fn number(word: &[u8]) -> Option<u8> {
    decimal(word).and_then(|value| u8::try_from(value).ok())
}

/// The same of a step, 0 to 4,000.
pub fn step(word: &[u8]) -> Option<u16> {
    decimal(word).filter(|&value| value <= MOST_MOVES)
}

/// A decimal number of at most four digits without leading zeros.
fn decimal(word: &[u8]) -> Option<u16> {
    let leading_zero = word.len() > 1 && word[0] == b'0';
    if word.is_empty() || word.len() > 4 || leading_zero || !word.iter().all(u8::is_ascii_digit) {
        return None;
    }
    Some(word.iter().fold(0, |value, digit| 10 * value + u16::from(digit - b'0')))
}

/// One byte or more, each as two lower-case hexadecimal digits.
pub fn bytes(word: &[u8]) -> Option<Vec<u8>> {
    let pairs = word.chunks_exact(2);
    if word.is_empty() || !pairs.remainder().is_empty() {
        return None;
    }
    pairs.map(|pair| Some(16 * digit(pair[0])? + digit(pair[1])?)).collect()
}

fn digit(byte: u8) -> Option<u8> {
    match byte {
        b'0'..=b'9' => Some(byte - b'0'),
        b'a'..=b'f' => Some(byte - b'a' + 10),
        _ => None,
    }
}

/// Cuts input into lines and answers each; what follows the last line feed is kept.
#[derive(Default)]
pub struct Reader<P> {
    program: P,
    /// The unfinished line, at most one byte over the longest.
    partial: Vec<u8>,
}

impl<P: LineProgram> Reader<P> {
    pub fn program(&self) -> &P {
        &self.program
    }

    /// The answers to all lines that these bytes complete.
    pub fn feed(&mut self, bytes: &[u8]) -> String {
        let mut answers = String::new();
        for &byte in bytes {
            if byte == b'\n' {
                answers.push_str(&self.end_line());
            } else if self.partial.len() <= P::LONGEST_LINE {
                self.partial.push(byte);
            }
        }
        answers
    }

    /// The answer to a last line without a line feed, if there is one.
    pub fn finish(&mut self) -> String {
        if self.partial.is_empty() {
            String::new()
        } else {
            self.end_line()
        }
    }

    fn end_line(&mut self) -> String {
        let mut answer = self.program.answer(&self.partial);
        answer.push('\n');
        self.partial.clear();
        answer
    }
}

/// All output for a whole input.
pub fn run<P: LineProgram>(input: &[u8]) -> String {
    let mut reader = Reader::<P>::default();
    let mut output = reader.feed(input);
    output.push_str(&reader.finish());
    output
}

/// Answers the lines of standard input on standard output, those of each read before the next.
pub fn serve<P: LineProgram>() -> io::Result<()> {
    let mut input = io::stdin().lock();
    let mut output = io::stdout().lock();
    let mut reader = Reader::<P>::default();
    let mut buffer = [0; 4096];
    loop {
        let count = match input.read(&mut buffer) {
            Ok(0) => break,
            Ok(count) => count,
            Err(error) if error.kind() == ErrorKind::Interrupted => continue,
            Err(error) => return Err(error),
        };
        output.write_all(reader.feed(&buffer[..count]).as_bytes())?;
        output.flush()?;
    }
    output.write_all(reader.finish().as_bytes())?;
    output.flush()
}
