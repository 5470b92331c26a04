//! Pictures from standard input, one a line in hexadecimal digits: what writing, turns ahead and
//! reading get of each. Its output is the expected one of the test program `picture_test`.

use independent::picture::{self, hex};
use independent::record::Snapshot;
use independent::session::{ahead, Ahead};
use std::io::{self, BufRead, Write};

fn number(bytes: &[u8]) -> String {
    format!(" {}", picture::read(bytes).number)
}

/// Into a buffer of `count` bytes a5: the answer, and the buffer's bytes then.
fn written(shown: &Snapshot, count: usize) -> String {
    let mut buffer = vec![0xa5; count];
    let number = picture::write(shown, &mut buffer);
    format!(" {number} {}", hex(&buffer))
}

fn turns(shown: &Snapshot, thread: u8) -> String {
    match ahead(shown, thread) {
        Ahead::Waits(turns) => format!(" {turns}"),
        Ahead::NotWaiting => " -".into(),
        Ahead::Refused(number) => format!(" r{number}"),
    }
}

/// What reading gets with the byte at each place changed in turn.
fn damaged(bytes: &[u8], change: impl Fn(u8) -> u8) -> String {
    let one = |at: usize| {
        let mut other = bytes.to_vec();
        other[at] = change(other[at]);
        number(&other)
    };
    (0..bytes.len()).map(one).collect()
}

fn report(bytes: &[u8]) -> String {
    let shown = &picture::read(bytes).value;
    let count = bytes.len();
    let shorter = count.checked_sub(1);
    let lines = [
        format!("picture {}", hex(bytes)),
        format!("exact{}", written(shown, count)),
        format!("less{}", shorter.map_or(String::new(), |less| written(shown, less))),
        format!("more{}", written(shown, count + 4)),
        format!("turns{}", (0..=33).chain([255]).map(|t| turns(shown, t)).collect::<String>()),
        format!("whole{}", number(bytes)),
        format!("xor1{}", damaged(bytes, |byte| byte ^ 1)),
        format!("add128{}", damaged(bytes, |byte| byte.wrapping_add(128))),
        format!("short{}", shorter.map_or(String::new(), |less| number(&bytes[..less]))),
        format!("long{}", number(&[bytes, &[0]].concat())),
        format!(
            "prefixes{}",
            (0..=9.min(count)).map(|front| number(&bytes[..front])).collect::<String>()
        ),
    ];
    lines.join("\n") + "\n"
}

/// The bytes of a line of digits, two a byte.
fn bytes_of(line: &str) -> Vec<u8> {
    let byte = |at: usize| u8::from_str_radix(&line[at..at + 2], 16).expect("two digits");
    (0..line.len()).step_by(2).map(byte).collect()
}

fn main() -> io::Result<()> {
    let mut output = io::stdout().lock();
    for line in io::stdin().lock().lines() {
        output.write_all(report(&bytes_of(&line?)).as_bytes())?;
    }
    Ok(())
}
