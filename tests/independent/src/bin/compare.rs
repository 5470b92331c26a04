//! Compares a program `course` with the one here, byte for byte, on random inputs.
//!
//!   compare PROGRAM COUNT LINES FOLDER      inputs of the seeds 0, 1, .., each of so many lines and
//!                                           views between
//!
//! An input on which they differ is kept in the folder, with the output wanted. Last line:
//! `N passed, M failed`.

use independent::{course, random_course};
use std::io::{self, Write};
use std::path::Path;
use std::process::{Command, ExitCode, Stdio};
use std::{env, fs, thread};

/// What the program writes for an input, if it ends well.
fn output(program: &str, input: Vec<u8>) -> io::Result<Option<Vec<u8>>> {
    let mut child = Command::new(program).stdin(Stdio::piped()).stdout(Stdio::piped()).spawn()?;
    let mut stdin = child.stdin.take().expect("a pipe");
    // A program that stops early breaks the pipe; its output shows where.
    let writer = thread::spawn(move || drop(stdin.write_all(&input)));
    let output = child.wait_with_output()?;
    writer.join().expect("the writer ends");
    Ok(output.status.success().then_some(output.stdout))
}

/// The first line that differs, with both.
fn difference(got: &[u8], wanted: &[u8]) -> String {
    let lines = |bytes| String::from_utf8_lossy(bytes).lines().map(str::to_string).collect();
    let (got, wanted): (Vec<String>, Vec<String>) = (lines(got), lines(wanted));
    let at = got.iter().zip(&wanted).take_while(|(one, other)| one == other).count();
    format!("output line {}: {:?} and not {:?}", at + 1, got.get(at), wanted.get(at))
}

/// What is wrong with the program's answers, if anything is.
fn compare(program: &str, input: &[u8], wanted: &[u8]) -> io::Result<Option<String>> {
    Ok(match output(program, input.to_vec())? {
        None => Some("it did not end well".to_string()),
        Some(got) if got == wanted => None,
        Some(got) => Some(difference(&got, wanted)),
    })
}

fn main() -> io::Result<ExitCode> {
    let arguments: Vec<String> = env::args().collect();
    let [_, program, count, lines, folder] = &arguments[..] else {
        eprintln!("usage: compare PROGRAM COUNT LINES FOLDER");
        return Ok(ExitCode::from(2));
    };
    let [count, lines] = [count, lines].map(|word| word.parse::<u64>().expect("a number"));
    let mut failed = 0;
    for seed in 0..count {
        let input = random_course::viewed(seed, lines as usize, random_course::ANY_STEP);
        let wanted = course::run(&input).into_bytes();
        if let Some(wrong) = compare(program, &input, &wanted)? {
            let kept = Path::new(folder).join(format!("course-{seed}"));
            fs::write(kept.with_extension("in"), input)?;
            fs::write(kept.with_extension("out"), wanted)?;
            println!("{}.in: {wrong}", kept.display());
            failed += 1;
        }
    }
    println!("{} passed, {failed} failed", count - failed);
    Ok(if failed == 0 { ExitCode::SUCCESS } else { ExitCode::FAILURE })
}
