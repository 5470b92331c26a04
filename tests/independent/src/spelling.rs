//! Commands as lines of input.

use crate::course::Reader;
use crate::machine::{Config, Move};
use crate::picture::hex;
use crate::random::step_back;

/// Lines as input, each ended by a line feed.
pub fn input<T: AsRef<[u8]>>(lines: &[T]) -> Vec<u8> {
    lines.iter().flat_map(|line| [line.as_ref(), b"\n"].concat()).collect()
}

/// A start table's numbers; the fifth is left out where it is 0.
pub fn table(config: Config) -> String {
    let Config { processors, threads, mutexes, born, stealing } = config;
    let fifth = if stealing == 0 { String::new() } else { format!(" {stealing}") };
    format!("{processors} {threads} {mutexes} {born}{fifth}")
}

pub fn start(config: Config) -> String {
    format!("start {}", table(config))
}

pub fn make_move([p, a, o]: Move) -> String {
    format!("move {p} {a} {o}")
}

pub fn goto(step: u16) -> String {
    format!("goto {step}")
}

/// Adds so many single steps back from where these lines lead; those from the start are refused by 9.
pub fn add_steps_back(lines: &mut Vec<String>, count: usize) {
    let mut reader = Reader::default();
    reader.feed(&input(lines));
    let record = reader.program().record().expect("a session");
    let mut applied = record.snapshot.applied;
    for _ in 0..count {
        lines.push(goto(step_back(applied, record.kept)));
        applied = applied.saturating_sub(1);
    }
}

/// The line for a script's bytes.
pub fn script(thread: u8, script: &[u8]) -> String {
    let calls = &script[1..][..2 * usize::from(script[0])];
    format!("script {thread}{}", numbers(calls))
}

/// The lines for all scripts, thread 1 first.
pub fn scripts(config: Config, scripts: &[u8]) -> Vec<String> {
    let each = scripts.chunks_exact(crate::script::SCRIPT);
    (1..=config.threads).zip(each).map(|(thread, bytes)| script(thread, bytes)).collect()
}

pub fn turns(turns: &[u8]) -> String {
    format!("turns{}", numbers(turns))
}

/// The mark of a candidate's picture against the session's.
pub fn mark(candidate: &[u8]) -> String {
    format!("mark {}", hex(candidate))
}

/// The mark of a candidate's picture against a machine's.
pub fn mark_of(machine: &[u8], candidate: &[u8]) -> String {
    format!("mark {} {}", hex(machine), hex(candidate))
}

/// Each number after a space.
pub fn numbers(numbers: &[u8]) -> String {
    numbers.iter().map(|number| format!(" {number}")).collect()
}
