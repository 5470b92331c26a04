//! Inputs of the line program `course` with marks.

use crate::marks::{machines, wrong_in};
use independent::machine::Config;
use independent::marks::parts_of;
use independent::picture::HEADER;
use independent::spelling;
use independent::worked::{self, Worked};

/// The example for users.
const EXAMPLE: &[u8] = include_bytes!("../../../../../examples/marks.txt");

/// The worked session, to its end.
fn session(worked: &Worked) -> Vec<String> {
    let moves = worked.moves.iter().map(|&made| spelling::make_move(made));
    [spelling::start(worked.config)].into_iter().chain(moves).collect()
}

/// Every choice of wrong records, the header right and wrong: of two pictures before the session,
/// then of one in it.
fn choices(worked: &Worked) -> Vec<u8> {
    let picture = worked.picture();
    let mut candidates = Vec::new();
    for records in 0..1 << parts_of(&picture).len() {
        let candidate = wrong_in(&picture, records);
        let mut other = candidate.clone();
        other[..HEADER].copy_from_slice(&[1, 2, 3, 4, 5, 6, 7, 8]);
        candidates.extend([candidate, other]);
    }
    let mut lines: Vec<String> =
        candidates.iter().map(|candidate| spelling::mark_of(&picture, candidate)).collect();
    lines.push(spelling::mark(&picture));
    lines.extend(session(worked));
    lines.extend(candidates.iter().map(|candidate| spelling::mark(candidate)));
    lines.push("show".to_string());
    spelling::input(&lines)
}

/// Each byte changed in turn, in the candidate's picture, then in the machine's.
fn bytes(worked: &Worked) -> Vec<u8> {
    let picture = worked.picture();
    let mut lines = session(worked);
    for at in 0..picture.len() {
        let mut other = picture.clone();
        other[at] ^= if at % 3 == 0 { 255 } else { 1 };
        lines.extend([spelling::mark(&other), spelling::mark_of(&other, &picture)]);
    }
    lines.extend(["show", "chart"].map(String::from));
    spelling::input(&lines)
}

/// 11 to 14 by the machine's picture, also where the candidate's has a wrong length; then each as
/// the candidate's in a session.
fn refused() -> Vec<u8> {
    let picture = worked::k7().picture();
    let machines: Vec<Vec<u8>> =
        machines().into_iter().filter(|machine| !machine.is_empty()).collect();
    let mut lines = Vec::new();
    for machine in &machines {
        for candidate in [&machine[..], &picture, &picture[1..], &[0]] {
            lines.push(spelling::mark_of(machine, candidate));
        }
        lines.push(spelling::mark(machine));
    }
    lines.extend(session(&worked::k7()));
    lines.extend(machines.iter().map(|machine| spelling::mark(machine)));
    spelling::input(&lines)
}

/// The start's picture, the present one and the last one after each move, then on the way back.
fn current(worked: &Worked) -> Vec<u8> {
    let last = worked.moves.len();
    let picture = |count: usize| worked.front(count).picture();
    let marks = |count: usize| [0, count, last].map(|shown| spelling::mark(&picture(shown)));
    let mut lines = vec![spelling::start(worked.config)];
    for (count, &made) in (1..).zip(&worked.moves) {
        lines.push(spelling::make_move(made));
        lines.extend(marks(count));
    }
    for count in (0..last).rev() {
        lines.push(spelling::goto(count as u16));
        lines.extend(marks(count));
    }
    spelling::input(&lines)
}

/// A start's picture with all records right, all wrong, and one alone wrong or right.
fn single_records(config: Config) -> Vec<u8> {
    let picture = Worked::new(config).picture();
    let count = parts_of(&picture).len();
    let all = (1 << count) - 1;
    let mut lines = vec![spelling::start(config)];
    let single = (0..count).step_by(5).flat_map(|at| [1 << at, all ^ 1 << at]);
    for records in [0, all].into_iter().chain(single) {
        let candidate = wrong_in(&picture, records);
        lines.extend([spelling::mark(&candidate), spelling::mark_of(&picture, &candidate)]);
    }
    spelling::input(&lines)
}

pub fn all() -> Vec<(&'static str, Vec<u8>)> {
    vec![
        ("marks", EXAMPLE.to_vec()),
        ("marks-choices", choices(&worked::k5())),
        ("marks-bytes", bytes(&worked::k7())),
        ("marks-refused", refused()),
        ("marks-current", current(&worked::k6())),
        ("marks-large", single_records(Config::new(8, 32, 8, 20))),
        ("each-marks-bytes", bytes(&worked::own_queues())),
        ("each-marks-current", current(&worked::steals(2))),
    ]
}
