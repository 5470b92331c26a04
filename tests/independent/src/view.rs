//! A state as tables for people: processors, mutexes, ready queues, threads by status. Behind the words
//! that a move has touched stand `r` and `w`.

use crate::machine::{Life, Mutex, Processor, State, Token};
use crate::touch::{Touch, Word};

/// Every line ends with a line feed.
pub fn view(state: &State, touch: Touch) -> String {
    let mut lines = vec![format!("moves {}", state.applied)];
    lines.extend(table(&PROCESSOR, (1..).zip(&state.processors).map(processor_cells)));
    let mutexes = (1..).zip(&state.mutexes);
    lines.extend(table(&MUTEX, mutexes.map(|(m, mutex)| mutex_cells(m, mutex, touch))));
    lines.extend(table(&READY, ready_cells(state, touch).into_iter()));
    lines.extend(table(&STATUS, status_cells(state, touch).into_iter()));
    lines.iter().map(|line| format!("{line}\n")).collect()
}

/// Headings, each but the last with its column's width.
struct Columns<const N: usize> {
    headings: [&'static str; N],
    widths: [usize; N],
}

const PROCESSOR: Columns<9> = Columns {
    headings: [
        "processor",
        "line",
        "current",
        "transit",
        "mutex",
        "observed",
        "sequence",
        "answer",
        "probe",
    ],
    widths: [11, 6, 9, 9, 7, 10, 10, 8, 0],
};

const MUTEX: Columns<5> =
    Columns { headings: ["mutex", "count", "owner", "token", "queue"], widths: [7, 7, 7, 12, 0] };

const READY: Columns<2> = Columns { headings: ["ready queue", "threads"], widths: [13, 0] };

const STATUS: Columns<2> = Columns { headings: ["status", "threads"], widths: [12, 0] };

/// The headings and the rows; a cell that is shorter than its column is followed by spaces.
fn table<const N: usize>(
    columns: &Columns<N>,
    rows: impl Iterator<Item = [String; N]>,
) -> Vec<String> {
    let headings = columns.headings.map(str::to_string);
    let line = |cells: [String; N]| -> String {
        cells.iter().zip(columns.widths).map(|(cell, width)| format!("{cell:<width$}")).collect()
    };
    [headings].into_iter().chain(rows).map(line).collect()
}

fn processor_cells((p, here): (u8, &Processor)) -> [String; 9] {
    let answer = ["none", "true", "false"][usize::from(here.answer)];
    [
        p.to_string(),
        here.position.name(),
        or_none(here.current),
        or_none(here.transit),
        or_none(here.mutex),
        token(here.observed),
        here.sequence.to_string(),
        answer.to_string(),
        here.probe.to_string(),
    ]
}

fn mutex_cells(m: u8, mutex: &Mutex, touch: Touch) -> [String; 5] {
    [
        m.to_string(),
        mutex.count.to_string() + touch.mark(Word::Count(m)),
        or_none(mutex.owner),
        token(mutex.token) + touch.mark(Word::Token(m)),
        threads(&mutex.queue) + touch.mark(Word::Queue(m)),
    ]
}

/// The single ready queue, or each processor's.
fn ready_cells(state: &State, touch: Touch) -> Vec<[String; 2]> {
    let name = |p: u8| match state.stealing {
        0 => "single".to_string(),
        _ => p.to_string(),
    };
    let row = |(p, queue)| [name(p), threads(queue) + touch.mark(Word::Ready(p))];
    (1..).zip(&state.ready).map(row).collect()
}

fn status_cells(state: &State, touch: Touch) -> Vec<[String; 2]> {
    let row = |name: &str, has: &dyn Fn(u8) -> bool| {
        let all = (1..=state.thread_count()).filter(|&thread| has(thread));
        let marked = all.map(|thread| format!("{thread}{}", touch.mark(Word::Birth(thread))));
        [name.to_string(), listed(marked.collect())]
    };
    vec![
        row("new", &|thread| state.life(thread) == Life::Unborn),
        row("ready", &|thread| state.ready.iter().any(|queue| queue.contains(&thread))),
        row("waiting", &|thread| state.mutexes.iter().any(|mutex| mutex.queue.contains(&thread))),
        row("current", &|thread| state.processors.iter().any(|here| here.current == thread)),
        row("transit", &|thread| state.processors.iter().any(|here| here.transit == thread)),
        row("terminated", &|thread| state.life(thread) == Life::Ended),
    ]
}

/// A number, `-` for 0.
pub fn or_none(number: u8) -> String {
    match number {
        0 => "-".to_string(),
        _ => number.to_string(),
    }
}

/// A token, `-` for none.
pub fn token(token: Token) -> String {
    match token.processor {
        0 => "-".to_string(),
        processor => format!("({processor},{})", token.sequence),
    }
}

/// Threads in order, `-` for none.
fn threads<'a>(list: impl IntoIterator<Item = &'a u8>) -> String {
    listed(list.into_iter().map(u8::to_string).collect())
}

fn listed(words: Vec<String>) -> String {
    match words[..] {
        [] => "-".to_string(),
        _ => words.join(" "),
    }
}
