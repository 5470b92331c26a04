//! Moves as a chart for people: a row for each move with a column for each processor, and what the
//! move changed: owners, tokens, queues. It compares the states before and after the move.

use crate::machine::{
    Config, Move, State, CREATE, EXIT, GO, LOCK, MOST_MUTEXES, TRYLOCK, UNLOCK, YIELD,
};
use crate::view::{or_none, token};
use std::collections::VecDeque;

/// The width of the column of the moves' numbers, and of a processor's.
const NUMBER: usize = 6;
const CELL: usize = 11;

/// The chart of accepted moves from a start. Every line ends with a line feed.
pub fn chart(config: Config, moves: &[Move]) -> String {
    let mut text = heading(config.processors);
    let mut state = State::start(config);
    for (number, &made) in (1..).zip(moves) {
        let before = state.clone();
        state.try_move(made).expect("a standing move is accepted");
        text.push_str(&row(number, made, &before, &state));
        text.push('\n');
    }
    text
}

fn heading(processors: u8) -> String {
    let numbers: String = (1..=processors).map(|p| format!("{p:<CELL$}")).collect();
    format!("{:<NUMBER$}{numbers}changes\n", "move")
}

fn row(number: u16, made: Move, before: &State, after: &State) -> String {
    let indent = CELL * (usize::from(made[0]) - 1);
    let cells = format!("{number:<NUMBER$}{:indent$}{}", "", cell(made, before));
    let changes = changes(before, after);
    if changes.is_empty() {
        return cells;
    }
    let width = NUMBER + CELL * before.processors.len();
    format!("{cells:<width$}{}", changes.join("  "))
}

/// The line that a go executes, or the call.
fn cell([p, action, operand]: Move, before: &State) -> String {
    match action {
        GO => before.processor(p).position.name(),
        LOCK => format!("lock {operand}"),
        TRYLOCK => format!("trylock {operand}"),
        UNLOCK => format!("unlock {operand}"),
        YIELD => "yield".to_string(),
        EXIT => "exit".to_string(),
        CREATE => format!("create {operand}"),
        _ => unreachable!("no such call"),
    }
}

/// All that differs: owners, tokens, threads that joined a queue, threads that left one.
fn changes(before: &State, after: &State) -> Vec<String> {
    let mutexes: Vec<_> =
        (1..=MOST_MUTEXES).zip(before.mutexes.iter().zip(&after.mutexes)).collect();
    let owners = mutexes.iter().filter(|(_, (old, new))| old.owner != new.owner);
    let tokens = mutexes.iter().filter(|(_, (old, new))| old.token != new.token);
    let mut all: Vec<String> =
        owners.map(|(m, (_, new))| format!("owner {m}: {}", or_none(new.owner))).collect();
    all.extend(tokens.map(|(m, (_, new))| format!("token {m}: {}", token(new.token))));
    all.extend(more(before, after).map(|(queue, thread)| format!("{queue}: +{thread}")));
    all.extend(more(after, before).map(|(queue, thread)| format!("{queue}: -{thread}")));
    all
}

/// The threads that a queue of `many` has and the same queue of `few` has not, each with the
/// queue's name.
fn more<'a>(few: &'a State, many: &'a State) -> impl Iterator<Item = (String, u8)> + 'a {
    queues(few).into_iter().zip(queues(many)).flat_map(|((name, without), (_, with))| {
        let joined = with.iter().filter(|thread| !without.contains(thread));
        joined.map(|&thread| (name.clone(), thread)).collect::<Vec<_>>()
    })
}

/// All queues with their names.
fn queues(state: &State) -> Vec<(String, &VecDeque<u8>)> {
    let mutex_queues = state.mutexes.iter().map(|mutex| &mutex.queue);
    let mut all: Vec<_> =
        (1..).zip(mutex_queues).map(|(m, queue): (u8, _)| (format!("queue {m}"), queue)).collect();
    all.extend((1..).zip(&state.ready).map(|(p, queue): (u8, _)| match state.stealing {
        0 => ("ready".to_string(), queue),
        _ => (format!("ready {p}"), queue),
    }));
    all
}
