//! Inputs of both line programs in which owners exit (document 02, No. 9).

use independent::machine::{Config, Move, EXIT, GO, LOCK, TRYLOCK, UNLOCK, YIELD};
use independent::owners::{self, Owning};
use independent::spelling;
use independent::worked::Worked;

/// Lines with the picture after each.
fn each_shown(moves: &[Move]) -> Vec<String> {
    let line = |&made: &Move| [spelling::make_move(made), "show".to_string()];
    moves.iter().flat_map(line).collect()
}

/// The exit of an owner: refused at App, by 4 in its unlock, taken after that.
fn owner_exit(owning: &Owning) -> Vec<String> {
    let Owning { session, p, .. } = owning;
    let exit = [*p, EXIT, 0];
    let mut moves = vec![exit, [*p, UNLOCK, 1], exit];
    for _ in 1..owning.unlocks().len() {
        moves.extend([[*p, GO, 0], exit]);
    }
    let mut lines = vec![spelling::start(session.config)];
    lines.extend(session.moves.iter().map(|&made| spelling::make_move(made)));
    lines.extend(each_shown(&moves));
    lines
}

/// Exits by owners: by each line that makes one, of each mutex, of several; with other calls after
/// the lock and by other threads; 2, 3 and 4 before 21; steps back over it all.
pub fn session(stealing: u8) -> Vec<u8> {
    let config = Config::new(2, 3, 8, 3).with_stealing(stealing);
    let exit = [1, EXIT, 0];
    let locks = |m: u8| [[1, LOCK, m], [1, GO, 0]];
    let unlocks = |m: u8| [[1, UNLOCK, m], [1, GO, 0]];
    let mut lines: Vec<String> = owners::owning(stealing).iter().flat_map(owner_exit).collect();
    for m in 1..=8 {
        let moves = [&locks(m)[..], &[exit, [2, EXIT, 0]], &unlocks(m), &[exit]].concat();
        lines.push(spelling::start(config));
        lines.extend(each_shown(&moves));
    }
    let mut moves: Vec<Move> = (1..=8).flat_map(locks).collect();
    for m in [5, 1, 8, 3, 7, 2, 6, 4] {
        moves.extend([&[exit][..], &unlocks(m)].concat());
    }
    moves.push(exit);
    lines.push(spelling::start(config));
    lines.extend(each_shown(&moves));
    lines.extend(owner_among_others(config));
    spelling::input(&lines)
}

/// The owner of mutex 2 locks and unlocks mutex 1, yields, runs again and locks its own mutex; each
/// wrong exit between them. At last all is stepped back.
fn owner_among_others(config: Config) -> Vec<String> {
    let exits = [[0, EXIT, 0], [3, EXIT, 1], [1, EXIT, 1], [1, EXIT, 255], [1, EXIT, 0]];
    let calls = [
        ([1, LOCK, 2], 1),
        ([1, TRYLOCK, 1], 1),
        ([1, UNLOCK, 1], 1),
        ([2, LOCK, 1], 1),
        ([1, TRYLOCK, 1], 2),
        ([1, YIELD, 0], 5),
        ([1, YIELD, 0], 5),
        ([1, LOCK, 2], 6),
        ([1, EXIT, 0], 1),
    ];
    let mut lines = vec![spelling::start(config)];
    for (made, goes) in calls {
        lines.push(spelling::make_move(made));
        lines.extend(each_shown(&exits));
        lines.extend(vec![spelling::make_move([made[0], GO, 0]); goes]);
        lines.extend(each_shown(&exits));
    }
    spelling::add_steps_back(&mut lines, 30);
    lines.push("show".to_string());
    lines
}

/// An owner's exit with 3,998, 3,999 and 4,000 moves: 21, then 8, after 2 and 3.
pub fn most_moves() -> Vec<u8> {
    let begun = Worked::new(Config::new(2, 1, 1, 1)).call(1, LOCK, 1).go(1, 1).go(2, 3_996);
    let mut lines = vec![spelling::start(begun.config)];
    lines.extend(begun.moves.iter().map(|&made| spelling::make_move(made)));
    for _ in 0..3 {
        let exits = [[1, EXIT, 0], [1, EXIT, 1], [3, EXIT, 0], [2, EXIT, 0], [2, GO, 0]];
        lines.extend(each_shown(&exits));
    }
    lines.extend(["goto 3999", "goto 3998", "move 1 5 0", "move 1 3 1"].map(String::from));
    lines.extend(["move 1 5 0", "move 1 0 0", "move 1 5 0", "goto 3999"].map(String::from));
    lines.extend(["move 1 5 0", "show"].map(String::from));
    spelling::input(&lines)
}

/// Scripts that are spent: 21 while the others go on and wait for the mutex. Unlocked by a move, the
/// first owner exits; the one that waited for its mutex keeps another and may not.
const SPENT: [&str; 15] = [
    "script 1 1 1",
    "script 2 1 2 1 1 3 1",
    "script 3 4 0",
    "turns 1 1 1 1 2 2 1 3 2 2 2 2 1 3 2 2 2 3 3 3 3 3 3 1 1 1",
    "view",
    "turn 1",
    "turn 2",
    "show",
    "chart",
    "move 1 3 1",
    "turns 1 1 1 1 1 1 1 1 1 1",
    "view",
    "chart",
    "goto 28",
    "turn 1",
];

/// A longer script is a way out.
const LONGER: [&str; 7] = [
    "script 1 1 1 1 2",
    "turns 1 1 1 1 1 1 2 2",
    "script 1 1 1 1 2 3 2",
    "turns 1 1 1 1",
    "script 1 1 1 1 2 3 2 3 1",
    "turns 1 1 1 1",
    "chart",
];

/// An exit among the calls, with a wrong operand, and after the unlock.
const INSIDE: [&str; 7] = [
    "script 1 2 1 5 0 3 1",
    "turns 1 1 1 1",
    "script 1 2 1 5 1",
    "turns 1 1",
    "script 1 2 1 3 1 5 0",
    "turns 1 1 1 1",
    "view",
];

/// Owners that exit, by scripts; marks with pictures from before that was refused.
pub fn course(stealing: u8) -> Vec<u8> {
    let mut lines = Vec::new();
    let parts = [
        (Config::new(3, 4, 2, 4), &SPENT[..]),
        (Config::new(2, 2, 2, 2), &LONGER),
        (Config::new(1, 1, 1, 1), &INSIDE),
    ];
    for (config, rest) in parts {
        lines.push(spelling::start(config.with_stealing(stealing)));
        lines.extend(rest.iter().map(|line| line.to_string()));
    }
    for old in owners::old() {
        let before = old.before_exit().picture();
        lines.push(spelling::mark_of(&old.picture, &old.picture));
        lines.push(spelling::mark_of(&old.picture, &before));
        lines.push(spelling::mark_of(&before, &old.picture));
    }
    spelling::input(&lines)
}
