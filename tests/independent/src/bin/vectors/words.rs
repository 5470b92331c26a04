//! The words of lists of moves, and lists at the boundaries of 1, a refused move and 10.

use crate::{field, Folder};
use independent::machine::{Config, Move, CREATE, EXIT, GO, LOCK, TRYLOCK, UNLOCK, YIELD};
use independent::random::{Driver, Rates};
use independent::spelling::table;
use independent::touch;
use independent::worked::{self, Worked};
use std::io;

/// The file of a list of accepted moves.
fn text(worked: &Worked) -> String {
    let moves = worked.moves.concat();
    let all = touch::of_list(worked.config, &moves).expect("accepted moves");
    let (table, words) = (table(worked.config), touch::bytes(&all));
    format!("table {table}\nmoves {}\nwords {}\n", field(&moves), field(&words))
}

/// A session of random moves that are all accepted.
fn random(seed: u64, config: Config, count: usize) -> Worked {
    Driver::new(seed, Rates::ACCEPTED).session(config, count)
}

/// Looks by a processor without a thread: round all queues, or at the single one.
fn looks(p: u8, stealing: u8) -> Worked {
    Worked::new(Config::new(8, 8, 1, 1).with_stealing(stealing)).go(p, 17)
}

fn named() -> Vec<(&'static str, Worked)> {
    let each = |p, t, m| Config::new(p, t, m, t - t / 8).with_stealing(1);
    vec![
        ("no-moves", Worked::new(Config::new(1, 1, 1, 1))),
        ("k4", worked::k4()),
        ("k5", worked::k5()),
        ("k6", worked::k6()),
        ("k7", worked::k7()),
        ("k8", worked::k8()),
        ("k8-with-trylocks", worked::k8_with_trylocks()),
        ("each-k6", worked::k6().with_stealing(1)),
        ("each-steals-1", worked::steals(1)),
        ("each-steals-2", worked::steals(2)),
        ("each-steals-3", worked::steals(3)),
        ("each-own-queues", worked::own_queues()),
        ("looks", looks(3, 0)),
        ("each-looks-2", looks(2, 1)),
        ("each-looks-8", looks(8, 1)),
        ("contention-3-3-1", random(1, Config::new(3, 3, 1, 3), 600)),
        ("contention-4-4-2", random(2, Config::new(4, 4, 2, 4), 600)),
        ("random-8-32-8", random(3, Config::new(8, 32, 8, 12), 600)),
        ("each-contention-3-3-1", random(4, each(3, 3, 1), 600)),
        ("each-contention-5-6-1", random(5, each(5, 6, 1), 600)),
        ("each-random-8-32-8", random(6, each(8, 32, 8), 600)),
        ("most-moves", random(7, Config::new(3, 6, 2, 4), 4_000)),
    ]
}

/// A line of the list: number, place, table, the buffer's length, the moves.
fn line(config: Config, moves: &[u8], length: usize) -> String {
    let (number, place) = match touch::of_list(config, moves) {
        Err(refused) => refused,
        Ok(all) if length < 4 * all.len() => (10, 0),
        Ok(_) => (0, 0),
    };
    format!("{number} {place} {} {length} {}\n", five(config), field(moves))
}

/// The five numbers of a table.
pub fn five(config: Config) -> String {
    let Config { processors, threads, mutexes, born, stealing } = config;
    format!("{processors} {threads} {mutexes} {born} {stealing}")
}

/// Tables out of range.
pub fn bad_tables() -> [Config; 7] {
    let config = Config::new(2, 3, 1, 2);
    [
        Config { processors: 0, ..config },
        Config { processors: 9, ..config },
        Config { threads: 33, ..config },
        Config { mutexes: 0, ..config },
        Config { born: 0, ..config },
        Config { born: 4, ..config },
        config.with_stealing(2),
    ]
}

/// Moves that are refused after K7, then two that are accepted.
pub const AFTER_K7: [Move; 12] = [
    [0, GO, 0],
    [4, GO, 0],
    [1, 7, 0],
    [1, GO, 1],
    [3, LOCK, 2],
    [2, YIELD, 0],
    [3, GO, 0],
    [1, UNLOCK, 1],
    [1, CREATE, 2],
    [3, EXIT, 0],
    [2, GO, 0],
    [1, TRYLOCK, 1],
];

fn boundaries() -> String {
    // Where a table is out of range, the moves do not matter.
    let mut text = bad_tables().map(|bad| format!("1 0 {} 0 010100ff\n", five(bad))).concat();
    for stealing in [0, 1] {
        let k7 = worked::k7().with_stealing(stealing);
        let moves = k7.moves.concat();
        for made in AFTER_K7 {
            let longer = [&moves[..], &made].concat();
            let room = 4 * longer.len() / 3;
            for length in [0, room - 1, room, room + 1] {
                text.push_str(&line(k7.config, &longer, length));
            }
            text.push_str(&line(k7.config, &[&longer[..], &[9]].concat(), room));
        }
        for count in [0, 1, 2, 3, 4, 5, 6, moves.len() - 2, moves.len() - 1, moves.len()] {
            for length in [0, 3, 4, 5, 7, 8, 67, 68, 69] {
                text.push_str(&line(k7.config, &moves[..count], length));
            }
        }
    }
    text
}

pub fn write_all(folder: &Folder) -> io::Result<()> {
    for (name, worked) in named() {
        folder.write(&format!("{name}.txt"), text(&worked).as_bytes())?;
    }
    folder.write("boundaries.list", boundaries().as_bytes())
}
