//! Which neighbours of lists of moves may change places, and lists at the boundaries of the refusals.

use crate::words::{bad_tables, five, AFTER_K7};
use crate::{field, Folder};
use independent::independence::{answer, of_list};
use independent::machine::Config;
use independent::random::{Driver, Rates};
use independent::spelling::table;
use independent::worked::{self, Worked};
use std::io;

/// The file of a list of accepted moves, two at least.
fn text(worked: &Worked) -> String {
    let (table, moves) = (table(worked.config), worked.moves.concat());
    let bars = of_list(worked.config, &moves).expect("accepted moves");
    let answers: String = bars.iter().map(|bar| if bar.is_none() { '1' } else { '0' }).collect();
    format!("table {table}\nmoves {}\nanswers {answers}\n", field(&moves))
}

fn named() -> Vec<(&'static str, Worked)> {
    let random = |seed, config| Driver::new(seed, Rates::ACCEPTED).session(config, 400);
    let each = |p, t, m, b| Config::new(p, t, m, b).with_stealing(1);
    vec![
        ("k5", worked::k5()),
        ("k6", worked::k6()),
        ("k7", worked::k7()),
        ("k8-with-trylocks", worked::k8_with_trylocks()),
        ("each-steals-2", worked::steals(2)),
        ("each-own-queues", worked::own_queues()),
        ("contention-3-3-1", random(11, Config::new(3, 3, 1, 3))),
        ("contention-4-4-2", random(12, Config::new(4, 4, 2, 4))),
        ("random-8-32-8", random(13, Config::new(8, 32, 8, 12))),
        ("each-contention-5-6-1", random(14, each(5, 6, 1, 6))),
        ("each-random-8-32-8", random(15, each(8, 32, 8, 28))),
    ]
}

/// A line of the list: answer, place, table, the place asked about, the moves.
fn line(config: Config, first: u32, moves: &[u8]) -> String {
    let (answer, place) = answer(config, moves, first);
    format!("{answer} {place} {} {first} {}\n", five(config), field(moves))
}

fn boundaries() -> String {
    let mut text = bad_tables().map(|bad| line(bad, 1, &[1, 4, 0, 2, 4, 0])).concat();
    for stealing in [0, 1] {
        let k7 = worked::k7().with_stealing(stealing);
        let moves = k7.moves.concat();
        for made in AFTER_K7 {
            let longer = [&moves[..], &made].concat();
            for first in [0, 1, 3, 17, 18, u32::MAX] {
                text.push_str(&line(k7.config, first, &longer));
            }
            text.push_str(&line(k7.config, 1, &[&longer[..], &[9]].concat()));
        }
        for count in [0, 1, 2, 3, 4, 5, 6, moves.len() - 2, moves.len() - 1, moves.len()] {
            for first in [0, 1, 2, 16, 17, 18, 1 << 16, 1 << 31, u32::MAX - 1, u32::MAX] {
                text.push_str(&line(k7.config, first, &moves[..count]));
            }
        }
    }
    text
}

pub fn write_all(folder: &Folder) -> io::Result<()> {
    for (name, worked) in named() {
        folder.write(&format!("{name}.txt"), text(&worked).as_bytes())?;
    }
    folder.write("boundaries.list", boundaries().as_bytes())
}
