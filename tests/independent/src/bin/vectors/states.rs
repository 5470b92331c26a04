//! The named states that pictures and turns are given for.

use independent::lines;
use independent::machine::{Config, State};
use independent::owners;
use independent::picture;
use independent::random::{Driver, Rates};
use independent::record::Snapshot;
use independent::worked::{self, Worked};

/// Pictures of random sessions from before exits by owners were refused, in which one has exited.
const KEPT_DEEP: &str = include_str!("../../../../vectors/pictures/deep-8-32-8-b.txt");
const KEPT_EACH_DEEP: &str = include_str!("../../../../vectors/pictures/each-deep-8-32-8.txt");

pub struct Named {
    pub name: &'static str,
    pub snapshot: Snapshot,
}

/// The worked session with its last `less` moves left out.
fn earlier(worked: &Worked, less: usize) -> Snapshot {
    worked.front(worked.moves.len() - less).snapshot()
}

/// A state of a random session of accepted moves: the first from `least` moves on in which
/// at least `waiting` threads wait, two are ready in the first ready queue and a processor has
/// observed a token.
/// Seeds are tried one after the other.
fn deep(config: Config, seed: u64, least: u16, waiting: usize) -> Snapshot {
    (seed..).find_map(|seed| deep_from(config, seed, least, waiting)).expect("a deep state")
}

fn deep_from(config: Config, seed: u64, least: u16, waiting: usize) -> Option<Snapshot> {
    let mut driver = Driver::new(seed, Rates::ACCEPTED);
    let mut state = State::start(config);
    loop {
        state.try_move(driver.likely_move(&state)).ok()?;
        let queued: usize = state.mutexes.iter().map(|mutex| mutex.queue.len()).sum();
        let observed = state.processors.iter().any(|here| here.observed.processor != 0);
        if state.applied >= least && queued >= waiting && state.ready[0].len() >= 2 && observed {
            return Some(Snapshot::of(&state));
        }
    }
}

/// The state of the picture in a file's first line.
fn kept(text: &str) -> Snapshot {
    let word = text.split_whitespace().nth(1).expect("a picture");
    picture::read(&lines::bytes(word.as_bytes()).expect("digits")).value
}

/// With a terminated owner, and either choice of ready queues.
pub fn old() -> Vec<Named> {
    let named = |old: owners::Old| Named { name: old.name, snapshot: old.record().snapshot };
    owners::old().into_iter().map(named).collect()
}

/// With a single ready queue.
pub fn all() -> Vec<Named> {
    let start = |p, t, m, b| Worked::new(Config::new(p, t, m, b)).snapshot();
    let (k4, k5, k6, k7, k8) =
        (worked::k4(), worked::k5(), worked::k6(), worked::k7(), worked::k8_with_trylocks());
    let list = [
        ("start-1-1-1-1", start(1, 1, 1, 1)),
        ("start-2-5-2-4", start(2, 5, 2, 4)),
        ("start-8-32-8-32", start(8, 32, 8, 32)),
        ("start-8-32-8-1", start(8, 32, 8, 1)),
        ("k4-end", earlier(&k4, 0)),
        ("s-end", worked::session_s(2).snapshot()),
        ("k5-l8", earlier(&k5, 3)),
        ("k5-l10", earlier(&k5, 1)),
        ("k5-end", earlier(&k5, 0)),
        ("k6-h8", earlier(&k6, 4)),
        ("k6-h3", earlier(&k6, 2)),
        ("k6-end", earlier(&k6, 0)),
        ("k7-h8", earlier(&k7, 6)),
        ("k7-gt3", earlier(&k7, 3)),
        ("k7-tl3", earlier(&k7, 1)),
        ("k7-end", earlier(&k7, 0)),
        ("k8-l8", earlier(&k8, 1)),
        ("deep-3-7-2", deep(Config::new(3, 7, 2, 7), 11, 150, 2)),
        ("deep-8-32-8-a", deep(Config::new(8, 32, 8, 20), 1, 1_200, 7)),
        ("deep-8-32-8-b", kept(KEPT_DEEP)),
        ("deep-8-32-1", deep(Config::new(8, 32, 1, 32), 200, 300, 3)),
    ];
    named(list)
}

/// With a ready queue for each processor: starts, looks on the way to a thread and after the last
/// queue, queues that grew, deep states.
pub fn each() -> Vec<Named> {
    let of = |p, t, m, b| Config::new(p, t, m, b).with_stealing(1);
    let start = |p, t, m, b| Worked::new(of(p, t, m, b)).snapshot();
    let (steals, own) = (worked::steals(2), worked::own_queues());
    named([
        ("each-start-1-1-1-1", start(1, 1, 1, 1)),
        ("each-start-3-8-2-7", start(3, 8, 2, 7)),
        ("each-start-8-32-8-32", start(8, 32, 8, 32)),
        ("each-look-1", earlier(&steals, 16)),
        ("each-look-2", earlier(&steals, 11)),
        ("each-looked-round", earlier(&steals, 5)),
        ("each-stolen", earlier(&steals, 10)),
        ("each-own", earlier(&own, 0)),
        ("each-deep-3-7-2", deep(of(3, 7, 2, 7), 11, 150, 2)),
        ("each-deep-8-32-8", kept(KEPT_EACH_DEEP)),
    ])
}

fn named<const N: usize>(list: [(&'static str, Snapshot); N]) -> Vec<Named> {
    list.into_iter().map(|(name, snapshot)| Named { name, snapshot }).collect()
}
