//! The rule of chains (13) through the static library against the independent reader: the pictures
//! made for it, and random ones.

use differential::{ahead, expected, read, Ahead};
use independent::chains::{all, picture, queues, set, Chain, Link, Queue};
use independent::machine::Config;
use independent::picture::raw_bytes;
use independent::random::Generator;
use independent::record::Snapshot;

/// Compares reading, and turns ahead of a thread.
fn compare(shown: &Snapshot, thread: u8) -> u8 {
    let bytes = raw_bytes(shown);
    let number = read(&bytes);
    assert_eq!(number, expected::read(&bytes), "{bytes:?}");
    assert_eq!(ahead(&bytes, thread), expected::ahead(&bytes, thread), "{bytes:?}");
    number
}

#[test]
fn one_link_wrong() {
    for (p, t, m) in [(1, 1, 1), (1, 2, 1), (1, 31, 1), (1, 32, 1), (8, 31, 8), (8, 32, 8)] {
        for choice in [0, 1] {
            for case in all(Config::new(p, t, m, t).with_stealing(choice)) {
                for thread in [1, t] {
                    assert_eq!(compare(&case.shown, thread), case.number, "{}", case.name);
                }
                if case.number != 0 {
                    let bytes = raw_bytes(&case.shown);
                    assert_eq!(ahead(&bytes, 1), Ahead::Refused(case.number), "{}", case.name);
                }
            }
        }
    }
}

/// Sizes of any table, often with 32 threads.
fn table(generator: &mut Generator) -> Config {
    let config = generator.config();
    let threads = if generator.once_in(2) { 32 } else { config.threads };
    Config::new(config.processors, threads, config.mutexes, 1)
        .with_stealing(generator.between(0, 1))
}

/// The threads in any order, all or some of them, in one queue or more.
fn partition(generator: &mut Generator, config: Config) -> Vec<(Queue, Vec<u8>)> {
    let mut queues: Vec<(Queue, Vec<u8>)> =
        queues(config).into_iter().map(|queue| (queue, Vec::new())).collect();
    let mut left: Vec<u8> = (1..=config.threads).collect();
    let count = queues.len();
    let (first, used) = (generator.below(count), 1 + generator.below(count));
    let all = generator.once_in(2);
    while !left.is_empty() {
        let thread = left.swap_remove(generator.below(left.len()));
        if all || !generator.once_in(4) {
            queues[(first + generator.below(used)) % count].1.push(thread);
        }
    }
    queues
}

/// The first of a queue or the next of a thread in one becomes any thread or none.
fn redirect(generator: &mut Generator, shown: &mut Snapshot, chains: &[Chain]) {
    let (queue, threads) = generator.pick(chains);
    let link = match threads {
        [] => Link::First(queue),
        _ if generator.once_in(4) => Link::First(queue),
        _ => Link::Next(generator.pick(threads)),
    };
    set(shown, link, generator.between(0, shown.threads));
}

#[test]
fn random_chains() {
    let mut generator = Generator::new(8_000);
    let mut seen = [0usize; 16];
    for _ in 0..8_000 {
        let config = table(&mut generator);
        let queued = partition(&mut generator, config);
        let chains: Vec<Chain> = queued.iter().map(|(queue, t)| (*queue, t.as_slice())).collect();
        let right = picture(config, &chains);
        let thread = generator.between(1, config.threads);
        assert_eq!(compare(&right, thread), 0);
        for _ in 0..4 {
            let mut shown = right;
            for _ in 0..=generator.below(2) {
                redirect(&mut generator, &mut shown, &chains);
            }
            seen[usize::from(compare(&shown, thread))] += 1;
        }
    }
    assert!(seen[0] > 500 && seen[13] > 20_000, "{seen:?}");
    assert_eq!(seen[0] + seen[13], 32_000);
}
