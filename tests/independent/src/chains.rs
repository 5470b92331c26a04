//! Pictures for the rule of chains (13): all processors idle, threads in queues, and the same with
//! one link wrong, so that a chain comes back to a thread, goes on to one placed elsewhere, or
//! leaves one out.

use crate::machine::{Config, Position, MOST_THREADS};
use crate::record::{Snapshot, ThreadRow, CURRENT, READY, WAITING};

/// The single ready queue, a processor's own, a mutex's.
#[derive(Clone, Copy, PartialEq, Eq, Debug)]
pub enum Queue {
    Ready,
    Own(u8),
    Mutex(u8),
}

/// What names a thread of a chain: the first of a queue, or the next of a thread.
#[derive(Clone, Copy, PartialEq, Eq, Debug)]
pub enum Link {
    First(Queue),
    Next(u8),
}

/// A queue's threads in order.
pub type Chain<'a> = (Queue, &'a [u8]);

/// A picture and the number that reading it is to get.
#[derive(Clone, Debug)]
pub struct Case {
    pub name: String,
    pub shown: Snapshot,
    pub number: u8,
}

/// Chains of a few of 32 threads: thread 32 and those beside it, and threads whose numbers are a
/// byte's width apart.
pub const SHORT: [&[u8]; 10] = [
    &[1],
    &[31],
    &[32],
    &[1, 32],
    &[32, 1],
    &[31, 32],
    &[32, 31, 1],
    &[1, 9, 17, 25],
    &[8, 16, 24, 32],
    &[25, 17, 9, 1],
];

/// The threads of two queues.
const TWO: [&[u8]; 2] = [&[31, 32, 1], &[2, 17, 30]];

impl Queue {
    /// The place and the holder of its threads.
    fn place(self) -> (u8, u8) {
        match self {
            Queue::Ready => (READY, 0),
            Queue::Own(p) => (READY, p),
            Queue::Mutex(m) => (WAITING, m),
        }
    }
}

/// A table's queues, ready queues first.
pub fn queues(config: Config) -> Vec<Queue> {
    let mutexes = (1..=config.mutexes).map(Queue::Mutex);
    match config.stealing {
        0 => [Queue::Ready].into_iter().chain(mutexes).collect(),
        _ => (1..=config.processors).map(Queue::Own).chain(mutexes).collect(),
    }
}

/// Each queue with the next, and the last with the first.
pub fn neighbours(config: Config) -> Vec<[Queue; 2]> {
    let all = queues(config);
    (0..all.len()).map(|at| [all[at], all[(at + 1) % all.len()]]).collect()
}

/// The threads 1 to n rising, falling, and five apart, where n is in the middle (n is 1, 2, 31
/// or 32).
pub fn orders(n: u8) -> [Vec<u8>; 3] {
    let mixed = (1..=n).map(|k| 5 * k % (n + 1)).collect();
    [(1..=n).collect(), (1..=n).rev().collect(), mixed]
}

/// Sets a thread's place.
fn place(shown: &mut Snapshot, thread: u8, (place, holder): (u8, u8)) {
    let row = &mut shown.thread_rows[usize::from(thread) - 1];
    *row = ThreadRow { place, holder, next: row.next };
}

/// Sets a link.
pub fn set(shown: &mut Snapshot, link: Link, thread: u8) {
    *match link {
        Link::First(Queue::Ready) => &mut shown.ready_first,
        Link::First(Queue::Own(p)) => &mut shown.processor_rows[usize::from(p) - 1].first,
        Link::First(Queue::Mutex(m)) => &mut shown.mutex_rows[usize::from(m) - 1].first,
        Link::Next(t) => &mut shown.thread_rows[usize::from(t) - 1].next,
    } = thread;
}

/// The picture of these chains; threads in none are unborn.
pub fn picture(config: Config, chains: &[Chain]) -> Snapshot {
    let mut shown = Snapshot {
        processors: config.processors,
        threads: config.threads,
        mutexes: config.mutexes,
        stealing: config.stealing,
        ..Snapshot::default()
    };
    for row in shown.processor_rows.iter_mut().take(usize::from(config.processors)) {
        row.position = Position::CI2.number();
    }
    for &(queue, threads) in chains {
        let mut link = Link::First(queue);
        for &thread in threads {
            set(&mut shown, link, thread);
            place(&mut shown, thread, queue.place());
            link = Link::Next(thread);
        }
    }
    shown
}

/// The first thread of a chain, the one in the middle and the last.
fn three(threads: &[u8]) -> [u8; 3] {
    [0, threads.len() / 2, threads.len() - 1].map(|at| threads[at])
}

/// What leads past a thread of a chain: the link that named it, and what was next to it.
fn past((queue, threads): Chain, thread: u8) -> Option<(Link, u8)> {
    let at = threads.iter().position(|&one| one == thread)?;
    let link = match at {
        0 => Link::First(queue),
        _ => Link::Next(threads[at - 1]),
    };
    Some((link, threads.get(at + 1).copied().unwrap_or(0)))
}

/// The chains right, then with each of these links in turn; a thread that is not there is 12.
fn cases(config: Config, chains: &[Chain], links: &[(Link, u8)]) -> Vec<Case> {
    let name = format!("{config:?}, {chains:?}");
    let right = picture(config, chains);
    let mut all = vec![Case { name: name.clone(), shown: right, number: 0 }];
    for (at, &(link, thread)) in links.iter().enumerate() {
        if links[..at].contains(&(link, thread)) {
            continue;
        }
        let mut shown = right;
        set(&mut shown, link, thread);
        let number = if thread > config.threads { 12 } else { 13 };
        all.push(Case { name: format!("{name}, {link:?} {thread}"), shown, number });
    }
    all
}

/// One chain: it comes back to its first, its middle, its last thread or thread 32 from its end and
/// from before, misses a thread or all, goes on to one that is in no queue or not there.
pub fn one_queue(config: Config, chain: Chain) -> Vec<Case> {
    let (queue, threads) = chain;
    let [first, middle, last] = three(threads);
    let mut met = vec![first, middle, last];
    met.extend(threads.iter().filter(|&&thread| thread == MOST_THREADS));
    let mut links: Vec<(Link, u8)> = met.iter().map(|&t| (Link::Next(last), t)).collect();
    links.extend(met.iter().map(|&t| (Link::Next(t), t)));
    links.push((Link::Next(middle), first));
    links.extend([first, middle, last, 1, 31, 32].iter().filter_map(|&t| past(chain, t)));
    links.push((Link::First(queue), 0));
    let other = (1..=config.threads).rev().find(|thread| !threads.contains(thread));
    links.extend(other.map(|thread| (Link::Next(last), thread)));
    let none = config.threads + 1;
    links.extend([(Link::First(queue), none), (Link::Next(last), none)]);
    cases(config, &[chain], &links)
}

/// The same, with a thread in no queue placed on processor 1, which has none: 14 where no other
/// number comes first.
pub fn one_queue_and_register(config: Config, chain: Chain, thread: u8) -> Vec<Case> {
    let mut all = one_queue(config, chain);
    for case in &mut all {
        place(&mut case.shown, thread, (CURRENT, 1));
        case.name += ", a wrong register";
        case.number = if case.number == 0 { 14 } else { case.number };
    }
    all
}

/// Two chains: the end of one, or the first of one, leads to a thread of the other; a thread stays
/// in its chain but is placed in the other.
pub fn two_queues(config: Config, a: Chain, b: Chain) -> Vec<Case> {
    let [[_, middle, last_a], [_, _, last_b]] = [three(a.1), three(b.1)];
    let mut links = three(b.1).map(|thread| (Link::Next(last_a), thread)).to_vec();
    for thread in three(a.1) {
        links.extend([(Link::First(b.0), thread), (Link::Next(last_b), thread)]);
    }
    let mut all = cases(config, &[a, b], &links);
    let mut moved = all[0].clone();
    place(&mut moved.shown, middle, b.0.place());
    all.push(Case { name: format!("{}, {middle} moved", moved.name), number: 13, ..moved });
    all
}

/// All threads dealt round all queues, then each queue's end leading to the next queue's first.
pub fn all_queues(config: Config) -> Vec<Case> {
    let queues = queues(config);
    let dealt = |at: usize| (1..=config.threads).skip(at).step_by(queues.len()).collect();
    let threads: Vec<Vec<u8>> = (0..queues.len()).map(dealt).collect();
    let chains: Vec<Chain> =
        queues.iter().copied().zip(threads.iter().map(Vec::as_slice)).collect();
    let ends: Vec<&[u8]> = threads.iter().map(Vec::as_slice).filter(|t| !t.is_empty()).collect();
    let link = |at: usize| (Link::Next(three(ends[at])[2]), ends[(at + 1) % ends.len()][0]);
    cases(config, &chains, &(0..ends.len()).map(link).collect::<Vec<_>>())
}

/// Two queues with threads 31, 32 and 1 in the first.
pub fn neighbouring(config: Config, [a, b]: [Queue; 2]) -> Vec<Case> {
    two_queues(config, (a, TWO[0]), (b, TWO[1]))
}

/// One queue with all threads, with all but one, or with a few of 32.
fn one_queue_of_any_length(config: Config, queue: Queue) -> Vec<Case> {
    let last = config.threads;
    let mut all = Vec::new();
    for threads in orders(last) {
        all.extend(one_queue(config, (queue, &threads)));
    }
    for (threads, other) in [((1..last).collect::<Vec<u8>>(), last), ((2..=last).collect(), 1)] {
        if last > 1 {
            all.extend(one_queue(config, (queue, &threads)));
            all.extend(one_queue_and_register(config, (queue, &threads), other));
        }
    }
    if last == MOST_THREADS {
        all.extend(SHORT.iter().flat_map(|threads| one_queue(config, (queue, threads))));
    }
    all
}

/// All cases of a table with 1, 2, 31 or 32 threads.
pub fn all(config: Config) -> Vec<Case> {
    let mut all = all_queues(config);
    for queue in queues(config) {
        all.extend(one_queue_of_any_length(config, queue));
    }
    if config.threads == MOST_THREADS {
        for [a, b] in neighbours(config) {
            all.extend(neighbouring(config, [a, b]));
            all.extend(neighbouring(config, [b, a]));
        }
    }
    all
}
