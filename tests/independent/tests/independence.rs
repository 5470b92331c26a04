//! Neighbours that may change places (document 02, No. 5): worked pairs, the answers about a list;
//! over random sessions and all short ones, that such neighbours exchanged are accepted, touch the
//! same words, lead to the same state and may change places again; that others often do not.

use independent::independence::{answer, of_list, Bar, Pair};
use independent::machine::{
    Config, Move, Position, State, CREATE, EXIT, GO, LOCK, TRYLOCK, UNLOCK, YIELD,
};
use independent::picture;
use independent::random::{Driver, Generator, Rates};
use independent::record::Snapshot;
use independent::touch::{Touch, Word};
use independent::worked::{self, Worked};
use std::collections::{BTreeMap, BTreeSet, HashSet};

/// What exchanged neighbours lead to: the state of before, another, or a refusal.
#[derive(Clone, Copy, PartialEq, Eq, PartialOrd, Ord, Debug)]
enum End {
    Same,
    Other,
    Refused,
}

use End::*;

/// Exchanges two neighbours and checks all that is said of those that may change places.
fn exchange(before: &State, pair: &Pair) -> End {
    let Ok(other) = pair.exchanged(before) else {
        assert!(pair.bar().is_some(), "{:?} refused", pair.moves);
        return Refused;
    };
    if pair.bar().is_none() {
        assert_eq!(other.after, pair.after, "{:?}", pair.moves);
        let [first, second] = pair.touches;
        assert_eq!(other.touches, [second, first], "{:?}", pair.moves);
        assert_eq!(other.bar(), None);
    }
    if other.after == pair.after {
        Same
    } else {
        Other
    }
}

/// The session with the moves at two neighbouring places, from 0, exchanged.
fn swapped(worked: &Worked, at: usize) -> Worked {
    let mut other = worked.clone();
    other.moves.swap(at, at + 1);
    other
}

/// The state before each move, and the last.
fn states(worked: &Worked) -> Vec<State> {
    let mut all = vec![State::start(worked.config)];
    for &made in &worked.moves {
        let mut next = all[all.len() - 1].clone();
        next.try_move(made).unwrap();
        all.push(next);
    }
    all
}

/// Random sessions of several shapes with each choice of ready queues.
fn sessions(seeds: u64, count: usize) -> Vec<Worked> {
    let shapes = [(2, 2, 1, 2), (3, 3, 1, 3), (4, 4, 2, 4), (5, 6, 1, 6), (3, 9, 2, 5)];
    let mut all = Vec::new();
    for seed in 0..seeds {
        for (p, t, m, b) in shapes.into_iter().chain([(8, 32, 8, 20), (8, 12, 1, 12)]) {
            let config = Config::new(p, t, m, b).with_stealing((seed % 2) as u8);
            all.push(Driver::new(seed, Rates::ACCEPTED).session(config, count));
        }
    }
    all
}

/// Neighbours by what bars them and what they lead to exchanged, each with how often.
type Met = BTreeMap<(Option<Bar>, End), usize>;

/// More than so many neighbours of different processors led elsewhere by each bar, and ten times as
/// many may change places.
fn check_met(met: &Met, least: usize) {
    println!("{met:?}");
    let count = |bar, end| met.get(&(bar, end)).copied().unwrap_or(0);
    assert!(count(None, Same) > 10 * least);
    for bar in [Bar::BothWrite, Bar::FirstWrites, Bar::SecondWrites] {
        assert!(count(Some(bar), Other) > least, "{bar:?}");
        // Whatever bars them, both are accepted either way round.
        assert_eq!(count(Some(bar), Refused), 0, "{bar:?}");
    }
}

/// Every two neighbours exchanged; the whole list, where they may change places.
#[test]
fn random_sessions() {
    let mut met = Met::new();
    for worked in sessions(10, 300) {
        let (states, picture) = (states(&worked), worked.picture());
        let bars = of_list(worked.config, &worked.moves.concat()).unwrap();
        assert_eq!(bars.len(), worked.moves.len() - 1);
        for (at, bar) in bars.into_iter().enumerate() {
            let before = &states[at];
            let pair = Pair::make(before, [worked.moves[at], worked.moves[at + 1]]).unwrap();
            assert_eq!((pair.bar(), &pair.after), (bar, &states[at + 2]));
            *met.entry((bar, exchange(before, &pair))).or_default() += 1;
            if bar.is_none() {
                let other = swapped(&worked, at);
                assert_eq!(other.picture(), picture);
                let moves = other.moves.concat();
                assert_eq!(answer(other.config, &moves, at as u32 + 1), (1, 0));
            }
        }
    }
    check_met(&met, 75);
    // Two moves in a row of one processor are both goes, or refused the other way round.
    let one = [Same, Other, Refused].map(|end| met.get(&(Some(Bar::OneProcessor), end)));
    assert!(matches!(one, [Some(4_000..), None, Some(4_000..)]));
}

/// Exchanges of neighbours that may, one after the other, all over a list: the session's end is the
/// same all along, each processor's moves keep their order, and the list becomes quite another.
#[test]
fn exchanges_in_a_row() {
    for (seed, first) in (0..).zip(sessions(4, 300)) {
        let mut generator = Generator::new(seed);
        let (mut worked, mut states, mut exchanges) = (first.clone(), states(&first), 0);
        while exchanges < 3_000 {
            let at = generator.below(worked.moves.len() - 1);
            let moves = [worked.moves[at], worked.moves[at + 1]];
            let pair = Pair::make(&states[at], moves).unwrap();
            assert_eq!(pair.after, states[at + 2]);
            if pair.bar().is_none() {
                assert_eq!(exchange(&states[at], &pair), Same);
                worked = swapped(&worked, at);
                states[at + 1] = states[at].clone();
                states[at + 1].try_move(moves[1]).unwrap();
                exchanges += 1;
            }
        }
        check_exchanged(&first, &worked, &states);
    }
}

fn check_exchanged(first: &Worked, last: &Worked, on_the_way: &[State]) {
    assert!(states(last) == on_the_way);
    assert_eq!(last.picture(), first.picture());
    for p in 1..=first.config.processors {
        let of = |worked: &Worked| -> Vec<Move> {
            worked.moves.iter().copied().filter(|made| made[0] == p).collect()
        };
        assert_eq!(of(first), of(last));
    }
    let moved = first.moves.iter().zip(&last.moves).filter(|(one, other)| one != other).count();
    assert!(moved > first.moves.len() / 5, "{moved}");
}

/// Every move that a state accepts.
fn accepted(state: &State) -> Vec<Move> {
    let most = state.thread_count().max(state.mutex_count());
    let moves = (1..=state.processor_count()).flat_map(|p| {
        (GO..=CREATE).flat_map(move |action| (0..=most).map(move |operand| [p, action, operand]))
    });
    moves.filter(|&made| state.cause(made).is_none()).collect()
}

/// About so many states that sessions reach, those by fewer moves first; they differ in more than
/// the number of moves.
fn reached(config: Config, most: usize) -> Vec<State> {
    let shown = |state: &State| picture::raw_bytes(&Snapshot { applied: 0, ..Snapshot::of(state) });
    let mut all = vec![State::start(config)];
    let mut seen: HashSet<Vec<u8>> = all.iter().map(shown).collect();
    let mut next = 0;
    while next < all.len() && all.len() < most {
        for made in accepted(&all[next]) {
            let mut state = all[next].clone();
            state.try_move(made).unwrap();
            if seen.insert(shown(&state)) {
                all.push(state);
            }
        }
        next += 1;
    }
    all
}

/// Exchanges every two moves of different processors; gathers the lines where such are that may.
fn pairs_from(before: &State, met: &mut Met, lines: &mut BTreeSet<[Position; 2]>) {
    for first in accepted(before) {
        let mut between = before.clone();
        between.try_move(first).unwrap();
        for second in accepted(&between).into_iter().filter(|second| second[0] != first[0]) {
            let pair = Pair::make(before, [first, second]).unwrap();
            *met.entry((pair.bar(), exchange(before, &pair))).or_default() += 1;
            if pair.bar().is_none() {
                lines.insert([first, second].map(|made| before.processor(made[0]).position));
            }
        }
    }
}

/// Every two moves from every state of short sessions.
#[test]
fn every_two_moves() {
    let (mut met, mut lines) = (Met::new(), BTreeSet::new());
    for (p, t, m, b) in [(2, 2, 1, 2), (2, 3, 1, 2), (2, 2, 2, 2), (3, 3, 1, 3), (3, 4, 1, 3)] {
        for stealing in [0, 1] {
            let all = reached(Config::new(p, t, m, b).with_stealing(stealing), 8_000);
            assert!(all.last().unwrap().applied >= 6);
            all.iter().for_each(|before| pairs_from(before, &mut met, &mut lines));
        }
    }
    check_met(&met, 2_000);
    assert!(lines.len() > 400, "{}", lines.len());
}

/// The same from states on the way of longer ones.
#[test]
fn every_two_moves_later() {
    let (mut met, mut lines) = (Met::new(), BTreeSet::new());
    for worked in sessions(6, 400) {
        let all = states(&worked);
        all.iter().skip(9).step_by(39).for_each(|before| pairs_from(before, &mut met, &mut lines));
    }
    check_met(&met, 50);
}

/// What bars two neighbours, and what they lead to exchanged.
type Wanted = (Option<Bar>, End);

const MAY: Wanted = (None, Same);
const BOTH_WRITE: Wanted = (Some(Bar::BothWrite), Other);
const FIRST_WRITES: Wanted = (Some(Bar::FirstWrites), Other);
const SECOND_WRITES: Wanted = (Some(Bar::SecondWrites), Other);

/// Checks a session's last two moves, with a single ready queue and with one for each processor.
fn check_with(lines: &str, worked: Worked, single: Wanted, each: Wanted) {
    for (stealing, wanted) in [(0, single), (1, each)] {
        let worked = worked.clone().with_stealing(stealing);
        let count = worked.moves.len() - 2;
        let before = worked.front(count).state();
        let pair = Pair::make(&before, [worked.moves[count], worked.moves[count + 1]]).unwrap();
        assert_eq!((pair.bar(), exchange(&before, &pair)), wanted, "{lines}, {stealing}");
    }
}

/// The same where the choice of ready queues makes no difference.
fn check(lines: &str, worked: Worked, wanted: Wanted) {
    check_with(lines, worked, wanted, wanted);
}

fn start(p: u8, t: u8, m: u8, b: u8) -> Worked {
    Worked::new(Config::new(p, t, m, b))
}

/// Thread 1 owns the mutex and is about to unlock it at U1, thread 2 to queue at L4.
fn at_u1_and_l4() -> Worked {
    start(2, 2, 1, 2).call(1, LOCK, 1).go(1, 1).call(2, LOCK, 1).go(2, 2).call(1, UNLOCK, 1)
}

/// A hand-off line by line, against the lock that is under way.
#[test]
fn pairs_of_a_hand_off() {
    let begun = at_u1_and_l4();
    check("U1 L4", begun.clone().go(1, 1).go(2, 1), MAY);
    check("L4 U1", begun.clone().go(2, 1).go(1, 1), MAY);
    // H2 leads to H5 before L4, to H3 after it.
    check("H2 L4", begun.clone().go(1, 2).go(2, 1), SECOND_WRITES);
    check("L4 H2", begun.clone().go(1, 1).go(2, 1).go(1, 1), BOTH_WRITE);
    check("H5 L4", begun.clone().go(1, 3).go(2, 1), MAY);
    check("H6 L4", begun.clone().go(1, 4).go(2, 1), SECOND_WRITES);
    check("L4 H6", begun.clone().go(1, 3).go(2, 1).go(1, 1), FIRST_WRITES);
    let at_h5_and_l6 = begun.go(1, 2).go(2, 1);
    check("H5 L6", at_h5_and_l6.clone().go(1, 1).go(2, 1), FIRST_WRITES);
    check("L6 H5", at_h5_and_l6.clone().go(2, 1).go(1, 1), SECOND_WRITES);
    check("H6 L6", at_h5_and_l6.clone().go(1, 2).go(2, 1), MAY);
    let at_h6_and_l7 = at_h5_and_l6.go(1, 1).go(2, 1);
    check("H6 L7", at_h6_and_l7.clone().go(1, 1).go(2, 1), MAY);
    check("H8 L8", at_h6_and_l7.clone().go(2, 1).go(1, 2).go(2, 1), FIRST_WRITES);
    check("L8 H8", at_h6_and_l7.go(1, 1).go(2, 2).go(1, 1), FIRST_WRITES);
    let k7 = worked::k7();
    check("GT3 H8", k7.front(16), FIRST_WRITES);
    check("H8 TL3", k7, MAY);
}

/// Whoever locks first, calls, and what is no word.
#[test]
fn pairs_of_calls() {
    let locks = start(2, 2, 2, 2).call(1, LOCK, 1).call(2, LOCK, 1);
    check("lock lock", locks.clone(), MAY);
    check("L1 L1", locks.clone().go(1, 1).go(2, 1), BOTH_WRITE);
    let apart = locks.front(1).call(2, LOCK, 2);
    check("L1 L1 apart", apart.go(1, 1).go(2, 1), MAY);
    // Both are to wait, whichever counts itself first.
    let owned = start(3, 3, 1, 3).call(3, LOCK, 1).go(3, 1).call(1, LOCK, 1).call(2, LOCK, 1);
    check("L1 L1 owned", owned.go(1, 1).go(2, 1), (Some(Bar::BothWrite), Same));
    let tries = start(3, 3, 1, 3).call(1, TRYLOCK, 1).call(2, TRYLOCK, 1).call(3, TRYLOCK, 1);
    check("TL1 TL1", tries.clone().go(1, 1).go(2, 1), FIRST_WRITES);
    check("TL1 TL1 failed", tries.go(1, 1).go(2, 1).go(3, 1), MAY);
    check("create create", start(2, 4, 1, 2).call(1, CREATE, 4).call(2, CREATE, 3), MAY);
    // Thread 2 may exit as it owns nothing; that thread 1 comes to own is no word.
    check("L1 exit", locks.front(1).go(1, 1).call(2, EXIT, 0), MAY);
    check("lock L1", locks.front(1).go(1, 1), (Some(Bar::OneProcessor), Refused));
    check("CI2 CI2", start(2, 2, 1, 1).go(2, 2), (Some(Bar::OneProcessor), Same));
}

#[test]
fn pairs_on_ready_queues() {
    let created = start(2, 4, 1, 2).call(1, CREATE, 4).call(2, CREATE, 3);
    check_with("C2 C2", created.go(1, 1).go(2, 1), BOTH_WRITE, MAY);
    let yields = start(2, 4, 1, 4).call(1, YIELD, 0).call(2, YIELD, 0);
    check("Y1 Y1", yields.clone().go(1, 1).go(2, 1), MAY);
    let yields = yields.go(1, 2);
    let only_looks = (Some(Bar::SecondWrites), Same);
    check_with("Y1 Y3", yields.clone().go(2, 1).go(1, 1), only_looks, MAY);
    check_with("Y3 Y3", yields.go(2, 2).go(1, 1).go(2, 1), BOTH_WRITE, MAY);
    let looks = start(3, 3, 1, 1);
    check("CI2 CI2", looks.clone().go(2, 1).go(3, 1), MAY);
    // Processor 2 looks at its own queue, or at the single one.
    let create = looks.call(1, CREATE, 2);
    check_with("C2 CI2", create.clone().go(1, 1).go(2, 1), BOTH_WRITE, MAY);
    // Processor 3 has looked at its own queue and comes to that of processor 1.
    check("CI2 C2", create.clone().go(3, 2).go(1, 1), SECOND_WRITES);
    check("C2 CI2 later", create.go(3, 1).go(1, 1).go(3, 1), BOTH_WRITE);
}

/// The places of a list, then what refuses it, in order.
#[test]
fn answers() {
    let worked = at_u1_and_l4().go(1, 1).go(2, 1).go(1, 1);
    let (config, moves) = (worked.config, worked.moves.concat());
    // lock, L1, lock, L1, L3, unlock, U1, L4, H2.
    let wanted = [0, 1, 0, 0, 1, 0, 1, 0];
    for (place, may) in (1..).zip(wanted) {
        assert_eq!(answer(config, &moves, place), (may, 0), "{place}");
    }
    for place in [0, 9, 10, 11, 1 << 16, u32::MAX - 1, u32::MAX] {
        assert_eq!(answer(config, &moves, place), (203, 0), "{place}");
    }
    for (count, place) in [(0, 0), (0, 1), (1, 0), (1, 1), (1, 2), (2, 2)] {
        assert_eq!(answer(config, &moves[..3 * count], place), (203, 0), "{count}");
    }
    for place in [0, 1, 3, 9, u32::MAX] {
        for left in [1, 2] {
            assert_eq!(answer(config, &moves[..moves.len() - left], place), (203, 9));
            assert_eq!(answer(config, &moves[..left], place), (203, 1));
        }
        let refused = [&moves[..6], &[2, GO, 0], &moves[6..], &[9]].concat();
        assert_eq!(answer(config, &refused, place), (205, 3));
        assert_eq!(answer(Config { born: 3, ..config }, &refused, place), (201, 0));
        assert_eq!(answer(config.with_stealing(2), &moves, place), (201, 0));
    }
}

/// Each word alone against each other: only a write to the same word bars.
#[test]
fn words_that_bar() {
    let words = [Word::Count(1), Word::Count(2), Word::Token(1), Word::Queue(1), Word::Ready(1)];
    let all: Vec<Word> = words.into_iter().chain([Word::Birth(1)]).collect();
    let moves = [[1, GO, 0], [2, GO, 0]];
    for &word in &all {
        assert_eq!(Bar::of(moves, [Touch::NONE, Touch::changes(word)]), None);
        assert_eq!(Bar::of(moves, [Touch::changes(word), Touch::NONE]), None);
        for &other in &all {
            let (same, bar) = (word == other, |first, second| Bar::of(moves, [first, second]));
            let (reads, writes, changes) = (Touch::reads, Touch::writes, Touch::changes);
            assert_eq!(bar(reads(word), reads(other)), None);
            for (write, also) in [(writes(word), writes(other)), (changes(word), changes(other))] {
                assert_eq!(bar(write, reads(other)), same.then_some(Bar::FirstWrites));
                assert_eq!(bar(reads(word), also), same.then_some(Bar::SecondWrites));
                assert_eq!(bar(write, writes(other)), same.then_some(Bar::BothWrite));
                assert_eq!(bar(write, changes(other)), same.then_some(Bar::BothWrite));
            }
        }
    }
}
