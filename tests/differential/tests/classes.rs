//! Classes through the static library against the independent implementation, byte for byte.

use differential::classes::Class;
use differential::{class_with, expected};
use independent::machine::{CREATE, LOCK, MOST_MOVES, TRYLOCK, UNLOCK, YIELD};
use independent::random::Generator;
use independent::script::{script, SCRIPT};
use std::collections::BTreeMap;

/// A class of so many turns under good scripts, of either choice of ready queues.
fn random(generator: &mut Generator, turns: usize) -> Class {
    let config = generator.config();
    Class {
        table: expected::table(config),
        stealing: generator.between(0, 1),
        scripts: generator.scripts(config),
        turns: generator.turns(config, turns),
    }
}

/// A small class: locks, a create, a yield, and threads without calls.
fn small() -> Class {
    let scripts = [
        script(&[[LOCK, 1], [YIELD, 0], [UNLOCK, 1]]),
        script(&[[LOCK, 1], [CREATE, 4], [UNLOCK, 1]]),
        script(&[]),
        script(&[[YIELD, 0]; 6]),
    ];
    let turns = [1, 2, 1, 2, 2, 2, 1, 1, 1, 0, 1, 2, 2, 3, 2, 1, 1, 1, 2, 2, 255, 2, 1, 1, 2];
    Class { table: [2, 4, 1, 3], stealing: 0, scripts: scripts.concat(), turns: turns.to_vec() }
}

#[test]
fn random_classes() {
    let mut met: [BTreeMap<u8, usize>; 2] = Default::default();
    for seed in 0..4_000 {
        let mut generator = Generator::new(seed);
        let count = generator.below(260);
        let class = random(&mut generator, count);
        let taken = class.compare();
        assert_eq!(taken.number, 0);
        for number in taken.answers {
            *met[usize::from(class.stealing)].entry(number).or_default() += 1;
        }
    }
    for met in met {
        assert!(met.keys().eq(&[0, 2, 3, 6, 7, 21]), "{met:?}");
        assert!(met[&21] > 1_000, "{met:?}");
    }
}

/// Scripts of every number of locks and unlocks: a thread that keeps a mutex gets 21 once its script
/// is spent.
#[test]
fn spent_scripts_of_owners() {
    for (locks, unlocks) in (0..=6).flat_map(|n| (0..=n.min(6 - n)).map(move |less| (n, less))) {
        let lock = |m: u8| [if m % 2 == 0 { TRYLOCK } else { LOCK }, m];
        let unlock = |m: u8| [UNLOCK, m];
        let calls: Vec<_> = (1..=locks).map(lock).chain((1..=unlocks).map(unlock)).collect();
        let scripts = [script(&calls), script(&[]), script(&[[LOCK, 1]]), script(&[])].concat();
        let turns = [&[1; 26][..], &[2, 3, 1].repeat(10)].concat();
        let taken = Class { table: [3, 4, 6, 4], stealing: 0, scripts, turns }.compare();
        assert_eq!(taken.answers[..26].contains(&21), locks != unlocks, "{calls:?}");
    }
}

#[test]
fn long_classes() {
    for seed in 10_000..10_060 {
        let mut generator = Generator::new(seed);
        let count = 1_000 + generator.below(3_000);
        assert_eq!(random(&mut generator, count).compare().number, 0);
    }
}

/// Classes past the most moves, where their threads let them go so far: what is not refused by
/// 2 or 3 is refused by 8.
#[test]
fn classes_past_the_most_moves() {
    let mut full = 0;
    for seed in 20_000..20_024 {
        let mut generator = Generator::new(seed);
        let class = random(&mut generator, 6_000);
        let taken = class.compare();
        let Some(first) = taken.answers.iter().position(|&number| number == 8) else {
            continue;
        };
        full += 1;
        assert_eq!(taken.moves.len(), 3 * usize::from(MOST_MOVES));
        assert!(taken.answers[first..].iter().all(|number| [2, 3, 8].contains(number)));
    }
    assert!(full >= 12, "{full}");
}

/// The end of the moves, turn by turn.
#[test]
fn the_4001st_turn() {
    let scripts = [script(&[[LOCK, 9]]), script(&[]), script(&[])].concat();
    let mut class = Class { table: [3, 3, 1, 2], stealing: 0, scripts, turns: Vec::new() };
    for count in 3_997..4_004 {
        class.turns = vec![3; count];
        assert_eq!(class.compare().moves.len(), 3 * count.min(4_000));
        class.turns.extend([1, 2, 9, 3, 0, 2, 3, 1, 4]);
        class.compare();
    }
}

/// Every table's start under scripts of no calls, each processor's first two turns.
#[test]
fn every_size() {
    for p in 1..=8 {
        for t in 1..=32 {
            for m in 1..=8 {
                let b = 1 + (p * 7 + t * 3 + m) % t;
                let scripts = vec![0; SCRIPT * usize::from(t)];
                let turns = (0..=p + 1).chain(0..=p + 1).collect();
                let class = Class { table: [p, t, m, b], stealing: 1, scripts, turns };
                assert_eq!(class.compare().number, 0);
            }
        }
    }
}

#[test]
fn tables_out_of_range() {
    let edges = [0, 1, 2, 8, 9, 31, 32, 33, 128, 255];
    for p in edges {
        for t in edges {
            for m in edges {
                for b in edges {
                    for scripts in [vec![0; 13 * 32], vec![7; 40]] {
                        let (table, turns) = ([p, t, m, b], vec![1, 0, 9]);
                        let class = Class { table, stealing: 0, scripts, turns };
                        class.compare();
                        class.compare_in(0, 0);
                    }
                }
            }
        }
    }
}

/// Fifth numbers over 1, before 19 and 10.
#[test]
fn fifth_numbers_out_of_range() {
    for stealing in 2..=255 {
        for scripts in [small().scripts, Vec::new()] {
            for room in [0, 9_000] {
                let (mut answers, mut pictures) = (vec![7; room], vec![7; room]);
                let Class { table, turns, .. } = small();
                let number =
                    class_with(table, stealing, &scripts, &turns, &mut answers, &mut pictures);
                assert_eq!(number, 1);
                assert!(answers.iter().chain(&pictures).all(|&byte| byte == 7));
            }
        }
    }
}

#[test]
fn random_bad_scripts() {
    for seed in 30_000..34_000 {
        let mut generator = Generator::new(seed);
        let config = generator.config();
        let mut class = random(&mut generator, 20);
        class.table = expected::table(config);
        class.scripts = generator.bad_scripts(config);
        assert_eq!(class.compare().number, 19);
        // 19 comes before 10.
        assert_eq!(class.compare_in(0, 0).number, 19);
    }
}

/// Scripts of every length up to some bytes more than all threads need.
#[test]
fn scripts_of_every_length() {
    for threads in [1, 2, 3, 31, 32] {
        let whole = SCRIPT * usize::from(threads);
        let scripts = [script(&[[YIELD, 0], [LOCK, 1]]); 34].concat();
        for length in 0..=whole + 20 {
            let mut class = small();
            class.table = [2, threads, 1, threads];
            class.scripts = scripts[..length].to_vec();
            assert_eq!(class.compare().number, if length < whole { 19 } else { 0 });
        }
    }
}

/// Every value of every byte of a class's scripts: numbers of calls, actions and operands, read
/// and unread.
#[test]
fn every_byte_of_the_scripts() {
    let class = small();
    for at in 0..class.scripts.len() {
        for value in 0..=255 {
            let mut changed = class.clone();
            changed.scripts[at] = value;
            changed.compare();
        }
    }
}

/// Bytes of any value: most are refused, and what is not is alike.
#[test]
fn any_bytes_as_scripts() {
    let mut accepted = 0;
    for seed in 40_000..60_000 {
        let mut generator = Generator::new(seed);
        let mut class = random(&mut generator, 30);
        let [_, t, _, _] = class.table;
        let high = if generator.once_in(4) { 255 } else { generator.between(5, 8) };
        class.scripts = (0..SCRIPT * usize::from(t)).map(|_| generator.between(0, high)).collect();
        accepted += usize::from(class.compare().number == 0);
    }
    assert!(accepted > 500, "{accepted}");
}

/// Every byte as a turn, at App, elsewhere and after the most moves.
#[test]
fn every_processor_number() {
    let mut class = small();
    class.turns = (0..=255).chain([1, 2]).chain(0..=255).collect();
    class.compare();
    class.turns = vec![2; 4_000].into_iter().chain(0..=255).collect();
    class.compare();
}

/// Each buffer of every length from none to some bytes more than needed, the other exact.
#[test]
fn buffers_of_every_length() {
    let class = small();
    let (answers, pictures) = class.rooms();
    for length in 0..=pictures + 60 {
        let number = class.compare_in(answers, length).number;
        assert_eq!(number, if length < pictures { 10 } else { 0 });
    }
    for length in 0..=answers + 10 {
        let number = class.compare_in(length, pictures).number;
        assert_eq!(number, if length < answers { 10 } else { 0 });
    }
}

/// Buffers one byte short, exact and longer over random classes.
#[test]
fn random_buffers() {
    for seed in 60_000..61_000 {
        let mut generator = Generator::new(seed);
        let count = 1 + generator.below(60);
        let class = random(&mut generator, count);
        let (answers, pictures) = class.rooms();
        let more = generator.below(400);
        assert_eq!(class.compare_in(answers - 1, pictures).number, 10);
        assert_eq!(class.compare_in(answers, pictures - 1).number, 10);
        assert_eq!(class.compare_in(answers + 1, pictures + 1).number, 0);
        assert_eq!(class.compare_in(answers + more, pictures + 2 * more).number, 0);
        assert_eq!(class.compare_in(answers - 1, pictures + more).number, 10);
        assert_eq!(class.compare_in(answers + more, pictures - 1).number, 10);
    }
}

#[test]
fn no_turns() {
    for seed in 70_000..70_200 {
        let class = random(&mut Generator::new(seed), 0);
        assert_eq!(class.compare().number, 0);
        assert_eq!(class.compare_in(3, 500).number, 0);
    }
}

/// The front part of a class is the class of the front part of its turns.
#[test]
fn classes_grow_turn_by_turn() {
    for seed in 80_000..80_040 {
        let whole = random(&mut Generator::new(seed), 90);
        let all = whole.compare();
        for count in 0..=90 {
            let mut class = whole.clone();
            class.turns.truncate(count);
            let taken = class.compare();
            assert!(all.answers.starts_with(&taken.answers) && all.moves.starts_with(&taken.moves));
        }
    }
}
