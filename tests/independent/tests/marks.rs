//! Marks: the printed example, each record's points, the header, refusals and their order, and over
//! random pictures that the mark is what its definition says.

use independent::marks::{answer, mark, parts, parts_of, shown, Part, FULL, REFUSED};
use independent::picture::{self, HEADER};
use independent::random::{Driver, Generator, Rates};
use independent::worked::{self, Worked};
use independent::{machine::Config, machine::State, record::Snapshot};

/// A picture with other bytes in some records.
fn wrong_in<'a>(picture: &[u8], parts: impl IntoIterator<Item = &'a Part>) -> Vec<u8> {
    let mut bytes = picture.to_vec();
    for part in parts {
        bytes[part.bytes.end - 1] ^= 1;
    }
    bytes
}

/// Pictures all along random sessions, of either choice of ready queues.
fn pictures(seeds: std::ops::Range<u64>) -> Vec<Vec<u8>> {
    let mut all = Vec::new();
    for seed in seeds {
        let mut driver = Driver::new(seed, Rates::ACCEPTED);
        let config = driver.generator.config().with_stealing((seed % 2) as u8);
        let mut state = State::start(config);
        for moves in 0..200 {
            if moves % 40 == 0 {
                all.push(picture::raw_bytes(&Snapshot::of(&state)));
            }
            state.try_move(driver.likely_move(&state)).unwrap();
        }
    }
    all
}

/// Two processors, a mutex, two threads, one thread's record wrong.
#[test]
fn printed_example() {
    for worked in [worked::session_s(2), worked::k5(), worked::k6()] {
        let picture = worked.picture();
        let parts = parts_of(&picture);
        assert_eq!(parts.iter().map(|part| part.points).collect::<Vec<_>>(), [5, 5, 3, 2, 2]);
        for wrong in &parts[3..] {
            let candidate = wrong_in(&picture, [wrong]);
            assert_eq!(mark(&picture, &candidate), Ok(8_823));
            assert_eq!(answer(&picture, &candidate), 8_823);
            assert_eq!(shown(8_823), "88.23");
        }
    }
}

/// Every choice of wrong records of that picture, with points and mark counted here.
#[test]
fn each_choice_of_records() {
    let picture = worked::k5().picture();
    let parts = parts_of(&picture);
    // 1 and 2 are the processors, 4 the mutex, 8 and 16 the threads.
    for right in 0u32..32 {
        let wrong = (0..5).filter(|at| right >> at & 1 == 0).map(|at| &parts[at]);
        let points =
            5 * (right & 3).count_ones() + 3 * (right >> 2 & 1) + 2 * (right >> 3).count_ones();
        let wanted = (10_000 * points / 17) as u16;
        assert_eq!(mark(&picture, &wrong_in(&picture, wrong)), Ok(wanted));
    }
}

#[test]
fn parts_fill_the_picture() {
    for (p, t, m) in [(1, 1, 1), (8, 32, 8), (8, 1, 1), (1, 32, 1), (1, 1, 8), (3, 7, 2)] {
        let parts = parts(p, t, m);
        let mut at = HEADER;
        for part in &parts {
            assert_eq!(part.bytes.start, at);
            at = part.bytes.end;
        }
        assert_eq!(at, picture::length(p, t, m));
        let [p, t, m] = [p, t, m].map(u32::from);
        assert_eq!(parts.iter().map(|part| part.points).sum::<u32>(), 5 * p + 3 * m + 2 * t);
    }
}

/// Any byte of a record costs the whole record, whatever it becomes.
#[test]
fn every_byte_of_a_record() {
    for worked in [worked::k7(), worked::own_queues()] {
        let picture = worked.picture();
        let parts = parts_of(&picture);
        let possible: u32 = parts.iter().map(|part| part.points).sum();
        for part in &parts {
            let wanted = (10_000 * (possible - part.points) / possible) as u16;
            for at in part.bytes.clone() {
                for value in (0..=255).filter(|&value| value != picture[at]) {
                    let mut candidate = picture.clone();
                    candidate[at] = value;
                    assert_eq!(mark(&picture, &candidate), Ok(wanted), "{at}: {value}");
                }
            }
            let wrong: Vec<u8> = (0..)
                .zip(&picture)
                .map(|(at, &byte)| if part.bytes.contains(&at) { !byte } else { byte })
                .collect();
            assert_eq!(mark(&picture, &wrong), Ok(wanted));
        }
    }
}

/// The header earns and costs nothing, also where it gives other sizes.
#[test]
fn header_is_not_marked() {
    let picture = worked::k7().picture();
    let parts = parts_of(&picture);
    for wrong in [vec![], vec![&parts[0]], vec![&parts[3]], vec![&parts[6]], parts.iter().collect()]
    {
        let mut candidate = wrong_in(&picture, wrong);
        let wanted = mark(&picture, &candidate).unwrap();
        for at in 0..HEADER {
            for value in 0..=255 {
                candidate[at] = value;
                assert_eq!(mark(&picture, &candidate), Ok(wanted), "{at}: {value}");
            }
        }
        // Sizes of pictures of the same length, and of none.
        for sizes in [[3, 3, 1], [1, 9, 1], [2, 2, 3], [1, 1, 5], [0, 0, 0], [9, 33, 9]] {
            candidate[..3].copy_from_slice(&sizes);
            assert_eq!(mark(&picture, &candidate), Ok(wanted), "{sizes:?}");
        }
    }
}

/// A picture of the same length and other sizes: what is alike at the machine's places counts.
#[test]
fn other_sizes() {
    let of = |p, t, m| Worked::new(Config::new(p, t, m, 1)).picture();
    // A second processor takes as many bytes as three threads.
    let (threads, processors) = (of(1, 4, 1), of(2, 1, 1));
    assert_eq!(threads.len(), processors.len());
    // Right: the processor, and the new threads 2 and 3 where the other has its unused mutex; 9 of
    // 16 points.
    assert_eq!(mark(&threads, &processors), Ok(5_625));
    // Right: processor 1, and the mutex where the other has those threads; 8 of 15.
    assert_eq!(mark(&processors, &threads), Ok(5_333));
}

#[test]
fn smallest_and_largest() {
    let picture = Worked::new(Config::new(8, 32, 8, 20)).picture();
    let parts = parts_of(&picture);
    assert_eq!(picture.len(), 296);
    assert_eq!(parts.iter().map(|part| part.points).sum::<u32>(), 128);
    assert_eq!(mark(&picture, &picture), Ok(FULL));
    assert_eq!(mark(&picture, &wrong_in(&picture, &parts)), Ok(0));
    assert_eq!(mark(&picture, &wrong_in(&picture, &parts[..1])), Ok(9_609));
    assert_eq!(mark(&picture, &wrong_in(&picture, &parts[8..9])), Ok(9_765));
    assert_eq!(mark(&picture, &wrong_in(&picture, &parts[16..17])), Ok(9_843));
    assert_eq!(mark(&picture, &wrong_in(&picture, &parts[1..])), Ok(390));
    // No mark but 0 is smaller.
    assert_eq!(mark(&picture, &wrong_in(&picture, &parts[..47])), Ok(156));
    let smallest = Worked::new(Config::new(1, 1, 1, 1)).picture();
    let parts = parts_of(&smallest);
    for (wrong, wanted) in [
        (0..0, 10_000),
        (0..1, 5_000),
        (1..2, 7_000),
        (2..3, 8_000),
        (0..2, 2_000),
        (1..3, 5_000),
        (0..3, 0),
    ] {
        assert_eq!(mark(&smallest, &wrong_in(&smallest, &parts[wrong])), Ok(wanted));
    }
}

#[test]
fn shown_marks() {
    let all = [
        (0, "0.00"),
        (5, "0.05"),
        (10, "0.10"),
        (99, "0.99"),
        (100, "1.00"),
        (156, "1.56"),
        (901, "9.01"),
        (1_000, "10.00"),
        (5_909, "59.09"),
        (9_999, "99.99"),
        (10_000, "100.00"),
    ];
    for (mark, text) in all {
        assert_eq!(shown(mark), text);
    }
}

/// The machine's picture is refused as reading refuses it, whatever the candidate's is; then the
/// candidate's length is.
#[test]
fn refusals_and_their_order() {
    let picture = worked::k6().picture();
    let length = picture.len();
    let longer = [&picture[..], &[0]].concat();
    let candidates = [&picture[..], &longer, &picture[..length - 1], &[], &[255]];
    for candidate in &candidates[1..] {
        assert_eq!(mark(&picture, candidate), Err(11));
        assert_eq!(answer(&picture, candidate), REFUSED + 11);
    }
    for at in 0..length {
        for value in [0, 1, 2, 3, 5, 24, 25, 255] {
            let mut machine = picture.clone();
            machine[at] = value;
            let number = picture::read(&machine).number;
            for candidate in [&candidates[..], &[&machine]].concat() {
                if number != 0 {
                    assert_eq!(mark(&machine, candidate), Err(number), "{at}: {value}");
                } else {
                    assert_eq!(mark(&machine, candidate).is_ok(), candidate.len() == length);
                }
            }
        }
    }
    for shorter in 0..length {
        // The first eight bytes are looked at before the length.
        assert_eq!(mark(&picture[..shorter], &picture[..shorter]), Err(11));
        assert_eq!(mark(&picture[..shorter], &picture), Err(11));
    }
    assert_eq!(mark(&longer, &longer), Err(11));
    assert_eq!(mark(&longer, &picture), Err(11));
}

/// Each of 11 to 14 with a right candidate and with one of another length.
#[test]
fn each_refusal() {
    let picture = worked::k7().picture();
    let changed = |changes: &[(usize, u8)]| {
        let mut bytes = picture.clone();
        changes.iter().for_each(|&(at, value)| bytes[at] = value);
        bytes
    };
    let thread = parts_of(&picture)[4].bytes.start;
    for (number, machine) in [
        (11, picture[..7].to_vec()),
        (11, changed(&[(0, 4)])),
        (12, changed(&[(0, 9)])),
        (12, changed(&[(6, 1)])),
        (12, changed(&[(7, 2)])),
        (13, changed(&[(3, 1)])),
        (13, changed(&[(thread, 1), (thread + 1, 0)])),
        (14, changed(&[(thread, 5), (thread + 1, 0)])),
    ] {
        assert_eq!(picture::read(&machine).number, number);
        for candidate in [&machine[..], &picture, &picture[..picture.len() - 1], &[]] {
            assert_eq!(answer(&machine, candidate), REFUSED + u16::from(number));
        }
    }
}

/// Puts one wrong record after the other right: each time the mark is rounded down from the points
/// and is raised, up to the full one.
fn put_right(picture: &[u8], mut candidate: Vec<u8>) {
    let parts = parts_of(picture);
    let possible: u32 = parts.iter().map(|part| part.points).sum();
    let is_wrong = |part: &&Part| candidate[part.bytes.clone()] != picture[part.bytes.clone()];
    let wrong: Vec<&Part> = parts.iter().filter(is_wrong).collect();
    let mut points = possible - wrong.iter().map(|part| part.points).sum::<u32>();
    let mut got = mark(picture, &candidate).unwrap();
    for part in wrong {
        let exact = |mark: u16| u32::from(mark) * possible;
        assert!(exact(got) <= 10_000 * points && 10_000 * points < exact(got + 1));
        candidate[part.bytes.clone()].copy_from_slice(&picture[part.bytes.clone()]);
        points += part.points;
        let better = mark(picture, &candidate).unwrap();
        assert!(better > got);
        got = better;
    }
    assert_eq!((got, points), (FULL, possible));
}

/// Over random pictures: never above the full mark, which is given exactly where all behind the
/// header agrees; refused exactly where the lengths differ.
#[test]
fn laws() {
    let mut generator = Generator::new(12);
    let (mut full, mut none, mut between, mut refused) = (0, 0, 0, 0);
    for picture in pictures(0..120) {
        for _ in 0..40 {
            let candidate = generator.candidate(&picture);
            let got = answer(&picture, &candidate);
            assert_eq!(got == REFUSED + 11, candidate.len() != picture.len());
            match got {
                FULL => full += 1,
                0 => none += 1,
                REFUSED.. => {
                    refused += 1;
                    continue;
                }
                _ => between += 1,
            }
            assert!(got <= FULL);
            assert_eq!(got == FULL, candidate[HEADER..] == picture[HEADER..]);
            put_right(&picture, candidate);
        }
    }
    for (count, what) in [(full, "full"), (none, "no"), (between, "other"), (refused, "refused")] {
        assert!(count > 500, "{count} {what} marks");
    }
}

/// Machine's pictures that do not read, with candidates of either length.
#[test]
fn broken_pictures() {
    let mut generator = Generator::new(13);
    let mut seen = [0usize; 15];
    for picture in pictures(200..260) {
        for _ in 0..30 {
            let machine = generator.broken(&picture);
            let number = picture::read(&machine).number;
            let candidate = generator.candidate(&picture);
            assert_eq!(mark(&machine, &candidate), Err(number));
            assert_eq!(mark(&machine, &machine), Err(number));
            assert_eq!(answer(&machine, &candidate), REFUSED + u16::from(number));
            seen[usize::from(number)] += 1;
        }
    }
    for number in [11, 12, 13, 14] {
        assert!(seen[number] > 500, "{number} met {} times", seen[number]);
    }
}
