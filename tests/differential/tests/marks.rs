//! Marks through the static library against the independent rule: right and damaged candidates,
//! damaged machine's pictures, boundary lengths, any bytes.

use differential::sessions::pictures;
use differential::{expected, mark, read};
use independent::marks::{parts_of, FULL, REFUSED};
use independent::picture::{length, HEADER};
use independent::random::Generator;

fn compare(machine: &[u8], candidate: &[u8]) -> u16 {
    let answer = mark(machine, candidate);
    assert_eq!(answer, expected::mark(machine, candidate), "{machine:?}, {candidate:?}");
    let refused = (REFUSED + 11..=REFUSED + 14).contains(&answer);
    assert!(answer <= FULL || refused);
    answer
}

#[test]
fn right_pictures() {
    for picture in pictures(0..150, 400, 10) {
        assert_eq!(compare(&picture, &picture), FULL);
        assert_eq!(compare(&picture, &picture.clone()), FULL);
    }
}

/// Two processors, a mutex, two threads, one thread's record wrong.
#[test]
fn printed_example() {
    let picture = independent::worked::k5().picture();
    for at in picture.len() - 8..picture.len() {
        let mut candidate = picture.clone();
        candidate[at] ^= 1;
        assert_eq!(compare(&picture, &candidate), 8_823);
    }
}

/// Each field of each record, and the header's, which cost nothing.
#[test]
fn every_byte_of_the_candidate() {
    for picture in pictures(1_000..1_060, 300, 2) {
        let mut candidate = picture.clone();
        for at in 0..picture.len() {
            let own = picture[at];
            for value in [0, 1, 2, 3, 24, 255, own ^ 1, own ^ 128, own.wrapping_add(1)] {
                candidate[at] = value;
                let full = compare(&picture, &candidate) == FULL;
                assert_eq!(full, at < HEADER || value == own);
            }
            candidate[at] = own;
        }
    }
}

#[test]
fn every_value_of_every_byte() {
    for picture in pictures(1_500..1_504, 200, 1) {
        let mut candidate = picture.clone();
        for at in 0..picture.len() {
            for value in 0..=255 {
                candidate[at] = value;
                compare(&picture, &candidate);
            }
            candidate[at] = picture[at];
        }
    }
}

/// Every two records of a length exchanged, and one in the place of the other.
#[test]
fn records_exchanged() {
    for picture in pictures(2_000..2_040, 300, 2) {
        let parts = parts_of(&picture);
        for one in &parts {
            for other in parts.iter().filter(|part| part.points == one.points) {
                let mut candidate = picture.clone();
                candidate.copy_within(other.bytes.clone(), one.bytes.start);
                compare(&picture, &candidate);
                candidate[other.bytes.clone()].copy_from_slice(&picture[one.bytes.clone()]);
                compare(&picture, &candidate);
            }
        }
    }
}

/// Records wrong one after the other, from the first and from the last: the mark falls to 0.
#[test]
fn records_one_after_the_other() {
    for picture in pictures(2_500..2_560, 200, 2) {
        let parts = parts_of(&picture);
        let orders = [parts.clone(), parts.into_iter().rev().collect()];
        for order in orders {
            let mut candidate = picture.clone();
            let mut before = FULL;
            for part in order {
                candidate[part.bytes.start] ^= 255;
                let now = compare(&picture, &candidate);
                assert!(now < before);
                before = now;
            }
            assert_eq!(before, 0);
        }
    }
}

#[test]
fn random_candidates() {
    let mut generator = Generator::new(3_000);
    let (mut between, mut refused) = (0, 0);
    for picture in pictures(3_000..3_150, 500, 8) {
        for _ in 0..40 {
            let candidate = generator.candidate(&picture);
            match compare(&picture, &candidate) {
                0 | FULL => {}
                REFUSED.. => refused += 1,
                _ => between += 1,
            }
        }
    }
    assert!(between > 10_000 && refused > 1_000, "{between} marks, {refused} refusals");
}

/// A picture of another session, mostly of other sizes; some have the same length.
#[test]
fn pictures_of_others() {
    let all = pictures(3_500..3_620, 150, 1);
    let mut marked = 0;
    for machine in &all {
        for candidate in &all {
            marked += usize::from(compare(machine, candidate) <= FULL);
        }
    }
    assert!(marked > all.len(), "{marked}");
}

/// The machine's picture damaged in each byte, with a right candidate, one that has the same damage
/// and one of a wrong length.
#[test]
fn every_byte_of_the_machine() {
    for picture in pictures(4_000..4_030, 300, 2) {
        let mut machine = picture.clone();
        for at in 0..picture.len() {
            let own = picture[at];
            for value in [0, 1, 2, 3, 5, 24, 25, 255, own ^ 1, own ^ 128] {
                machine[at] = value;
                let number = read(&machine);
                let answers = [
                    compare(&machine, &picture),
                    compare(&machine, &machine),
                    compare(&machine, &picture[1..]),
                    compare(&machine, &[]),
                ];
                if number != 0 {
                    assert_eq!(answers, [REFUSED + u16::from(number); 4]);
                } else {
                    assert_eq!(answers[1..], [FULL, REFUSED + 11, REFUSED + 11]);
                }
            }
            machine[at] = own;
        }
    }
}

/// Machine's pictures that do not read, by each number, with candidates of any length.
#[test]
fn broken_pictures() {
    let mut generator = Generator::new(5_000);
    let mut seen = [0usize; 15];
    for picture in pictures(5_000..5_100, 400, 6) {
        for _ in 0..20 {
            let machine = generator.broken(&picture);
            let number = usize::from(compare(&machine, &generator.candidate(&picture)) - REFUSED);
            compare(&machine, &machine);
            seen[number] += 1;
        }
    }
    for number in [11, 12, 13, 14] {
        assert!(seen[number] > 1_000, "{number} met {} times", seen[number]);
    }
}

#[test]
fn boundary_lengths() {
    for picture in pictures(6_000..6_030, 100, 1) {
        let longer = [&picture[..], &[0; 16]].concat();
        for length in 0..=longer.len() {
            let answer = compare(&picture, &longer[..length]);
            assert_eq!(answer == FULL, length == picture.len());
            compare(&longer[..length], &picture);
            compare(&longer[..length], &longer[..length]);
        }
        compare(&picture, &vec![0; 4_096]);
        compare(&vec![0; 4_096], &picture);
    }
}

/// Sizes in the machine's header against lengths of both.
#[test]
fn sizes_and_lengths() {
    let edges = [0, 1, 2, 8, 9, 32, 33, 255];
    for p in edges {
        for t in edges {
            for m in edges {
                let right = length(p, t, m);
                for at in [7, 8, right - 1, right, right + 1] {
                    let mut machine = vec![0; at];
                    machine[..3].copy_from_slice(&[p, t, m]);
                    for other in [0, at - 1, at, at + 1] {
                        compare(&machine, &vec![0; other]);
                    }
                }
            }
        }
    }
}

/// Bytes that are no pictures, the machine's mostly of right sizes and small values.
#[test]
fn any_bytes() {
    let mut generator = Generator::new(7_000);
    for picture in pictures(7_000..7_100, 60, 2) {
        for _ in 0..100 {
            let length = picture.len();
            let candidate = generator.bytes(length);
            compare(&picture, &candidate);
            let most = generator.pick(&[1, 2, 5, 24, 255]);
            let mut machine: Vec<u8> = (0..length).map(|_| generator.between(0, most)).collect();
            if !generator.once_in(8) {
                machine[..3].copy_from_slice(&picture[..3]);
            }
            compare(&machine, &candidate);
            compare(&machine, &candidate[generator.below(2)..]);
        }
    }
}
