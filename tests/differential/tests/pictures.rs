//! Reading through the static library against the independent reader: right pictures, damaged
//! ones, boundary lengths, any bytes.

use differential::expected;
use differential::read;
use differential::sessions::pictures;
use independent::owners;
use independent::picture::length;
use independent::random::Generator;

fn compare(bytes: &[u8]) -> u8 {
    let number = read(bytes);
    assert_eq!(number, expected::read(bytes), "{bytes:?}");
    number
}

/// Where the processor, mutex and thread records begin.
fn parts(picture: &[u8]) -> [usize; 3] {
    let (p, m) = (usize::from(picture[0]), usize::from(picture[2]));
    [8, 8 + 12 * p, 8 + 12 * p + 8 * m]
}

/// One damage that keeps the sizes: of chains, places and registers, of what tells the choice of
/// ready queues, or of any byte.
fn damage(generator: &mut Generator, picture: &mut [u8]) {
    let [processors, mutexes, threads] = parts(picture);
    let [p, t, m, ..] = *picture else { unreachable!() };
    let (row_p, row_t) = (generator.below(p.into()), generator.below(t.into()));
    let row_m = generator.below(m.into());
    let thread = generator.between(0, t);
    match generator.below(13) {
        0 => picture[3] = thread,
        1 => picture[mutexes + 8 * row_m + 1] = thread,
        2 | 3 => picture[threads + 4 * row_t + 2] = thread,
        4 => picture[threads + 4 * row_t] = generator.between(0, 5),
        5 => picture[threads + 4 * row_t + 1] = generator.between(0, p.max(m)),
        6 => picture[processors + 12 * row_p + 1 + generator.below(2)] = thread,
        7 => picture[processors + 12 * row_p] = generator.between(0, 25),
        8 => {
            let (a, b) = (threads + 4 * row_t, threads + 4 * generator.below(t.into()));
            for i in 0..3 {
                picture.swap(a + i, b + i);
            }
        }
        9 => picture[7] = generator.between(0, 2),
        10 => picture[processors + 12 * row_p + 5] = generator.between(0, p),
        11 => picture[processors + 12 * row_p + 11] = thread,
        _ => {
            let at = 3 + generator.below(picture.len() - 3);
            picture[at] = generator.byte();
        }
    }
}

#[test]
fn right_pictures() {
    for picture in pictures(0..200, 400, 10) {
        assert_eq!(compare(&picture), 0);
    }
}

/// Terminated owners: pictures from before 21, and random ones in which an owner field is set to
/// each thread.
#[test]
fn terminated_owners() {
    for old in owners::old() {
        assert_eq!(compare(&old.picture), 0, "{}", old.name);
    }
    let mut terminated = 0;
    for mut picture in pictures(8_000..8_060, 400, 4) {
        let [_, mutexes, threads] = parts(&picture);
        for thread in 1..=picture[1] {
            picture[mutexes + 2] = thread;
            assert_eq!(compare(&picture), 0);
            terminated += usize::from(picture[threads + 4 * usize::from(thread - 1)] == 5);
        }
    }
    assert!(terminated > 100, "{terminated}");
}

#[test]
fn every_byte_changed() {
    for picture in pictures(1_000..1_100, 300, 2) {
        let mut changed = picture.clone();
        for at in 0..picture.len() {
            for value in [0, 1, 2, 3, 5, 24, 25, 255, picture[at] ^ 1, picture[at] ^ 128] {
                changed[at] = value;
                compare(&changed);
            }
            changed[at] = picture[at];
        }
    }
}

#[test]
fn every_value_of_every_byte() {
    for picture in pictures(2_000..2_006, 200, 2) {
        let mut changed = picture.clone();
        for at in 0..picture.len() {
            for value in 0..=255 {
                changed[at] = value;
                compare(&changed);
            }
            changed[at] = picture[at];
        }
    }
}

#[test]
fn chains_places_and_registers_changed() {
    let mut generator = Generator::new(3_000);
    let mut seen = [0usize; 16];
    for picture in pictures(3_000..3_100, 500, 10) {
        for _ in 0..60 {
            let mut changed = picture.clone();
            for _ in 0..=generator.below(4) {
                damage(&mut generator, &mut changed);
            }
            seen[usize::from(compare(&changed))] += 1;
        }
    }
    for number in [0, 12, 13, 14] {
        assert!(seen[number] > 500, "{number} met {} times", seen[number]);
    }
}

#[test]
fn boundary_lengths() {
    for picture in pictures(4_000..4_040, 100, 2) {
        for shorter in 0..=picture.len() {
            compare(&picture[..shorter]);
        }
        let mut longer = picture.clone();
        for _ in 0..16 {
            longer.push(0);
            compare(&longer);
        }
        longer.resize(4_096, 0);
        compare(&longer);
    }
}

#[test]
fn sizes_and_lengths() {
    let mut generator = Generator::new(5_000);
    let edges = [0, 1, 2, 7, 8, 9, 31, 32, 33, 128, 255];
    for p in edges {
        for t in edges {
            for m in edges {
                let right = length(p, t, m);
                for at in [7, 8, 9, right - 1, right, right + 1] {
                    let mut bytes = vec![0; at];
                    for (to, from) in bytes.iter_mut().zip([p, t, m, generator.between(0, 2)]) {
                        *to = from;
                    }
                    compare(&bytes);
                }
            }
        }
    }
}

/// The choice is looked at after the lengths, whatever its byte.
#[test]
fn choices_and_lengths() {
    for mut picture in pictures(7_000..7_020, 60, 1) {
        for choice in 0..=255 {
            picture[7] = choice;
            let number = compare(&picture);
            assert!(choice < 2 || number == 12);
            assert_eq!(compare(&picture[..picture.len() - 1]), 11);
            assert_eq!(compare(&[&picture[..], &[0]].concat()), 11);
        }
    }
}

#[test]
fn any_bytes() {
    let mut generator = Generator::new(6_000);
    for _ in 0..60_000 {
        let config = generator.config();
        let (p, t, m) = (config.processors, config.threads, config.mutexes);
        let most = generator.pick(&[1, 2, 5, 24, 255]);
        let mut bytes: Vec<u8> = (0..length(p, t, m)).map(|_| generator.between(0, most)).collect();
        if !generator.once_in(8) {
            bytes[..3].copy_from_slice(&[p, t, m]);
        }
        compare(&bytes);
    }
}
