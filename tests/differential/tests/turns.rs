//! Turns ahead through the static library against the independent formula.

use differential::expected::{self, picture_of};
use differential::sessions::drive;
use differential::{ahead, Ahead};
use independent::owners;
use independent::random::{Generator, Rates};

fn compare(picture: &[u8], thread: u8) -> Ahead {
    let answer = ahead(picture, thread);
    assert_eq!(answer, expected::ahead(picture, thread), "thread {thread} of {picture:?}");
    answer
}

#[test]
fn every_thread_number() {
    let mut most = 0;
    for seed in 0..150 {
        let session = drive(seed, Rates::USUAL, 700, |_, _| ());
        let mut generator = Generator::new(!seed);
        for _ in 0..4 {
            let at = generator.below(session.states.len());
            let picture = picture_of(&session.states[at]);
            for thread in 0..=255 {
                if let Ahead::Waits(turns) = compare(&picture, thread) {
                    most = most.max(turns);
                }
            }
        }
    }
    assert!(most >= 8, "no more than {most} turns met");
}

/// All 32 threads wait for one mutex, its owner too, so the last has 32 turns ahead.
#[test]
fn the_most_turns() {
    let mut session = differential::sessions::Session::new([1, 32, 1, 32], 0);
    let make = |session: &mut differential::sessions::Session, made: &[[u8; 3]]| {
        for &one in made {
            session.make(one).unwrap();
        }
    };
    // Thread 1 gets the mutex; it and each later thread then lock: L1, L3, L4, L6, CI2, CI3.
    make(&mut session, &[[1, 1, 1], [1, 0, 0]]);
    for _ in 1..32 {
        make(&mut session, &[[1, 1, 1]]);
        make(&mut session, &[[1, 0, 0]; 6]);
    }
    make(&mut session, &[[1, 1, 1]]);
    make(&mut session, &[[1, 0, 0]; 4]);
    let picture = picture_of(session.state());
    for thread in 1..=32 {
        assert_eq!(compare(&picture, thread), Ahead::Waits(thread));
    }
}

/// A terminated owner counts as an owner.
#[test]
fn terminated_owners() {
    for old in owners::old() {
        let waits = |thread| matches!(compare(&old.picture, thread), Ahead::Waits(1..));
        let waiting = (0..=255).filter(|&thread| waits(thread)).count();
        assert_eq!(waiting > 0, old.name.ends_with("waited-for"), "{}", old.name);
    }
}

#[test]
fn refused() {
    let mut generator = Generator::new(1_000);
    for seed in 1_000..1_100 {
        let session = drive(seed, Rates::USUAL, 200, |_, _| ());
        let picture = picture_of(session.state());
        for thread in [0, 1, picture[1], picture[1] + 1, 255] {
            compare(&picture[..picture.len() - 1], thread);
            compare(&picture[..4], thread);
            compare(&[], thread);
            for _ in 0..40 {
                let mut changed = picture.clone();
                let at = generator.below(changed.len());
                changed[at] = generator.pick(&[0, 1, 2, 3, 255]);
                compare(&changed, thread);
            }
        }
    }
}
