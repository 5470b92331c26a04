//! Laws, record calls against the plain session and picture round trips, over random sessions of
//! moves, turns and goings.

use independent::journal::JOURNAL;
use independent::machine::{Config, Move, Position, State, Token};
use independent::picture;
use independent::plain::{check_laws, History, Plain};
use independent::random::{Call, Driver, Generator, Rates};
use independent::record::{Record, Snapshot};
use independent::script;
use independent::session::{self, Ahead, Step};
use std::cmp::Ordering;
use std::collections::{BTreeMap, BTreeSet};

#[derive(Default)]
struct Coverage {
    moves: usize,
    turns: usize,
    /// Goings back, forward and to where the session stands.
    back: usize,
    forward: usize,
    nowhere: usize,
    /// Moves and turns that dropped kept ones, and refused ones that did not.
    dropped: usize,
    kept: usize,
    refused: BTreeMap<u8, usize>,
    branches: BTreeMap<(Position, Position), usize>,
    /// L8 or GT3 finding a later token of the processor it observed.
    same_processor: usize,
    /// The look numbers at which CI2 took a thread, and at which it went back to its own queue.
    taken: BTreeSet<u8>,
    rounds: BTreeSet<u8>,
}

/// Runs one session both as a record with a journal and as a plain list.
struct ComparedSession {
    plain: Plain,
    state: State,
    history: History,
    record: Record,
    journal: Vec<u8>,
    scripts: Vec<u8>,
}

impl ComparedSession {
    fn new(config: Config, generator: &mut Generator) -> ComparedSession {
        let begun = session::start(config);
        assert_eq!(begun.number, 0);
        let filler = generator.byte();
        ComparedSession {
            plain: Plain::new(config),
            state: State::start(config),
            history: History::start(config),
            record: begun.value,
            journal: vec![filler; JOURNAL + generator.below(3)],
            scripts: generator.scripts(config),
        }
    }

    fn make_move(&mut self, made: Move, coverage: &mut Coverage) {
        let answer = session::make_move(&self.record, &mut self.journal, made);
        self.taken(made, answer, coverage);
    }

    fn turn(&mut self, p: u8, coverage: &mut Coverage) {
        let made = self.plain.turn(&self.state, &self.scripts, p);
        let answer = script::turn(&self.record, &mut self.journal, &self.scripts, p);
        coverage.turns += usize::from(answer.number == 0);
        self.taken(made, answer, coverage);
    }

    /// Compares the answer of a move, or of the turn whose move it is.
    fn taken(&mut self, made: Move, answer: Step, coverage: &mut Coverage) {
        let beyond = usize::from(self.plain.kept.len() > self.plain.standing);
        if let Some(number) = self.state.cause(made) {
            assert_eq!(answer.number, number);
            assert_eq!(answer.value, self.record);
            assert_ne!(number, 15);
            *coverage.refused.entry(number).or_default() += 1;
            coverage.kept += beyond;
            return;
        }
        assert_eq!(answer.number, 0);
        coverage.dropped += beyond;
        let before = self.state.clone();
        let here = *before.processor(made[0]);
        self.state.try_move(made).unwrap();
        let after = *self.state.processor(made[0]);
        self.history.note(made, &here, &after);
        self.plain.join(made);
        self.record = answer.value;
        assert_eq!(self.record.snapshot, Snapshot::of(&self.state));
        coverage.moves += 1;
        *coverage.branches.entry((here.position, after.position)).or_default() += 1;
        match (here.position, after.position) {
            (Position::CI2, Position::CI3) => {
                coverage.taken.insert(here.probe);
            }
            (Position::CI2, Position::CI2) if after.probe == 0 => {
                coverage.rounds.insert(here.probe);
            }
            _ => {}
        }
        if here.position.has_observed() && here.position != Position::L7 {
            let token = before.mutex(here.mutex).token;
            let same = token.processor == here.observed.processor;
            coverage.same_processor += usize::from(same && token != here.observed);
        }
    }

    fn goto(&mut self, step: u16, coverage: &mut Coverage) {
        let stood = self.plain.standing;
        let answer = session::goto(&self.record, &self.journal, step.into());
        assert_eq!(answer.number, self.plain.goto(step.into()));
        if answer.number == 9 {
            assert_eq!(answer.value, self.record);
            *coverage.refused.entry(9).or_default() += 1;
            return;
        }
        (self.state, self.history) = self.plain.work_out();
        self.record = answer.value;
        assert_eq!(self.record.snapshot, Snapshot::of(&self.state));
        *match self.plain.standing.cmp(&stood) {
            Ordering::Less => &mut coverage.back,
            Ordering::Equal => &mut coverage.nowhere,
            Ordering::Greater => &mut coverage.forward,
        } += 1;
    }

    fn check(&self) {
        check_laws(&self.state, &self.history, self.plain.config).unwrap();
        check_counts(&self.state);
        assert_eq!(self.record.snapshot.broken_rule(), None);
        assert_eq!(self.record.born, self.plain.config.born);
        assert_eq!(usize::from(self.record.kept), self.plain.kept.len());
        assert_eq!(self.record.state().as_ref(), Some(&self.state));
    }

    /// The journal begins with the kept moves, its front is those that stand.
    fn check_journal(&self) {
        let kept = self.plain.kept.concat();
        assert_eq!(self.journal[..kept.len()], kept);
        let front = session::front(&self.record, &self.journal);
        assert_eq!(front.number, 0);
        assert_eq!(front.value, self.plain.moves().concat());
        assert_eq!((self.state.clone(), self.history.clone()), self.plain.work_out());
    }
}

/// Lemmas of the report: what the count counts; a token only without an owner, with a count.
fn check_counts(state: &State) {
    use Position::*;
    for (m, mutex) in (1..).zip(&state.mutexes) {
        let on = |list: &[Position]| {
            let at = |here: &&independent::machine::Processor| {
                here.mutex == m && list.contains(&here.position)
            };
            state.processors.iter().filter(at).count()
        };
        // Owner counted, except between GT3 and TL3, when it counts at TL3 only.
        let owner = usize::from(mutex.owner != 0);
        let wanting = mutex.queue.len() + on(&[L3, L4]);
        assert_eq!(usize::from(mutex.count), owner + wanting - on(&[TL3]));
        if mutex.token != Token::NONE {
            assert_eq!(mutex.owner, 0);
            assert!(mutex.count > 0);
        }
    }
}

fn check_picture(snapshot: &Snapshot, generator: &mut Generator) {
    let length = picture::length(snapshot.processors, snapshot.threads, snapshot.mutexes);
    let mut buffer = vec![0xa5; length + 2];
    assert_eq!(picture::write(snapshot, &mut buffer[..length - 1]), 10);
    assert!(buffer.iter().all(|&byte| byte == 0xa5));
    assert_eq!(picture::write(snapshot, &mut buffer), 0);
    assert_eq!(buffer[length..], [0xa5, 0xa5]);
    buffer.truncate(length);
    assert_eq!(picture::read(&buffer).number, 0);
    assert_eq!(picture::read(&buffer).value, *snapshot);
    // What reads is what would be written.
    for _ in 0..8 {
        let mut damaged = buffer.clone();
        for _ in 0..=generator.below(3) {
            let at = generator.below(length);
            damaged[at] =
                if generator.once_in(2) { generator.byte() % 6 } else { generator.byte() };
        }
        let read = picture::read(&damaged);
        if read.number == 0 {
            let mut again = vec![0; damaged.len()];
            assert_eq!(picture::write(&read.value, &mut again), 0);
            assert_eq!(again, damaged);
            assert_eq!(Snapshot::of(&read.value.state().unwrap()), read.value);
        } else {
            assert!((11..=14).contains(&read.number));
            assert_eq!(read.value, Snapshot::default());
        }
    }
}

fn check_ahead(state: &State, snapshot: &Snapshot) {
    assert_eq!(session::ahead(snapshot, 0), Ahead::Refused(3));
    assert_eq!(session::ahead(snapshot, state.thread_count() + 1), Ahead::Refused(3));
    for thread in 1..=state.thread_count() {
        let mut expected = Ahead::NotWaiting;
        for mutex in &state.mutexes {
            for (before, &waiting) in (0..).zip(&mutex.queue) {
                if waiting == thread {
                    expected = Ahead::Waits(before + u8::from(mutex.owner != 0));
                }
            }
        }
        assert_eq!(session::ahead(snapshot, thread), expected);
    }
}

/// A session of at most `calls` calls. Turns, which end in exits, are among them where goings are.
fn sit(config: Config, seed: u64, calls: usize, rates: Rates, coverage: &mut Coverage) {
    let mut driver = Driver::new(seed, rates);
    let mut session = ComparedSession::new(config, &mut driver.generator);
    session.check();
    for call in 0..calls {
        match driver.next_call(&session.state, session.record.kept) {
            Call::Move([p, ..]) if rates.goto != 0 && driver.generator.once_in(12) => {
                session.turn(p, coverage)
            }
            Call::Move(made) => session.make_move(made, coverage),
            Call::Goto(step) => session.goto(step, coverage),
        }
        session.check();
        if call % 16 == 0 {
            check_picture(&session.record.snapshot, &mut driver.generator);
            check_ahead(&session.state, &session.record.snapshot);
            session.check_journal();
        }
    }
    session.check_journal();
}

#[test]
fn laws_over_random_sessions() {
    laws(0, 300_000);
}

#[test]
fn laws_with_a_ready_queue_for_each_processor() {
    laws(1, 300_000);
}

/// The picture of one processor's own ready queue with its bytes put as a single one has them.
fn as_single(state: &State) -> Vec<u8> {
    let mut bytes = picture::raw_bytes(&Snapshot::of(state));
    bytes[7] -= 1;
    bytes.swap(3, 8 + 11);
    let threads = 8 + 12 + 8 * usize::from(bytes[2]);
    for thread in bytes[threads..].chunks_exact_mut(4).filter(|thread| thread[0] == 1) {
        thread[1] -= 1;
    }
    bytes
}

/// With one processor both choices go through equal states, but for what tells the choice.
#[test]
fn one_processor_alike() {
    for seed in 0..60 {
        let mut driver = Driver::new(seed, Rates::ACCEPTED);
        let threads = 1 + driver.generator.between(0, 9);
        let config = Config::new(1, threads, 2, driver.generator.between(1, threads));
        let mut one = State::start(config);
        let mut other = State::start(config.with_stealing(1));
        for _ in 0..300 {
            let made = driver.likely_move(&one);
            assert_eq!(one.try_move(made), Ok(()));
            assert_eq!(other.try_move(made), Ok(()));
            let odd = driver.odd_move(&one);
            assert_eq!(one.cause(odd), other.cause(odd));
            assert_eq!(picture::raw_bytes(&Snapshot::of(&one)), as_single(&other));
            assert_eq!(State { stealing: 0, ..other.clone() }, one);
        }
    }
}

fn laws(stealing: u8, least: usize) {
    let mut coverage = Coverage::default();
    let mut generator = Generator::new(1);
    let mut seed = 0;
    while coverage.moves < least {
        let config = generator.config().with_stealing(stealing);
        // Some sessions reach the most moves, some go to and fro.
        let (calls, rates) = match generator.below(40) {
            0 => (4_500, Rates { refused: 20, back: 2_000, goto: 0, owner_exits: 100 }),
            1..=4 => (600, Rates { goto: 6, ..Rates::USUAL }),
            _ => (50 + generator.below(900), Rates::GOINGS),
        };
        seed += 1;
        sit(config, seed, calls, rates, &mut coverage);
    }
    let Coverage { moves, turns, back, forward, nowhere, dropped, kept, .. } = coverage;
    println!("{seed} sessions, {moves} moves, {turns} of them as turns");
    println!("goings: {back} back, {forward} forward, {nowhere} nowhere");
    println!("kept moves dropped {dropped} times, kept {kept} times");
    assert!([turns, back, forward, nowhere, dropped, kept].iter().all(|&count| count > 100));
    println!("refused {:?}", coverage.refused);
    println!("branches {:?}", coverage.branches);
    println!("later tokens of one processor {}", coverage.same_processor);
    for number in [2, 3, 4, 5, 6, 7, 8, 9, 21] {
        assert!(coverage.refused.contains_key(&number), "refusal {number} not met");
    }
    assert!(coverage.refused[&21] > 1_000);
    use Position::*;
    let branches = [
        (App, L1),
        (App, TL1),
        (App, U1),
        (App, Y1),
        (App, CI2),
        (App, C2),
        (CI2, CI2),
        (CI2, CI3),
        (CI3, App),
        (L1, App),
        (L1, L3),
        (L3, L4),
        (L4, L6),
        (L6, CI2),
        (L6, L7),
        (L7, CI2),
        (L7, L8),
        (L8, L9),
        (L8, CI2),
        (L9, L10),
        (L10, App),
        (TL1, App),
        (TL1, GT1),
        (GT1, App),
        (GT1, GT3),
        (GT3, TL3),
        (GT3, App),
        (TL3, App),
        (U1, App),
        (U1, H2),
        (H2, H3),
        (H2, H5),
        (H3, App),
        (H5, H6),
        (H6, App),
        (H6, H8),
        (H8, H2),
        (H8, App),
        (Y1, App),
        (Y1, Y2),
        (Y2, Y3),
        (Y3, CI2),
        (C2, App),
    ];
    for branch in branches {
        assert!(coverage.branches.contains_key(&branch), "branch {branch:?} not met");
    }
    assert_eq!(coverage.branches.len(), branches.len());
    assert!(coverage.same_processor > 0);
    let looks = if stealing == 0 { 0..=0 } else { 0..=7 };
    assert!(coverage.taken.iter().copied().eq(looks.clone()), "{:?}", coverage.taken);
    assert!(coverage.rounds.iter().copied().eq(looks), "{:?}", coverage.rounds);
}

#[test]
fn all_sizes() {
    let mut coverage = Coverage::default();
    for p in 1..=8 {
        for t in 1..=32 {
            for m in 1..=8 {
                let born = 1 + (p * 7 + t * 3 + m) % t;
                let seed = u64::from(p) * 1_000_000 + u64::from(t) * 1_000 + u64::from(m);
                let config = Config::new(p, t, m, born);
                sit(config, seed, 24, Rates::GOINGS, &mut coverage);
                sit(config.with_stealing(1), seed, 24, Rates::GOINGS, &mut coverage);
            }
        }
    }
}

/// The plain session, worked out anew at each call, gives the same answers.
#[test]
fn plain_session_answers_alike() {
    for seed in 0..40 {
        let rates = Rates { refused: 6, back: 25, goto: 15, owner_exits: 20 };
        let mut driver = Driver::new(seed, rates);
        let config = driver.generator.config().with_stealing((seed % 2) as u8);
        let mut plain = Plain::new(config);
        let mut record = session::start(config).value;
        let mut journal = vec![seed as u8; JOURNAL];
        for _ in 0..120 {
            let state = record.state().unwrap();
            let (answer, number) = match driver.next_call(&state, record.kept) {
                Call::Move(made) => {
                    let step = session::make_move(&record, &mut journal, made);
                    (step.answer(), plain.make_move(made))
                }
                Call::Goto(step) => {
                    let answer = session::goto(&record, &journal, step.into());
                    (answer, plain.goto(step.into()))
                }
            };
            assert_eq!(answer.number, number);
            record = answer.value;
            assert_eq!(record.snapshot, Snapshot::of(&plain.work_out().0));
            assert_eq!(usize::from(record.kept), plain.kept.len());
            let front = session::front(&record, &journal);
            assert_eq!(front.value, plain.moves().concat());
            assert_eq!(journal[..3 * plain.kept.len()], plain.kept.concat());
        }
    }
}
