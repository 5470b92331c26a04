//! Classes: their refusals and buffers, each against its turns taken one by one and against the
//! plain session, and the laws by history over random classes.

use independent::journal::JOURNAL;
use independent::machine::{
    Config, Position, State, CREATE, EXIT, GO, LOCK, MOST_MOVES, UNLOCK, YIELD,
};
use independent::picture;
use independent::plain::{check_laws, History, Plain};
use independent::random::{Driver, Generator, Rates};
use independent::record::{Record, Snapshot};
use independent::script::{self, script, SCRIPT};
use independent::session;
use independent::worked::{self, Worked, FILLER};
use std::collections::BTreeMap;

fn picture_length(config: Config) -> usize {
    picture::length(config.processors, config.threads, config.mutexes)
}

/// What a class is given, and what it leaves.
#[derive(Clone, PartialEq)]
struct Lesson {
    record: Record,
    journal: Vec<u8>,
    scripts: Vec<u8>,
    turns: Vec<u8>,
    answers: Vec<u8>,
    pictures: Vec<u8>,
}

impl Lesson {
    /// After the moves of a session, with buffers of just the length needed.
    fn new(worked: &Worked, scripts: Vec<u8>, turns: Vec<u8>) -> Lesson {
        Lesson {
            record: worked.record(),
            journal: worked.journal(),
            scripts,
            answers: vec![FILLER; turns.len()],
            pictures: vec![FILLER; turns.len() * picture_length(worked.config)],
            turns,
        }
    }

    /// Takes the class and gives its number; refused, it changes nothing.
    fn take(&mut self) -> u8 {
        let before = self.clone();
        let answer = script::class(
            &self.record,
            &mut self.journal,
            &self.scripts,
            &self.turns,
            &mut self.answers,
            &mut self.pictures,
        );
        self.record = answer.value;
        assert!(answer.number == 0 || *self == before);
        answer.number
    }

    /// Takes its turns one by one, each picture written after it.
    fn take_one_by_one(&mut self) {
        let length = picture_length(self.record.config());
        for (i, &p) in self.turns.iter().enumerate() {
            let answer = script::turn(&self.record, &mut self.journal, &self.scripts, p);
            self.record = answer.value;
            self.answers[i] = answer.number;
            let room = &mut self.pictures[length * i..];
            assert_eq!(picture::write(&self.record.snapshot, room), 0);
        }
    }
}

/// Processor 1 of two locks and unlocks; a third thread is unborn.
fn small() -> (Config, Vec<u8>) {
    let scripts = [script(&[[LOCK, 1], [UNLOCK, 1]]), script(&[[CREATE, 3]]), script(&[])];
    (Config::new(2, 3, 1, 2), scripts.concat())
}

#[test]
fn empty_class() {
    let (config, scripts) = small();
    let mut lesson = Lesson::new(&Worked::new(config), scripts, Vec::new());
    let before = lesson.clone();
    assert_eq!(lesson.take(), 0);
    assert!(lesson == before);
    lesson.answers = vec![7];
    lesson.pictures = vec![7; 100];
    let before = lesson.clone();
    assert_eq!(lesson.take(), 0);
    assert!(lesson == before);
}

#[test]
fn answers_and_pictures() {
    let (config, scripts) = small();
    let turns = vec![1, 0, 1, 3, 2, 1, 2, 1, 1, 255, 2];
    let mut lesson = Lesson::new(&Worked::new(config), scripts, turns);
    assert_eq!(lesson.take(), 0);
    assert_eq!(lesson.answers, [0, 2, 0, 2, 0, 0, 0, 0, 0, 2, 0]);
    let moves = [
        [1, LOCK, 1],
        [1, GO, 0],
        [2, CREATE, 3],
        [1, UNLOCK, 1],
        [2, GO, 0],
        [1, GO, 0],
        [1, EXIT, 0],
        [2, EXIT, 0],
    ];
    let mut worked = Worked::new(config);
    let mut moves_left = moves.iter();
    let length = picture_length(config);
    for (answer, shown) in lesson.answers.iter().zip(lesson.pictures.chunks(length)) {
        if *answer == 0 {
            let &[p, action, operand] = moves_left.next().unwrap();
            worked = worked.call(p, action, operand);
        }
        assert_eq!(shown, worked.picture());
    }
    assert_eq!(session::front(&lesson.record, &lesson.journal).value, moves.concat());
    assert_eq!(lesson.record.snapshot, worked.snapshot());
    assert!(lesson.journal[3 * moves.len()..].iter().all(|&byte| byte == FILLER));
}

/// Buffers exact, one byte short and longer; later bytes keep their values.
#[test]
fn buffers() {
    let (config, scripts) = small();
    let whole = Lesson::new(&Worked::new(config), scripts, vec![1, 2, 9, 1, 2, 1]);
    let (answers, pictures) = (whole.answers.len(), whole.pictures.len());
    let with = |answers: usize, pictures: usize| {
        let mut lesson = whole.clone();
        lesson.answers.resize(answers, 0x11);
        lesson.pictures.resize(pictures, 0x22);
        lesson
    };
    let mut exact = whole.clone();
    assert_eq!(exact.take(), 0);
    for more in [0, 1, 2, 1_000] {
        let mut lesson = with(answers + more, pictures + 3 * more);
        assert_eq!(lesson.take(), 0);
        assert_eq!(lesson.answers[..answers], exact.answers);
        assert_eq!(lesson.pictures[..pictures], exact.pictures);
        assert!(lesson.answers[answers..].iter().all(|&byte| byte == 0x11));
        assert!(lesson.pictures[pictures..].iter().all(|&byte| byte == 0x22));
    }
    for (answers, pictures) in [
        (answers - 1, pictures),
        (answers, pictures - 1),
        (answers - 1, pictures - 1),
        (0, pictures + 99),
        (answers + 99, 0),
    ] {
        assert_eq!(with(answers, pictures).take(), 10);
    }
}

/// 10, 15, 10, 16, 19, each with all that come after it there as well.
#[test]
fn order_of_refusals() {
    let (_, scripts) = small();
    let k7 = worked::k7();
    let mut lesson = Lesson::new(&k7, scripts, vec![1, 2, 3]);
    assert_eq!(lesson.clone().take(), 0);
    let journal = lesson.journal.clone();
    lesson.journal[0] ^= 8;
    lesson.scripts.truncate(3 * SCRIPT - 1);
    let short = |lesson: &Lesson| {
        let mut short = lesson.clone();
        short.answers.pop();
        short
    };
    let mut wrong = short(&lesson);
    wrong.record.born = 0;
    let mut first = wrong.clone();
    first.journal.pop();
    assert_eq!(first.take(), 10);
    assert_eq!(wrong.take(), 15);
    assert_eq!(short(&lesson).take(), 10);
    assert_eq!(lesson.clone().take(), 16);
    lesson.journal = journal;
    assert_eq!(lesson.clone().take(), 19);
    lesson.scripts.push(0);
    assert_eq!(lesson.take(), 0);
}

/// 16: each byte of the standing moves changed, bytes after them, other records.
#[test]
fn other_journals() {
    let (_, scripts) = small();
    let k7 = worked::k7();
    let lesson = Lesson::new(&k7, scripts.clone(), vec![1, 2, 3]);
    for at in 0..3 * k7.moves.len() {
        let mut other = lesson.clone();
        other.journal[at] ^= 8;
        assert_eq!(other.take(), 16);
    }
    for at in [3 * k7.moves.len(), JOURNAL - 1] {
        let mut other = lesson.clone();
        other.journal[at] ^= 8;
        assert_eq!(other.take(), 0);
    }
    for born in [1, 2] {
        let mut other = lesson.clone();
        other.record.born = born;
        assert_eq!(other.take(), 16);
    }
    let mut other = lesson.clone();
    other.record.snapshot.applied -= 1;
    assert_eq!(other.take(), 16);
    other.record.kept -= 1;
    assert_eq!(other.take(), 16);
    // With no moves applied any journal will do, and only the start's record.
    let mut begun = Lesson::new(&Worked::new(k7.config), scripts, vec![1, 2, 3]);
    assert_eq!(begun.clone().take(), 0);
    begun.record = Record { kept: 0, ..k7.record() };
    begun.record.snapshot.applied = 0;
    assert_eq!(begun.take(), 16);
}

/// A class goes on from plain moves, whose calls count.
#[test]
fn class_after_plain_moves() {
    let scripts = [script(&[[YIELD, 0], [LOCK, 1]]), script(&[])].concat();
    let begun = Worked::new(Config::new(1, 2, 1, 1));
    let mut lesson = Lesson::new(&begun.call(1, YIELD, 0).go(1, 1), scripts, vec![1, 1, 1]);
    assert_eq!(lesson.take(), 0);
    let front = session::front(&lesson.record, &lesson.journal).value;
    assert_eq!(front[6..], [1, LOCK, 1, 1, GO, 0]);
    assert_eq!(lesson.answers, [0, 0, 21]);
}

/// After 4,000 moves: 2 and 3 as before, else 8, and the picture stays.
#[test]
fn most_moves() {
    let config = Config::new(3, 3, 1, 2);
    let scripts = [script(&[[LOCK, 9]]), script(&[]), script(&[])].concat();
    let mut turns = vec![3; usize::from(MOST_MOVES) - 2];
    turns.extend([1, 2, 9, 3, 3, 1, 2, 9, 0, 4, 3]);
    let mut lesson = Lesson::new(&Worked::new(config), scripts, turns);
    let mut turned = lesson.clone();
    assert_eq!(lesson.take(), 0);
    let most = usize::from(MOST_MOVES);
    assert!(lesson.answers[..most - 2].iter().all(|&number| number == 0));
    assert_eq!(lesson.answers[most - 2..], [3, 0, 2, 0, 8, 3, 8, 2, 2, 2, 8]);
    assert_eq!(lesson.record.snapshot.applied, MOST_MOVES);
    assert_eq!(lesson.journal[JOURNAL - 6..], [2, EXIT, 0, 3, GO, 0]);
    let last = picture::raw_bytes(&lesson.record.snapshot);
    for shown in lesson.pictures.chunks(picture_length(config)).skip(most + 1) {
        assert_eq!(shown, last);
    }
    // A class of no more room: every turn is refused, nothing but answers and pictures changes.
    let before = lesson.clone();
    assert_eq!(lesson.take(), 0);
    assert!(lesson.record == before.record && lesson.journal == before.journal);
    assert!(lesson.answers.iter().all(|&number| [2, 3, 8].contains(&number)));
    turned.take_one_by_one();
    assert!(turned.answers == before.answers && turned.pictures == before.pictures);
    assert!(turned.record == before.record && turned.journal == before.journal);
}

#[derive(Default)]
struct Coverage {
    classes: usize,
    moves: usize,
    answers: BTreeMap<u8, usize>,
    branches: BTreeMap<(Position, Position), usize>,
    calls: [usize; 7],
    /// Calls of a thread on another processor than its last one.
    migrations: usize,
    /// Classes without an accepted turn that left moves kept beyond the standing ones.
    kept: usize,
}

/// The class's answers, pictures and journal are those of the plain session, whose laws hold
/// after every turn. All moves before it were made, and then gone to a step of them.
fn check_by_history(before: &Worked, step: usize, lesson: &Lesson, coverage: &mut Coverage) {
    let config = before.config;
    let mut plain = Plain::new(config);
    before.moves.iter().for_each(|&made| plain.join(made));
    assert_eq!(plain.goto(step), 0);
    let (mut state, mut history): (State, History) = plain.work_out();
    let shown = lesson.pictures.chunks(picture_length(config));
    for ((&p, &answer), shown) in lesson.turns.iter().zip(&lesson.answers).zip(shown) {
        let made = plain.turn(&state, &lesson.scripts, p);
        assert_eq!(answer, state.cause(made).unwrap_or(0), "{made:?}");
        *coverage.answers.entry(answer).or_default() += 1;
        if answer == 0 {
            let here = *state.processor(p);
            state.try_move(made).unwrap();
            history.note(made, &here, state.processor(p));
            plain.join(made);
            coverage.moves += 1;
            coverage.calls[usize::from(made[1])] += 1;
            let branch = (here.position, state.processor(p).position);
            *coverage.branches.entry(branch).or_default() += 1;
        }
        check_laws(&state, &history, config).unwrap();
        assert_eq!(shown, picture::raw_bytes(&Snapshot::of(&state)));
        assert_eq!(picture::read(shown).number, 0);
    }
    let kept = plain.kept.len();
    assert_eq!(lesson.record, Record { kept: kept as u16, ..Record::of(&state, config.born) });
    let front = session::front(&lesson.record, &lesson.journal);
    assert_eq!(front.value, plain.moves().concat());
    assert_eq!(lesson.journal[..3 * kept], plain.kept.concat());
    coverage.kept += usize::from(kept > plain.standing);
    let mut last = BTreeMap::new();
    for (thread, p) in plain.callers() {
        coverage.migrations += usize::from(last.insert(thread, p).is_some_and(|old| old != p));
    }
    coverage.classes += 1;
}

/// A class of so many turns after so many plain moves, mostly all of which stand.
fn random_class(stealing: u8, seed: u64, plain: usize, turns: usize, coverage: &mut Coverage) {
    let mut driver = Driver::new(seed, Rates::ACCEPTED);
    let config = driver.generator.config().with_stealing(stealing);
    let mut worked = Worked::new(config);
    let mut state = State::start(config);
    for _ in 0..plain {
        let [p, action, operand] = driver.likely_move(&state);
        state.try_move([p, action, operand]).unwrap();
        worked = worked.call(p, action, operand);
    }
    let scripts = driver.generator.scripts(config);
    let turns = driver.generator.turns(config, turns);
    let step = if driver.generator.once_in(3) { driver.generator.below(plain + 1) } else { plain };
    let mut lesson = Lesson::new(&worked, scripts, turns);
    lesson.record = session::goto(&lesson.record, &lesson.journal, step).value;
    assert_eq!(lesson.record, worked.record_at(step));
    let mut turned = lesson.clone();
    assert_eq!(lesson.take(), 0);
    turned.take_one_by_one();
    assert!(lesson == turned, "class {seed} differs from its turns");
    check_by_history(&worked, step, &lesson, coverage);
}

#[test]
fn random_classes() {
    laws_of_classes(0);
}

#[test]
fn random_classes_with_a_ready_queue_for_each_processor() {
    laws_of_classes(1);
}

fn laws_of_classes(stealing: u8) {
    let mut coverage = Coverage::default();
    for seed in 0..1_500 {
        let mut generator = Generator::new(!seed);
        let plain = if generator.once_in(3) { generator.below(60) } else { 0 };
        let most = if generator.once_in(10) { 3 } else { 240 };
        random_class(stealing, seed, plain, generator.below(most), &mut coverage);
    }
    // Some are long, some end at the most moves.
    for seed in 2_000..2_006 {
        random_class(stealing, seed, 0, 1_500, &mut coverage);
        random_class(stealing, seed + 10, 3_900, 300, &mut coverage);
    }
    println!("{} classes, {} moves", coverage.classes, coverage.moves);
    println!("answers {:?}, calls {:?}", coverage.answers, coverage.calls);
    println!("{} branches {:?}", coverage.branches.len(), coverage.branches);
    println!("{} calls after a migration", coverage.migrations);
    let met: Vec<u8> = coverage.answers.keys().copied().collect();
    assert_eq!(met, [0, 2, 3, 6, 7, 8, 21]);
    assert!(coverage.answers[&21] > 1_000);
    assert!(coverage.kept > 3, "{}", coverage.kept);
    assert!(coverage.calls.iter().all(|&count| count > 1_000));
    assert!(coverage.migrations > 1_000);
    // As many as plain sessions meet.
    assert_eq!(coverage.branches.len(), 43);
}

/// A class of one list is the classes of its parts, one after the other.
#[test]
fn classes_in_parts() {
    for seed in 0..200 {
        let mut generator = Generator::new(seed);
        let config = generator.config().with_stealing((seed % 2) as u8);
        let (scripts, turns) = (generator.scripts(config), generator.turns(config, 150));
        let mut whole = Lesson::new(&Worked::new(config), scripts, turns);
        let mut record = whole.record;
        let mut journal = whole.journal.clone();
        assert_eq!(whole.take(), 0);
        let length = picture_length(config);
        let mut done = 0;
        while done < whole.turns.len() {
            let end = (done + generator.below(40)).min(whole.turns.len());
            let turns = &whole.turns[done..end];
            let mut answers = vec![0; turns.len()];
            let mut pictures = vec![0; length * turns.len()];
            let answer = script::class(
                &record,
                &mut journal,
                &whole.scripts,
                turns,
                &mut answers,
                &mut pictures,
            );
            assert_eq!(answer.number, 0);
            record = answer.value;
            assert_eq!(answers, whole.answers[done..end]);
            assert_eq!(pictures, whole.pictures[length * done..length * end]);
            done = end;
        }
        assert!(record == whole.record && journal == whole.journal);
    }
}

/// Bad scripts are refused by 19 at a start, a turn and a class; good ones are not.
#[test]
fn random_bad_scripts() {
    for seed in 0..3_000 {
        let mut generator = Generator::new(seed);
        let config = generator.config().with_stealing((seed % 2) as u8);
        let record = session::start(config).value;
        for (scripts, wanted) in
            [(generator.bad_scripts(config), 19), (generator.scripts(config), 0)]
        {
            assert_eq!(script::start(config, &scripts).number, wanted);
            let absent = script::turn(&record, &mut [0; JOURNAL], &scripts, 0);
            assert_eq!((absent.number, absent.value), (wanted.max(2), record));
            let mut lesson = Lesson::new(&Worked::new(config), scripts, vec![1, 0]);
            assert_eq!(lesson.take(), wanted);
        }
    }
}
