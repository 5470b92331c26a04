//! Exits by owners (document 02, No. 9): 21 however the thread came to own, its place among the
//! other numbers, until when it is there; turns and classes; pictures from before it.

use independent::journal::JOURNAL;
use independent::machine::{
    Config, Life, Move, Position, EXIT, GO, LOCK, MOST_MOVES, TRYLOCK, UNLOCK, YIELD,
};
use independent::owners;
use independent::picture;
use independent::plain::{check_laws, History};
use independent::record::{Record, Snapshot, ENDED};
use independent::script::{self, script, SCRIPT};
use independent::session::{self, Ahead};
use independent::worked::{Worked, FILLER};

/// The number of a move after a session; refused, it changes neither record nor journal.
fn number(worked: &Worked, made: Move) -> u8 {
    let (record, mut journal) = (worked.record(), worked.journal());
    let answer = session::make_move(&record, &mut journal, made);
    if answer.number == 0 {
        let [p, action, operand] = made;
        assert_eq!(answer.value, worked.clone().call(p, action, operand).record());
    } else {
        assert!(answer.value == record && journal == worked.journal());
    }
    answer.number
}

/// The number of processor p's exit, which is that of a turn under spent scripts at App as well.
fn exit(worked: &Worked, p: u8) -> u8 {
    let exit = number(worked, [p, EXIT, 0]);
    let scripts = vec![0; SCRIPT * usize::from(worked.config.threads)];
    let (record, mut journal) = (worked.record(), worked.journal());
    let turn = script::turn(&record, &mut journal, &scripts, p);
    let at_app = worked.state().processor(p).position == Position::App;
    assert_eq!(turn.number, if at_app { exit } else { 0 });
    assert!(turn.number == 0 || turn.value == record && journal == worked.journal());
    exit
}

/// Thread 1 locks these mutexes of 8, one after the other.
fn owner_of(mutexes: &[u8], stealing: u8) -> Worked {
    let begun = Worked::new(Config::new(2, 3, 8, 3)).with_stealing(stealing);
    mutexes.iter().fold(begun, |worked, &m| worked.call(1, LOCK, m).go(1, 1))
}

fn unlocked(worked: Worked, m: u8) -> Worked {
    worked.call(1, UNLOCK, m).go(1, 1)
}

/// The owner is refused at App, by 4 up to its unlock's end, and exits then.
#[test]
fn however_it_came_to_own() {
    for owning in owners::owning(0).into_iter().chain(owners::owning(1)) {
        let name = owning.line;
        assert_eq!(exit(&owning.session, owning.p), 21, "{name:?}");
        let unlocks = owning.unlocks();
        let (after, under_way) = unlocks.split_last().unwrap();
        for worked in under_way {
            assert_eq!(number(worked, [owning.p, EXIT, 0]), 4, "{name:?}");
        }
        assert_eq!(exit(after, owning.p), 0, "{name:?}");
    }
    // U1 leads to App at once, or first to the lines that hand on.
    let lines = owners::owning(0).map(|owning| owning.unlocks().len());
    assert!(lines.contains(&2) && lines.iter().any(|&count| count > 2));
}

/// At every state of these sessions, each processor: 21 where its thread is at App and the owner.
#[test]
fn from_when_it_owns() {
    for owning in owners::owning(0) {
        let session = &owning.session;
        for count in 0..=session.moves.len() {
            let front = session.front(count);
            let state = front.state();
            for p in 1..=front.config.processors {
                let here = state.processor(p);
                let expected = match here.position {
                    Position::App if state.mutex(1).owner == here.current => 21,
                    Position::App => 0,
                    _ => 4,
                };
                assert_eq!(number(&front, [p, EXIT, 0]), expected);
            }
        }
    }
}

#[test]
fn each_mutex() {
    for (m, stealing) in (1..=8).flat_map(|m| [(m, 0), (m, 1)]) {
        let owner = owner_of(&[m], stealing);
        assert_eq!((exit(&owner, 1), exit(&owner, 2)), (21, 0), "{m}");
        assert_eq!(exit(&unlocked(owner, m), 1), 0, "{m}");
    }
}

/// 21 until the last of several mutexes is unlocked, in any order.
#[test]
fn several_mutexes() {
    for order in [[1, 2, 3, 4, 5, 6, 7, 8], [8, 7, 6, 5, 4, 3, 2, 1], [5, 1, 8, 3, 7, 2, 6, 4]] {
        for stealing in [0, 1] {
            let mut worked = owner_of(&[3, 1, 2, 8, 4, 7, 5, 6], stealing);
            for m in order {
                assert_eq!(exit(&worked, 1), 21);
                assert_eq!(number(&worked.clone().call(1, UNLOCK, m), [1, EXIT, 0]), 4);
                worked = unlocked(worked, m);
            }
            assert_eq!(exit(&worked, 1), 0);
        }
    }
}

/// What the last call was on does not matter, nor how it ended.
#[test]
fn last_call_on_another_mutex() {
    let owner = owner_of(&[2], 0);
    let again = unlocked(owner.clone().call(1, LOCK, 1).go(1, 1), 1);
    let of_other = owner.clone().call(2, LOCK, 1).go(2, 1);
    let tried = of_other.clone().call(1, TRYLOCK, 1).go(1, 2);
    let tried_own = tried.clone().call(1, TRYLOCK, 2).go(1, 2);
    for worked in [again, of_other, tried, tried_own] {
        assert_eq!(exit(&worked, 1), 21);
    }
    // It owned mutex 2 before, and its last call failed on that of another.
    let none = unlocked(owner, 2).call(2, LOCK, 1).go(2, 1).call(1, TRYLOCK, 1).go(1, 2);
    assert_eq!((exit(&none, 1), exit(&none, 2)), (0, 21));
}

/// The thread is asked, not its processor: one that owns nothing exits while another owns, waits or
/// is ready.
#[test]
fn threads_that_own_nothing() {
    for stealing in [0, 1] {
        let owner = owner_of(&[1], stealing);
        assert_eq!(exit(&owner, 2), 0);
        // Thread 1 yields as the owner; processor 1 runs thread 3, then thread 1 again.
        let yielded = owner.clone().call(1, YIELD, 0).go(1, 5);
        assert_eq!(yielded.state().processor(1).current, 3);
        assert_eq!((exit(&yielded, 1), exit(&yielded, 2)), (0, 0));
        let exited = yielded.call(1, EXIT, 0).go(1, 2);
        assert_eq!((exited.state().processor(1).current, exit(&exited, 1)), (1, 21));
        // It waits for itself; another thread runs on its processor.
        let waits = owner.call(1, LOCK, 1).go(1, 6);
        assert_eq!(waits.state().mutex(1).queue, [1]);
        assert_eq!(exit(&waits, 1), 0);
    }
}

/// 2, 3, 8 and 4 come before 21; 16 before all of them.
#[test]
fn order() {
    let owner = owner_of(&[2], 0);
    let away = owner.clone().call(1, LOCK, 2);
    for (p, operand) in [(0, 0), (3, 0), (255, 0), (0, 1), (3, 255)] {
        assert_eq!(number(&owner, [p, EXIT, operand]), 2);
    }
    for operand in 1..=255 {
        assert_eq!(number(&owner, [1, EXIT, operand]), 3);
        assert_eq!(number(&away, [1, EXIT, operand]), 3);
    }
    assert_eq!((number(&owner, [1, EXIT, 0]), number(&away, [1, EXIT, 0])), (21, 4));
    assert_eq!(number(&owner, [1, GO, 0]), 5);
    let record = owner.record();
    let mut edited = owner.journal();
    edited[2] = 3;
    assert_eq!(session::make_move(&record, &mut edited, [1, EXIT, 0]).number, 16);
    let short = &mut owner.journal()[..JOURNAL - 1];
    assert_eq!(session::make_move(&record, short, [1, EXIT, 0]).number, 10);
}

/// With one move less than the most 21, with the most 8.
#[test]
fn most_moves() {
    let begun = Worked::new(Config::new(2, 1, 1, 1)).call(1, LOCK, 1).go(1, 1);
    let less = begun.go(2, usize::from(MOST_MOVES) - 3);
    assert_eq!(number(&less, [1, EXIT, 0]), 21);
    let full = less.go(2, 1);
    let exits = [[1, EXIT, 0], [1, EXIT, 1], [3, EXIT, 0]];
    assert_eq!(exits.map(|made| number(&full, made)), [8, 3, 2]);
}

/// The answers of a class from a start, which are those of its turns one by one.
fn class(config: Config, scripts: &[[u8; SCRIPT]], turns: &[u8]) -> (Vec<u8>, Record) {
    let scripts = scripts.concat();
    let begun = session::start(config).value;
    let length = picture::length(config.processors, config.threads, config.mutexes);
    let (mut answers, mut pictures) = (vec![FILLER; turns.len()], vec![0; turns.len() * length]);
    let (mut journal, mut by_turns) = (vec![FILLER; JOURNAL], vec![FILLER; JOURNAL]);
    let taken = script::class(&begun, &mut journal, &scripts, turns, &mut answers, &mut pictures);
    assert_eq!(taken.number, 0);
    let mut record = begun;
    for ((&p, &answer), shown) in turns.iter().zip(&answers).zip(pictures.chunks(length)) {
        let turn = script::turn(&record, &mut by_turns, &scripts, p);
        assert_eq!((turn.number, &picture::raw_bytes(&turn.value.snapshot)[..]), (answer, shown));
        record = turn.value;
    }
    assert!(record == taken.value && journal == by_turns);
    (answers, record)
}

/// A spent script leaves its thread an owner: 21 at each of its turns, while the others go on, wait
/// for its mutex and exit.
#[test]
fn spent_scripts() {
    for stealing in [0, 1] {
        let config = Config::new(3, 4, 1, 4).with_stealing(stealing);
        let scripts = [script(&[[LOCK, 1]]), script(&[[YIELD, 0]]), script(&[[LOCK, 1]])];
        let scripts = [scripts[0], scripts[1], scripts[2], script(&[])];
        let turns = [1, 1, 1, 2, 1, 3, 1, 3, 2, 1, 3, 1, 2, 2, 3, 1, 2, 2, 3, 3, 1, 1, 2];
        let (answers, record) = class(config, &scripts, &turns);
        let of = |p: u8| turns.iter().zip(&answers).filter(move |(&turn, _)| turn == p);
        assert!(of(1).map(|(_, &answer)| answer).eq([0, 0, 21, 21, 21, 21, 21, 21, 21, 21]));
        assert!(of(2).chain(of(3)).all(|(_, &answer)| answer == 0));
        let state = record.state().unwrap();
        assert_eq!((state.mutex(1).owner, state.processor(1).current), (1, 1));
        assert_eq!(state.mutex(1).queue, [3]);
        assert!([2, 4].iter().any(|&thread| state.life(thread) == Life::Ended));
    }
}

/// An exit among the calls of a script stays next; a plain unlock counts as that call.
#[test]
fn exit_inside_a_script() {
    let config = Config::new(1, 1, 1, 1);
    let scripts = script(&[[LOCK, 1], [EXIT, 0], [YIELD, 0]]);
    let (answers, _) = class(config, &[scripts], &[1, 1, 1, 1]);
    assert_eq!(answers, [0, 0, 21, 21]);
    let owner = Worked::new(config).call(1, LOCK, 1).go(1, 1);
    let (record, mut journal) = (unlocked(owner.clone(), 1).record(), unlocked(owner, 1).journal());
    assert_eq!(script::turn(&record, &mut journal, &scripts, 1).number, 0);
    assert_eq!(journal[12..15], [1, YIELD, 0]);
}

/// A scripted exit's order: 19 and 2 before 21, and 3 where it has an operand.
#[test]
fn order_at_turns() {
    let owner = owner_of(&[2], 0);
    let (record, journal) = (owner.record(), owner.journal());
    let with = |call| [script(&[[LOCK, 2], call]), script(&[]), script(&[])].concat();
    let turn = |scripts: &[u8], p| {
        let mut lent = journal.clone();
        let answer = script::turn(&record, &mut lent, scripts, p);
        assert!(answer.number == 0 || answer.value == record && lent == journal);
        answer.number
    };
    assert_eq!(turn(&with([EXIT, 0]), 1), 21);
    assert_eq!(turn(&with([EXIT, 1]), 1), 3);
    assert_eq!(turn(&with([EXIT, 0]), 3), 2);
    assert_eq!(turn(&with([EXIT, 0])[1..], 1), 19);
    assert_eq!(turn(&with([UNLOCK, 2]), 1), 0);
}

/// Pictures in which a terminated thread owns a mutex read, and are written back as they were; what
/// is worked out of a state is worked out of theirs.
#[test]
fn old_pictures() {
    for old in owners::old() {
        let read = picture::read(&old.picture);
        assert_eq!(read.number, 0, "{}", old.name);
        let shown = read.value;
        let ended =
            |owner: u8| owner != 0 && shown.thread_rows[usize::from(owner) - 1].place == ENDED;
        assert!(shown.mutex_rows.iter().any(|row| ended(row.owner)));
        let mut bytes = vec![FILLER; old.picture.len() + 1];
        assert_eq!(picture::write(&shown, &mut bytes), 0);
        assert_eq!(bytes, [&old.picture[..], &[FILLER]].concat());
        assert_eq!(Snapshot::of(&old.record().state().unwrap()), shown);
    }
    let waited_for = &owners::old()[2];
    let ahead = |thread| session::ahead(&waited_for.record().snapshot, thread);
    assert_eq!([2, 4].map(ahead), [1, 2].map(Ahead::Waits));
    assert_eq!([1, 3, 5].map(ahead), [Ahead::NotWaiting; 3]);
    assert_eq!([0, 6].map(ahead), [Ahead::Refused(3); 2]);
}

/// A terminated owner breaks a law of its own, and no other.
#[test]
fn law_of_living_owners() {
    for old in owners::old() {
        let (config, state) = (old.session.config, old.record().state().unwrap());
        let mut history = History::start(config);
        history.ended.insert(1);
        for (owners, mutex) in history.owners.iter_mut().zip(&state.mutexes) {
            owners.extend((mutex.owner != 0).then_some(mutex.owner));
        }
        let broken = check_laws(&state, &history, config).unwrap_err();
        assert!(broken.ends_with("does not live"), "{broken}");
    }
}

/// Their moves are accepted up to the exit, which is 21, and what came after it is another session.
#[test]
fn old_sessions() {
    for old in owners::old() {
        let before = old.before_exit();
        let exit_move = old.session.moves[before.moves.len()];
        assert_eq!((exit_move[1], number(&before, exit_move)), (EXIT, 21), "{}", old.name);
        assert_eq!(old.session.config, old.record().config());
        assert_eq!(usize::from(old.record().snapshot.applied), old.session.moves.len());
    }
}
