//! Scripts, turns and their refusals, one by one: 19 at its boundaries, the order of refusals,
//! and which call a thread makes next.

use independent::journal::{Replay, JOURNAL};
use independent::machine::{
    Config, Life, Move, Position, CREATE, EXIT, GO, LOCK, TRYLOCK, UNLOCK, YIELD,
};
use independent::record::Record;
use independent::script::{self, script, Scripts, SCRIPT};
use independent::session;
use independent::worked::{self, Worked, FILLER};

/// A session under scripts, record and journal.
struct ScriptedSession {
    scripts: Vec<u8>,
    record: Record,
    journal: Vec<u8>,
}

impl ScriptedSession {
    fn new(config: Config, scripts: &[[u8; SCRIPT]]) -> ScriptedSession {
        let scripts = scripts.concat();
        let begun = script::start(config, &scripts);
        assert_eq!((begun.number, begun.value), (0, session::start(config).value));
        ScriptedSession { scripts, record: begun.value, journal: vec![FILLER; JOURNAL] }
    }

    /// Takes a turn and gives its number; a refused one changes nothing.
    fn turn(&mut self, p: u8) -> u8 {
        let (record, journal) = (self.record, self.journal.clone());
        let answer = script::turn(&self.record, &mut self.journal, &self.scripts, p);
        self.record = answer.value;
        if answer.number != 0 {
            assert!(self.record == record && self.journal == journal);
        }
        answer.number
    }

    /// Accepted turns, one for each processor listed.
    fn turns(&mut self, processors: &[u8]) {
        for &p in processors {
            assert_eq!(self.turn(p), 0);
        }
    }

    fn make_move(&mut self, made: Move) {
        let answer = session::make_move(&self.record, &mut self.journal, made);
        assert_eq!(answer.number, 0);
        self.record = answer.value;
    }

    fn goto(&mut self, step: usize) {
        let answer = session::goto(&self.record, &self.journal, step);
        assert_eq!(answer.number, 0);
        self.record = answer.value;
    }

    /// The last move that stands.
    fn last(&self) -> Move {
        let front = session::front(&self.record, &self.journal).value;
        let at = front.len() - 3;
        [front[at], front[at + 1], front[at + 2]]
    }

    /// How many calls each thread has made.
    fn progress(&self) -> Vec<u16> {
        let config = self.record.config();
        let replay = Replay::of(config, &self.journal, self.record.snapshot.applied).unwrap();
        (1..=config.threads).map(|thread| replay.progress.thread(thread)).collect()
    }

    fn position(&self, p: u8) -> Position {
        self.record.state().unwrap().processor(p).position
    }
}

fn is_good(bytes: &[u8], threads: u8) -> bool {
    Scripts::read(bytes, threads).is_some()
}

#[test]
fn lengths() {
    for threads in [1, 2, 7, 31, 32] {
        let whole = SCRIPT * usize::from(threads);
        let long = vec![0; whole + 20];
        for length in [0, 1, 12, whole - SCRIPT, whole - 1] {
            assert!(is_good(&long[..length], threads) == (length >= whole));
        }
        for length in whole..=whole + 20 {
            assert!(is_good(&long[..length], threads));
        }
    }
}

/// Every number of calls, with actions that are calls and with none.
#[test]
fn numbers_of_calls() {
    for thread in 0..3 {
        for number in 0..=255 {
            let mut bytes = vec![LOCK; 3 * SCRIPT];
            bytes[SCRIPT * thread] = number;
            assert_eq!(is_good(&bytes, 3), number <= 6);
            let pairs = &mut bytes[SCRIPT * thread + 1..][..SCRIPT - 1];
            pairs.fill(0);
            assert_eq!(is_good(&bytes, 3), number == 0);
            let pairs = &mut bytes[SCRIPT * thread + 1..][..SCRIPT - 1];
            pairs.fill(7);
            assert_eq!(is_good(&bytes, 3), number == 0);
        }
    }
}

/// Every action in every pair, inside the number and past it.
#[test]
fn actions() {
    for number in 0..=6 {
        for pair in 0..6 {
            for action in 0..=255 {
                let mut bytes = script(&[[YIELD, 0]; 6]);
                bytes[0] = number;
                bytes[1 + 2 * pair] = action;
                let unread = pair >= usize::from(number);
                assert_eq!(is_good(&bytes, 1), unread || (1..=6).contains(&action));
            }
        }
    }
}

/// Only the scripts of threads 1 to T are looked at.
#[test]
fn later_scripts() {
    let (good, bad) = (script(&[[EXIT, 9]]), script(&[[0, 0]]));
    let mut long = [3; SCRIPT];
    long[0] = 7;
    for wrong in [bad, long] {
        for threads in 1..=4 {
            for at in 0..6 {
                let mut bytes = [good; 6];
                bytes[at] = wrong;
                assert_eq!(is_good(&bytes.concat(), threads), at >= usize::from(threads));
            }
        }
    }
}

#[test]
fn starts() {
    let good = [script(&[[LOCK, 1]]); 32].concat();
    for config in [
        Config::new(8, 32, 8, 32),
        Config::new(1, 1, 1, 1),
        Config::new(3, 5, 2, 2),
        Config::new(3, 9, 2, 8).with_stealing(1),
    ] {
        let whole = SCRIPT * usize::from(config.threads);
        for length in [whole, whole + 1, good.len()] {
            let answer = script::start(config, &good[..length.min(good.len())]);
            assert_eq!(answer, session::start(config));
        }
        let answer = script::start(config, &good[..whole - 1]);
        assert_eq!((answer.number, answer.value), (19, Record::default()));
        let mut bad = good.clone();
        bad[whole - SCRIPT + 1] = 7;
        let answer = script::start(config, &bad);
        assert_eq!((answer.number, answer.value), (19, Record::default()));
    }
    // 1 comes first.
    for config in [
        Config::new(9, 1, 1, 1),
        Config::new(1, 0, 1, 1),
        Config::new(1, 33, 1, 1),
        Config::new(1, 1, 1, 1).with_stealing(2),
    ] {
        for scripts in [&good[..], &[], &[7; 500]] {
            let answer = script::start(config, scripts);
            assert_eq!((answer.number, answer.value), (1, Record::default()));
        }
    }
}

/// The number of a turn that is refused.
fn refused(record: &Record, journal: &[u8], scripts: &[u8], p: u8) -> u8 {
    let mut after = journal.to_vec();
    let answer = script::turn(record, &mut after, scripts, p);
    assert_eq!(answer.value, *record);
    assert!(after == journal);
    answer.number
}

/// 10, 15, 16, 19, then 2, 3, 6, 7 as a move has them.
#[test]
fn order_of_refusals() {
    let record = session::start(Config::new(2, 3, 1, 2)).value;
    let good = [script(&[[LOCK, 2]]), script(&[[UNLOCK, 1]]), script(&[])].concat();
    let bad = &good[..3 * SCRIPT - 1];
    let journal = [FILLER; JOURNAL + 1];
    let lent = &journal[..JOURNAL];
    let outside = Record { born: 4, ..record };
    assert_eq!(refused(&outside, &journal[..JOURNAL - 1], bad, 0), 10);
    assert_eq!(refused(&outside, lent, bad, 0), 15);
    assert_eq!(refused(&Record { born: 3, ..record }, lent, bad, 0), 16);
    assert_eq!(refused(&record, lent, bad, 0), 19);
    for absent in [0, 3, 9, 255] {
        assert_eq!(refused(&record, lent, &good, absent), 2);
    }
    assert_eq!(refused(&record, &journal, &good, 1), 3);
    assert_eq!(refused(&record, lent, &good, 2), 6);
    let creates = [script(&[[CREATE, 2]]), script(&[[CREATE, 4]]), script(&[])].concat();
    assert_eq!(refused(&record, lent, &creates, 1), 7);
    assert_eq!(refused(&record, lent, &creates, 2), 3);
    // Records whose step would leave the rules are no session's.
    for (name, record, p) in worked::steps_out_of_rules() {
        assert_eq!(refused(&record, lent, &[0; 13 * 32], p), 16, "{name}");
    }
}

/// With 4,000 applied: 2 and 3 before 8, 8 before 6 and 7, and 16 and 19 before them all.
#[test]
fn most_moves() {
    let full = Worked::new(Config::new(4, 4, 1, 3)).go(4, 4_000);
    let scripts = [[LOCK, 2], [UNLOCK, 1], [CREATE, 1], [LOCK, 1]];
    let scripts = scripts.map(|call| script(&[call])).concat();
    let (record, mut journal) = (full.record(), full.journal());
    for (p, number) in [(0, 2), (5, 2), (1, 3), (2, 8), (3, 8), (4, 8)] {
        assert_eq!(refused(&record, &journal, &scripts, p), number);
        assert_eq!(refused(&record, &journal, &scripts[1..], p), 19);
    }
    journal[JOURNAL - 1] = 1;
    for p in 0..=5 {
        assert_eq!(refused(&record, &journal, &scripts, p), 16);
        assert_eq!(refused(&record, &journal, &scripts[1..], p), 16);
    }
}

/// Bad operands are no cause of 19; the call is refused by 3 for as long as it is next.
#[test]
fn bad_operands() {
    for call in [[LOCK, 0], [LOCK, 2], [TRYLOCK, 255], [UNLOCK, 0], [YIELD, 1], [EXIT, 1]] {
        let scripts = [script(&[[YIELD, 0], call]), script(&[])];
        let mut session = ScriptedSession::new(Config::new(2, 2, 1, 2), &scripts);
        session.turns(&[1, 1]);
        assert_eq!(session.turn(1), 3);
        session.turns(&[2, 2]);
        assert_eq!(session.turn(1), 3);
        assert_eq!(session.progress(), [1, 1]);
    }
}

/// A script of each length is made in order; then the thread exits, unless the last call has left
/// it an owner.
#[test]
fn spent_scripts_exit() {
    let calls = [[LOCK, 1], [UNLOCK, 1], [YIELD, 0], [TRYLOCK, 1], [UNLOCK, 1], [TRYLOCK, 2]];
    for count in 0..=6 {
        let mut session = ScriptedSession::new(Config::new(1, 1, 2, 1), &[script(&calls[..count])]);
        for [action, operand] in &calls[..count] {
            // Nobody else is there, so each call takes one line.
            session.turns(&[1]);
            assert_eq!(session.last(), [1, *action, *operand]);
            session.turns(&[1]);
            assert_eq!(session.last(), [1, GO, 0]);
        }
        if [1, 4, 6].contains(&count) {
            assert_eq!([session.turn(1), session.turn(1)], [21, 21]);
            assert_eq!(session.progress(), [count as u16]);
            continue;
        }
        session.turns(&[1]);
        assert_eq!(session.last(), [1, EXIT, 0]);
        assert_eq!(session.progress(), [count as u16 + 1]);
        session.turns(&[1, 1]);
        assert_eq!((session.last(), session.position(1)), ([1, GO, 0], Position::CI2));
    }
}

/// An exit in a script ends the thread, with calls left.
#[test]
fn exit_inside_a_script() {
    let scripts = [script(&[[EXIT, 0], [LOCK, 1]]), script(&[[LOCK, 1]])];
    let mut session = ScriptedSession::new(Config::new(1, 2, 1, 2), &scripts);
    session.turns(&[1, 1, 1]);
    assert_eq!(session.record.state().unwrap().life(1), Life::Ended);
    session.turns(&[1]);
    assert_eq!(session.last(), [1, LOCK, 1]);
    assert_eq!(session.progress(), [1, 1]);
}

/// Two threads create the same one: the later is refused by 7 however the others move, and its
/// script stays there; once the first create is stepped back its own is accepted.
#[test]
fn refused_call_is_tried_again() {
    let scripts = [script(&[[CREATE, 3], [LOCK, 1]]), script(&[[CREATE, 3]]), script(&[])];
    let mut session = ScriptedSession::new(Config::new(3, 3, 1, 2), &scripts);
    session.turns(&[2]);
    assert_eq!(session.turn(1), 7);
    session.turns(&[2, 3, 3]);
    assert_eq!(session.turn(1), 7);
    assert_eq!(session.progress(), [0, 1, 0]);
    // Forward again it is created again.
    for step in [3, 2, 1, 3, 4, 1] {
        session.goto(step);
        assert_eq!(session.turn(1), 7);
    }
    session.goto(0);
    session.turns(&[1]);
    assert_eq!(session.last(), [1, CREATE, 3]);
    assert_eq!(session.turn(2), 7);
    session.turns(&[1, 1]);
    assert_eq!(session.last(), [1, LOCK, 1]);
    assert_eq!(session.progress(), [2, 0, 0]);
}

/// A going back gives calls back to their thread's script, one forward takes them again: those kept
/// beyond the standing moves do not count.
#[test]
fn goings_return_calls() {
    let scripts = [script(&[[YIELD, 0], [LOCK, 1]])];
    let mut session = ScriptedSession::new(Config::new(1, 1, 1, 1), &scripts);
    for _ in 0..3 {
        session.turns(&[1, 1, 1]);
        assert_eq!((session.last(), session.progress()), ([1, LOCK, 1], vec![2]));
        for (step, calls) in [(2, 1), (1, 1), (0, 0), (3, 2), (1, 1), (2, 1), (0, 0)] {
            session.goto(step);
            assert_eq!(session.progress(), [calls]);
        }
    }
    session.goto(1);
    session.turns(&[1, 1]);
    assert_eq!((session.last(), session.record.kept), ([1, LOCK, 1], 3));
    // From another place of the script the same turn is another call.
    session.goto(0);
    session.turns(&[1]);
    assert_eq!((session.last(), session.record.kept), ([1, YIELD, 0], 1));
}

/// Two threads change processors by yields; each goes on where it was.
#[test]
fn threads_migrate_with_their_progress() {
    let scripts = [
        script(&[[YIELD, 0], [LOCK, 1], [UNLOCK, 1]]),
        script(&[[YIELD, 0], [TRYLOCK, 2], [YIELD, 0]]),
        script(&[]),
    ];
    let mut session = ScriptedSession::new(Config::new(2, 3, 2, 3), &scripts);
    // Thread 1 yields (Y1, Y2, Y3); processor 1 runs thread 3 (CI2, CI3).
    session.turns(&[1, 1, 1, 1, 1, 1]);
    // Thread 2 yields, and processor 2 runs thread 1.
    session.turns(&[2, 2, 2, 2, 2, 2]);
    let state = session.record.state().unwrap();
    assert_eq!([1, 2].map(|p| state.processor(p).current), [3, 1]);
    assert_eq!(session.progress(), [1, 1, 0]);
    session.turns(&[2]);
    assert_eq!(session.last(), [2, LOCK, 1]);
    // Thread 3 exits, and processor 1 runs thread 2.
    session.turns(&[1]);
    assert_eq!(session.last(), [1, EXIT, 0]);
    session.turns(&[1, 1, 1]);
    assert_eq!(session.last(), [1, TRYLOCK, 2]);
    session.turns(&[2, 2]);
    assert_eq!(session.last(), [2, UNLOCK, 1]);
    assert_eq!(session.progress(), [3, 2, 1]);
}

/// A waiting thread that another processor takes from the queue goes on with its script.
#[test]
fn handed_off_thread_goes_on() {
    let scripts =
        [script(&[[LOCK, 1], [UNLOCK, 1]]), script(&[[LOCK, 1], [UNLOCK, 1], [YIELD, 0]])];
    let mut session = ScriptedSession::new(Config::new(2, 2, 1, 2), &scripts);
    // 1 owns; 2 locks and waits (L1, L3, L4, L6, CI2).
    session.turns(&[1, 1, 2, 2, 2, 2, 2, 2]);
    // 1 unlocks (U1, H2, H3) and exits; processor 1 runs thread 2 (CI2, CI3).
    session.turns(&[1, 1, 1, 1, 1, 1, 1]);
    assert_eq!(session.record.state().unwrap().processor(1).current, 2);
    session.turns(&[1]);
    assert_eq!(session.last(), [1, UNLOCK, 1]);
    assert_eq!(session.progress(), [3, 2]);
}

/// A created thread begins its own script.
#[test]
fn created_threads_have_scripts() {
    let scripts = [script(&[[CREATE, 2]]), script(&[[CREATE, 3], [YIELD, 0]]), script(&[])];
    let mut session = ScriptedSession::new(Config::new(1, 3, 1, 1), &scripts);
    session.turns(&[1, 1, 1, 1, 1]);
    assert_eq!(session.record.state().unwrap().processor(1).current, 2);
    session.turns(&[1]);
    assert_eq!(session.last(), [1, CREATE, 3]);
    session.turns(&[1, 1]);
    assert_eq!(session.last(), [1, YIELD, 0]);
    // Y1, Y2, Y3, CI2, CI3: thread 3 runs and exits, then thread 2 does.
    session.turns(&[1; 6]);
    assert_eq!((session.last(), session.progress()), ([1, EXIT, 0], vec![2, 2, 1]));
    session.turns(&[1; 3]);
    assert_eq!((session.last(), session.progress()), ([1, EXIT, 0], vec![2, 3, 1]));
    session.turns(&[1; 2]);
    assert!(session.record.state().unwrap().lives.iter().all(|&life| life == Life::Ended));
}

/// Calls by plain moves count, whatever they are; goes do not.
#[test]
fn plain_calls_count() {
    let scripts = [script(&[[LOCK, 1], [UNLOCK, 1], [YIELD, 0]]), script(&[[CREATE, 3]])];
    let scripts = [scripts[0], scripts[1], script(&[])];
    let mut session = ScriptedSession::new(Config::new(2, 3, 1, 2), &scripts);
    session.make_move([1, LOCK, 1]);
    session.make_move([1, GO, 0]);
    session.turns(&[1]);
    assert_eq!(session.last(), [1, UNLOCK, 1]);
    session.make_move([1, GO, 0]);
    for _ in 0..2 {
        session.make_move([1, TRYLOCK, 1]);
        session.make_move([1, GO, 0]);
        session.make_move([1, UNLOCK, 1]);
        session.make_move([1, GO, 0]);
    }
    assert_eq!(session.progress(), [6, 0, 0]);
    session.turns(&[1, 2]);
    assert_eq!(session.last(), [2, CREATE, 3]);
    assert_eq!(session.record.state().unwrap().life(1), Life::Ended);
}

/// The record alone does not say what comes next: two journals, the same record, other calls.
#[test]
fn same_record_other_journals() {
    let config = Config::new(2, 2, 1, 2);
    let scripts = [script(&[[YIELD, 0], [LOCK, 1]]), script(&[[YIELD, 0], [TRYLOCK, 1]])];
    let [mut one, mut two] = [1, 2].map(|p| {
        let mut session = ScriptedSession::new(config, &scripts);
        session.turns(&[p, p]);
        session
    });
    assert_eq!(one.record, two.record);
    assert_eq!((one.progress(), two.progress()), (vec![1, 0], vec![0, 1]));
    one.turns(&[1]);
    two.turns(&[1]);
    assert_eq!((one.last(), two.last()), ([1, LOCK, 1], [1, YIELD, 0]));
    one.goto(2);
    two.goto(2);
    one.turns(&[2]);
    two.turns(&[2]);
    assert_eq!((one.last(), two.last()), ([2, YIELD, 0], [2, TRYLOCK, 1]));
}

/// Other journals for one record: the calls of one that gives the record count, whoever made them;
/// moves past the applied ones do not.
#[test]
fn other_journals() {
    let scripts = [script(&[[YIELD, 0], [LOCK, 1]]), script(&[])].concat();
    let begun = Worked::new(Config::new(2, 2, 1, 2));
    let record = begun.call(2, YIELD, 0).go(2, 1).call(2, YIELD, 0).go(2, 1).record();
    let journal =
        |moves: &[Move]| Worked { config: record.config(), moves: moves.to_vec() }.journal();
    let yields = |p: u8| [[p, YIELD, 0], [p, GO, 0]];
    let next = |moves: &[Move]| {
        let mut journal = journal(moves);
        assert_eq!(script::turn(&record, &mut journal, &scripts, 1).number, 0);
        [journal[12], journal[13], journal[14]]
    };
    assert_eq!(next(&[yields(2), yields(2)].concat()), [1, YIELD, 0]);
    assert_eq!(next(&[yields(1), yields(2)].concat()), [1, LOCK, 1]);
    assert_eq!(next(&[yields(2), yields(1)].concat()), [1, LOCK, 1]);
    assert_eq!(next(&[yields(1), yields(1)].concat()), [1, EXIT, 0]);
    let six = [yields(2), yields(1), yields(1)].concat();
    assert_eq!(next(&six), [1, LOCK, 1]);
    // Moves that are refused, or that give another record.
    let refused_moves = [[1, YIELD, 0], [1, YIELD, 0], [1, GO, 0], [1, YIELD, 0]];
    let other_record = [yields(1), [[2, LOCK, 1], [2, GO, 0]]].concat();
    for moves in [&[], &yields(1)[..], &refused_moves, &other_record] {
        assert_eq!(refused(&record, &journal(moves), &scripts, 1), 16);
    }
    let other = Record { born: 1, ..record };
    assert_eq!(refused(&other, &journal(&six), &scripts, 1), 16);
}
