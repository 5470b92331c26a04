//! The words that moves touch (document 02, No. 4): each line with each outcome and each call, the
//! worked sessions move by move, refused moves, lists, the last standing move; over random sessions
//! that a move changes the word written and no other, and depends on no word but the one read.

use independent::journal::JOURNAL;
use independent::machine::Position::{self, *};
use independent::machine::{
    Config, Life, Move, State, Token, CREATE, EXIT, GO, LOCK, TRYLOCK, UNLOCK, YIELD,
};
use independent::random::{Call, Driver, Generator, Rates, Trail};
use independent::record::Record;
use independent::script::{self, script, SCRIPT};
use independent::session;
use independent::touch::{self, Touch, Word};
use independent::worked::{self, Worked, FILLER};
use std::collections::{BTreeMap, BTreeSet, VecDeque};

/// A line and where it leads, which tells its outcome, or App and where a call leads; then the words.
/// M stands for the mutex, Q for the ready queue that the processor works on, T for the new thread.
const ROWS: [(Position, Position, &str); 43] = [
    (App, L1, "reads none writes none"),
    (App, TL1, "reads none writes none"),
    (App, U1, "reads none writes none"),
    (App, Y1, "reads none writes none"),
    (App, CI2, "reads none writes none"),
    (App, C2, "reads birth T writes birth T"),
    (CI2, CI3, "reads ready Q writes ready Q"),
    (CI2, CI2, "reads ready Q writes none"),
    (CI3, App, "reads none writes none"),
    (L1, App, "reads count M writes count M"),
    (L1, L3, "reads count M writes count M"),
    (L3, L4, "reads none writes none"),
    (L4, L6, "reads queue M writes queue M"),
    (L6, L7, "reads token M writes none"),
    (L6, CI2, "reads token M writes none"),
    (L7, L8, "reads queue M writes none"),
    (L7, CI2, "reads queue M writes none"),
    (L8, L9, "reads token M writes token M"),
    (L8, CI2, "reads token M writes none"),
    (L9, L10, "reads queue M writes queue M"),
    (L10, App, "reads none writes none"),
    (TL1, App, "reads count M writes count M"),
    (TL1, GT1, "reads count M writes none"),
    (GT1, GT3, "reads token M writes none"),
    (GT1, App, "reads token M writes none"),
    (GT3, TL3, "reads token M writes token M"),
    (GT3, App, "reads token M writes none"),
    (TL3, App, "reads count M writes count M"),
    (U1, App, "reads count M writes count M"),
    (U1, H2, "reads count M writes count M"),
    (H2, H3, "reads queue M writes queue M"),
    (H2, H5, "reads queue M writes none"),
    (H3, App, "reads ready Q writes ready Q"),
    (H5, H6, "reads none writes token M"),
    (H6, H8, "reads queue M writes none"),
    (H6, App, "reads queue M writes none"),
    (H8, H2, "reads token M writes token M"),
    (H8, App, "reads token M writes none"),
    (Y1, Y2, "reads ready Q writes none"),
    (Y1, App, "reads ready Q writes none"),
    (Y2, Y3, "reads none writes none"),
    (Y3, CI2, "reads ready Q writes ready Q"),
    (C2, App, "reads ready Q writes ready Q"),
];

/// The rows met, each with how often.
type Met = BTreeMap<(Position, Position), usize>;

/// Makes an accepted move and checks its words by their row.
fn checked(state: &mut State, made: Move, met: &mut Met) -> Touch {
    let (touch, here, queues) = (Touch::of(state, made), *state.processor(made[0]), &state.ready);
    let queue = (usize::from(made[0]) - 1 + usize::from(here.probe)) % queues.len() + 1;
    state.try_move(made).unwrap();
    let next = state.processor(made[0]).position;
    let row = ROWS.iter().find(|row| (row.0, row.1) == (here.position, next)).unwrap();
    let wanted = row.2.replace('M', &here.mutex.to_string());
    let wanted = wanted.replace('Q', &queue.to_string()).replace('T', &made[2].to_string());
    assert_eq!(touch.to_string(), wanted, "{:?} to {next:?}", here.position);
    *met.entry((here.position, next)).or_default() += 1;
    touch
}

/// The session with another number for its only mutex.
fn on_mutex(m: u8, worked: &Worked) -> Worked {
    let with = |&[p, action, operand]: &Move| match action {
        LOCK | TRYLOCK | UNLOCK => [p, action, m],
        _ => [p, action, operand],
    };
    let config = Config { mutexes: m, ..worked.config };
    Worked { config, moves: worked.moves.iter().map(with).collect() }
}

/// What the worked sessions leave out: a yield in vain, a create, and other outcomes of their lines.
fn other_outcomes() -> Worked {
    let first = Worked::new(Config::new(3, 4, 1, 3)).call(2, YIELD, 0).go(2, 1);
    worked::other_outcomes(first.call(3, CREATE, 4).go(3, 1).call(3, YIELD, 0).go(3, 5))
}

#[test]
fn each_line_and_call() {
    for stealing in [0, 1] {
        let mut met = Met::new();
        let exit = Worked::new(Config::new(3, 3, 1, 2)).go(3, 3).call(2, EXIT, 0).go(2, 4);
        for worked in worked::hand_offs().into_iter().chain([other_outcomes(), exit]) {
            for m in 1..=8 {
                let session = on_mutex(m, &worked).with_stealing(stealing);
                let mut state = State::start(session.config);
                for &made in &session.moves {
                    checked(&mut state, made, &mut met);
                }
            }
        }
        let missing: Vec<_> =
            ROWS.iter().filter(|row| !met.contains_key(&(row.0, row.1))).collect();
        assert!(missing.is_empty(), "{missing:?}");
    }
}

/// The words of a session with their marks, `none` for none.
fn told(worked: &Worked) -> Vec<String> {
    let all = touch::of_list(worked.config, &worked.moves.concat()).unwrap();
    let one = |touch: &Touch| match (touch.read, touch.written) {
        (Word::None, Word::None) => "none".to_string(),
        (Word::None, word) | (word, _) => format!("{word}{}", touch.mark(word)),
    };
    all.iter().map(one).collect()
}

#[test]
fn s_k5_k6_k7() {
    // lock, lock, L1, L1, unlock, U1, H2, H5.
    let s = [
        "none",
        "none",
        "count 1 rw",
        "count 1 rw",
        "none",
        "count 1 rw",
        "queue 1 r",
        "token 1 w",
    ];
    assert_eq!(told(&worked::session_s(2)), s);
    assert_eq!(told(&worked::session_s(3)), s);
    // H6; L3, L4, L6, L7, L8, L9, L10.
    let k5 = told(&worked::k5());
    assert_eq!(k5[..8], s);
    assert_eq!(k5[8..10], ["queue 1 r", "none"]);
    assert_eq!(
        k5[10..],
        ["queue 1 rw", "token 1 r", "queue 1 r", "token 1 rw", "queue 1 rw", "none"]
    );
    // L3, L4; H6, H8, H2, H3; L6.
    let k6 = told(&worked::k6());
    assert_eq!(k6[8..10], ["none", "queue 1 rw"]);
    assert_eq!(k6[10..], ["queue 1 r", "token 1 rw", "queue 1 rw", "ready 1 rw", "token 1 r"]);
    let each = told(&worked::k6().with_stealing(1));
    assert_eq!(each, k6);
    // L3, L4; H6; trylock, TL1, GT1, GT3; H8; TL3.
    let k7 = told(&worked::k7());
    assert_eq!(k7[8..12], ["none", "queue 1 rw", "queue 1 r", "none"]);
    assert_eq!(k7[12..], ["count 1 r", "token 1 r", "token 1 rw", "token 1 r", "count 1 rw"]);
    // The last is an L8 that finds a later token.
    assert_eq!(told(&worked::k8()).last().unwrap(), "token 1 r");
}

/// The queue that CI2 tries is the one that its look number gives before the move.
#[test]
fn looks() {
    for p in 1..=3 {
        let [own, next, last] = [p, p % 3 + 1, (p + 1) % 3 + 1].map(|q| format!("ready {q}"));
        let wanted = format!(
            "none,{own} rw,none,none,{own} r,\
             none,{own} r,{next} rw,none,\
             none,{own} r,{next} r,{last} rw,none,\
             none,{own} r,{next} r,{last} r,{own} r,\
             birth 7 rw,{next} rw,{next} rw,none"
        );
        assert_eq!(told(&worked::steals(p)).join(","), wanted);
        let looks = Worked::new(Config::new(8, 8, 1, 1).with_stealing(1)).go(p + 1, 17);
        let round = (p..p + 17).map(|at| format!("ready {} r", at % 8 + 1));
        assert_eq!(told(&looks), round.collect::<Vec<_>>());
        assert_eq!(told(&looks.with_stealing(0)), ["ready 1 r"; 17]);
    }
    // With one processor both choices name one queue.
    let alone = Worked::new(Config::new(1, 2, 1, 2)).call(1, EXIT, 0).go(1, 2).call(1, EXIT, 0);
    let alone = alone.go(1, 2);
    assert_eq!(told(&alone), ["none", "ready 1 rw", "none", "none", "ready 1 r", "ready 1 r"]);
    assert_eq!(told(&alone.clone().with_stealing(1)), told(&alone));
}

/// What joins or looks at a ready queue does so at the processor's own, or at the single one.
#[test]
fn own_queues() {
    let ready = |worked: Worked| -> Vec<String> {
        told(&worked).into_iter().filter(|text| text.starts_with("ready")).collect()
    };
    let each = ["1 r", "1 rw", "1 rw", "2 rw", "2 r", "2 rw", "2 rw", "2 rw", "1 rw"];
    assert_eq!(ready(worked::own_queues()), each.map(|text| format!("ready {text}")));
    let single = worked::own_queues().with_stealing(0);
    let all = told(&single.front(20));
    assert!(all.iter().all(|text| !text.starts_with("ready") || text.starts_with("ready 1 ")));
}

/// Each number of a move: refused, it touches nothing, wherever it is asked.
#[test]
fn refused_moves() {
    let k7 = worked::k7();
    let full = Worked::new(Config::new(2, 1, 1, 1)).go(2, 4_000);
    let away = k7.front(1);
    for (worked, made, number) in [
        (&k7, [0, GO, 0], 2),
        (&k7, [4, GO, 0], 2),
        (&k7, [1, 7, 0], 3),
        (&k7, [1, GO, 1], 3),
        (&k7, [1, CREATE, 4], 3),
        (&away, [1, LOCK, 1], 4),
        (&away, [1, CREATE, 2], 4),
        (&k7, [1, GO, 0], 5),
        (&k7, [1, UNLOCK, 1], 6),
        (&k7, [1, CREATE, 2], 7),
        (&full, [2, GO, 0], 8),
        (&k7, [3, EXIT, 0], 21),
    ] {
        let (record, mut journal) = (worked.record(), worked.journal());
        assert_eq!(Touch::of(&worked.state(), made), Touch::NONE, "{number}");
        let step = session::make_move(&record, &mut journal, made);
        assert_eq!((step.number, step.touch), (number, Touch::NONE));
        let moves = [worked.moves.concat(), made.to_vec()].concat();
        let place = worked.moves.len() as u32 + 1;
        assert_eq!(touch::of_list(worked.config, &moves), Err((number, place)));
    }
    // 15 at a step: no session comes there.
    for (name, record, p) in worked::steps_out_of_rules() {
        assert_eq!(Touch::of(&record.state().unwrap(), [p, GO, 0]), Touch::NONE, "{name}");
    }
}

/// 10, 15, 16 at moves, turns and for the last move; 19 and a call's own number at turns.
#[test]
fn refused_calls() {
    let k7 = worked::k7();
    let (record, journal) = (k7.record(), k7.journal());
    let scripts = script(&[]).repeat(3);
    let mut other = journal.clone();
    other[4] = 7;
    let damaged = Record { born: 0, ..record };
    let short = &journal[..JOURNAL - 1];
    for (record, journal, number) in
        [(&record, short, 10), (&damaged, &journal[..], 15), (&record, &other, 16)]
    {
        let step = session::make_move(record, &mut journal.to_vec(), [1, LOCK, 1]);
        assert_eq!((step.number, step.touch), (number, Touch::NONE));
        let step = script::turn(record, &mut journal.to_vec(), &scripts, 1);
        assert_eq!((step.number, step.touch), (number, Touch::NONE));
        assert_eq!(session::last_touch(record, journal), Touch::NONE);
    }
    let turn = |scripts: &[u8], p| {
        let step = script::turn(&record, &mut journal.clone(), scripts, p);
        (step.number, step.touch)
    };
    assert_eq!(turn(&scripts[1..], 1), (19, Touch::NONE));
    assert_eq!(turn(&scripts, 4), (2, Touch::NONE));
    assert_eq!(turn(&scripts, 3), (21, Touch::NONE));
    assert_eq!(turn(&scripts, 2), (0, Touch::reads(Word::Token(1))));
    assert_eq!(session::last_touch(&record, &journal), Touch::changes(Word::Count(1)));
    let begun = session::start(k7.config).value;
    assert_eq!(session::last_touch(&begun, &journal), Touch::NONE);
}

#[test]
fn bytes_and_names() {
    for (word, bytes, name) in [
        (Word::None, [0, 0], "none"),
        (Word::Count(8), [1, 8], "count 8"),
        (Word::Token(2), [2, 2], "token 2"),
        (Word::Queue(3), [3, 3], "queue 3"),
        (Word::Ready(7), [4, 7], "ready 7"),
        (Word::Birth(32), [5, 32], "birth 32"),
    ] {
        assert_eq!((word.bytes(), word.to_string()), (bytes, name.to_string()));
        let [kind, number] = bytes;
        assert_eq!(Touch::reads(word).bytes(), [kind, number, 0, 0]);
        assert_eq!(Touch::writes(word).bytes(), [0, 0, kind, number]);
        assert_eq!(Touch::changes(word).bytes(), [kind, number, kind, number]);
    }
}

/// No moves, moves left over by one or two bytes, and what comes first.
#[test]
fn lists() {
    let k5 = worked::k5();
    assert_eq!(touch::of_list(k5.config, &[]), Ok(vec![]));
    let moves = k5.moves.concat();
    for left in [1, 2] {
        assert_eq!(touch::of_list(k5.config, &moves[..left]), Err((3, 1)));
        assert_eq!(touch::of_list(k5.config, &moves[..moves.len() - left]), Err((3, 16)));
        let refused = [&moves[..6], &[2, GO, 1], &moves[..left]].concat();
        assert_eq!(touch::of_list(k5.config, &refused), Err((3, 3)));
    }
    let all = touch::of_list(k5.config, &moves).unwrap();
    let bytes = touch::bytes(&all);
    assert_eq!((all.len(), bytes.len()), (16, 64));
    assert_eq!(bytes[8..12], [1, 1, 1, 1]);
    assert_eq!(bytes[28..36], [0, 0, 2, 1, 3, 1, 0, 0]);
}

/// Every word of a state.
fn words(state: &State) -> Vec<Word> {
    let mutexes =
        (1..=state.mutex_count()).flat_map(|m| [Word::Count(m), Word::Token(m), Word::Queue(m)]);
    let ready = (1..=state.ready.len() as u8).map(Word::Ready);
    mutexes.chain(ready).chain((1..=state.thread_count()).map(Word::Birth)).collect()
}

/// What a word holds.
fn value(state: &State, word: Word) -> Vec<u16> {
    let list = |queue: &VecDeque<u8>| queue.iter().map(|&k| u16::from(k)).collect();
    match word {
        Word::None => vec![],
        Word::Count(m) => vec![u16::from(state.mutex(m).count)],
        Word::Token(m) => {
            let token = state.mutex(m).token;
            vec![u16::from(token.processor), token.sequence]
        }
        Word::Queue(m) => list(&state.mutex(m).queue),
        Word::Ready(q) => list(&state.ready[usize::from(q) - 1]),
        Word::Birth(k) => vec![u16::from(state.life(k) != Life::Unborn)],
    }
}

/// Gives a word another value, whether a session leads there or not.
fn spoil(state: &mut State, word: Word) {
    let change = |queue: &mut VecDeque<u8>| match queue.pop_front() {
        None => queue.push_back(1),
        Some(_) => queue.clear(),
    };
    match word {
        Word::None => {}
        Word::Count(m) => {
            let count = &mut state.mutexes[usize::from(m) - 1].count;
            *count = if *count == 0 { 1 } else { 0 };
        }
        Word::Token(m) => {
            let token = &mut state.mutexes[usize::from(m) - 1].token;
            *token = match *token {
                Token::NONE => Token { processor: 1, sequence: 3_999 },
                _ => Token::NONE,
            };
        }
        Word::Queue(m) => change(&mut state.mutexes[usize::from(m) - 1].queue),
        Word::Ready(q) => change(&mut state.ready[usize::from(q) - 1]),
        Word::Birth(k) => {
            let life = &mut state.lives[usize::from(k) - 1];
            *life = if *life == Life::Unborn { Life::Alive } else { Life::Unborn };
        }
    }
}

/// The written word alone changes; with all words but the one read changed before, the processors,
/// the owners and the words named are the same.
fn check_laws(before: &State, made: Move, touch: Touch, after: &State) {
    let all = words(before);
    for &word in &all {
        let changed = value(before, word) != value(after, word);
        assert_eq!(changed, word == touch.written, "{made:?}: {word}");
    }
    assert!(touch.read == Word::None || all.contains(&touch.read));
    let mut other = before.clone();
    all.iter().filter(|&&word| word != touch.read).for_each(|&word| spoil(&mut other, word));
    assert_eq!(Touch::of(&other, made), touch);
    other.try_move(made).unwrap();
    assert_eq!(other.processors, after.processors);
    let owners = |state: &State| state.mutexes.iter().map(|mutex| mutex.owner).collect::<Vec<_>>();
    assert_eq!(owners(&other), owners(after));
}

/// A random session of calls on a record and its journal, with the words of its kept moves.
struct Driven {
    trail: Trail,
    touches: Vec<Touch>,
    record: Record,
    journal: Vec<u8>,
}

impl Driven {
    fn new(config: Config) -> Driven {
        Driven {
            trail: Trail::new(config),
            touches: vec![],
            record: session::start(config).value,
            journal: vec![FILLER; JOURNAL],
        }
    }

    /// The words of the moves that stand.
    fn standing(&self) -> &[Touch] {
        &self.touches[..usize::from(self.trail.state().applied)]
    }

    /// The moves that stand.
    fn moves(&self) -> Vec<u8> {
        self.trail.moves[..self.standing().len()].concat()
    }

    /// The number of a move or, where it is a go, of a turn.
    fn make(&mut self, made: Move, by_turn: bool, met: &mut Met) -> u8 {
        let before = self.trail.state().clone();
        let scripts = [0; 32 * SCRIPT];
        let step = if by_turn && made[1] == GO && before.cause(made).is_none() {
            script::turn(&self.record, &mut self.journal, &scripts, made[0])
        } else {
            session::make_move(&self.record, &mut self.journal, made)
        };
        assert_eq!(step.touch, Touch::of(&before, made));
        if step.number != 0 {
            assert_eq!(step.touch, Touch::NONE);
            let refused = [&self.moves()[..], &made].concat();
            let place = self.standing().len() as u32 + 1;
            let list = touch::of_list(self.record.config(), &refused);
            assert_eq!(list, Err((step.number, place)));
            return step.number;
        }
        let mut after = before.clone();
        assert_eq!(checked(&mut after, made, met), step.touch);
        check_laws(&before, made, step.touch, &after);
        self.record = step.value;
        self.touches.truncate(self.standing().len());
        self.touches.push(step.touch);
        self.trail.call(Call::Move(made))
    }

    /// The words that are kept are those of a going forward too.
    fn goto(&mut self, step: u16) {
        let answer = session::goto(&self.record, &self.journal, step.into());
        assert_eq!(answer.number, self.trail.call(Call::Goto(step)));
        self.record = answer.value;
    }

    /// What the last move touched is known from the journal.
    fn check_last(&self) {
        let last = self.standing().last().copied().unwrap_or(Touch::NONE);
        assert_eq!(session::last_touch(&self.record, &self.journal), last);
    }
}

/// Random sessions of both choices reach every row, have all numbers that need no long session, and
/// keep the laws.
#[test]
fn random_sessions() {
    let (mut met, mut numbers) = (Met::new(), BTreeSet::new());
    let few = [(3, 3, 1), (4, 4, 1), (4, 4, 2), (5, 6, 1)];
    for seed in 0..64 {
        let rates = Rates { refused: 12, back: 90, goto: 60, owner_exits: 30 };
        let mut driver = Driver::new(seed, rates);
        let (p, t, m) = few[seed as usize / 2 % 4];
        let any = driver.generator.config();
        let config = if seed < 32 { Config::new(p, t, m, t) } else { any };
        let mut session = Driven::new(config.with_stealing((seed % 2) as u8));
        for _ in 0..500 {
            match driver.next_call(session.trail.state(), session.trail.kept()) {
                Call::Goto(step) => session.goto(step),
                Call::Move(made) => {
                    let by_turn = driver.generator.once_in(3);
                    numbers.insert(session.make(made, by_turn, &mut met));
                }
            }
            if driver.generator.once_in(4) {
                session.check_last();
            }
        }
        let list = touch::of_list(session.record.config(), &session.moves());
        assert_eq!(list, Ok(session.standing().to_vec()));
    }
    for (line, next, _) in ROWS {
        assert!(met.contains_key(&(line, next)), "{line:?} to {next:?}");
    }
    assert_eq!(met.len(), ROWS.len());
    assert!(numbers.into_iter().eq([0, 2, 3, 4, 5, 6, 7, 21]));
}

/// Turns, which make calls too, name the words of their moves.
#[test]
fn random_turns() {
    for seed in 0..60 {
        let mut generator = Generator::new(seed);
        let config = generator.config().with_stealing((seed % 2) as u8);
        let scripts = generator.scripts(config);
        let mut record = script::start(config, &scripts).value;
        let (mut journal, mut touches) = (vec![FILLER; JOURNAL], vec![]);
        for p in generator.turns(config, 200) {
            let step = script::turn(&record, &mut journal, &scripts, p);
            if step.number == 0 {
                touches.push(step.touch);
            } else {
                assert_eq!(step.touch, Touch::NONE);
            }
            record = step.value;
            let last = touches.last().copied().unwrap_or(Touch::NONE);
            assert_eq!(session::last_touch(&record, &journal), last);
        }
        let front = session::front(&record, &journal).value;
        assert_eq!(touch::of_list(config, front), Ok(touches));
    }
}
