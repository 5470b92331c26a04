//! What `view` and `chart` show: tables as they must be to the byte, and over random sessions that
//! a state and the words touched can be read back from a view, the moves and queues from their chart.

use independent::chart::chart;
use independent::course::run;
use independent::lines::number;
use independent::machine::{
    Config, Life, Move, Mutex, Position, Processor, State, Token, CREATE, EXIT, GO, LOCK, TRYLOCK,
    UNLOCK, YIELD,
};
use independent::random::{Driver, Rates};
use independent::random_course::{self, ANY_STEP};
use independent::touch::{Touch, Word};
use independent::view::view;
use independent::worked::{self, Worked};
use std::collections::{BTreeSet, VecDeque};

#[test]
fn view_of_k5() {
    let k5 = worked::k5().front(13);
    assert_eq!(
        view(&k5.state(), Touch::reads(Word::Queue(1))),
        "\
moves 13
processor  line  current  transit  mutex  observed  sequence  answer  probe
1          App   1        -        -      -         1         none    0
2          L8    -        -        1      (1,1)     0         none    0
mutex  count  owner  token       queue
1      1      -      (1,1)       2 r
ready queue  threads
single       -
status      threads
new         -
ready       -
waiting     2
current     1
transit     -
terminated  -
"
    );
}

/// A ready queue for each processor, answers, a look number, long lists and wide entries.
#[test]
fn view_of_ready_queues() {
    let mut state = State::start(Config::new(3, 32, 2, 12).with_stealing(1));
    state.applied = 4_000;
    state.processors[1].answer = 1;
    state.processors[2] = Processor {
        position: Position::GT3,
        current: 3,
        transit: 0,
        mutex: 2,
        observed: Token { processor: 8, sequence: 4_000 },
        sequence: 4_000,
        answer: 2,
        probe: 0,
    };
    state.processors[0].position = Position::CI2;
    state.processors[0].current = 0;
    state.processors[0].probe = 2;
    state.lives[0] = Life::Ended;
    state.ready[1].clear();
    state.mutexes[1] = Mutex {
        count: 33,
        queue: VecDeque::from([11, 5, 8]),
        owner: 10,
        token: Token { processor: 3, sequence: 4_000 },
    };
    assert_eq!(
        view(&state, Touch::NONE),
        "\
moves 4000
processor  line  current  transit  mutex  observed  sequence  answer  probe
1          CI2   -        -        -      -         0         none    2
2          App   2        -        -      -         0         true    0
3          GT3   3        -        2      (8,4000)  4000      false   0
mutex  count  owner  token       queue
1      0      -      -           -
2      33     10     (3,4000)    11 5 8
ready queue  threads
1            4 7 10
2            -
3            6 9 12
status      threads
new         13 14 15 16 17 18 19 20 21 22 23 24 25 26 27 28 29 30 31 32
ready       4 6 7 9 10 12
waiting     5 8 11
current     2 3
transit     -
terminated  1
"
    );
}

/// The one row that differs where a move has touched a word.
fn marked(state: &State, touch: Touch) -> String {
    let (plain, marked) = (view(state, Touch::NONE), view(state, touch));
    let differs = |(one, other): &(&str, &str)| one != other;
    let rows: Vec<_> = plain.lines().zip(marked.lines()).filter(differs).collect();
    assert_eq!((rows.len(), plain.lines().count()), (1, marked.lines().count()), "{marked}");
    rows[0].1.to_string()
}

/// Each word with each mark, to the byte; columns and other rows stay.
#[test]
fn view_of_touched_words() {
    let mut state = State::start(Config::new(2, 6, 2, 5));
    state.processors[1].current = 0;
    state.processors[1].position = Position::CI2;
    state.mutexes[0] =
        Mutex { count: 2, queue: VecDeque::from([2, 3]), owner: 1, token: Token::NONE };
    state.ready[0] = VecDeque::from([5, 4]);
    for (touch, row) in [
        (Touch::changes(Word::Count(1)), "1      2 rw   1      -           2 3"),
        (Touch::reads(Word::Count(1)), "1      2 r    1      -           2 3"),
        (Touch::changes(Word::Token(1)), "1      2      1      - rw        2 3"),
        (Touch::reads(Word::Token(1)), "1      2      1      - r         2 3"),
        (Touch::writes(Word::Token(1)), "1      2      1      - w         2 3"),
        (Touch::changes(Word::Queue(1)), "1      2      1      -           2 3 rw"),
        (Touch::reads(Word::Queue(1)), "1      2      1      -           2 3 r"),
        (Touch::reads(Word::Queue(2)), "2      0      -      -           - r"),
        (Touch::changes(Word::Queue(2)), "2      0      -      -           - rw"),
        (Touch::changes(Word::Ready(1)), "single       5 4 rw"),
        (Touch::reads(Word::Ready(1)), "single       5 4 r"),
        (Touch::changes(Word::Birth(6)), "new         6 rw"),
        (Touch::changes(Word::Birth(2)), "waiting     2 rw 3"),
        (Touch::changes(Word::Birth(4)), "ready       4 rw 5"),
    ] {
        assert_eq!(marked(&state, touch), row);
    }
    state.mutexes[0].token = Token { processor: 2, sequence: 3_999 };
    let row = "1      2      1      (2,3999) w  2 3";
    assert_eq!(marked(&state, Touch::writes(Word::Token(1))), row);
    state.mutexes[0].count = 33;
    let row = "1      33 rw  1      (2,3999)    2 3";
    assert_eq!(marked(&state, Touch::changes(Word::Count(1))), row);
    state.stealing = 1;
    state.ready.push(VecDeque::new());
    assert_eq!(marked(&state, Touch::reads(Word::Ready(2))), "2            - r");
    assert_eq!(marked(&state, Touch::changes(Word::Ready(1))), "1            5 4 rw");
}

#[test]
fn chart_of_k5() {
    let k5 = worked::k5();
    assert_eq!(
        chart(k5.config, &k5.moves),
        "\
move  1          2          changes
1     lock 1
2                lock 1
3     L1                    owner 1: 1
4                L1
5     unlock 1
6     U1                    owner 1: -
7     H2
8     H5                    token 1: (1,1)
9     H6
10               L3
11               L4         queue 1: +2
12               L6
13               L7
14               L8         token 1: -
15               L9         owner 1: 2  queue 1: -2
16               L10
"
    );
}

/// A trylock that takes a token, and every call's name.
#[test]
fn chart_of_calls() {
    let k7 = worked::k7();
    let moves = Worked { config: Config { threads: 32, ..k7.config }, ..k7.clone() };
    let moves = moves.call(1, CREATE, 32).go(1, 1).call(1, YIELD, 0).go(1, 5).call(1, EXIT, 0);
    let chart = chart(moves.config, &moves.moves);
    let last: Vec<&str> = chart.lines().skip(9).collect();
    assert_eq!(
        last.join("\n"),
        "\
9                L3
10               L4                    queue 1: +2
11    H6
12                          trylock 1
13                          TL1
14                          GT1
15                          GT3        owner 1: 3  token 1: -
16    H8
17                          TL3
18    create 32
19    C2                               ready: +32
20    yield
21    Y1
22    Y2
23    Y3                               ready: +1
24    CI2                              ready: -32
25    CI3
26    exit"
    );
}

/// Ready queues are named by their processors; nothing changes at an empty one.
#[test]
fn chart_of_stealing() {
    let steals = worked::steals(2);
    assert_eq!(
        chart(steals.config, &steals.moves[..18]),
        "\
move  1          2          3          changes
1                exit
2                CI2                   ready 2: -5
3                CI3
4                yield
5                Y1
6                exit
7                CI2
8                CI2                   ready 3: -6
9                CI3
10               exit
11               CI2
12               CI2
13               CI2                   ready 1: -4
14               CI3
15               exit
16               CI2
17               CI2
18               CI2
"
    );
}

#[test]
fn no_moves() {
    for (processors, heading) in [
        (1, "move  1          changes\n"),
        (4, "move  1          2          3          4          changes\n"),
    ] {
        assert_eq!(chart(Config::new(processors, 1, 1, 1), &[]), heading);
    }
    assert_eq!(run(b"start 1 1 1 1\nchart"), "0\nmove  1          changes\n\n");
    // A step back takes its row away.
    assert_eq!(
        run(b"start 1 1 1 1\nmove 1 4 0\ngoto 0\nchart"),
        "0\n0 reads none writes none\n0\nmove  1          changes\n\n"
    );
}

/// Both end with an empty line and have no other; no line ends in a space.
fn is_tidy(text: &str) -> bool {
    text.ends_with("\n\n")
        && text.trim_end_matches('\n').len() + 2 == text.len()
        && !text.trim_end().contains("\n\n")
        && !text.contains(" \n")
        && text.bytes().all(|byte| byte == b'\n' || (b' '..=b'~').contains(&byte))
}

#[test]
fn help_is_tidy() {
    assert!(is_tidy(&run(b"help")));
}

/// A number, 0 for `-`.
fn or_none(word: &str) -> u8 {
    match word {
        "-" => 0,
        _ => number(word.as_bytes()).filter(|&value| value != 0).expect("a number"),
    }
}

fn token(word: &str) -> Token {
    if word == "-" {
        return Token::NONE;
    }
    let inner = word.strip_prefix('(').and_then(|rest| rest.strip_suffix(')')).expect("brackets");
    let (processor, sequence) = inner.split_once(',').expect("a comma");
    Token { processor: or_none(processor), sequence: sequence.parse().unwrap() }
}

const MARKS: [&str; 3] = ["r", "w", "rw"];

/// A value and its mark, which may be missing.
fn parted(cell: &str) -> (&str, &str) {
    let last = cell.rsplit_once(' ').filter(|(_, mark)| MARKS.contains(mark));
    last.unwrap_or((cell, ""))
}

/// Threads without their marks.
fn threads(words: &str) -> VecDeque<u8> {
    let words = words.split(' ').filter(|word| !MARKS.contains(word));
    words.filter(|&word| word != "-").map(or_none).collect()
}

fn position(name: &str) -> Position {
    Position::ALL.into_iter().find(|line| line.name() == name).expect("a line's name")
}

/// The rows under a heading up to the next one: first words and the rest of each.
fn rows<'a>(view: &'a str, heading: &str, next: &str) -> Vec<&'a str> {
    let lines = view.lines().skip_while(|line| !line.starts_with(heading)).skip(1);
    lines.take_while(|line| next.is_empty() || !line.starts_with(next)).collect()
}

fn cut(row: &str, widths: &[usize]) -> Vec<String> {
    let mut left = row;
    let mut cells = Vec::new();
    for &width in widths {
        let (cell, rest) = left.split_at(width);
        assert!(cell.ends_with("  "), "{row:?}");
        cells.push(cell.trim_end().to_string());
        left = rest;
    }
    cells.push(left.to_string());
    cells
}

/// The widths of the mutexes' columns.
const MUTEX: [usize; 4] = [7, 7, 7, 12];

/// The state that a view tells.
fn state_of(view: &str) -> State {
    let applied = view.lines().next().and_then(|line| line.strip_prefix("moves ")).unwrap();
    let processors = rows(view, "processor  ", "mutex  ").into_iter().map(|row| {
        let cells = cut(row, &[11, 6, 9, 9, 7, 10, 10, 8]);
        Processor {
            position: position(&cells[1]),
            current: or_none(&cells[2]),
            transit: or_none(&cells[3]),
            mutex: or_none(&cells[4]),
            observed: token(&cells[5]),
            sequence: cells[6].parse().unwrap(),
            answer: ["none", "true", "false"].iter().position(|word| *word == cells[7]).unwrap()
                as u8,
            probe: cells[8].parse().unwrap(),
        }
    });
    let mutexes = rows(view, "mutex  ", "ready queue  ").into_iter().map(|row| {
        let cells = cut(row, &MUTEX);
        Mutex {
            count: parted(&cells[1]).0.parse().unwrap(),
            queue: threads(&cells[4]),
            owner: or_none(&cells[2]),
            token: token(parted(&cells[3]).0),
        }
    });
    let ready: Vec<Vec<String>> =
        rows(view, "ready queue  ", "status  ").into_iter().map(|row| cut(row, &[13])).collect();
    State {
        processors: processors.collect(),
        mutexes: mutexes.collect(),
        lives: lives(view),
        stealing: u8::from(ready[0][0] != "single"),
        ready: ready.iter().map(|cells| threads(&cells[1])).collect(),
        applied: applied.parse().unwrap(),
    }
}

/// The words that a view marks, each with its mark.
fn marks_of(view: &str) -> Vec<(Word, String)> {
    let mut all = Vec::new();
    for (m, row) in (1..).zip(rows(view, "mutex  ", "ready queue  ")) {
        let cells = cut(row, &MUTEX);
        all.push((Word::Count(m), parted(&cells[1]).1.to_string()));
        all.push((Word::Token(m), parted(&cells[3]).1.to_string()));
        all.push((Word::Queue(m), parted(&cells[4]).1.to_string()));
    }
    for (p, row) in (1..).zip(rows(view, "ready queue  ", "status  ")) {
        all.push((Word::Ready(p), parted(&cut(row, &[13])[1]).1.to_string()));
    }
    for row in rows(view, "status  ", "") {
        let cells = cut(row, &[12]);
        let words: Vec<&str> = cells[1].split(' ').collect();
        for pair in words.windows(2).filter(|pair| MARKS.contains(&pair[1])) {
            all.push((Word::Birth(or_none(pair[0])), pair[1].to_string()));
        }
    }
    all.retain(|(_, mark)| !mark.is_empty());
    all
}

/// The marks that a view must have.
fn marks(touch: Touch) -> Vec<(Word, String)> {
    match (touch.read, touch.written) {
        (Word::None, Word::None) => vec![],
        (read, Word::None) => vec![(read, "r".to_string())],
        (Word::None, written) => vec![(written, "w".to_string())],
        (read, written) => {
            assert_eq!(read, written);
            vec![(read, "rw".to_string())]
        }
    }
}

/// The threads of each status.
fn by_status(view: &str) -> Vec<VecDeque<u8>> {
    rows(view, "status  ", "").iter().map(|row| threads(&cut(row, &[12])[1])).collect()
}

fn lives(view: &str) -> Vec<Life> {
    let statuses = by_status(view);
    let life = |thread: u8| match statuses.iter().position(|list| list.contains(&thread)) {
        Some(0) => Life::Unborn,
        Some(5) => Life::Ended,
        _ => Life::Alive,
    };
    (1..=statuses.iter().map(VecDeque::len).sum::<usize>() as u8).map(life).collect()
}

/// Statuses list all threads in order, each once, and agree with queues and registers.
fn check_statuses(view: &str, state: &State) {
    let statuses = by_status(view);
    let sorted = |mut all: Vec<u8>| {
        all.retain(|&thread| thread != 0);
        all.sort();
        all
    };
    let here = &state.processors;
    let waiting = state.mutexes.iter().flat_map(|mutex| mutex.queue.iter().copied());
    assert_eq!(statuses[1], sorted(state.ready.iter().flatten().copied().collect()));
    assert_eq!(statuses[2], sorted(waiting.collect()));
    assert_eq!(statuses[3], sorted(here.iter().map(|here| here.current).collect()));
    assert_eq!(statuses[4], sorted(here.iter().map(|here| here.transit).collect()));
    let all: Vec<u8> = statuses.iter().flatten().copied().collect();
    assert!(sorted(all).into_iter().eq(1..=state.thread_count()));
    assert!(statuses.iter().all(|list| list.iter().zip(list.iter().skip(1)).all(|(a, b)| a < b)));
}

/// The move of a row's cell, given the state before it.
fn move_of(p: u8, cell: &str, state: &State) -> Move {
    let (name, operand) = cell.split_once(' ').unwrap_or((cell, "0"));
    let action = match name {
        "lock" => LOCK,
        "trylock" => TRYLOCK,
        "unlock" => UNLOCK,
        "yield" => YIELD,
        "exit" => EXIT,
        "create" => CREATE,
        _ => {
            assert_eq!(state.processor(p).position, position(name));
            GO
        }
    };
    [p, action, operand.parse().unwrap()]
}

/// Makes a row's change to owners, tokens and queues: who joins is the last, who leaves was first.
fn change(state: &mut State, change: &str) {
    let (place, value) = change.split_once(": ").unwrap();
    let (kind, at) = place.split_once(' ').unwrap_or((place, "1"));
    let at = usize::from(or_none(at)) - 1;
    match kind {
        "owner" => state.mutexes[at].owner = or_none(value),
        "token" => state.mutexes[at].token = token(value),
        _ => {
            let queue = match kind {
                "queue" => &mut state.mutexes[at].queue,
                _ => &mut state.ready[at],
            };
            let thread = or_none(&value[1..]);
            match value.as_bytes()[0] {
                b'+' => queue.push_back(thread),
                _ => assert_eq!(queue.pop_front(), Some(thread)),
            }
        }
    }
}

/// From a chart the moves, each of which makes exactly the changes of its row.
fn moves_of(config: Config, chart: &str) -> Vec<Move> {
    let mut state = State::start(config);
    let mut moves = Vec::new();
    let edge = 6 + 11 * usize::from(config.processors);
    for (number, row) in (1..).zip(chart.lines().skip(1)) {
        let (cells, changes) = row.split_at(edge.min(row.len()));
        assert_eq!(cells[..6], format!("{number:<6}"));
        let p = (cells[6..].len() - cells[6..].trim_start().len()) / 11 + 1;
        let cell = cells[6..].trim();
        assert!(cells.starts_with(&format!(
            "{number:<6}{:indent$}{cell}",
            "",
            indent = 11 * (p - 1)
        )));
        let made = move_of(p as u8, cell, &state);
        let mut told = state.clone();
        let changes: Vec<&str> = changes.split("  ").filter(|text| !text.is_empty()).collect();
        assert!(changes.len() <= 4 && (row.len() <= edge) == changes.is_empty());
        changes.iter().for_each(|text| change(&mut told, text));
        state.try_move(made).unwrap();
        assert_eq!(told.ready, state.ready);
        for (one, other) in told.mutexes.iter().zip(&state.mutexes) {
            assert_eq!(
                (one.owner, one.token, &one.queue),
                (other.owner, other.token, &other.queue)
            );
        }
        moves.push(made);
    }
    moves
}

/// The moves of a random session, and its view checked on the way.
fn random_moves(driver: &mut Driver, config: Config) -> Vec<Move> {
    let (mut state, mut touch) = (State::start(config), Touch::NONE);
    let mut moves = Vec::new();
    for count in 0..400 {
        if count % 5 == 0 {
            let view = view(&state, touch);
            assert!(is_tidy(&(view.clone() + "\n")), "{view}");
            assert_eq!(state_of(&view), state);
            assert_eq!(marks_of(&view), marks(touch));
            check_statuses(&view, &state);
        }
        let made = driver.likely_move(&state);
        touch = Touch::of(&state, made);
        state.try_move(made).unwrap();
        moves.push(made);
    }
    moves
}

/// Over random sessions: view and chart tell all, are tidy, and 80 columns do for 4 processors.
#[test]
fn random_sessions() {
    let (mut cells, mut widest) = (BTreeSet::new(), 0);
    for seed in 0..150 {
        let mut driver = Driver::new(seed, Rates::ACCEPTED);
        let config = driver.generator.config().with_stealing((seed % 2) as u8);
        let moves = random_moves(&mut driver, config);
        let chart = chart(config, &moves);
        assert!(is_tidy(&(chart.clone() + "\n")), "{chart}");
        assert_eq!(moves_of(config, &chart), moves);
        let rows = chart.lines().skip(1);
        if config.processors <= 4 {
            widest = widest.max(rows.clone().map(str::len).max().unwrap());
        }
        cells.extend(rows.filter_map(|row| row.split_whitespace().nth(1)).map(str::to_string));
    }
    println!("at most {widest} columns");
    assert!(widest <= 80);
    // All lines but App, and six calls.
    assert_eq!(cells.len(), 24 + 6);
}

/// Of whole random inputs of the program: no line ends in a space, whatever was asked.
#[test]
fn random_inputs() {
    for seed in 0..100 {
        let output = run(&random_course::viewed(seed, 250, ANY_STEP));
        assert!(!output.contains(" \n") && !output.contains("\n\n\n"));
    }
}
