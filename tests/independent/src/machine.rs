//! The machine: its state with plain queues, the start, why a move is refused, the lines.

use std::collections::VecDeque;
use std::mem::take;

/// Most processors, threads, mutexes, applied moves (and highest sequence).
pub const MOST_PROCESSORS: u8 = 8;
pub const MOST_THREADS: u8 = 32;
pub const MOST_MUTEXES: u8 = 8;
pub const MOST_MOVES: u16 = 4_000;

/// Actions of a move.
pub const GO: u8 = 0;
pub const LOCK: u8 = 1;
pub const TRYLOCK: u8 = 2;
pub const UNLOCK: u8 = 3;
pub const YIELD: u8 = 4;
pub const EXIT: u8 = 5;
pub const CREATE: u8 = 6;

/// Processor, action, operand.
pub type Move = [u8; 3];

/// The start table.
#[derive(Clone, Copy, PartialEq, Eq, Debug)]
pub struct Config {
    pub processors: u8,
    pub threads: u8,
    pub mutexes: u8,
    pub born: u8,
    /// 0 for a single ready queue, 1 for one for each processor.
    pub stealing: u8,
}

impl Config {
    /// With a single ready queue.
    pub const fn new(processors: u8, threads: u8, mutexes: u8, born: u8) -> Self {
        Config { processors, threads, mutexes, born, stealing: 0 }
    }

    pub const fn with_stealing(self, stealing: u8) -> Self {
        Config { stealing, ..self }
    }

    pub fn in_range(self) -> bool {
        sizes_in_range(self.processors, self.threads, self.mutexes)
            && (1..=self.threads).contains(&self.born)
            && self.stealing <= 1
    }
}

pub fn sizes_in_range(processors: u8, threads: u8, mutexes: u8) -> bool {
    (1..=MOST_PROCESSORS).contains(&processors)
        && (1..=MOST_THREADS).contains(&threads)
        && (1..=MOST_MUTEXES).contains(&mutexes)
}

/// The lines a processor can be at, in the order of their numbers.
#[derive(Clone, Copy, PartialEq, Eq, PartialOrd, Ord, Hash, Debug)]
#[repr(u8)]
pub enum Position {
    App,
    CI2,
    CI3,
    L1,
    L3,
    L4,
    L6,
    L7,
    L8,
    L9,
    L10,
    TL1,
    GT1,
    GT3,
    TL3,
    U1,
    H2,
    H3,
    H5,
    H6,
    H8,
    Y1,
    Y2,
    Y3,
    C2,
}

use Position::*;

impl Position {
    pub const ALL: [Position; 25] = [
        App, CI2, CI3, L1, L3, L4, L6, L7, L8, L9, L10, TL1, GT1, GT3, TL3, U1, H2, H3, H5, H6, H8,
        Y1, Y2, Y3, C2,
    ];

    pub fn number(self) -> u8 {
        self as u8
    }

    pub fn from_number(number: u8) -> Option<Position> {
        Position::ALL.get(usize::from(number)).copied()
    }

    /// The line's name.
    pub fn name(self) -> String {
        format!("{self:?}")
    }

    /// Whether the current thread is nonzero here.
    pub fn has_current(self) -> bool {
        !matches!(self, CI2 | CI3 | L4 | L6 | L7 | L8 | L9 | L10 | Y3)
    }

    /// Whether the thread in transit is nonzero here.
    pub fn has_transit(self) -> bool {
        matches!(self, CI3 | L4 | L10 | H3 | Y3 | C2)
    }

    /// Whether the mutex is nonzero here.
    pub fn has_mutex(self) -> bool {
        matches!(
            self,
            L1 | L3
                | L4
                | L6
                | L7
                | L8
                | L9
                | L10
                | TL1
                | GT1
                | GT3
                | TL3
                | U1
                | H2
                | H3
                | H5
                | H6
                | H8
        )
    }

    /// Whether the observed token is not none here.
    pub fn has_observed(self) -> bool {
        matches!(self, L7 | L8 | GT3)
    }
}

/// A processor and a sequence; (0, 0) is none.
#[derive(Clone, Copy, PartialEq, Eq, Debug, Default)]
pub struct Token {
    pub processor: u8,
    pub sequence: u16,
}

impl Token {
    pub const NONE: Token = Token { processor: 0, sequence: 0 };
}

#[derive(Clone, Copy, PartialEq, Eq, Debug)]
pub struct Processor {
    pub position: Position,
    pub current: u8,
    pub transit: u8,
    pub mutex: u8,
    pub observed: Token,
    pub sequence: u16,
    /// 0 none, 1 true, 2 false.
    pub answer: u8,
    /// How many places after its own the ready queue is that CI2 tries next.
    pub probe: u8,
}

#[derive(Clone, PartialEq, Eq, Debug, Default)]
pub struct Mutex {
    pub count: u8,
    pub queue: VecDeque<u8>,
    pub owner: u8,
    pub token: Token,
}

/// Whether a thread is yet to be created, runs or waits somewhere, or has exited.
#[derive(Clone, Copy, PartialEq, Eq, Debug)]
pub enum Life {
    Unborn,
    Alive,
    Ended,
}

/// The state. Tables are indexed from 0, their entries are numbered from 1.
#[derive(Clone, PartialEq, Eq, Debug)]
pub struct State {
    pub processors: Vec<Processor>,
    pub mutexes: Vec<Mutex>,
    pub lives: Vec<Life>,
    /// 0: `ready` has one queue; 1: one for each processor.
    pub stealing: u8,
    pub ready: Vec<VecDeque<u8>>,
    pub applied: u16,
}

fn index(number: u8) -> usize {
    usize::from(number) - 1
}

impl State {
    /// The start state of a table within its ranges.
    pub fn start(config: Config) -> State {
        assert!(config.in_range());
        let processor = |p: u8| Processor {
            position: if p <= config.born { App } else { CI2 },
            current: if p <= config.born { p } else { 0 },
            transit: 0,
            mutex: 0,
            observed: Token::NONE,
            sequence: 0,
            answer: 0,
            probe: 0,
        };
        let queues = if config.stealing == 0 { 1 } else { usize::from(config.processors) };
        let mut ready = vec![VecDeque::new(); queues];
        for thread in config.processors + 1..=config.born {
            ready[index(thread) % queues].push_back(thread);
        }
        let life = |t: u8| if t <= config.born { Life::Alive } else { Life::Unborn };
        State {
            processors: (1..=config.processors).map(processor).collect(),
            mutexes: vec![Mutex::default(); usize::from(config.mutexes)],
            lives: (1..=config.threads).map(life).collect(),
            stealing: config.stealing,
            ready,
            applied: 0,
        }
    }

    pub fn processor_count(&self) -> u8 {
        self.processors.len() as u8
    }

    pub fn thread_count(&self) -> u8 {
        self.lives.len() as u8
    }

    pub fn mutex_count(&self) -> u8 {
        self.mutexes.len() as u8
    }

    pub fn processor(&self, p: u8) -> &Processor {
        &self.processors[index(p)]
    }

    pub fn mutex(&self, m: u8) -> &Mutex {
        &self.mutexes[index(m)]
    }

    pub fn life(&self, t: u8) -> Life {
        self.lives[index(t)]
    }

    /// Whether no ready queue has a thread.
    pub fn none_ready(&self) -> bool {
        self.ready.iter().all(VecDeque::is_empty)
    }

    /// The index of processor p's own ready queue.
    fn own(&self, p: u8) -> usize {
        if self.stealing == 0 {
            0
        } else {
            index(p)
        }
    }

    fn mutex_mut(&mut self, m: u8) -> &mut Mutex {
        &mut self.mutexes[index(m)]
    }

    /// The first cause to refuse a move, in the order 2, 3, 8, 4 or 5, then 6, 7 or 21, 15 (step).
    pub fn cause(&self, [p, action, operand]: Move) -> Option<u8> {
        if !(1..=self.processor_count()).contains(&p) {
            return Some(2);
        }
        if !self.operand_fits(action, operand) {
            return Some(3);
        }
        if self.applied >= MOST_MOVES {
            return Some(8);
        }
        let here = self.processor(p);
        if action != GO && here.position != App {
            return Some(4);
        }
        if action == GO && here.position == App {
            return Some(5);
        }
        if action == UNLOCK && self.mutex(operand).owner != here.current {
            return Some(6);
        }
        if action == CREATE && self.life(operand) != Life::Unborn {
            return Some(7);
        }
        if action == EXIT && self.owns_any(here.current) {
            return Some(21);
        }
        if action == GO && self.line_leaves_rules(p) {
            return Some(15);
        }
        None
    }

    pub fn owns_any(&self, thread: u8) -> bool {
        self.mutexes.iter().any(|mutex| mutex.owner == thread)
    }

    /// False for an action over 6 as well.
    fn operand_fits(&self, action: u8, operand: u8) -> bool {
        match action {
            GO | YIELD | EXIT => operand == 0,
            LOCK | TRYLOCK | UNLOCK => (1..=self.mutex_count()).contains(&operand),
            CREATE => (1..=self.thread_count()).contains(&operand),
            _ => false,
        }
    }

    /// Whether a count or a sequence would leave its range, or L9 finds an empty queue.
    fn line_leaves_rules(&self, p: u8) -> bool {
        let here = self.processor(p);
        let most_count = self.thread_count() + 1;
        match here.position {
            L1 | TL3 => self.mutex(here.mutex).count >= most_count,
            U1 => self.mutex(here.mutex).count == 0,
            H5 => here.sequence >= MOST_MOVES,
            L9 => self.mutex(here.mutex).queue.is_empty(),
            _ => false,
        }
    }

    /// Makes a move, or leaves the state and gives the refusal.
    pub fn try_move(&mut self, made: Move) -> Result<(), u8> {
        if let Some(number) = self.cause(made) {
            return Err(number);
        }
        let [p, action, operand] = made;
        if action == GO {
            self.run_line(p);
        } else {
            self.call(p, action, operand);
        }
        self.applied += 1;
        Ok(())
    }

    fn call(&mut self, p: u8, action: u8, operand: u8) {
        let here = &mut self.processors[index(p)];
        here.answer = 0;
        match action {
            LOCK => {
                here.position = L1;
                here.mutex = operand;
            }
            TRYLOCK => {
                here.position = TL1;
                here.mutex = operand;
            }
            UNLOCK => {
                here.position = U1;
                here.mutex = operand;
            }
            YIELD => here.position = Y1,
            EXIT => {
                here.position = CI2;
                let thread = take(&mut here.current);
                self.lives[index(thread)] = Life::Ended;
            }
            CREATE => {
                here.position = C2;
                here.transit = operand;
                self.lives[index(operand)] = Life::Alive;
            }
            _ => unreachable!("no such call"),
        }
    }

    /// Executes the line where processor p is. Registers of no use at the next line become zero.
    fn run_line(&mut self, p: u8) {
        let mut here = *self.processor(p);
        let m = here.mutex;
        let own = self.own(p);
        here.position = match here.position {
            App => unreachable!("go at App is refused"),
            CI2 => {
                let queues = self.ready.len();
                match self.ready[(own + usize::from(here.probe)) % queues].pop_front() {
                    None => {
                        here.probe = (here.probe + 1) % queues as u8;
                        CI2
                    }
                    Some(first) => {
                        here.probe = 0;
                        here.transit = first;
                        CI3
                    }
                }
            }
            CI3 => {
                here.current = take(&mut here.transit);
                App
            }
            L1 => {
                let mutex = self.mutex_mut(m);
                mutex.count += 1;
                if mutex.count == 1 {
                    mutex.owner = here.current;
                    App
                } else {
                    L3
                }
            }
            L3 => {
                here.transit = take(&mut here.current);
                L4
            }
            L4 => {
                let thread = take(&mut here.transit);
                self.mutex_mut(m).queue.push_back(thread);
                L6
            }
            L6 => match self.mutex(m).token {
                Token::NONE => CI2,
                token => {
                    here.observed = token;
                    L7
                }
            },
            L7 => {
                if self.mutex(m).queue.is_empty() {
                    CI2
                } else {
                    L8
                }
            }
            L8 => {
                let mutex = self.mutex_mut(m);
                if mutex.token == here.observed {
                    mutex.token = Token::NONE;
                    L9
                } else {
                    CI2
                }
            }
            L9 => {
                let mutex = self.mutex_mut(m);
                let first = mutex.queue.pop_front().expect("an empty queue is refused");
                mutex.owner = first;
                here.transit = first;
                L10
            }
            L10 => {
                here.current = take(&mut here.transit);
                App
            }
            TL1 => {
                let mutex = self.mutex_mut(m);
                if mutex.count == 0 {
                    mutex.count = 1;
                    mutex.owner = here.current;
                    here.answer = 1;
                    App
                } else {
                    GT1
                }
            }
            GT1 => match self.mutex(m).token {
                Token::NONE => {
                    here.answer = 2;
                    App
                }
                token => {
                    here.observed = token;
                    GT3
                }
            },
            GT3 => {
                let mutex = self.mutex_mut(m);
                if mutex.token == here.observed {
                    mutex.token = Token::NONE;
                    mutex.owner = here.current;
                    TL3
                } else {
                    here.answer = 2;
                    App
                }
            }
            TL3 => {
                self.mutex_mut(m).count += 1;
                here.answer = 1;
                App
            }
            U1 => {
                let mutex = self.mutex_mut(m);
                mutex.count -= 1;
                mutex.owner = 0;
                if mutex.count == 0 {
                    App
                } else {
                    H2
                }
            }
            H2 => {
                let mutex = self.mutex_mut(m);
                match mutex.queue.pop_front() {
                    None => H5,
                    Some(first) => {
                        mutex.owner = first;
                        here.transit = first;
                        H3
                    }
                }
            }
            H3 => {
                self.ready[own].push_back(take(&mut here.transit));
                App
            }
            H5 => {
                here.sequence += 1;
                self.mutex_mut(m).token = Token { processor: p, sequence: here.sequence };
                H6
            }
            H6 => {
                if self.mutex(m).queue.is_empty() {
                    App
                } else {
                    H8
                }
            }
            H8 => {
                let mutex = self.mutex_mut(m);
                if mutex.token == (Token { processor: p, sequence: here.sequence }) {
                    mutex.token = Token::NONE;
                    H2
                } else {
                    App
                }
            }
            Y1 => {
                if self.ready[own].is_empty() {
                    App
                } else {
                    Y2
                }
            }
            Y2 => {
                here.transit = take(&mut here.current);
                Y3
            }
            Y3 => {
                self.ready[own].push_back(take(&mut here.transit));
                CI2
            }
            C2 => {
                self.ready[own].push_back(take(&mut here.transit));
                App
            }
        };
        if !here.position.has_mutex() {
            here.mutex = 0;
        }
        if !here.position.has_observed() {
            here.observed = Token::NONE;
        }
        self.processors[index(p)] = here;
    }

    /// Threads before it in its mutex queue, plus one if the mutex has an owner;
    /// none if the thread is in no mutex queue.
    pub fn ahead(&self, thread: u8) -> Option<u8> {
        for mutex in &self.mutexes {
            if let Some(before) = mutex.queue.iter().position(|&t| t == thread) {
                return Some(before as u8 + u8::from(mutex.owner != 0));
            }
        }
        None
    }
}
