//! The state as fixed tables with chains (a snapshot), its rules, and both conversions.
//! A session record is a snapshot, B and the number of moves kept.

use crate::machine::{
    sizes_in_range, Config, Life, Mutex, Position, Processor, State, Token, MOST_MOVES,
};
use crate::Answer;
use std::collections::VecDeque;

/// Places of a thread.
pub const UNBORN: u8 = 0;
pub const READY: u8 = 1;
pub const WAITING: u8 = 2;
pub const CURRENT: u8 = 3;
pub const TRANSIT: u8 = 4;
pub const ENDED: u8 = 5;

#[derive(Clone, Copy, PartialEq, Eq, Debug, Default)]
pub struct ProcessorRow {
    pub position: u8,
    pub current: u8,
    pub transit: u8,
    pub mutex: u8,
    pub observed: Token,
    pub sequence: u16,
    pub answer: u8,
    pub probe: u8,
    /// The first of its own ready chain.
    pub first: u8,
}

#[derive(Clone, Copy, PartialEq, Eq, Debug, Default)]
pub struct MutexRow {
    pub count: u8,
    pub first: u8,
    pub owner: u8,
    pub token: Token,
}

#[derive(Clone, Copy, PartialEq, Eq, Debug, Default)]
pub struct ThreadRow {
    pub place: u8,
    /// The mutex (place 2) or processor (places 3, 4) that holds the thread; the processor whose
    /// ready queue it is in (place 1), where each has one.
    pub holder: u8,
    pub next: u8,
}

/// What a picture shows, field by field. Rows are indexed from 0.
#[derive(Clone, Copy, PartialEq, Eq, Debug, Default)]
pub struct Snapshot {
    pub processors: u8,
    pub threads: u8,
    pub mutexes: u8,
    /// The first of the single ready chain.
    pub ready_first: u8,
    pub stealing: u8,
    pub applied: u16,
    pub processor_rows: [ProcessorRow; 8],
    pub mutex_rows: [MutexRow; 8],
    pub thread_rows: [ThreadRow; 32],
}

/// A session record.
#[derive(Clone, Copy, PartialEq, Eq, Debug, Default)]
pub struct Record {
    pub snapshot: Snapshot,
    pub born: u8,
    /// How many moves are kept, the applied ones among them.
    pub kept: u16,
}

fn token_in_range(token: Token, processors: u8) -> bool {
    token.processor <= processors
        && token.sequence <= MOST_MOVES
        && (token.sequence == 0) == (token.processor == 0)
}

fn processor_row_in_range(row: &ProcessorRow, shown: &Snapshot) -> bool {
    let Some(position) = Position::from_number(row.position) else {
        return false;
    };
    row.current <= shown.threads
        && row.transit <= shown.threads
        && row.mutex <= shown.mutexes
        && token_in_range(row.observed, shown.processors)
        && row.sequence <= MOST_MOVES
        && row.answer <= 2
        && row.first <= if shown.stealing == 0 { 0 } else { shown.threads }
        && (row.probe == 0
            || position == Position::CI2 && shown.stealing == 1 && row.probe < shown.processors)
        && (row.current != 0) == position.has_current()
        && (row.transit != 0) == position.has_transit()
        && (row.mutex != 0) == position.has_mutex()
        && (row.observed != Token::NONE) == position.has_observed()
}

fn mutex_row_in_range(row: &MutexRow, shown: &Snapshot) -> bool {
    row.count <= shown.threads + 1
        && row.first <= shown.threads
        && row.owner <= shown.threads
        && token_in_range(row.token, shown.processors)
}

fn thread_row_in_range(row: &ThreadRow, shown: &Snapshot) -> bool {
    let holder_fits = match row.place {
        READY if shown.stealing == 1 => (1..=shown.processors).contains(&row.holder),
        UNBORN | READY | ENDED => row.holder == 0,
        WAITING => (1..=shown.mutexes).contains(&row.holder),
        CURRENT | TRANSIT => (1..=shown.processors).contains(&row.holder),
        _ => false,
    };
    let chained = row.place == READY || row.place == WAITING;
    holder_fits && row.next <= shown.threads && (chained || row.next == 0)
}

impl Snapshot {
    /// The picture's sizes.
    pub fn sizes_in_range(&self) -> bool {
        sizes_in_range(self.processors, self.threads, self.mutexes)
    }

    fn used_processors(&self) -> &[ProcessorRow] {
        &self.processor_rows[..usize::from(self.processors)]
    }

    fn used_mutexes(&self) -> &[MutexRow] {
        &self.mutex_rows[..usize::from(self.mutexes)]
    }

    fn used_threads(&self) -> &[ThreadRow] {
        &self.thread_rows[..usize::from(self.threads)]
    }

    /// The first rule broken: 12 a field or register (also a row past the sizes that is
    /// not zero), 13 a chain, 14 current and transit fields against places.
    pub fn broken_rule(&self) -> Option<u8> {
        if !self.sizes_in_range() || !self.fields_in_range() {
            return Some(12);
        }
        if !self.chains_agree() {
            return Some(13);
        }
        if !self.registers_agree() {
            return Some(14);
        }
        None
    }

    fn fields_in_range(&self) -> bool {
        self.stealing <= 1
            && self.ready_first <= if self.stealing == 0 { self.threads } else { 0 }
            && self.applied <= MOST_MOVES
            && self.used_processors().iter().all(|row| processor_row_in_range(row, self))
            && self.used_mutexes().iter().all(|row| mutex_row_in_range(row, self))
            && self.used_threads().iter().all(|row| thread_row_in_range(row, self))
            && self.processor_rows[usize::from(self.processors)..]
                .iter()
                .all(|row| *row == ProcessorRow::default())
            && self.mutex_rows[usize::from(self.mutexes)..]
                .iter()
                .all(|row| *row == MutexRow::default())
            && self.thread_rows[usize::from(self.threads)..]
                .iter()
                .all(|row| *row == ThreadRow::default())
    }

    /// The threads met from `first` by next, or none if one is met twice.
    fn walk(&self, first: u8) -> Option<Vec<u8>> {
        let mut met = Vec::new();
        let mut thread = first;
        while thread != 0 {
            if met.contains(&thread) {
                return None;
            }
            met.push(thread);
            thread = self.thread_rows[usize::from(thread) - 1].next;
        }
        Some(met)
    }

    /// Whether the chain from `first` holds exactly the threads placed there.
    fn chain_agrees(&self, first: u8, place: u8, holder: u8) -> bool {
        let Some(met) = self.walk(first) else {
            return false;
        };
        let placed = |row: &ThreadRow| row.place == place && row.holder == holder;
        (1..=self.threads)
            .zip(self.used_threads())
            .all(|(thread, row)| met.contains(&thread) == placed(row))
    }

    fn chains_agree(&self) -> bool {
        let ready = if self.stealing == 0 {
            self.chain_agrees(self.ready_first, READY, 0)
        } else {
            (1..=self.processors)
                .zip(self.used_processors())
                .all(|(p, row)| self.chain_agrees(row.first, READY, p))
        };
        ready
            && (1..=self.mutexes)
                .zip(self.used_mutexes())
                .all(|(m, row)| self.chain_agrees(row.first, WAITING, m))
    }

    /// Whether processor p names thread t exactly if t's place names p, for both registers.
    fn registers_agree(&self) -> bool {
        (1..=self.processors).zip(self.used_processors()).all(|(p, processor)| {
            (1..=self.threads).zip(self.used_threads()).all(|(t, thread)| {
                let placed = |place: u8| thread.place == place && thread.holder == p;
                (processor.current == t) == placed(CURRENT)
                    && (processor.transit == t) == placed(TRANSIT)
            })
        })
    }

    /// The snapshot of a state in which every thread has exactly one place.
    pub fn of(state: &State) -> Snapshot {
        let mut shown = Snapshot {
            processors: state.processor_count(),
            threads: state.thread_count(),
            mutexes: state.mutex_count(),
            stealing: state.stealing,
            applied: state.applied,
            ..Snapshot::default()
        };
        for (row, life) in shown.thread_rows.iter_mut().zip(&state.lives) {
            if *life == Life::Ended {
                row.place = ENDED;
            }
        }
        if state.stealing == 0 {
            shown.ready_first = shown.lay_chain(&state.ready[0], READY, 0);
        }
        for (m, mutex) in (1..).zip(&state.mutexes) {
            let first = shown.lay_chain(&mutex.queue, WAITING, m);
            shown.mutex_rows[usize::from(m) - 1] =
                MutexRow { count: mutex.count, first, owner: mutex.owner, token: mutex.token };
        }
        for (p, processor) in (1..).zip(&state.processors) {
            shown.place_thread(processor.current, CURRENT, p);
            shown.place_thread(processor.transit, TRANSIT, p);
            let first = match state.stealing {
                0 => 0,
                _ => shown.lay_chain(&state.ready[usize::from(p) - 1], READY, p),
            };
            shown.processor_rows[usize::from(p) - 1] = ProcessorRow {
                position: processor.position.number(),
                current: processor.current,
                transit: processor.transit,
                mutex: processor.mutex,
                observed: processor.observed,
                sequence: processor.sequence,
                answer: processor.answer,
                probe: processor.probe,
                first,
            };
        }
        shown
    }

    fn place_thread(&mut self, thread: u8, place: u8, holder: u8) {
        if thread != 0 {
            self.thread_rows[usize::from(thread) - 1] = ThreadRow { place, holder, next: 0 };
        }
    }

    /// Writes a queue as a chain and gives its first.
    fn lay_chain(&mut self, queue: &VecDeque<u8>, place: u8, holder: u8) -> u8 {
        let mut next = 0;
        for &thread in queue.iter().rev() {
            self.thread_rows[usize::from(thread) - 1] = ThreadRow { place, holder, next };
            next = thread;
        }
        next
    }

    /// The state that a snapshot shows, or none if it breaks a rule.
    pub fn state(&self) -> Option<State> {
        if self.broken_rule().is_some() {
            return None;
        }
        let queue = |first: u8| self.walk(first).map(VecDeque::from);
        let mut mutexes = Vec::new();
        for row in self.used_mutexes() {
            mutexes.push(Mutex {
                count: row.count,
                queue: queue(row.first)?,
                owner: row.owner,
                token: row.token,
            });
        }
        let mut processors = Vec::new();
        for row in self.used_processors() {
            processors.push(Processor {
                position: Position::from_number(row.position)?,
                current: row.current,
                transit: row.transit,
                mutex: row.mutex,
                observed: row.observed,
                sequence: row.sequence,
                answer: row.answer,
                probe: row.probe,
            });
        }
        let mut ready = Vec::new();
        if self.stealing == 0 {
            ready.push(queue(self.ready_first)?);
        } else {
            for row in self.used_processors() {
                ready.push(queue(row.first)?);
            }
        }
        let life = |row: &ThreadRow| match row.place {
            UNBORN => Life::Unborn,
            ENDED => Life::Ended,
            _ => Life::Alive,
        };
        Some(State {
            processors,
            mutexes,
            lives: self.used_threads().iter().map(life).collect(),
            stealing: self.stealing,
            ready,
            applied: self.applied,
        })
    }
}

impl Record {
    /// With just the applied moves kept.
    pub fn new(snapshot: Snapshot, born: u8) -> Record {
        Record { snapshot, born, kept: snapshot.applied }
    }

    /// The same of a state grown from a start table.
    pub fn of(state: &State, born: u8) -> Record {
        Record::new(Snapshot::of(state), born)
    }

    /// The state of a record, or none if it breaks a picture rule, B is outside 1 to T, or the
    /// number kept is below the applied moves or above the most.
    pub fn state(&self) -> Option<State> {
        let born_fits = (1..=self.snapshot.threads).contains(&self.born);
        let kept_fits = (self.snapshot.applied..=MOST_MOVES).contains(&self.kept);
        self.snapshot.state().filter(|_| born_fits && kept_fits)
    }

    /// After a move that led to a state: what was kept beyond it is dropped.
    pub fn moved(&self, state: &State) -> Record {
        Record::of(state, self.born)
    }

    /// After a going that led to a state: as many moves are kept as before.
    pub fn gone(&self, state: &State) -> Record {
        Record { kept: self.kept, ..Record::of(state, self.born) }
    }

    /// The answer of a call on this record: the record that it gives, or its refusal with this one.
    pub fn answer(&self, after: Result<Record, u8>) -> Answer<Record> {
        match after {
            Ok(record) => Answer::accepted(record),
            Err(number) => Answer::refused(number, *self),
        }
    }

    pub fn config(&self) -> Config {
        let shown = &self.snapshot;
        Config::new(shown.processors, shown.threads, shown.mutexes, self.born)
            .with_stealing(shown.stealing)
    }
}
