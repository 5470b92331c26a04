//! Random scripts and lists of turns, biased so that classes are lively: threads lock and
//! unlock, yield and create the unborn ones before they exit; turns go to all processors, some
//! of which fall behind.
//!
//! ```
//! use independent::random::Generator;
//! use independent::script::Scripts;
//!
//! let mut generator = Generator::new(1);
//! let config = generator.config();
//! assert!(Scripts::read(&generator.scripts(config), config.threads).is_some());
//! assert!(Scripts::read(&generator.bad_scripts(config), config.threads).is_none());
//! assert_eq!(generator.turns(config, 40).len(), 40);
//! ```

use crate::machine::{Config, CREATE, EXIT, LOCK, TRYLOCK, UNLOCK, YIELD};
use crate::random::Generator;
use crate::script::{Call, MOST_CALLS, SCRIPT};

impl Generator {
    /// Scripts that 19 does not refuse, for all threads and now and then bytes after them.
    pub fn scripts(&mut self, config: Config) -> Vec<u8> {
        let births = self.births(config);
        let mut bytes: Vec<u8> = births.iter().flat_map(|born| self.script(config, born)).collect();
        if self.once_in(4) {
            let more = self.below(2 * SCRIPT);
            bytes.extend((0..more).map(|_| self.byte()));
        }
        bytes
    }

    /// Scripts that 19 refuses: too short, too many calls, an action that is no call.
    pub fn bad_scripts(&mut self, config: Config) -> Vec<u8> {
        let mut bytes = self.scripts(config);
        let thread = self.below(usize::from(config.threads));
        let script = &mut bytes[SCRIPT * thread..][..SCRIPT];
        match self.below(3) {
            0 => {
                let whole = SCRIPT * usize::from(config.threads);
                bytes.truncate(if self.once_in(2) { whole - 1 } else { self.below(whole) });
            }
            1 => script[0] = self.pick(&[7, 8, 12, 13, 128, 255]),
            _ => {
                script[0] = script[0].max(1);
                let call = self.below(usize::from(script[0]));
                script[1 + 2 * call] = self.pick(&[0, 7, 8, 128, 255]);
            }
        }
        bytes
    }

    /// A list of turns: runs of one processor, one that is left out for a while, and now and
    /// then one that is not there.
    pub fn turns(&mut self, config: Config, count: usize) -> Vec<u8> {
        let last = config.processors;
        let absent = self.pick(&[0, 12, 40]);
        let (mut p, mut slow) = (1, 1);
        let mut turns = Vec::with_capacity(count);
        while turns.len() < count {
            if self.once_in(40) {
                slow = self.between(1, last);
            }
            if !self.once_in(3) {
                p = self.between(1, last);
            }
            let wait = p == slow && !self.once_in(12) && last > 1;
            if absent != 0 && self.once_in(absent) {
                turns.push(self.pick(&[0, last + 1, 255]));
            } else if !wait {
                turns.push(p);
            }
        }
        turns
    }

    /// For each thread those that it creates: each unborn thread is created by an earlier one,
    /// now and then by two.
    fn births(&mut self, config: Config) -> Vec<Vec<u8>> {
        let mut births = vec![Vec::new(); usize::from(config.threads)];
        for thread in config.born + 1..=config.threads {
            for _ in 0..=usize::from(self.once_in(12)) {
                let creator = self.between(1, thread - 1);
                births[usize::from(creator) - 1].push(thread);
            }
        }
        births
    }

    /// One script: creates first, then what `phrase` gives; any bytes as unread pairs.
    fn script(&mut self, config: Config, births: &[u8]) -> [u8; SCRIPT] {
        let most = usize::from(MOST_CALLS);
        let count = if self.once_in(2) { most } else { self.below(most + 1) };
        let mut calls: Vec<Call> = births.iter().map(|&thread| [CREATE, thread]).collect();
        calls.truncate(count);
        while calls.len() < count {
            let room = count - calls.len();
            calls.extend(self.phrase(config, room));
        }
        let mut bytes = [0; SCRIPT].map(|_| self.byte());
        bytes[0] = count as u8;
        for (pair, call) in bytes[1..].chunks_exact_mut(2).zip(&calls) {
            pair.copy_from_slice(call);
        }
        bytes
    }

    /// A few calls that belong together, at most `room`. What ends in a call that is refused for
    /// good is rare; a script that leaves its thread an owner ends in a refused exit.
    fn phrase(&mut self, config: Config, room: usize) -> Vec<Call> {
        let any = self.between(1, config.mutexes);
        let m = if self.once_in(2) { any } else { 1 };
        match self.below(32) {
            0..=13 if room >= 2 => vec![[LOCK, m], [UNLOCK, m]],
            14..=17 if room >= 3 => vec![[LOCK, m], [YIELD, 0], [UNLOCK, m]],
            18..=20 if room >= 3 => vec![[LOCK, m], [TRYLOCK, m], [UNLOCK, m]],
            21..=23 if room >= 4 && m > 1 => {
                vec![[LOCK, 1], [LOCK, m], [UNLOCK, m], [UNLOCK, 1]]
            }
            24 if room >= 2 => vec![[TRYLOCK, any], [UNLOCK, any]],
            25 => vec![[self.between(LOCK, TRYLOCK), any]],
            26 if self.once_in(3) => vec![self.odd_call(config)],
            _ => vec![[YIELD, 0]],
        }
    }

    /// A call that is often refused, by 3, 6 or 7, or that ends the thread early.
    fn odd_call(&mut self, config: Config) -> Call {
        match self.below(6) {
            0 => [self.between(YIELD, EXIT), self.between(1, 2)],
            1 => [self.between(LOCK, UNLOCK), self.pick(&[0, config.mutexes + 1, 255])],
            2 => [CREATE, self.pick(&[0, config.threads + 1, 255])],
            3 => [CREATE, self.between(1, config.threads)],
            4 => [UNLOCK, self.between(1, config.mutexes)],
            _ => [EXIT, 0],
        }
    }
}
