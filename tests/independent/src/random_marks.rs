//! Random pictures to mark: candidates' with records or the header wrong, of another length, or of
//! any bytes; machines' that do not read.
//!
//! ```
//! use independent::random::Generator;
//! use independent::{marks, picture, worked};
//!
//! let mut generator = Generator::new(1);
//! let machine = worked::k5().picture();
//! let candidate = generator.candidate(&machine);
//! assert!(matches!(marks::mark(&machine, &candidate), Ok(_) | Err(11)));
//! let broken = generator.broken(&machine);
//! assert_ne!(picture::read(&broken).number, 0);
//! ```

use crate::marks::{parts_of, Part};
use crate::picture::{self, HEADER, MUTEX_RECORD, THREAD_RECORD};
use crate::random::Generator;

impl Generator {
    /// What a candidate may hand in for a picture.
    pub fn candidate(&mut self, picture: &[u8]) -> Vec<u8> {
        let parts = parts_of(picture);
        let mut bytes = picture.to_vec();
        match self.below(10) {
            0 => {}
            1..=3 => self.spoil_some(&mut bytes, &parts),
            4 => self.exchange(&mut bytes, &parts),
            5 => self.spoil(&mut bytes[..HEADER]),
            6 => self.spoil_most(&mut bytes, &parts),
            7 => bytes = self.bytes(picture.len()),
            8 => self.resize(&mut bytes),
            _ => {
                self.spoil(&mut bytes[..HEADER]);
                self.spoil_some(&mut bytes, &parts);
            }
        }
        bytes
    }

    /// A picture changed so that it does not read, by any of 11 to 14.
    pub fn broken(&mut self, picture: &[u8]) -> Vec<u8> {
        loop {
            let changed = self.changed(picture);
            if !picture::read(&changed).is_accepted() {
                return changed;
            }
        }
    }

    /// A picture with one change, which it may read with.
    fn changed(&mut self, picture: &[u8]) -> Vec<u8> {
        let mut bytes = picture.to_vec();
        let [threads, mutexes] = [picture[1], picture[2]].map(usize::from);
        let first_thread = picture.len() - THREAD_RECORD * threads;
        let thread = first_thread + THREAD_RECORD * self.below(threads);
        match self.below(7) {
            0 => self.resize(&mut bytes),
            1 => self.spoil(&mut bytes[..HEADER]),
            2 => self.spoil(&mut bytes),
            // A queue's first, the next after a thread.
            3 => {
                let m = self.below(mutexes);
                bytes[first_thread - MUTEX_RECORD * (m + 1) + 1] = self.between(0, picture[1]);
            }
            4 => bytes[thread + 2] = self.between(0, picture[1]),
            // A thread with another's record, or ended.
            5 => {
                let other = first_thread + THREAD_RECORD * self.below(threads);
                bytes.copy_within(other..other + THREAD_RECORD, thread);
            }
            _ => bytes[thread..thread + THREAD_RECORD].copy_from_slice(&[5, 0, 0, 0]),
        }
        bytes
    }

    pub fn bytes(&mut self, length: usize) -> Vec<u8> {
        (0..length).map(|_| self.byte()).collect()
    }

    /// Changes one of these bytes.
    pub fn spoil(&mut self, bytes: &mut [u8]) {
        let at = self.below(bytes.len());
        let any = self.between(1, 255);
        bytes[at] ^= self.pick(&[1, 2, 4, 128, 255, any]);
    }

    /// Up to four records wrong.
    fn spoil_some(&mut self, bytes: &mut [u8], parts: &[Part]) {
        for _ in 0..=self.below(4) {
            let part = &parts[self.below(parts.len())];
            self.spoil(&mut bytes[part.bytes.clone()]);
        }
    }

    /// All records wrong, or all but a few.
    fn spoil_most(&mut self, bytes: &mut [u8], parts: &[Part]) {
        let spared = self.pick(&[0, 0, 1, 3]);
        let spared: Vec<usize> = (0..spared).map(|_| self.below(parts.len())).collect();
        for (at, part) in parts.iter().enumerate() {
            if !spared.contains(&at) {
                self.spoil(&mut bytes[part.bytes.clone()]);
            }
        }
    }

    /// Two records of a kind change places, which may be one and the same.
    fn exchange(&mut self, bytes: &mut [u8], parts: &[Part]) {
        let one = &parts[self.below(parts.len())];
        let alike: Vec<&Part> = parts.iter().filter(|part| part.points == one.points).collect();
        let other = self.pick(&alike);
        for (a, b) in one.bytes.clone().zip(other.bytes.clone()) {
            bytes.swap(a, b);
        }
    }

    /// A byte more or less, mostly.
    fn resize(&mut self, bytes: &mut Vec<u8>) {
        match self.below(5) {
            0 | 1 => drop(bytes.pop()),
            2 | 3 => bytes.push(self.pick(&[0, 255])),
            _ => bytes.truncate(self.below(bytes.len())),
        }
    }
}
