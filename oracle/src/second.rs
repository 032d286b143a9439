//! A second carrier and detector that is made from a seed, for scripts and for the chain's list.
//!
//! Six words: the seed; the detector's start (see `sequence_list`); enabled, alternation and locked, a
//! byte each; phase, frequency and error of the carrier. The detector is made from the seed as the list
//! `sequence-drift` makes it.

use crate::dsp::Carrier;
use crate::made::Made as Numbers;
use crate::sequence::Tracking;
use crate::sequence_list::{detector, Start};
use crate::state::second_words;

pub struct Made {
    pub start: Start,
    pub enabled: bool,
    pub alternation: u64,
    pub locked: bool,
    pub phase: f64,
    pub frequency: f64,
    pub error: f64,
}

impl Made {
    /// As an enabling puts it there.
    pub fn fresh(enabled: bool) -> Self {
        Self {
            start: Start::default(),
            enabled,
            alternation: 0,
            locked: false,
            phase: 0.0,
            frequency: 0.0,
            error: 0.0,
        }
    }

    pub fn from_words(words: &[u64]) -> Self {
        let flags = words[2].to_le_bytes();
        Self {
            start: Start::from_words(words[0], words[1]),
            enabled: flags[0] == 1,
            alternation: flags[1].into(),
            locked: flags[2] == 1,
            phase: f64::from_bits(words[3]),
            frequency: f64::from_bits(words[4]),
            error: f64::from_bits(words[5]),
        }
    }

    pub fn to_words(&self) -> [u64; 6] {
        let flags = self.alternation << 8 | u64::from(self.locked) << 16;
        [
            self.start.seed,
            self.start.word(),
            flags | u64::from(self.enabled),
            self.phase.to_bits(),
            self.frequency.to_bits(),
            self.error.to_bits(),
        ]
    }

    pub fn carrier(&self) -> Carrier {
        let mut made = Numbers::new(self.start.seed);
        Carrier {
            phase: self.phase,
            frequency: self.frequency,
            alternation: self.alternation as i32,
            locked: self.locked,
            error: self.error,
            sequence: detector(&self.start, Tracking::Drift, &mut made),
        }
    }

    /// Its words in a state, enabled or not.
    pub fn words(&self) -> Vec<u64> {
        let mut words = vec![self.enabled.into()];
        words.extend(second_words(&mut self.carrier()));
        words
    }
}
