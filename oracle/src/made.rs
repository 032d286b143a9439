//! Numbers of a handed-in state, made one by one from a seed; the programs that replay a list make
//! them in the same way.

use crate::list::folded;
use crate::Complex32;

pub struct Made {
    seed: u64,
}

/// The kinds of floats: what stood there; moderate; now and then a special one; any pattern; costs as
/// in a run; all infinite; all equal; of either sign.
pub const KEPT: u64 = 0;
pub const MODERATE: u64 = 1;
pub const SPECIAL: u64 = 2;
pub const ANY: u64 = 3;
pub const QUARTERS: u64 = 4;
pub const INFINITE: u64 = 5;
pub const EQUAL: u64 = 6;
pub const SIGNED: u64 = 7;

const SPECIALS: [f32; 8] = [
    f32::NAN,
    f32::INFINITY,
    f32::NEG_INFINITY,
    f32::MAX,
    f32::MIN,
    1e-45,
    0.0,
    -0.0,
];

impl Made {
    pub fn new(seed: u64) -> Self {
        Self { seed }
    }

    pub fn word(&mut self) -> u64 {
        self.seed = folded(self.seed, 1);
        self.seed
    }

    pub fn part(&mut self, kind: u64, before: f32) -> f32 {
        let s = self.word();
        let unit = (s >> 40) as f32 / 8388608.0 - 1.0;
        match kind {
            KEPT => before,
            MODERATE => unit * 2.0,
            SPECIAL if s % 8 == 0 => SPECIALS[(s / 8 % 8) as usize],
            SPECIAL => unit * 2.0,
            ANY => f32::from_bits(s as u32),
            QUARTERS => ((s >> 40) % 193) as f32 / 4.0,
            INFINITE => f32::INFINITY,
            EQUAL => 3.5,
            _ => unit * 100.0,
        }
    }

    /// All real parts, then all imaginary ones.
    pub fn planes<'a>(&mut self, kind: u64, values: impl Iterator<Item = &'a mut Complex32>) {
        let mut values: Vec<_> = values.collect();
        for value in &mut values {
            value.real = self.part(kind, value.real);
        }
        for value in &mut values {
            value.imaginary = self.part(kind, value.imaginary);
        }
    }

    /// Absent one time in three, and where the kind is what stood there.
    pub fn point(&mut self, kind: u64) -> Option<Complex32> {
        let present = self.word() % 3 != 0 && kind != KEPT;
        let value = Complex32 {
            real: self.part(kind, 0.0),
            imaginary: self.part(kind, 0.0),
        };
        present.then_some(value)
    }
}
