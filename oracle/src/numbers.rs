//! The list of inputs for the number helpers: edges of both formats, ties, whole numbers, squares,
//! special values and random patterns.

use crate::helpers::answers;
use crate::list::{self, Record};
use crate::random::Random;

const RECORDS: usize = 12_000;

const SIGN64: u64 = 1 << 63;
const SIGN32: u32 = 1 << 31;
const ONE64: u64 = 0x3ff << 52;
const ONE32: u32 = 0x7f << 23;

// Zeros, ones, infinities, largest, smallest, and NaNs quiet and signalling of both signs.
const SPECIAL64: [u64; 14] = [
    0,
    SIGN64,
    ONE64,
    SIGN64 | ONE64,
    0x7ff << 52,
    SIGN64 | 0x7ff << 52,
    0x7fef_ffff_ffff_ffff,
    0xffef_ffff_ffff_ffff,
    1,
    SIGN64 | 1,
    0x7ff8_0000_0000_0000,
    0xfff8_0000_0000_0001,
    0x7ff0_0000_0000_0001,
    0xfff7_ffff_ffff_ffff,
];
pub const SPECIAL32: [u32; 14] = [
    0,
    SIGN32,
    ONE32,
    SIGN32 | ONE32,
    0xff << 23,
    SIGN32 | 0xff << 23,
    0x7f7f_ffff,
    0xff7f_ffff,
    1,
    SIGN32 | 1,
    0x7fc0_0000,
    0xffc0_0001,
    0x7f80_0001,
    0xffbf_ffff,
];

pub fn run(words: &[&str]) -> Result<(), String> {
    list::run(words, inputs, answers)
}

/// A list in the making.
struct List {
    records: Vec<Record>,
    random: Random,
}

fn inputs() -> Vec<Record> {
    let mut list = List {
        records: Vec::new(),
        random: Random::new(1),
    };
    list.special_pairs();
    list.powers64();
    list.powers32();
    list.narrowing_ties();
    list.rounding_ties();
    list.whole_numbers();
    list.squares();
    list.bytes();
    while list.records.len() < RECORDS {
        list.random_record();
    }
    assert_eq!(list.records.len(), RECORDS, "the list outgrew its length");
    list.records
}

impl List {
    fn push(&mut self, a: u64, b: u64, c: u64) {
        self.records.push(Record { a, b, c });
    }

    /// An f64 as main operand; the others stand around it by turns.
    fn push64(&mut self, a: u64) {
        let (below, above) = if a & SIGN64 == 0 {
            (a.wrapping_sub(1), a.wrapping_add(1))
        } else {
            (a.wrapping_add(1), a.wrapping_sub(1))
        };
        let (b, c) = match self.records.len() % 11 {
            0 => (a, a),
            1 => (a ^ SIGN64, a),
            2 => (self.special64(), a),
            3 => (below, above),
            4 => (above, above),
            5 => (below, below),
            6 => (a, self.special64()),
            7 => (SIGN64, 0),
            8 => (SIGN64 | ONE64, ONE64),
            9 => (self.random.word(), self.random.word()),
            _ => (self.special64(), self.special64()),
        };
        self.push(a, b, c);
    }

    /// An f32 as main operand, in the low half; the high half is random.
    fn push32(&mut self, a: u32) {
        let (below, above) = if a & SIGN32 == 0 {
            (a.wrapping_sub(1), a.wrapping_add(1))
        } else {
            (a.wrapping_add(1), a.wrapping_sub(1))
        };
        let (b, c) = match self.records.len() % 11 {
            0 => (a, a),
            1 => (a ^ SIGN32, a),
            2 => (self.special32(), a),
            3 => (below, above),
            4 => (above, above),
            5 => (below, below),
            6 => (a, self.special32()),
            7 => (SIGN32, 0),
            8 => (SIGN32 | ONE32, ONE32),
            9 => (self.random.word() as u32, self.random.word() as u32),
            _ => (self.special32(), self.special32()),
        };
        let [a, b, c] = [a, b, c].map(|low| self.random.word() << 32 | low as u64);
        self.push(a, b, c);
    }

    fn push64_and_neighbours(&mut self, a: u64) {
        for x in [a.wrapping_sub(1), a, a.wrapping_add(1)] {
            self.push64(x);
        }
    }

    fn push32_and_neighbours(&mut self, a: u32) {
        for x in [a.wrapping_sub(1), a, a.wrapping_add(1)] {
            self.push32(x);
        }
    }

    fn special64(&mut self) -> u64 {
        SPECIAL64[self.random.below(SPECIAL64.len() as u64) as usize]
    }

    fn special32(&mut self) -> u32 {
        SPECIAL32[self.random.below(SPECIAL32.len() as u64) as usize]
    }

    /// Every pair of special values, in both formats.
    fn special_pairs(&mut self) {
        for a in SPECIAL64 {
            for b in SPECIAL64 {
                let c = self.special64();
                self.push(a, b, c);
            }
        }
        for a in SPECIAL32 {
            for b in SPECIAL32 {
                let c = self.special32();
                let [a, b, c] = [a, b, c].map(|low| self.random.word() << 32 | low as u64);
                self.push(a, b, c);
            }
        }
    }

    /// Every power of two of an f64, subnormal ones and infinity too, with its neighbours; and the
    /// negative ones where narrowing and rounding see them.
    fn powers64(&mut self) {
        for place in 0..52 {
            self.push64_and_neighbours(1 << place);
        }
        for exponent in 1..=0x7ff_u64 {
            self.push64_and_neighbours(exponent << 52);
        }
        for exponent in 0x3ff - 152..=0x3ff + 129 {
            self.push64(SIGN64 | exponent << 52);
        }
        for exponent in 0x3ff - 2..=0x3ff + 64 {
            self.push64_and_neighbours(SIGN64 | exponent << 52);
        }
    }

    /// Every power of two of an f32, subnormal ones and infinity too, with its neighbours.
    fn powers32(&mut self) {
        for place in 0..23 {
            self.push32_and_neighbours(1 << place);
            self.push32(SIGN32 | 1 << place);
        }
        for exponent in 1..=0xff_u32 {
            self.push32_and_neighbours(exponent << 23);
            self.push32(SIGN32 | exponent << 23);
        }
        for exponent in 0x7f - 2..=0x7f + 33 {
            self.push32_and_neighbours(SIGN32 | exponent << 23);
        }
    }

    /// Halfway between two f32 values, the even one below and above, with neighbours.
    fn narrowing_ties(&mut self) {
        let half = 1_u64 << 28;
        for exponent in 0x3ff - 126..=0x3ff + 127_u64 {
            let sign = exponent << 63;
            let digits = self.random.word() & 0xf_ffff_c000_0000;
            for odd in [0, 1] {
                self.push64_and_neighbours(sign | exponent << 52 | digits | odd << 29 | half);
            }
        }
        let largest = (f32::MAX as f64).to_bits();
        self.push64_and_neighbours(largest + half);
        self.push64_and_neighbours(SIGN64 | (largest + half));
        // Among the subnormal f32 values: k + 1/2 smallest ones.
        let smallest = f32::from_bits(1) as f64;
        for k in around_powers(23) {
            let tie = ((k as f64 + 0.5) * smallest).to_bits();
            self.push64_and_neighbours(tie | (k & 2) << 62);
        }
    }

    /// k + 1/2 with k even and odd, of both signs, in both formats, with neighbours.
    fn rounding_ties(&mut self) {
        for k in around_powers(51) {
            let tie = (k as f64 + 0.5).to_bits();
            self.push64_and_neighbours(tie);
            self.push64_and_neighbours(SIGN64 | tie);
        }
        for k in around_powers(22) {
            let tie = (k as f32 + 0.5).to_bits();
            self.push32_and_neighbours(tie);
            self.push32_and_neighbours(SIGN32 | tie);
        }
    }

    /// The ends of i64 and the whole numbers that an f64 rounds, ties on both sides.
    fn whole_numbers(&mut self) {
        for n in [0, 1, 2, 3, i64::MAX, i64::MAX - 1, i64::MIN, i64::MIN + 1] {
            self.push64(n as u64);
            self.push64((n as u64).wrapping_neg());
        }
        for power in 53..=63 {
            let whole = 1_u64 << power;
            let half = 1_u64 << (power - 53);
            for tie in [whole + half, whole + 3 * half, whole.wrapping_sub(half)] {
                for n in [tie - 1, tie, tie + 1] {
                    self.push64(n);
                    self.push64(n.wrapping_neg());
                }
            }
        }
    }

    /// Perfect squares with their neighbours, in both formats.
    fn squares(&mut self) {
        for _ in 0..40 {
            let n = self.random.below(1 << 26) + 1;
            self.push64_and_neighbours(((n * n) as f64).to_bits());
            let n = self.random.below(1 << 12) + 1;
            self.push32_and_neighbours(((n * n) as f32).to_bits());
        }
    }

    /// Where f32 to u8 saturates and truncates.
    fn bytes(&mut self) {
        for x in [0.5_f32, 0.9, 1.5, 127.5, 254.5, 255.0, 255.5, 256.0] {
            self.push32_and_neighbours(x.to_bits());
            self.push32_and_neighbours(SIGN32 | x.to_bits());
        }
    }

    fn random_record(&mut self) {
        let [a, b, c] = [(); 3].map(|()| self.random.word());
        self.push(a, b, c);
    }
}

/// 0 to 7, and each later power of two up to 2^`last` with the number before it.
fn around_powers(last: u32) -> Vec<u64> {
    let mut all: Vec<u64> = (0..8).collect();
    for power in 4..=last {
        all.extend([(1 << power) - 1, 1 << power]);
    }
    all
}
