//! The list of pushes and reads that the constellation view is replayed on, and the upstream's
//! answers to it. Word a of a record says what is done: 0 pushes an absent symbol, 1 the symbol
//! whose parts are the low halves of b and c, 2 reads into b floats.

use crate::Complex32;
use crate::helpers::{bits32, bits64};
use crate::list::{Record, folded, read_inputs, write_inputs};
use crate::random::Random;
use crate::signal::{CAPACITY, SignalView};

/// Floats in the buffer of a read; the first b of them are lent.
const FLOATS: usize = 4001;

/// Lent floats: none, one pair short, exact and odd around 1, 7, 1,023, 1,024 and 2,000 pairs.
const ROOMS: [u64; 14] = [
    0, 1, 2, 3, 13, 14, 15, 2045, 2046, 2047, 2048, 2049, 4000, 4001,
];

pub fn run(words: &[&str]) -> Result<(), String> {
    match words {
        ["inputs"] => write_inputs(&inputs()),
        ["answers"] => {
            let mut view = SignalView::default();
            for record in read_inputs()? {
                println!("{:016x}", answer(&mut view, record));
            }
            Ok(())
        }
        _ => Err("inputs or answers".into()),
    }
}

fn answer(view: &mut SignalView, record: Record) -> u64 {
    let symbol = Complex32 {
        real: f32::from_bits(record.b as u32),
        imaginary: f32::from_bits(record.c as u32),
    };
    match record.a {
        0 => pushed(view, None),
        1 => pushed(view, Some(symbol)),
        _ => shown(view, record.b as usize),
    }
}

/// The place after a push, and the point that it put in the ring.
fn pushed(view: &mut SignalView, symbol: Option<Complex32>) -> u64 {
    view.push(symbol);
    let point = view.ring[(view.head + CAPACITY - 1) % CAPACITY];
    let answers = [
        view.head as u64,
        view.count as u64,
        bits32(point.real),
        bits32(point.imaginary),
    ];
    answers.into_iter().fold(0, folded)
}

/// The answer of a read and every float of the buffer, each of which was another before.
fn shown(view: &SignalView, lent: usize) -> u64 {
    let mut floats: Vec<f32> = (0..FLOATS as u32)
        .map(|i| f32::from_bits(0x4000_0000 + i))
        .collect();
    let mut points: Vec<Complex32> = floats[..lent]
        .chunks_exact(2)
        .map(|pair| Complex32 {
            real: pair[0],
            imaginary: pair[1],
        })
        .collect();
    let (count, error) = view.read(&mut points);
    for (pair, point) in floats.chunks_exact_mut(2).zip(&points) {
        pair.copy_from_slice(&[point.real, point.imaginary]);
    }
    let digest = folded(folded(0, count as u64), bits64(error));
    floats.into_iter().map(bits32).fold(digest, folded)
}

/// A list in the making.
struct List {
    records: Vec<Record>,
    random: Random,
}

fn inputs() -> Vec<Record> {
    let mut list = List {
        records: Vec::new(),
        random: Random::new(3),
    };
    list.reads();
    for _ in 0..16 {
        list.ordinary();
        list.reads();
    }
    list.run(1100, |list| list.ordinary());
    list.reads();
    for scale in [1e19, 1.5e38, 1e-18, 1e-22, 1e-38, 1e-44] {
        list.run(70, |list| list.sized(scale));
        list.reads();
    }
    for special in [f32::NAN, f32::INFINITY, -f32::INFINITY, f32::MAX, 0.0, -0.0] {
        list.run(24, |list| list.with(special));
        list.reads();
    }
    // Mean powers around 1e-12: products of this size, so symbols of its root.
    list.run(1030, |list| list.sized(1.2e-3));
    list.reads();
    list.run(1030, |list| list.ordinary());
    list.reads();
    list.records
}

impl List {
    fn push(&mut self, real: f32, imaginary: f32) {
        self.records.push(Record {
            a: 1,
            b: real.to_bits() as u64,
            c: imaginary.to_bits() as u64,
        });
    }

    fn reads(&mut self) {
        let read = |b| Record { a: 2, b, c: 0 };
        self.records.extend(ROOMS.map(read));
    }

    /// So many symbols, some of them absent, with a read of some room now and then.
    fn run(&mut self, symbols: usize, symbol: impl Fn(&mut Self)) {
        for _ in 0..symbols {
            match self.random.below(24) {
                0 => self.records.push(Record { a: 0, b: 0, c: 0 }),
                1 => {
                    symbol(self);
                    let b = self.random.below(FLOATS as u64 + 1);
                    self.records.push(Record { a: 2, b, c: 0 });
                }
                _ => symbol(self),
            }
        }
    }

    /// A number in -1..1.
    fn unit(&mut self) -> f32 {
        self.random.below(1 << 24) as f32 / (1 << 23) as f32 - 1.0
    }

    fn ordinary(&mut self) {
        let (real, imaginary) = (self.unit(), self.unit());
        self.push(real, imaginary);
    }

    fn sized(&mut self, scale: f32) {
        let (real, imaginary) = (self.unit() * scale, self.unit() * scale);
        self.push(real, imaginary);
    }

    /// A symbol with a special part, first or second.
    fn with(&mut self, special: f32) {
        let other = self.unit();
        if self.random.below(2) == 0 {
            self.push(special, other);
        } else {
            self.push(other, special);
        }
    }
}
