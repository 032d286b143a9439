//! The list of samples, updates and places that clock recovery is replayed on, and the upstream's
//! answers to it. Word a of a record says what is done: 0 takes the sample whose parts are the low
//! halves of b and c, 1 updates by the error in the low half of b, 2 hands in a place: phase and rate
//! in the low and the high half of b, start, count, position and warm in 16 bits each of c.

use crate::dsp::ClockRecovery;
use crate::equalizer::Equalizer;
use crate::helpers::bits32;
use crate::list::{folded, read_inputs, write_inputs, Record};
use crate::random::Random;
use crate::routines::{cosine, sine};
use crate::Complex32;
use std::f64::consts::PI;

/// What the windows hold before each step, so that those that stay untouched show.
const BEFORE: f32 = 1.5;

pub fn run(words: &[&str]) -> Result<(), String> {
    match words {
        ["inputs"] => write_inputs(&inputs()),
        ["answers"] => {
            let mut clock = ClockRecovery::new();
            for record in read_inputs()? {
                println!("{:016x}", answer(&mut clock, record));
            }
            Ok(())
        }
        _ => Err("inputs or answers".into()),
    }
}

/// The place after the record; for a sample, before it whether a symbol came, and after it the
/// windows: values and derivatives, real parts and imaginary parts.
fn answer(clock: &mut ClockRecovery, record: Record) -> u64 {
    match record.a {
        0 => {
            let symbol = clock.process(sample(record));
            let h = place(clock, folded(0, symbol.is_some() as u64));
            let windows = symbol.map_or(vec![BEFORE; 84], |(values, derivatives)| {
                [planes(&values), planes(&derivatives)].concat()
            });
            windows.into_iter().map(bits32).fold(h, folded)
        }
        1 => {
            clock.update(f32::from_bits(record.b as u32));
            place(clock, 0)
        }
        _ => {
            hand_in(clock, record);
            place(clock, 0)
        }
    }
}

fn sample(record: Record) -> Complex32 {
    Complex32 {
        real: f32::from_bits(record.b as u32),
        imaginary: f32::from_bits(record.c as u32),
    }
}

fn planes(window: &[Complex32]) -> Vec<f32> {
    let real = window.iter().map(|z| z.real);
    real.chain(window.iter().map(|z| z.imaginary)).collect()
}

fn place(clock: &ClockRecovery, h: u64) -> u64 {
    let words = [
        clock.start as u64,
        clock.count as u64,
        clock.position as u64,
        clock.warm as u64,
        bits32(clock.phase),
        bits32(clock.rate),
    ];
    words.into_iter().fold(h, folded)
}

fn hand_in(clock: &mut ClockRecovery, record: Record) {
    let part = |k: u32| (record.c >> (16 * k) & 0xffff) as usize;
    clock.start = part(0);
    clock.count = part(1);
    clock.position = part(2) as i32;
    clock.warm = part(3) == 1;
    clock.phase = f32::from_bits(record.b as u32);
    clock.rate = f32::from_bits((record.b >> 32) as u32);
}

/// A place to hand in.
#[derive(Clone, Copy)]
struct Place {
    start: u64,
    count: u64,
    position: u64,
    warm: bool,
    phase: f32,
    rate: f32,
}

const FRESH: Place = Place {
    start: 0,
    count: 0,
    position: 0,
    warm: false,
    phase: 16.0,
    rate: 0.0,
};

pub const PHASES: [f32; 14] = [
    -16.0,
    -15.999_999,
    -1.0,
    -0.999_999_94,
    -1e-10,
    -0.0,
    0.0,
    31.999_998,
    32.0,
    33.5,
    47.999_996,
    48.0,
    16.25,
    f32::NAN,
];

pub const RATES: [f32; 5] = [0.1, -0.1, 0.0, -1e-3, f32::NAN];

pub const STRANGE: [f32; 8] = [
    f32::NAN,
    f32::INFINITY,
    f32::NEG_INFINITY,
    f32::MAX,
    -3e38,
    1e-40,
    0.0,
    -0.0,
];

/// A list in the making, and the upstream clock that says when a symbol comes.
struct List {
    records: Vec<Record>,
    clock: ClockRecovery,
    equalizer: Equalizer,
    random: Random,
}

fn inputs() -> Vec<Record> {
    let mut list = List {
        records: Vec::new(),
        clock: ClockRecovery::new(),
        equalizer: Equalizer::default(),
        random: Random::new(7),
    };
    list.signal(1000, 0.0, 16.0);
    list.signal(3200, 200e-6, 30.0);
    list.signal(3200, -200e-6, 2.0);
    list.noise(800);
    list.strange(800);
    list.corners();
    list.cold();
    list.records
}

impl List {
    fn hand(&mut self, p: Place) {
        let record = Record {
            a: 2,
            b: p.phase.to_bits() as u64 | (p.rate.to_bits() as u64) << 32,
            c: p.start | p.count << 16 | p.position << 32 | (p.warm as u64) << 48,
        };
        hand_in(&mut self.clock, record);
        self.records.push(record);
    }

    /// A sample, and the update that follows where it brings a symbol: by the equalizer's timing
    /// error, or by a given one.
    fn step(&mut self, real: f32, imaginary: f32, error: Option<f32>) {
        let record = Record {
            a: 0,
            b: real.to_bits() as u64,
            c: imaginary.to_bits() as u64,
        };
        self.records.push(record);
        if let Some((values, derivatives)) = self.clock.process(sample(record)) {
            let (_, timing) = self.equalizer.process(&values, &derivatives, true);
            let error = error.unwrap_or(timing);
            self.clock.update(error);
            self.records.push(Record {
                a: 1,
                b: error.to_bits() as u64,
                c: 0,
            });
        }
    }

    /// A signal that is `drift` off, from a phase.
    fn signal(&mut self, count: usize, drift: f64, phase: f32) {
        self.hand(Place { phase, ..FRESH });
        self.equalizer = Equalizer::default();
        for value in signal(&mut self.random, count, drift) {
            self.step(value.real, value.imaginary, None);
        }
    }

    fn unit(&mut self) -> f32 {
        self.random.below(1 << 24) as f32 / (1 << 23) as f32 - 1.0
    }

    /// Noise, with errors all over -1..1.
    fn noise(&mut self, count: usize) {
        self.hand(FRESH);
        for _ in 0..count {
            let (real, imaginary, error) = (self.unit(), self.unit(), self.unit());
            self.step(real, imaginary, Some(error));
        }
    }

    /// Values that are no ordinary numbers among noise, and now and then an error that is NaN.
    fn strange(&mut self, count: usize) {
        for n in 0..count {
            if n % 160 == 0 {
                let phase = PHASES[self.random.below(14) as usize];
                self.hand(Place { phase, ..FRESH });
            }
            let real = self.now_and_then();
            let imaginary = self.now_and_then();
            let error = if n % 160 >= 150 {
                f32::NAN
            } else {
                self.unit()
            };
            self.step(real, imaginary, Some(error));
        }
    }

    fn now_and_then(&mut self) -> f32 {
        if self.random.below(60) == 0 {
            STRANGE[self.random.below(8) as usize]
        } else {
            self.unit()
        }
    }

    /// Warm places at the ends of document 01's ranges, each run on over the symbols that come.
    fn corners(&mut self) {
        for (i, phase) in PHASES.into_iter().enumerate() {
            for (j, rate) in RATES.into_iter().enumerate() {
                let position = 5 + (i + 3 * j) as u64 % 8;
                let counts = [
                    100 + position,
                    71 + position,
                    72 + position,
                    73 + position,
                    0,
                ];
                self.hand(Place {
                    start: [0, 255, 200, 100, 37][j],
                    count: counts[(i + j) % 5],
                    position,
                    warm: true,
                    phase,
                    rate,
                });
                for k in 0..7 {
                    let error = [1.0, -1.0, 0.5, f32::NAN][(i + j + k / 4) % 4];
                    let (real, imaginary) = (self.unit(), self.unit());
                    self.step(real, imaginary, Some(error));
                }
            }
        }
    }

    /// Cold places just before and after they turn warm.
    fn cold(&mut self) {
        for (i, phase) in PHASES.into_iter().enumerate() {
            self.hand(Place {
                start: 250,
                count: 79 + i as u64 % 4,
                phase,
                ..FRESH
            });
            for _ in 0..9 {
                let (real, imaginary, error) = (self.unit(), self.unit(), self.unit());
                self.step(real, imaginary, Some(error));
            }
        }
    }
}

/// Quarter turns of a carrier with the pulses of the matched filter, sampled four times a symbol by a
/// clock that is `drift` off.
pub fn signal(random: &mut Random, count: usize, drift: f64) -> Vec<Complex32> {
    let mut eighths = 0;
    let symbols: Vec<(f64, f64)> = (0..count / 4 + 24)
        .map(|_| {
            eighths = (eighths + 1 + 2 * random.below(4)) % 8;
            let angle = PI / 4.0 * eighths as f64;
            (cosine(angle), sine(angle))
        })
        .collect();
    (0..count)
        .map(|n| {
            let time = n as f64 / 4.0 * (1.0 + drift);
            let near = time as usize;
            let (mut real, mut imaginary) = (0.0, 0.0);
            for (k, symbol) in symbols.iter().enumerate().skip(near).take(16) {
                let weight = pulse(time + 8.0 - k as f64);
                real += weight * symbol.0;
                imaginary += weight * symbol.1;
            }
            Complex32 {
                real: real as f32,
                imaginary: imaginary as f32,
            }
        })
        .collect()
}

/// The root-raised-cosine pulse with roll-off 0.2 at a time in symbols.
fn pulse(t: f64) -> f64 {
    let a = 0.2;
    let edge = (4.0 * a * t).abs() - 1.0;
    if t == 0.0 {
        1.0 - a + 4.0 * a / PI
    } else if edge.abs() < 1e-9 {
        0.0
    } else {
        (sine(PI * t * (1.0 - a)) + 4.0 * a * t * cosine(PI * t * (1.0 + a)))
            / (PI * t * (1.0 - 16.0 * a * a * t * t))
    }
}
