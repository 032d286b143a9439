//! The list of runs that the detector is replayed on, and the upstream's answers to it.
//!
//! A run is a row of 8-byte words: what is asked; the seed of its state; the kinds of its floats and
//! of its costs, place, fill, previous symbol (0, or 1 and the symbol) and the kind of its inverses, a
//! byte each; the number of steps; and for each step the input, its real part in the low half, and 1
//! where it is reliable. The state is made from the seed as `detector` does it; with all kinds 0 it is
//! a fresh one. What is asked: 0, a line per step, the digest of its answer and of the whole state
//! after it; 1, a line per step, 0 or `01`, dibit and two reliabilities, a byte each.
//!
//! There are two lists, one for each tracker. The first tracker has no inverses.

use crate::helpers::bits32;
use crate::list::folded;
use crate::made::{self, Made};
use crate::random::Random;
use crate::routines::{cosine, sine};
use crate::samples::word64;
use crate::sequence::{Sequence, Tracking, SYMBOLS};
use crate::tracker::{by_quad, by_tap, mixed_drift, mixed_planes};
use crate::Complex32;
use std::io::{self, BufWriter, Read, Write};

const HEAD: usize = 4;

pub fn run(tracking: Tracking, words: &[&str]) -> Result<(), String> {
    match words {
        ["inputs"] => write_inputs(tracking),
        ["answers"] => write_answers(tracking),
        _ => Err("inputs or answers".into()),
    }
}

/// What a run starts from.
#[derive(Clone, Copy, Default)]
pub struct Start {
    pub seed: u64,
    pub floats: u64,
    pub costs: u64,
    pub write: u64,
    pub filled: u64,
    pub previous: u64,
    pub inverses: u64,
}

impl Start {
    pub fn word(&self) -> u64 {
        let bytes = [
            self.floats,
            self.costs,
            self.write,
            self.filled,
            self.previous,
            self.inverses,
        ];
        bytes.iter().rev().fold(0, |word, byte| word << 8 | byte)
    }

    pub fn from_words(seed: u64, word: u64) -> Self {
        let byte = |k: u32| word >> (8 * k) & 255;
        Start {
            seed,
            floats: byte(0),
            costs: byte(1),
            write: byte(2),
            filled: byte(3),
            previous: byte(4),
            inverses: byte(5),
        }
    }
}

/// The detector of a start: channels, the second tracker's drifts and inverses, costs, parents,
/// records, combined observation and noise from the seed, in this order.
pub fn detector(start: &Start, tracking: Tracking, made: &mut Made) -> Sequence {
    let mut s = Sequence::new(tracking);
    s.write = start.write as usize;
    s.filled = start.filled as usize;
    s.previous = start.previous.checked_sub(1).map(|k| k as usize);
    let floats = start.floats;
    made.planes(floats, by_tap(&mut s.channels).into_iter());
    if tracking == Tracking::Drift {
        made.planes(floats, by_tap(&mut s.drift.drift).into_iter());
        made.planes(start.inverses, by_quad(&mut s.drift.inverse).into_iter());
    }
    for cost in &mut s.costs {
        *cost = made.part(start.costs, *cost);
    }
    for parent in s.history.iter_mut().flatten() {
        let word = made.word();
        *parent = if floats == made::KEPT { 0 } else { word % 64 } as u8;
    }
    for record in &mut s.soft {
        let word = made.word();
        let bits = [word / 4 % 2, word / 8 % 2].map(|bit| bit as u8);
        let reliabilities = [made.part(floats, 0.0), made.part(floats, 0.0)];
        let present = floats != made::KEPT && word % 4 != 0;
        *record = present.then_some((bits, reliabilities));
    }
    s.combined = made.point(floats);
    s.noise = made.part(floats, s.noise);
    s
}

/// The digest with the whole state of a detector: place, fill, previous symbol, combined observation,
/// noise, channels by tap, the second tracker's drifts and inverses, costs, parents and records.
pub fn mixed_detector(h: u64, s: &mut Sequence) -> u64 {
    let previous = s.previous.map_or(0, |k| 1 + k as u64);
    let place = [s.write as u64, s.filled as u64, previous];
    let h = mixed_point(place.into_iter().fold(h, folded), s.combined);
    let h = folded(h, bits32(s.noise));
    let h = mixed_planes(h, &by_tap(&mut s.channels));
    let h = match s.tracking {
        Tracking::Lms => h,
        Tracking::Drift => mixed_drift(h, &mut s.drift),
    };
    let h = s.costs.iter().map(|cost| bits32(*cost)).fold(h, folded);
    let parents = s.history.iter().flatten();
    let h = parents.map(|parent| *parent as u64).fold(h, folded);
    s.soft.iter().fold(h, |h, record| match record {
        None => folded(h, 0),
        Some((bits, reliabilities)) => {
            let h = bits.iter().fold(folded(h, 1), |h, bit| folded(h, *bit as u64));
            reliabilities.iter().fold(h, |h, x| folded(h, bits32(*x)))
        }
    })
}

/// The digest with 1 and the parts, or with 0.
pub fn mixed_point(h: u64, point: Option<Complex32>) -> u64 {
    match point {
        None => folded(h, 0),
        Some(z) => [1, bits32(z.real), bits32(z.imaginary)]
            .into_iter()
            .fold(h, folded),
    }
}

/// A dibit with its reliabilities as one number, or 0.
pub fn shown(decision: Option<(u8, [u8; 2])>) -> u64 {
    decision.map_or(0, |(dibit, [first, second])| {
        1 << 24 | (dibit as u64) << 16 | (first as u64) << 8 | second as u64
    })
}

/// A step's input.
#[derive(Clone, Copy)]
struct Step {
    input: Complex32,
    reliable: bool,
}

fn write_answers(tracking: Tracking) -> Result<(), String> {
    let mut bytes = Vec::new();
    io::stdin()
        .read_to_end(&mut bytes)
        .map_err(|e| e.to_string())?;
    let words: Vec<u64> = bytes.chunks_exact(8).map(word64).collect();
    let mut output = BufWriter::new(io::stdout());
    let mut rest = &words[..];
    while rest.len() >= HEAD {
        let (head, body) = rest.split_at(HEAD);
        let count = 2 * head[3] as usize;
        if body.len() < count {
            return Err("the list ends inside a run".into());
        }
        let (steps, after) = body.split_at(count);
        let start = Start::from_words(head[1], head[2]);
        let mut detector = detector(&start, tracking, &mut Made::new(start.seed));
        for words in steps.chunks_exact(2) {
            let line = answer(&mut detector, head[0], step(words));
            writeln!(output, "{line:016x}").map_err(|e| e.to_string())?;
        }
        rest = after;
    }
    output.flush().map_err(|e| e.to_string())
}

fn step(words: &[u64]) -> Step {
    Step {
        input: Complex32 {
            real: f32::from_bits(words[0] as u32),
            imaginary: f32::from_bits((words[0] >> 32) as u32),
        },
        reliable: words[1] == 1,
    }
}

fn answer(s: &mut Sequence, asked: u64, step: Step) -> u64 {
    let (decision, phase, power) = s.process(step.input, step.reliable);
    if asked == 1 {
        return shown(decision);
    }
    let answers = [shown(decision), bits32(phase), bits32(power)];
    let h = mixed_point(answers.into_iter().fold(0, folded), s.equalized);
    mixed_detector(h, s)
}

fn write_inputs(tracking: Tracking) -> Result<(), String> {
    let mut list = List {
        words: Vec::new(),
        random: Random::new(match tracking {
            Tracking::Lms => 8,
            Tracking::Drift => 13,
        }),
    };
    match tracking {
        Tracking::Lms => {
            list.from_fresh();
            list.handed_in();
        }
        Tracking::Drift => {
            list.drift_from_fresh();
            list.drift_handed_in();
        }
    }
    let mut output = BufWriter::new(io::stdout());
    for word in list.words {
        output
            .write_all(&word.to_le_bytes())
            .map_err(|e| e.to_string())?;
    }
    output.flush().map_err(|e| e.to_string())
}

/// A list in the making.
struct List {
    words: Vec<u64>,
    random: Random,
}

/// Four taps, real and imaginary: none but the main one, and echoes of up to three symbols.
const DIRECT: [(f64, f64); 4] = [(1.0, 0.0), (0.0, 0.0), (0.0, 0.0), (0.0, 0.0)];
const ECHOES: [(f64, f64); 4] = [(0.9, 0.1), (0.4, 0.3), (-0.2, 0.1), (0.05, -0.15)];

/// Sizes that the metric's squares overflow at or vanish under, and back.
const LEVELS: [f64; 8] = [1.0, 4.0, 1e3, 1e19, 1e30, 1e-30, 0.0, 1.0];

const STRANGE: [f32; 6] = [
    f32::NAN,
    f32::INFINITY,
    f32::NEG_INFINITY,
    f32::MAX,
    -3e38,
    -0.0,
];

impl List {
    fn run(&mut self, asked: u64, start: Start, steps: &[Step]) {
        self.words
            .extend([asked, start.seed, start.word(), steps.len() as u64]);
        for step in steps {
            let real = step.input.real.to_bits() as u64;
            let imaginary = step.input.imaginary.to_bits() as u64;
            self.words.extend([real | imaginary << 32, step.reliable as u64]);
        }
    }

    fn from_fresh(&mut self) {
        // case 14 of document 01
        let nothing = Step {
            input: Complex32::default(),
            reliable: false,
        };
        self.run(1, Start::default(), &[nothing; 40]);
        let clean = self.signal(100, DIRECT, 0.0, 0.0);
        self.run(0, Start::default(), &clean);
        let noisy = self.signal(120, DIRECT, 0.35, 0.01);
        self.run(0, Start::default(), &noisy);
        let echoing = self.signal(120, ECHOES, 0.03, -0.02);
        self.run(0, Start::default(), &echoing);
        self.faded(160);
        self.huge(88);
        self.strange(90);
    }

    /// Fewer steps than the first tracker's, each of four times as many numbers.
    fn drift_from_fresh(&mut self) {
        let nothing = Step {
            input: Complex32::default(),
            reliable: false,
        };
        self.run(1, Start::default(), &[nothing; 40]);
        let moving = self.signal(200, ECHOES, 0.03, 0.1);
        self.run(1, Start::default(), &moving);
        let mut missing = self.signal(40, ECHOES, 0.03, -0.05);
        for step in &mut missing {
            step.reliable = self.random.below(5) != 0;
        }
        self.run(0, Start::default(), &missing);
        let noisy = self.signal(40, DIRECT, 0.35, 0.01);
        self.run(0, Start::default(), &noisy);
        self.unchanging();
        self.faded(60);
        self.huge(40);
        self.strange(45);
    }

    /// The same symbol again and again, which leaves most of the inverse to grow until it is renewed.
    fn unchanging(&mut self) {
        let first = self.signal(1, DIRECT, 0.0, 0.0);
        self.run(0, Start::default(), &first.repeat(45));
    }

    /// Random symbols over a channel that turns by `turn` a symbol.
    fn signal(&mut self, count: usize, taps: [(f64, f64); 4], noise: f64, turn: f64) -> Vec<Step> {
        let mut path = [0; 4];
        (0..count)
            .map(|n| {
                path.rotate_right(1);
                path[0] = self.random.below(4) as usize;
                let (mut x, mut y) = (0.0, 0.0);
                for ((real, imaginary), symbol) in taps.iter().zip(path) {
                    let s = SYMBOLS[symbol];
                    x += real * s.real as f64 - imaginary * s.imaginary as f64;
                    y += real * s.imaginary as f64 + imaginary * s.real as f64;
                }
                let angle = turn * n as f64;
                let (c, s) = (cosine(angle), sine(angle));
                let input = Complex32 {
                    real: (x * c - y * s + noise * self.unit()) as f32,
                    imaginary: (x * s + y * c + noise * self.unit()) as f32,
                };
                Step {
                    input,
                    reliable: true,
                }
            })
            .collect()
    }

    fn unit(&mut self) -> f64 {
        self.random.below(1 << 24) as f64 / (1 << 23) as f64 - 1.0
    }

    /// A level that falls to nothing and comes back, unreliable where it is low.
    fn faded(&mut self, count: usize) {
        let mut steps = self.signal(count, ECHOES, 0.02, 0.0);
        for (n, step) in steps.iter_mut().enumerate() {
            let level = (n as f32 % 50.0 - 25.0).abs() / 25.0;
            step.input.real *= level;
            step.input.imaginary *= level;
            step.reliable = level > 0.15;
        }
        self.run(0, Start::default(), &steps);
    }

    fn huge(&mut self, count: usize) {
        let mut steps = self.signal(count, DIRECT, 0.05, 0.0);
        for (n, step) in steps.iter_mut().enumerate() {
            let level = LEVELS[n * LEVELS.len() / count] as f32;
            step.input.real *= level;
            step.input.imaginary *= level;
        }
        self.run(0, Start::default(), &steps);
    }

    /// Inputs that are no ordinary numbers among ordinary ones.
    fn strange(&mut self, count: usize) {
        let mut steps = self.signal(count, ECHOES, 0.1, 0.0);
        for step in &mut steps {
            if self.random.below(8) == 0 {
                step.input.real = STRANGE[self.random.below(6) as usize];
            }
            if self.random.below(8) == 0 {
                step.input.imaginary = STRANGE[self.random.below(6) as usize];
            }
        }
        self.run(0, Start::default(), &steps);
    }

    /// One step from a state of each fill and place.
    fn handed_in(&mut self) {
        for filled in 0..=32 {
            for write in 0..32 {
                let floats = [made::MODERATE, made::SPECIAL, made::ANY, made::MODERATE];
                let costs = [
                    made::QUARTERS,
                    made::SPECIAL,
                    made::SIGNED,
                    made::ANY,
                    made::INFINITE,
                    made::EQUAL,
                ];
                let start = Start {
                    seed: self.random.below(1 << 32),
                    floats: floats[self.random.below(4) as usize],
                    costs: costs[self.random.below(6) as usize],
                    write,
                    filled,
                    previous: self.random.below(5),
                    inverses: made::KEPT,
                };
                let step = self.any_step();
                self.run(0, start, &[step]);
            }
        }
    }

    /// One step from states of each fill, with floats of each kind, and inverses of each kind or fresh.
    fn drift_handed_in(&mut self) {
        for n in 0..132 {
            let inverses = [made::KEPT, self.random.below(1 + made::SIGNED)];
            let start = Start {
                seed: self.random.below(1 << 32),
                floats: 1 + n % made::SIGNED,
                costs: 1 + self.random.below(made::SIGNED),
                write: self.random.below(32),
                filled: n % 33,
                previous: self.random.below(5),
                inverses: inverses[self.random.below(2) as usize],
            };
            let step = self.any_step();
            self.run(0, start, &[step]);
        }
    }

    fn any_step(&mut self) -> Step {
        let mut part = || match self.random.below(8) {
            0 => STRANGE[self.random.below(6) as usize],
            1 => f32::from_bits(self.random.word() as u32),
            _ => (2.0 * self.unit()) as f32,
        };
        Step {
            input: Complex32 {
                real: part(),
                imaginary: part(),
            },
            reliable: self.random.below(4) != 0,
        }
    }
}
