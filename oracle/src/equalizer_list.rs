//! The list of steps that the equalizer is replayed on, and the upstream's answers to it. A record
//! is 127 little-endian 4-byte words: flags, then the weights, the window and the derivatives, each
//! as 21 real and 21 imaginary parts. Flag 1 says reliable; flag 2, that the weights are handed in,
//! where those of the step before stay otherwise.

use crate::Complex32;
use crate::equalizer::{Equalizer, TAPS};
use crate::helpers::bits32;
use crate::list::folded;
use crate::random::Random;
use crate::samples::word32;
use std::io::{self, Read, Write};

const WORDS: usize = 1 + 6 * TAPS;

type Row = [Complex32; TAPS];

/// One step.
#[derive(Clone, Copy)]
struct Step {
    reliable: bool,
    handed_in: bool,
    weights: Row,
    window: Row,
    derivatives: Row,
}

pub fn run(words: &[&str]) -> Result<(), String> {
    match words {
        ["inputs"] => write(&inputs()),
        ["answers"] => {
            let mut equalizer = Equalizer::default();
            for step in read()? {
                println!("{:016x}", answer(&mut equalizer, &step));
            }
            Ok(())
        }
        _ => Err("inputs or answers".into()),
    }
}

fn answer(equalizer: &mut Equalizer, step: &Step) -> u64 {
    if step.handed_in {
        equalizer.weights = step.weights;
    }
    let (value, timing) = equalizer.process(&step.window, &step.derivatives, step.reliable);
    let answers = [value.real, value.imaginary, timing];
    let digest = answers.into_iter().map(bits32).fold(0, folded);
    parts(&equalizer.weights).map(bits32).fold(digest, folded)
}

/// All real parts, then all imaginary ones.
fn parts(row: &Row) -> impl Iterator<Item = f32> + '_ {
    let real = row.iter().map(|z| z.real);
    real.chain(row.iter().map(|z| z.imaginary))
}

fn write(steps: &[Step]) -> Result<(), String> {
    let mut bytes = Vec::with_capacity(4 * WORDS * steps.len());
    for step in steps {
        let flags = step.reliable as u32 | (step.handed_in as u32) << 1;
        bytes.extend(flags.to_le_bytes());
        for row in [&step.weights, &step.window, &step.derivatives] {
            bytes.extend(parts(row).flat_map(f32::to_le_bytes));
        }
    }
    io::stdout().write_all(&bytes).map_err(|e| e.to_string())
}

fn read() -> Result<Vec<Step>, String> {
    let mut bytes = Vec::new();
    io::stdin()
        .read_to_end(&mut bytes)
        .map_err(|e| e.to_string())?;
    if bytes.len() % (4 * WORDS) != 0 {
        return Err("the list is not a whole number of records".into());
    }
    Ok(bytes.chunks_exact(4 * WORDS).map(step).collect())
}

fn step(bytes: &[u8]) -> Step {
    let word = |k: usize| word32(&bytes[4 * k..]);
    let row = |from: usize| {
        std::array::from_fn(|k| Complex32 {
            real: f32::from_bits(word(from + k)),
            imaginary: f32::from_bits(word(from + TAPS + k)),
        })
    };
    Step {
        reliable: word(0) & 1 == 1,
        handed_in: word(0) & 2 == 2,
        weights: row(1),
        window: row(1 + 2 * TAPS),
        derivatives: row(1 + 4 * TAPS),
    }
}

/// A list in the making.
struct List {
    steps: Vec<Step>,
    random: Random,
}

fn inputs() -> Vec<Step> {
    let mut list = List {
        steps: Vec::new(),
        random: Random::new(4),
    };
    list.kept(40, 1.0);
    for (weights, window, derivatives) in SIZES {
        list.handed_in(20, weights, window, derivatives);
        list.kept(3, window);
    }
    for special in SPECIAL {
        list.special(6, special);
    }
    list.thresholds();
    list.steps
}

/// Sizes of weights, window and derivatives: ordinary ones; weights whose norm is above 16; an energy
/// under 0.01; an energy, a power or both that overflow; a timing error beyond 1; subnormal sums.
const SIZES: [(f32, f32, f32); 14] = [
    (0.1, 1.0, 1.0),
    (0.5, 1.0, 0.01),
    (2.0, 0.5, 0.5),
    (1e10, 0.1, 0.1),
    (1e20, 0.1, 0.1),
    (3e19, 0.001, 0.001),
    (1.0, 0.02, 1.0),
    (1.0, 0.01, 100.0),
    (1.0, 1e18, 1.0),
    (1.0, 1e19, 1e19),
    (1e-19, 1e19, 1.0),
    (1e19, 1e19, 1e-19),
    (1e-30, 1e-10, 1e30),
    (1e-38, 1e-3, 1e-3),
];

const SPECIAL: [f32; 8] = [
    f32::NAN,
    f32::INFINITY,
    f32::NEG_INFINITY,
    f32::MAX,
    f32::MIN_POSITIVE,
    1e-45,
    0.0,
    -0.0,
];

impl List {
    /// A number in -1..1.
    fn unit(&mut self) -> f32 {
        self.random.below(1 << 24) as f32 / (1 << 23) as f32 - 1.0
    }

    /// A row in which some parts are zeros of either sign.
    fn row(&mut self, size: f32) -> Row {
        std::array::from_fn(|_| Complex32 {
            real: self.part(size),
            imaginary: self.part(size),
        })
    }

    fn part(&mut self, size: f32) -> f32 {
        match self.random.below(16) {
            0 => 0.0,
            1 => -0.0,
            _ => self.unit() * size,
        }
    }

    fn made(&mut self, handed_in: bool, sizes: (f32, f32, f32)) -> Step {
        Step {
            reliable: self.random.below(4) != 0,
            handed_in,
            weights: self.row(sizes.0),
            window: self.row(sizes.1),
            derivatives: self.row(sizes.2),
        }
    }

    /// Steps that keep the weights of the ones before.
    fn kept(&mut self, steps: usize, size: f32) {
        for _ in 0..steps {
            let step = self.made(false, (0.0, size, size));
            self.steps.push(step);
        }
    }

    fn handed_in(&mut self, steps: usize, weights: f32, window: f32, derivatives: f32) {
        for _ in 0..steps {
            let step = self.made(true, (weights, window, derivatives));
            self.steps.push(step);
        }
    }

    /// One special part, in the weights, the window or the derivatives by turns, and a step after it.
    fn special(&mut self, rounds: usize, special: f32) {
        for round in 0..rounds {
            let mut step = self.made(true, (0.3, 1.0, 1.0));
            step.reliable = true;
            let place = self.random.below(TAPS as u64) as usize;
            let row = [&mut step.weights, &mut step.window, &mut step.derivatives]
                .into_iter()
                .nth(round % 3)
                .expect("one of three");
            if round < 3 {
                row[place].real = special;
            } else {
                row[place].imaginary = special;
            }
            self.steps.push(step);
            self.kept(1, 1.0);
        }
    }

    /// One part in the window and one weight: energies around 0.01, norms around 16 and powers whose
    /// 1 less them passes -2, each with its neighbours.
    fn thresholds(&mut self) {
        for (weight, value) in [(1.0, 0.1_f32), (4.0, 1.0), (1.0, 3.0_f32.sqrt())] {
            for step in -4..=4_i32 {
                let near = |x: f32| f32::from_bits(x.to_bits().wrapping_add_signed(step));
                for (w, x) in [(near(weight), value), (weight, near(value))] {
                    self.lone(w, x);
                }
            }
        }
    }

    fn lone(&mut self, weight: f32, value: f32) {
        let mut step = self.made(true, (0.0, 0.0, 0.0));
        step.reliable = true;
        step.weights[10].real = weight;
        step.window[10].real = value;
        step.derivatives[10].real = 1.0;
        self.steps.push(step);
    }
}
