//! Sample files of pi/4-DQPSK at 4,800 symbols a second, shaped by a root-raised-cosine pulse of
//! roll-off 0.2, with what a radio channel does to it. The same bytes on every machine: only IEEE
//! operations, our own sine and cosine, and our own random numbers.

use crate::options::Options;
use crate::plan::{Plan, FLAGS};
use crate::random::Random;
use crate::routines::{cosine, sine, sine_cosine};
use crate::samples::SampleFile;
use crate::Complex32;
use std::f64::consts::{FRAC_1_SQRT_2, PI};
use std::io::{self, BufWriter, Write};

const SYMBOL_RATE: f64 = 4800.0;
const ROLL_OFF: f64 = 0.2;
/// The pulse is cut at this many symbols on each side; the first symbol stands that far in.
const REACH: i64 = 8;

/// The file, and the dibits that were sent from its start.
pub struct Generated {
    pub file: SampleFile,
    pub sent: Vec<u8>,
}

pub fn run(words: &[&str]) -> Result<(), String> {
    let options = Options::parse(words, &FLAGS)?;
    let made = generated(&Plan::from_options(&options)?);
    if let Some(path) = options.text("sent") {
        let lines: String = made.sent.iter().map(|dibit| format!("{dibit}\n")).collect();
        std::fs::write(path, lines).map_err(|e| format!("{path}: {e}"))?;
    }
    let mut output = BufWriter::new(io::stdout());
    made.file
        .write(&mut output)
        .and_then(|()| output.flush())
        .map_err(|e| e.to_string())
}

#[derive(Clone, Copy, Default)]
pub struct Complex64 {
    pub real: f64,
    pub imaginary: f64,
}

impl Complex64 {
    pub fn plus(self, other: Self) -> Self {
        Self {
            real: self.real + other.real,
            imaginary: self.imaginary + other.imaginary,
        }
    }

    pub fn times(self, other: Self) -> Self {
        Self {
            real: self.real * other.real - self.imaginary * other.imaginary,
            imaginary: self.real * other.imaginary + self.imaginary * other.real,
        }
    }

    pub fn scaled(self, gain: f64) -> Self {
        Self {
            real: self.real * gain,
            imaginary: self.imaginary * gain,
        }
    }
}

/// The point of size 1 at `turns` of a circle, whole turns aside.
pub fn turned(turns: f64) -> Complex64 {
    let (imaginary, real) = sine_cosine(2.0 * PI * (turns - turns.floor()));
    Complex64 { real, imaginary }
}

/// A stream of random dibits and its points.
pub struct Stream {
    pub dibits: Vec<u8>,
    points: Vec<Complex64>,
}

impl Stream {
    pub fn new(seed: u64, symbols: usize) -> Self {
        let mut random = Random::new(seed);
        let (mut dibits, mut points) = (Vec::new(), Vec::new());
        let mut eighths = 0;
        for _ in 0..symbols {
            let quarters = random.below(4) as usize;
            eighths = (eighths + 1 + 2 * quarters) % 8;
            dibits.push([0, 1, 3, 2][quarters]);
            points.push(eighth(eighths));
        }
        Self { dibits, points }
    }

    /// The shaped signal at a time in symbols.
    pub fn at(&self, time: f64) -> Complex64 {
        let nearest = time.floor() as i64;
        let mut value = Complex64::default();
        for place in nearest - 2 * REACH..=nearest + 1 {
            if let Some(point) = usize::try_from(place).ok().and_then(|k| self.points.get(k)) {
                let distance = time - (place + REACH) as f64;
                value = value.plus(point.scaled(pulse(distance)));
            }
        }
        value
    }
}

/// The point at a number of eighths of a circle.
fn eighth(eighths: usize) -> Complex64 {
    const LEVELS: [f64; 8] = [
        1.0,
        FRAC_1_SQRT_2,
        0.0,
        -FRAC_1_SQRT_2,
        -1.0,
        -FRAC_1_SQRT_2,
        0.0,
        FRAC_1_SQRT_2,
    ];
    Complex64 {
        real: LEVELS[eighths],
        imaginary: LEVELS[(eighths + 6) % 8],
    }
}

/// The root-raised-cosine pulse at t symbols from its middle.
fn pulse(t: f64) -> f64 {
    const B: f64 = ROLL_OFF;
    if t.abs() > REACH as f64 {
        0.0
    } else if t == 0.0 {
        1.0 - B + 4.0 * B / PI
    } else if ((4.0 * B * t).abs() - 1.0).abs() < 1e-7 {
        let angle = PI / (4.0 * B);
        B * FRAC_1_SQRT_2 * ((1.0 + 2.0 / PI) * sine(angle) + (1.0 - 2.0 / PI) * cosine(angle))
    } else {
        let inner = sine(PI * t * (1.0 - B)) + 4.0 * B * t * cosine(PI * t * (1.0 + B));
        inner / (PI * t * (1.0 - (4.0 * B * t) * (4.0 * B * t)))
    }
}

/// A random number of mean 0 and deviation 1: twelve even ones, less their mean.
pub fn deviate(random: &mut Random) -> f64 {
    let sum: u64 = (0..12).map(|_| random.below(1 << 32)).sum();
    sum as f64 / (1_u64 << 32) as f64 - 6.0
}

pub fn generated(plan: &Plan) -> Generated {
    let step = SYMBOL_RATE * (1.0 + plan.drift * 1e-6) / plan.rate;
    let symbols = (plan.samples as f64 * step) as usize + 1;
    let stream = Stream::new(plan.seed, symbols);
    let other = Stream::new(plan.seed.wrapping_add(1_000_003), symbols);
    let mut random = Random::new(plan.seed.wrapping_add(2_000_003));
    let samples = (0..plan.samples)
        .map(|n| sample(plan, n, n as f64 * step, &stream, &other, &mut random))
        .collect();
    let labels = if plan.profile == 1 {
        [0, 3, 1, 2]
    } else {
        [0, 1, 2, 3]
    };
    let relabelled = stream.dibits.iter().map(|&dibit| labels[dibit as usize]);
    Generated {
        file: SampleFile {
            rate: plan.rate,
            offset: plan.offset,
            samples,
        },
        sent: relabelled.collect(),
    }
}

/// Sample n, at a time in symbols.
fn sample(
    plan: &Plan,
    n: usize,
    time: f64,
    stream: &Stream,
    other: &Stream,
    random: &mut Random,
) -> Complex32 {
    let seconds = n as f64 / plan.rate;
    let mut value = Complex64::default();
    if n >= plan.onset {
        value = direct_and_echo(plan, time, stream);
    }
    if let Some([rate, depth]) = plan.fade {
        let lost = depth * (0.5 - 0.5 * turned(rate * seconds).real);
        value = value.scaled(1.0 - lost);
    }
    if let Some([distance, gain, until]) = plan.neighbour {
        if (n as f64) < until {
            let shifted = other.at(time + 0.375).times(turned(distance * seconds));
            value = value.plus(shifted.scaled(gain));
        }
    }
    if plan.noise != 0.0 {
        let noise = Complex64 {
            real: deviate(random),
            imaginary: deviate(random),
        };
        value = value.plus(noise.scaled(plan.noise));
    }
    if plan.profile == 1 {
        value.imaginary = -value.imaginary;
    }
    finished(plan, value.times(turned(plan.offset * seconds)))
}

fn direct_and_echo(plan: &Plan, time: f64, stream: &Stream) -> Complex64 {
    let direct = stream.at(time);
    let Some([delay, gain, turn]) = plan.echo else {
        return direct;
    };
    let late = stream.at(time - delay).scaled(gain);
    direct.plus(late.times(turned(turn)))
}

/// The level and the limits of the file.
fn finished(plan: &Plan, value: Complex64) -> Complex32 {
    let part = |x: f64| {
        let x = x * plan.amplitude;
        let x = plan.clip.map_or(x, |most| x.max(-most).min(most));
        plan.bits.map_or(x, |bits| converted(x, bits)) as f32
    };
    Complex32 {
        real: part(value.real),
        imaginary: part(value.imaginary),
    }
}

/// What a converter of so many bits gives: from -1 up to one step below 1, in steps of 2 / 2^bits.
fn converted(x: f64, bits: i32) -> f64 {
    let steps = 2.0_f64.powi(bits - 1);
    (x * steps).round().max(-steps).min(steps - 1.0) / steps
}
