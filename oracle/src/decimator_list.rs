//! The list of runs for the decimator, and the upstream's answers to it: the first half of the
//! upstream resampler, each run from a state of its own.
//!
//! A run is a row of 8-byte words: d, the counter, six integrators, six delays (three real, three
//! imaginary each), the number of samples, and the samples, the real part in the low half. Its
//! answer is the digest of, for each sample, 0 or 1 and the value's two patterns, and then of the
//! state's words.

use crate::dsp::Resampler;
use crate::helpers::bits32;
use crate::list::folded;
use crate::random::Random;
use crate::samples::word64;
use crate::Complex32;
use std::io::{self, BufWriter, Read, Write};

const DECIMATIONS: [u64; 8] = [1, 2, 3, 5, 9, 24, 77, 78];
const KINDS: u64 = 7;
const HEAD: usize = 15;

pub fn run(words: &[&str]) -> Result<(), String> {
    match words {
        ["inputs"] => write_inputs(),
        ["answers"] => write_answers(),
        _ => Err("inputs or answers".into()),
    }
}

fn write_inputs() -> Result<(), String> {
    let mut random = Random::new(5);
    let mut output = BufWriter::new(io::stdout());
    for d in DECIMATIONS {
        for kind in 0..KINDS {
            for handed_in in [false, true] {
                for word in run_words(&mut random, d, kind, handed_in) {
                    output
                        .write_all(&word.to_le_bytes())
                        .map_err(|e| e.to_string())?;
                }
            }
        }
    }
    output.flush().map_err(|e| e.to_string())
}

/// A run of samples of one kind, from fresh or from a state of random words.
fn run_words(random: &mut Random, d: u64, kind: u64, handed_in: bool) -> Vec<u64> {
    let mut words = vec![d];
    words.push(if handed_in { random.below(d) } else { 0 });
    for _ in 0..12 {
        words.push(if handed_in { random.word() } else { 0 });
    }
    let count = 4 * d + 13;
    words.push(count);
    for _ in 0..count {
        let real = part(random, kind).to_bits() as u64;
        let imaginary = part(random, kind).to_bits() as u64;
        words.push(real | imaginary << 32);
    }
    words
}

const SATURATING: [f32; 5] = [1e30, f32::MAX, f32::INFINITY, f32::NAN, 0.0];

/// One part of a sample: moderate; a tie or its neighbour; full scale; any size; what saturates;
/// where the code's ways part; any pattern.
fn part(random: &mut Random, kind: u64) -> f32 {
    let step = random.below(3) as u32;
    let sign = if random.below(2) == 0 { 1.0 } else { -1.0 };
    let size = match kind {
        0 => random.below(1 << 24) as f32 / (1 << 24) as f32,
        1 => neighbour((random_tie(random) as f32 + 0.5) / 32768.0, step),
        2 => 1.0,
        3 => random.below(1 << 24) as f32 * power(random.below(100) as i32 - 60),
        4 => SATURATING[random.below(5) as usize],
        5 => neighbour(power([9, 23, 38, 48][random.below(4) as usize]), step),
        _ => f32::from_bits(random.word() as u32),
    };
    sign * size
}

/// A whole number of at most 22 digits, few as often as many.
fn random_tie(random: &mut Random) -> u64 {
    let digits = random.below(22);
    random.below(1 << (digits + 1))
}

fn neighbour(x: f32, step: u32) -> f32 {
    f32::from_bits(x.to_bits() + step - 1)
}

fn power(exponent: i32) -> f32 {
    2.0_f32.powi(exponent)
}

fn write_answers() -> Result<(), String> {
    let mut bytes = Vec::new();
    io::stdin()
        .read_to_end(&mut bytes)
        .map_err(|e| e.to_string())?;
    let words: Vec<u64> = bytes.chunks_exact(8).map(word64).collect();
    let mut output = BufWriter::new(io::stdout());
    let mut rest = &words[..];
    while rest.len() >= HEAD {
        let (head, body) = rest.split_at(HEAD);
        let count = head[HEAD - 1] as usize;
        if body.len() < count {
            return Err("the list ends inside a run".into());
        }
        let (samples, after) = body.split_at(count);
        writeln!(output, "{:016x}", answer(head, samples)).map_err(|e| e.to_string())?;
        rest = after;
    }
    output.flush().map_err(|e| e.to_string())
}

fn answer(head: &[u64], samples: &[u64]) -> u64 {
    let mut r = resampler(head);
    let mut h = 0;
    for word in samples {
        let before = r.input_index;
        let sample = Complex32 {
            real: f32::from_bits(*word as u32),
            imaginary: f32::from_bits((*word >> 32) as u32),
        };
        r.process(sample, &mut |_| {});
        if r.input_index > before {
            let value = r.ring[(r.write + r.ring.len() - 1) % r.ring.len()];
            h = folded(h, 1);
            h = folded(h, bits32(value.real));
            h = folded(h, bits32(value.imaginary));
        } else {
            h = folded(h, 0);
        }
    }
    h = folded(h, r.counter as u64);
    let state = r.integrators.iter().chain(&r.delays);
    state.fold(h, |h, word| folded(h, *word as u64))
}

/// The upstream resampler with the run's state, and the shortest arms: what it delivers is not read.
fn resampler(head: &[u64]) -> Resampler {
    let d = head[0] as f64;
    let six = |from: usize| std::array::from_fn(|i| head[from + i] as i64);
    Resampler {
        decimation: head[0] as usize,
        integrators: six(2),
        delays: six(8),
        cic_scale: 1.0 / (32768.0 * d * d * d),
        counter: head[1] as usize,
        arms: vec![vec![0.0; 14]; 32],
        ring: vec![Complex32::default(); 30],
        half: 7,
        step: 0.5,
        input_index: 0,
        next_output: 7.0,
        write: 0,
    }
}
