//! The list of runs for the front (mixer, decimator and resampler together), and the upstream's
//! answers to it. The samples of a run are made from its seed, here and in the program that replays
//! it.
//!
//! A run is seven 8-byte words: rate, offset, profile, the oscillator's count of turns, the seed, the
//! kind of samples, and how many are left out of 512 times so many, the latter in the high half. Its
//! answer is a line: the digest of the values' parts, then of the oscillator, the decimator, the
//! resampler and both planes of its ring, 592 places each.

use crate::dsp::Demodulator;
use crate::helpers::{bits32, bits64};
use crate::list::folded;
use crate::random::Random;
use crate::resampler_list::{sample_part, KINDS, RATES};
use crate::samples::word64;
use crate::state::RING_ROOM;
use crate::Complex32;
use std::io::{self, BufWriter, Read, Write};

const WORDS: usize = 7;
const BLOCK: u64 = 512;

struct Run {
    rate: f64,
    offset: f64,
    profile: u64,
    turns: u64,
    seed: u64,
    kind: u64,
    skipped: u64,
    blocks: u64,
}

pub fn run(words: &[&str]) -> Result<(), String> {
    match words {
        ["inputs"] => write_inputs(),
        ["answers"] => write_answers(),
        _ => Err("inputs or answers".into()),
    }
}

fn write_inputs() -> Result<(), String> {
    let mut output = BufWriter::new(io::stdout());
    for word in runs().iter().flat_map(Run::words) {
        output
            .write_all(&word.to_le_bytes())
            .map_err(|e| e.to_string())?;
    }
    output.flush().map_err(|e| e.to_string())
}

/// Every rate under both profiles and a third number, at no offset, at both ends of the offsets that
/// a setup takes and at a random one; the oscillator is brought to size 1 early in the run.
fn runs() -> Vec<Run> {
    let mut random = Random::new(9);
    let mut runs = Vec::new();
    for rate in RATES {
        let far = rate / 2.0 - 4201.0;
        let any = far * (random.below(1 << 20) as f64 / (1 << 19) as f64 - 1.0);
        let needed = samples_needed(rate);
        for (n, offset) in [0.0, far, -far, any].into_iter().enumerate() {
            for profile in [0, 1, 7] {
                runs.push(Run {
                    rate,
                    offset,
                    profile,
                    turns: 4000 + random.below(96),
                    seed: random.below(1 << 32),
                    kind: (n as u64 + profile) % KINDS,
                    skipped: random.below(BLOCK),
                    blocks: needed / BLOCK + 2,
                });
            }
        }
    }
    runs
}

/// So many that the ring has been filled once, and some.
fn samples_needed(rate: f64) -> u64 {
    let d = Demodulator::new(rate, 0.0, 0);
    let r = &d.resampler;
    ((r.arms[0].len() + 40) * r.decimation) as u64
}

impl Run {
    fn words(&self) -> [u64; WORDS] {
        [
            self.rate.to_bits(),
            self.offset.to_bits(),
            self.profile,
            self.turns,
            self.seed,
            self.kind,
            self.skipped | self.blocks << 32,
        ]
    }

    fn from_words(words: &[u64]) -> Self {
        Run {
            rate: f64::from_bits(words[0]),
            offset: f64::from_bits(words[1]),
            profile: words[2],
            turns: words[3],
            seed: words[4],
            kind: words[5],
            skipped: words[6] & 0xffff_ffff,
            blocks: words[6] >> 32,
        }
    }
}

fn write_answers() -> Result<(), String> {
    let mut bytes = Vec::new();
    io::stdin()
        .read_to_end(&mut bytes)
        .map_err(|e| e.to_string())?;
    let words: Vec<u64> = bytes.chunks_exact(8).map(word64).collect();
    let mut output = BufWriter::new(io::stdout());
    for words in words.chunks_exact(WORDS) {
        let line = answer(&Run::from_words(words));
        writeln!(output, "{line:016x}").map_err(|e| e.to_string())?;
    }
    output.flush().map_err(|e| e.to_string())
}

fn answer(run: &Run) -> u64 {
    let mut d = Demodulator::new(run.rate, run.offset, run.profile as i32);
    d.renormalize = run.turns as usize;
    let mut seed = run.seed;
    let mut part = || {
        seed = folded(seed, 1);
        finite(sample_part(seed, run.kind))
    };
    let mut h = 0;
    for n in 0..BLOCK * run.blocks {
        let sample = Complex32 {
            real: part(),
            imaginary: part(),
        };
        if n < run.skipped {
            continue;
        }
        for value in crate::trace::front(&mut d, sample) {
            h = folded(folded(h, bits32(value.real)), bits32(value.imaginary));
        }
    }
    state(&d).into_iter().fold(h, folded)
}

/// A NaN is no sample that a block takes.
fn finite(x: f32) -> f32 {
    if x.is_nan() {
        0.0
    } else {
        x
    }
}

fn state(d: &Demodulator) -> Vec<u64> {
    let r = &d.resampler;
    let mut words = vec![
        bits64(d.oscillator_real),
        bits64(d.oscillator_imaginary),
        bits64(d.step_real),
        bits64(d.step_imaginary),
        d.renormalize as u64,
        r.counter as u64,
    ];
    words.extend(r.integrators.iter().chain(&r.delays).map(|n| *n as u64));
    words.extend([
        r.input_index as u64,
        bits64(r.next_output),
        r.write as u64,
    ]);
    let spare = vec![0; RING_ROOM - r.ring.len()];
    words.extend(r.ring.iter().map(|z| bits32(z.real)).chain(spare.clone()));
    words.extend(r.ring.iter().map(|z| bits32(z.imaginary)).chain(spare));
    words
}
