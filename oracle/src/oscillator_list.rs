//! The list of runs for the mixer, and the upstream's steps of them. A record is six little-endian
//! 8-byte words. Byte 0 of the first says where the run starts: 0 at a fresh oscillator of the rate
//! and the offset in words 2 and 3, 1 at the one that words 2 to 5 hand in (real, imaginary, and the
//! step's), 2 where the run before ended. Byte 1 is the profile, byte 2 the kind of samples, bytes 3
//! and 4 are the counter handed in, and the three above them the number of steps. Word 1 is the seed.
//! A line is the digest of each step's sample and the oscillator after it.

use crate::dsp::{Demodulator, Resampler};
use crate::helpers::{bits32, bits64};
use crate::list::folded;
use crate::random::Random;
use crate::samples::word64;
use crate::Complex32;
use std::io::{self, Read, Write};

const WORDS: usize = 6;

type Run = [u64; WORDS];

const FRESH: u64 = 0;
const HANDED_IN: u64 = 1;
const ON: u64 = 2;

pub fn run(words: &[&str]) -> Result<(), String> {
    match words {
        ["inputs"] => write(&inputs()),
        ["answers"] => {
            let mut d = fresh(9600.0, 0.0);
            for run in read()? {
                println!("{:016x}", answer(&mut d, run));
            }
            Ok(())
        }
        _ => Err("inputs or answers".into()),
    }
}

fn write(runs: &[Run]) -> Result<(), String> {
    let bytes: Vec<u8> = runs
        .iter()
        .flatten()
        .flat_map(|w| w.to_le_bytes())
        .collect();
    io::stdout().write_all(&bytes).map_err(|e| e.to_string())
}

fn read() -> Result<Vec<Run>, String> {
    let mut bytes = Vec::new();
    io::stdin()
        .read_to_end(&mut bytes)
        .map_err(|e| e.to_string())?;
    if bytes.len() % (8 * WORDS) != 0 {
        return Err("the list is not a whole number of records".into());
    }
    let run = |bytes: &[u8]| std::array::from_fn(|k| word64(&bytes[8 * k..]));
    Ok(bytes.chunks_exact(8 * WORDS).map(run).collect())
}

/// The upstream, with the shortest resampler that does not decimate: its ring shows the mixed sample.
fn fresh(rate: f64, offset: f64) -> Demodulator {
    let mut d = Demodulator::new(rate, offset, 0);
    d.resampler = Resampler::new(9600.0);
    d
}

fn answer(d: &mut Demodulator, run: Run) -> u64 {
    match run[0] & 0xff {
        FRESH => *d = fresh(f64::from_bits(run[2]), f64::from_bits(run[3])),
        HANDED_IN => {
            d.oscillator_real = f64::from_bits(run[2]);
            d.oscillator_imaginary = f64::from_bits(run[3]);
            d.step_real = f64::from_bits(run[4]);
            d.step_imaginary = f64::from_bits(run[5]);
            d.renormalize = (run[0] >> 24 & 0xffff) as usize;
        }
        _ => {}
    }
    d.symbols.profile = (run[0] >> 8 & 0xff) as i32;
    let mut seed = run[1];
    (0..run[0] >> 40).fold(0, |h, _| {
        let real = part(&mut seed, run[0] >> 16 & 0xff);
        let imaginary = part(&mut seed, run[0] >> 16 & 0xff);
        step(d, Complex32 { real, imaginary }, h)
    })
}

/// The upstream's step on one sample, folded into a digest.
fn step(d: &mut Demodulator, sample: Complex32, h: u64) -> u64 {
    d.process(&[sample], &mut [0; 2]);
    let r = &d.resampler;
    let mixed = r.ring[(r.write + r.ring.len() - 1) % r.ring.len()];
    let words = [
        bits32(mixed.real),
        bits32(mixed.imaginary),
        bits64(d.oscillator_real),
        bits64(d.oscillator_imaginary),
        d.renormalize as u64,
    ];
    words.into_iter().fold(h, folded)
}

/// One part of a sample from the seed: in -1..1, or any finite pattern.
fn part(seed: &mut u64, kind: u64) -> f32 {
    *seed ^= *seed << 13;
    *seed ^= *seed >> 7;
    *seed ^= *seed << 17;
    let bits = (*seed >> 32) as u32;
    if kind == 0 {
        (bits >> 8) as f32 / 8388608.0 - 1.0
    } else if bits & 0x7f80_0000 == 0x7f80_0000 {
        f32::from_bits(bits - 0x80_0000)
    } else {
        f32::from_bits(bits)
    }
}

const RATES: [f64; 5] = [9600.0, 48000.0, 383999.0, 2.4e6, 2e7];

/// Two renormalisings, and some.
const LENGTH: u64 = 8200;

fn inputs() -> Vec<Run> {
    let mut random = Random::new(11);
    let mut runs = Vec::new();
    for rate in RATES {
        let limit = rate / 2.0 - 4200.0;
        for offset in [0.0, 2000.0, -2000.0, below(limit), -below(limit)] {
            for profile in [0, 1] {
                if offset.abs() < limit {
                    run_on(&mut runs, &mut random, rate, offset, profile);
                }
            }
        }
    }
    handed_in(&mut runs, &mut random);
    runs
}

/// The largest offset that is below the limit and accepted.
fn below(limit: f64) -> f64 {
    limit * (1.0 - 1e-12)
}

/// A fresh run in parts.
fn run_on(runs: &mut Vec<Run>, random: &mut Random, rate: f64, offset: f64, profile: u64) {
    for part in 0..LENGTH / 1025 {
        let start = if part == 0 { FRESH } else { ON };
        runs.push([
            start | profile << 8 | part % 2 << 16 | 1025 << 40,
            random.word(),
            rate.to_bits(),
            offset.to_bits(),
            0,
            0,
        ]);
    }
}

/// Oscillators of any size and none, just before they are renormalised.
fn handed_in(runs: &mut Vec<Run>, random: &mut Random) {
    let parts = [
        1.0,
        0.0,
        -0.0,
        1e200,
        1e-200,
        5e-324,
        f64::MAX,
        f64::INFINITY,
        f64::NAN,
        -0.6,
    ];
    for real in parts {
        for imaginary in parts {
            let k = runs.len() as u64;
            runs.push([
                HANDED_IN | k % 3 << 8 | k % 2 << 16 | (4092 + k % 4) << 24 | 5 << 40,
                random.word(),
                real.to_bits(),
                imaginary.to_bits(),
                0.8_f64.to_bits(),
                (-0.6_f64).to_bits(),
            ]);
        }
    }
}
