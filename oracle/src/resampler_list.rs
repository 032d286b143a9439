//! The list of runs for the filter design and the resampler, and the upstream's answers to it. The
//! samples of a run are made from its seed, here and in the program that replays it.
//!
//! A run is eight 8-byte words: what is asked, the rate, whether a state is handed in, its step,
//! input index, next output and ring place, and, in one word, the seed (low half), the kind of
//! samples and their number. What is asked: 0, the design: lines for d, c, the step, the digest of
//! the table and the taps at five places; 1, the outputs: a line, the digest of, for each sample,
//! the number of outputs and their patterns, and then of index, next output, ring place and counter;
//! 2, the number of outputs of each sample, a line each.

use crate::dsp::Resampler;
use crate::helpers::{bits32, bits64};
use crate::list::folded;
use crate::random::Random;
use crate::samples::word64;
use crate::Complex32;
use std::io::{self, BufWriter, Read, Write};

pub const RATES: [f64; 8] = [
    9600.0, 10929.0, 48000.0, 256000.0, 341000.0, 384000.0, 2.4e6, 2e7,
];
const DESIGNED: [f64; 7] = [9600.0, 10929.0, 48000.0, 256000.0, 383999.0, 384000.0, 2e7];
pub const KINDS: u64 = 4;
const MOST: u64 = 1 << 52;
const WORDS: usize = 8;

struct Run {
    asked: u64,
    rate: f64,
    state: Option<Handed>,
    seed: u64,
    kind: u64,
    count: u64,
}

struct Handed {
    step: f64,
    index: u64,
    next: f64,
    write: u64,
}

pub fn run(words: &[&str]) -> Result<(), String> {
    match words {
        ["inputs"] => write_inputs(),
        ["answers"] => write_answers(),
        _ => Err("inputs or answers".into()),
    }
}

fn write_inputs() -> Result<(), String> {
    let mut random = Random::new(6);
    let mut output = BufWriter::new(io::stdout());
    for r in runs(&mut random) {
        for word in r.words() {
            output
                .write_all(&word.to_le_bytes())
                .map_err(|e| e.to_string())?;
        }
    }
    output.flush().map_err(|e| e.to_string())
}

fn runs(random: &mut Random) -> Vec<Run> {
    let seed = random.below(1 << 32);
    let plain = |asked, rate, kind, count| Run {
        asked,
        rate,
        state: None,
        seed,
        kind,
        count,
    };
    let mut runs: Vec<Run> = DESIGNED.iter().map(|rate| plain(0, *rate, 0, 0)).collect();
    // case 13 of document 01
    runs.push(plain(2, 9600.0, 0, 16));
    for rate in RATES {
        let r = Resampler::new(rate);
        let count = (r.arms[0].len() + 40) * r.decimation + 5;
        for kind in 0..KINDS {
            runs.push(plain(1, rate, kind, count as u64));
        }
    }
    for rate in RATES {
        for step in [0.5, 20.0, 0.5 + random.below(1 << 20) as f64 / 65536.0] {
            for room in [MOST, MOST / 32, 1 << 47, 5000] {
                runs.push(handed_in(random, rate, step, room));
            }
        }
    }
    runs
}

/// A run from an admitted state that comes to the end of the room, or near it.
fn handed_in(random: &mut Random, rate: f64, step: f64, room: u64) -> Run {
    let r = Resampler::new(rate);
    let (arm, half) = (r.arms[0].len() as u64, r.half as u64);
    let values = 60;
    let index = room - values - random.below(3);
    let ahead = random.below(3 * arm) as f64 + random.below(1 << 10) as f64 / 1024.0;
    Run {
        asked: 1,
        rate,
        state: Some(Handed {
            step,
            index,
            next: (index + half + 1 - arm) as f64 + ahead.min(500.0),
            write: random.below(arm + 16),
        }),
        seed: random.below(1 << 32),
        kind: random.below(KINDS),
        count: values * r.decimation as u64,
    }
}

impl Run {
    fn words(&self) -> [u64; WORDS] {
        let last = self.seed | self.kind << 32 | self.count << 36;
        match &self.state {
            None => [self.asked, self.rate.to_bits(), 0, 0, 0, 0, 0, last],
            Some(s) => [
                self.asked,
                self.rate.to_bits(),
                1,
                s.step.to_bits(),
                s.index,
                s.next.to_bits(),
                s.write,
                last,
            ],
        }
    }

    fn from_words(words: &[u64]) -> Self {
        let state = (words[2] != 0).then(|| Handed {
            step: f64::from_bits(words[3]),
            index: words[4],
            next: f64::from_bits(words[5]),
            write: words[6],
        });
        Run {
            asked: words[0],
            rate: f64::from_bits(words[1]),
            state,
            seed: words[7] & 0xffff_ffff,
            kind: words[7] >> 32 & 15,
            count: words[7] >> 36,
        }
    }

    fn resampler(&self) -> Resampler {
        let mut r = Resampler::new(self.rate);
        if let Some(s) = &self.state {
            r.step = s.step;
            r.input_index = s.index as i64;
            r.next_output = s.next;
            r.write = s.write as usize;
            for (i, value) in r.ring.iter_mut().enumerate() {
                *value = Complex32 {
                    real: i as f32 - 100.5,
                    imaginary: 200.25 - i as f32,
                };
            }
        }
        r
    }
}

fn write_answers() -> Result<(), String> {
    let mut bytes = Vec::new();
    io::stdin()
        .read_to_end(&mut bytes)
        .map_err(|e| e.to_string())?;
    let words: Vec<u64> = bytes.chunks_exact(8).map(word64).collect();
    let mut output = BufWriter::new(io::stdout());
    for words in words.chunks_exact(WORDS) {
        for line in answers(&Run::from_words(words)) {
            writeln!(output, "{line:016x}").map_err(|e| e.to_string())?;
        }
    }
    output.flush().map_err(|e| e.to_string())
}

fn answers(run: &Run) -> Vec<u64> {
    let mut r = run.resampler();
    match run.asked {
        0 => design(&r),
        1 => vec![digest(&mut r, run)],
        _ => outputs(&mut r, run)
            .iter()
            .map(|values| values.len() as u64)
            .collect(),
    }
}

/// d, c, the step, the digest of the table, and the taps at its ends, in its middle and beside arms'
/// ends.
fn design(r: &Resampler) -> Vec<u64> {
    let table: Vec<f32> = r.arms.concat();
    let arm = r.arms[0].len();
    let digest = table.iter().fold(0, |h, tap| folded(h, bits32(*tap)));
    let places = [0, arm - 1, arm, 16 * arm + arm / 2, 32 * arm - 1];
    let mut lines = vec![r.decimation as u64, arm as u64, bits64(r.step), digest];
    lines.extend(places.map(|place| bits32(table[place])));
    lines
}

fn digest(r: &mut Resampler, run: &Run) -> u64 {
    let mut h = 0;
    for values in outputs(r, run) {
        h = folded(h, values.len() as u64);
        for value in values {
            h = folded(h, bits32(value.real));
            h = folded(h, bits32(value.imaginary));
        }
    }
    let state = [
        r.input_index as u64,
        bits64(r.next_output),
        r.write as u64,
        r.counter as u64,
    ];
    state.iter().fold(h, |h, word| folded(h, *word))
}

fn outputs(r: &mut Resampler, run: &Run) -> Vec<Vec<Complex32>> {
    let mut s = run.seed;
    let mut part = || {
        s = folded(s, 1);
        sample_part(s, run.kind)
    };
    let mut all = Vec::new();
    for _ in 0..run.count {
        let sample = Complex32 {
            real: part(),
            imaginary: part(),
        };
        let mut values = Vec::new();
        r.process(sample, &mut |value| values.push(value));
        all.push(values);
    }
    all
}

/// Moderate; far above 1; huge; any pattern.
pub fn sample_part(s: u64, kind: u64) -> f32 {
    let unit = (s >> 40) as f32 / 8388608.0 - 1.0;
    match kind {
        0 => unit,
        1 => unit * 1000000.0,
        2 => unit * 1e30,
        _ => f32::from_bits(s as u32),
    }
}
