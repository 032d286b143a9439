//! What `bench/run` times on the Rust's side: blocks, setups, constellation reads or blocks of both
//! streams, so many as the four words from standard input say, and a digest of what came out.

use crate::dsp::Complex32;
use crate::list::folded;
use crate::receiver::Dsp;
use crate::samples::{read_full, word64};
use crate::script::seeded;
use std::io;
use std::mem::{size_of, size_of_val};

/// The samples that blocks are taken from, again and again.
const SAMPLES: usize = 65_536;

pub fn run() -> Result<(), String> {
    let mut bytes = [0; 32];
    if read_full(&mut io::stdin(), &mut bytes)? < 32 {
        return Err("bench wants four words: kind, rate, block, count".into());
    }
    let word = |k: usize| word64(&bytes[8 * k..]);
    let (rate, block, count) = (word(1) as f64, word(2) as usize, word(3));
    if block > SAMPLES {
        return Err(format!("a block has at most {SAMPLES} samples"));
    }
    let samples: Vec<Complex32> = seeded(1, 0.5, 2 * SAMPLES)
        .chunks_exact(2)
        .map(|p| Complex32 {
            real: p[0],
            imaginary: p[1],
        })
        .collect();
    let digest = match word(0) {
        0 => blocks(&mut Dsp::new(rate, 100.0)?, &samples, block, count)?.0,
        1 => setups(rate, count)?,
        2 => reads(rate, &samples, count)?,
        3 => both(rate, &samples, block, count)?,
        kind => return Err(format!("no kind {kind}")),
    };
    println!("{digest:016x}");
    Ok(())
}

fn blocks(dsp: &mut Dsp, samples: &[Complex32], block: usize, count: u64) -> Result<(u64, usize), String> {
    let (mut dibits, mut soft) = (Vec::new(), Vec::new());
    let (mut digest, mut at, mut all) = (0, 0, 0);
    for _ in 0..count {
        if at + block > samples.len() {
            at = 0;
        }
        dsp.process_soft(&samples[at..at + block], &mut dibits, &mut soft)?;
        at += block;
        all += dibits.len();
        digest = told(digest, &dibits, &soft);
    }
    Ok((digest, all))
}

/// Both streams of an enabled receiver, one after the other in the digest.
fn both(rate: f64, samples: &[Complex32], block: usize, count: u64) -> Result<u64, String> {
    let mut dsp = Dsp::new(rate, 100.0)?;
    dsp.enable_alternate();
    let (mut dibits, mut soft) = (Default::default(), Default::default());
    let (mut digest, mut at) = (0, 0);
    for _ in 0..count {
        if at + block > samples.len() {
            at = 0;
        }
        dsp.process_dual(&samples[at..at + block], &mut dibits, &mut soft)?;
        at += block;
        for (dibits, soft) in dibits.iter().zip(&soft) {
            digest = told(digest, dibits, soft);
        }
    }
    Ok(digest)
}

fn told(digest: u64, dibits: &[u8], soft: &[[u8; 2]]) -> u64 {
    let bytes = dibits.iter().zip(soft).flat_map(|(&dibit, [a, b])| [dibit, *a, *b]);
    bytes.fold(digest, |h, byte| folded(h, u64::from(byte)))
}

fn setups(rate: f64, count: u64) -> Result<u64, String> {
    let mut digest = 0;
    for k in 0..count {
        let dsp = Dsp::new(rate, k as f64)?;
        digest = folded(digest, dsp.0.resampler.arms[7][5].to_bits().into());
    }
    Ok(digest)
}

fn reads(rate: f64, samples: &[Complex32], count: u64) -> Result<u64, String> {
    let mut dsp = Dsp::new(rate, 100.0)?;
    blocks(&mut dsp, samples, 1024, 64)?;
    let mut points = [Complex32::default(); 1024];
    let mut digest = 0;
    for _ in 0..count {
        let (held, error) = dsp.0.read_signal(&mut points);
        digest = folded(folded(digest, held as u64), error.to_bits());
    }
    Ok(digest)
}

/// The bytes of a receiver of a rate: itself, and on the heap its ring, the drift tracking's state (which
/// the first detector has and never uses), the resampler's taps and the clock's tables.
pub fn size(rate: &str) -> Result<(), String> {
    let rate = rate.parse().map_err(|_| format!("{rate}: not a number"))?;
    let dsp = Dsp::new(rate, 0.0)?;
    let (resampler, clock) = (&dsp.0.resampler, &dsp.0.symbols.clock);
    let sequence = &dsp.0.symbols.carrier.sequence;
    let rows = |arms: &Vec<Vec<f32>>| -> usize {
        let row = |arm: &Vec<f32>| size_of_val(arm) + arm.capacity() * size_of::<f32>();
        arms.iter().map(row).sum()
    };
    let ring = resampler.ring.capacity() * size_of::<Complex32>();
    let drift = size_of_val(&*sequence.drift) + size_of_val(&*sequence.drift_next);
    let taps = rows(&resampler.arms);
    let tables = rows(&clock.arms) + rows(&clock.derivatives);
    println!("{} {ring} {drift} {taps} {tables}", size_of::<Dsp>());
    Ok(())
}
