//! What the second stream is for: the errors of both over channels of two fading paths.
//!
//! The paths have the same mean power, and each fades on its own as Rayleigh's law says: a sum of
//! waves from all around the receiver, of random phase, shifted by what its motion makes of their
//! directions. The second path comes later by a part of a symbol. Noise is 30 dB below the mean energy
//! of a symbol. The receiver has both trackers from its first sample on.
//!
//! After a fade the clock may have slipped by a symbol, and a tracker may have taken another tap for
//! the main one, which moves its own stream by a symbol. So each stream's dibits are laid beside the
//! sent ones window by window, with the shift near the last one that leaves the fewest wrong, or with
//! the last one where none leaves half of them right. Where a stream moves inside a window, the dibits
//! on one side of it count as they come.

use crate::dsp::Demodulator;
use crate::generator::{deviate, turned, Complex64, Stream};
use crate::options::Options;
use crate::random::Random;
use crate::Complex32;

const RATE: f64 = 48000.0;
const SAMPLES_A_SYMBOL: usize = 10;
const DOPPLERS: [f64; 4] = [5.0, 20.0, 40.0, 80.0];
const DELAYS: [f64; 4] = [0.0, 0.25, 0.5, 1.0];
/// Noise power against the energy of a symbol.
const NOISE: f64 = 1e-3;
const AMPLITUDE: f64 = 0.3;
/// The waves that a path is made of.
const WAVES: usize = 16;

const BLOCK: usize = 4096;
/// The symbols after which errors are counted.
const SETTLED: usize = 200;
/// How far the first shift is looked for, and how far a later one from the last.
const FIRST_REACH: i64 = 60;
const REACH: i64 = 4;
/// A dibit with both reliabilities above this one passes for reliable.
const RELIABLE: u8 = 128;

pub fn run(words: &[&str]) -> Result<(), String> {
    let options = Options::parse(words, &[])?;
    options.only(&["seed", "symbols", "window"])?;
    if !options.words().is_empty() {
        return Err("fading takes options only".into());
    }
    let seed: u64 = options.number("seed", 1)?;
    let symbols: usize = options.number("symbols", 101_000)?;
    let window: usize = options.number("window", 200)?;
    if window == 0 {
        return Err("--window: at least one dibit".into());
    }
    let stream = Stream::new(seed, symbols);
    println!("Doppler   delay  dibits    bit errors         slips        wrong and reliable");
    println!("     Hz symbols            first   second   first second     first   second");
    for delay in DELAYS {
        let shaped = |late: f64| -> Vec<Complex64> {
            let samples = 0..symbols * SAMPLES_A_SYMBOL;
            let time = |n: usize| n as f64 / SAMPLES_A_SYMBOL as f64;
            samples.map(|n| stream.at(time(n) - late)).collect()
        };
        let paths = [shaped(0.0), shaped(delay)];
        for doppler in DOPPLERS {
            let received = received(&paths, doppler, seed);
            let [a, b] = received.map(|dibits| compared(&dibits, &stream.dibits, window));
            println!(
                "{doppler:7} {delay:7.2} {:7} {:8.1e} {:8.1e} {:7} {:6} {:9} {:8}",
                a.dibits,
                a.rate(),
                b.rate(),
                a.slips,
                b.slips,
                a.reliable,
                b.reliable
            );
        }
    }
    Ok(())
}

/// A path's gain, sample after sample: waves, each with the turn that a sample makes.
struct Path {
    waves: Vec<(Complex64, Complex64)>,
}

impl Path {
    fn new(doppler: f64, random: &mut Random) -> Self {
        let mut unit = || random.below(1 << 32) as f64 / (1_u64 << 32) as f64;
        let wave = |k: usize| {
            let direction = turned((k as f64 + unit()) / WAVES as f64);
            (turned(unit()), turned(doppler * direction.real / RATE))
        };
        Self {
            waves: (0..WAVES).map(wave).collect(),
        }
    }

    /// The next gain; its mean power over two paths is 1.
    fn next(&mut self) -> Complex64 {
        let mut sum = Complex64::default();
        for (wave, turn) in &mut self.waves {
            sum = sum.plus(*wave);
            *wave = wave.times(*turn);
        }
        sum.scaled(1.0 / (2.0 * WAVES as f64).sqrt())
    }
}

type Dibit = (u8, [u8; 2]);

/// Both streams over a channel with these paths.
fn received(paths: &[Vec<Complex64>; 2], doppler: f64, seed: u64) -> [Vec<Dibit>; 2] {
    let mut random = Random::new(seed.wrapping_add(3_000_003 + doppler as u64));
    let mut gains = [0, 1].map(|_| Path::new(doppler, &mut random));
    let deviation = (NOISE * SAMPLES_A_SYMBOL as f64 / 2.0).sqrt();
    let mut sample = |(first, second): (&Complex64, &Complex64)| {
        let [near, far] = &mut gains;
        let noise = Complex64 {
            real: deviate(&mut random),
            imaginary: deviate(&mut random),
        };
        let value = first.times(near.next()).plus(second.times(far.next()));
        let value = value.plus(noise.scaled(deviation)).scaled(AMPLITUDE);
        Complex32 {
            real: value.real as f32,
            imaginary: value.imaginary as f32,
        }
    };
    let mut demodulator = Demodulator::new(RATE, 0.0, 0);
    demodulator.enable_alternate();
    let mut streams = [Vec::new(), Vec::new()];
    for (first, second) in paths[0].chunks(BLOCK).zip(paths[1].chunks(BLOCK)) {
        let samples: Vec<Complex32> = first.iter().zip(second).map(&mut sample).collect();
        let mut dibits = [[0; BLOCK]; 2];
        let mut soft = [[[0; 2]; BLOCK]; 2];
        let [first, second] = &mut dibits;
        let [first_soft, second_soft] = &mut soft;
        let count = demodulator.process_dual(&samples, [first, second], [first_soft, second_soft]);
        for (k, stream) in streams.iter_mut().enumerate() {
            stream.extend(dibits[k].into_iter().zip(soft[k]).take(count));
        }
    }
    streams
}

/// What the comparison of a stream found.
#[derive(Default)]
struct Errors {
    dibits: usize,
    bits: usize,
    /// Windows with another shift than the one before.
    slips: usize,
    /// Wrong dibits that pass for reliable.
    reliable: usize,
}

impl Errors {
    fn add(&mut self, (dibit, soft): Dibit, sent: u8) {
        self.dibits += 1;
        self.bits += (dibit ^ sent).count_ones() as usize;
        let reliable = soft.iter().all(|byte| *byte > RELIABLE);
        self.reliable += (reliable && dibit != sent) as usize;
    }

    /// Wrong bits of all.
    fn rate(&self) -> f64 {
        self.bits as f64 / (2 * self.dibits) as f64
    }
}

/// A stream beside what was sent, in windows of so many dibits.
fn compared(received: &[Dibit], sent: &[u8], length: usize) -> Errors {
    let mut errors = Errors::default();
    let mut last = None;
    for (k, window) in received.chunks_exact(length).enumerate() {
        // These belong to the settling.
        if k * length < SETTLED {
            continue;
        }
        let beside = |shift: i64| {
            let from = usize::try_from((k * length) as i64 + shift).ok()?;
            sent.get(from..from + length)
        };
        let wrong = |shift: i64| {
            let pairs = window.iter().zip(beside(shift)?);
            Some(pairs.filter(|((dibit, _), sent)| dibit != *sent).count())
        };
        let (near, reach) = last.map_or((0, FIRST_REACH), |shift| (shift, REACH));
        let shifts = (near - reach..=near + reach).filter_map(|s| Some((wrong(s)?, s)));
        let best = shifts.min_by_key(|(wrong, s)| (*wrong, (s - near).abs()));
        if let Some((_, shift)) = best.filter(|(wrong, _)| 2 * wrong <= length) {
            errors.slips += last.is_some_and(|last| last != shift) as usize;
            last = Some(shift);
        }
        let sent = last.and_then(beside).into_iter().flatten();
        for (dibit, sent) in window.iter().zip(sent) {
            errors.add(*dibit, *sent);
        }
    }
    errors
}
