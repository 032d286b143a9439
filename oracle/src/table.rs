//! Document 01's table of numbers to meet, as far as the Rust has them, for the self-test.

use crate::dsp::Resampler;
use crate::receive::accepted;
use crate::sequence::{Sequence, Tracking};
use crate::Complex32;

/// The first number that is not met, by its number in the table.
pub fn unmet() -> Option<&'static str> {
    let two_60 = (1_u64 << 60) as f32;
    let cases = [
        (
            "P1",
            decimated(2, &[1.0, 0.0, 0.0, 0.0, 0.0, 0.0]) == [3.0, 1.0, 0.0],
        ),
        (
            "P2",
            decimated(2, &[0.0, 1.0, 0.0, 0.0, 0.0, 0.0]) == [1.0, 3.0, 0.0],
        ),
        ("P3", decimated(2, &[1.0; 4]) == [4.0, 8.0]),
        (
            "P4",
            decimated(2, &[two_60; 4]) == [4.0 * two_60, -8.0 * two_60],
        ),
        ("P5", decimated(2, &[4.0 * two_60; 4]) == [0.0, 0.0]),
        ("P6", weights(3) == [1.0, 3.0, 6.0, 7.0, 6.0, 3.0, 1.0]),
        (
            "P7",
            quantised(0.5 / 32768.0) == 1 && quantised(-0.5 / 32768.0) == -1,
        ),
        (
            "P8",
            quantised(f32::NAN) == 0 && quantised(f32::INFINITY) == i64::MAX,
        ),
        ("P9", dimensions(384000.0) == (2, 288)),
        ("P10", dimensions(2e7) == (78, 385)),
        ("11", dimensions(383999.0) == (1, 576)),
        (
            "12",
            dimensions(9600.0) == (1, 14) && accepted(9600.0, 599.5).is_ok(),
        ),
        ("12", accepted(9600.0, 600.0).err() == Some(2)),
        ("13", outputs(9600.0, 14) == [vec![0; 13], vec![2]].concat()),
        ("14", unreliable_steps()),
    ];
    cases.iter().find(|(_, met)| !met).map(|(name, _)| *name)
}

fn sample(real: f32) -> Complex32 {
    Complex32 {
        real,
        imaginary: 0.0,
    }
}

fn dimensions(rate: f64) -> (usize, usize) {
    let r = Resampler::new(rate);
    (r.decimation, r.arms[0].len())
}

/// The real part of a sample as the decimator takes it in.
fn quantised(real: f32) -> i64 {
    let mut r = Resampler::new(512000.0);
    r.process(sample(real), &mut |_| ());
    r.integrators[0]
}

/// Whole numbers through a fresh decimator, as whole numbers.
fn decimated(d: usize, numbers: &[f32]) -> Vec<f32> {
    let mut r = Resampler::new(256000.0 * d as f64);
    let mut made = Vec::new();
    for number in numbers {
        let before = r.input_index;
        r.process(sample(number / 32768.0), &mut |_| ());
        if r.input_index > before {
            let value = r.ring[r.write - 1].real as f64 / r.cic_scale;
            made.push(value as f32);
        }
    }
    made
}

/// What one sample weighs in an output, from the newest place of the sample to the oldest.
fn weights(d: usize) -> Vec<f32> {
    let most = 3 * d - 2;
    let one_at = |age: usize| {
        let mut numbers = vec![0.0; 4 * d];
        numbers[4 * d - 1 - age] = 1.0;
        decimated(d, &numbers)[3].round()
    };
    (0..most).map(one_at).collect()
}

/// How many outputs each of `count` samples makes due.
fn outputs(rate: f64, count: usize) -> Vec<i32> {
    let mut r = Resampler::new(rate);
    let one = |_| {
        let mut made = 0;
        r.process(sample(0.0), &mut |_| made += 1);
        made
    };
    (0..count).map(one).collect()
}

fn unreliable_steps() -> bool {
    let mut s = Sequence::new(Tracking::Lms);
    let steps: Vec<_> = (0..40).map(|_| s.process(sample(0.0), false).0).collect();
    let nothing = steps[..31].iter().all(|step| step.is_none());
    nothing && steps[31..].iter().all(|step| *step == Some((0, [0, 0])))
}
