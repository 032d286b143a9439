//! Inverses at the limits of the second tracker's two tests, and what the updates of a list met.
//!
//! An update renews the inverse where the denominator is not finite or at most 1e-6, and where the
//! new inverse's trace is not finite or at least 1e4.

use crate::sequence::{cmul, identity8, Inverse8, LAMBDA, SYMBOLS};
use crate::tracker::{by_quad, by_tap, Tracker, Update};
use crate::Complex32;
use std::fmt::{self, Display, Formatter};

const LEAST: f32 = 1e-6;
const MOST: f32 = 1e4;

pub const TAP_MINUS_ZERO: &str = "steps with a tap -0";

/// An update's denominator, made again.
fn denominator(p: &Inverse8, u: &[Complex32; 4]) -> f32 {
    let projected = projected(p, u);
    (0..4).fold(LAMBDA, |sum, j| sum + cmul(u[j], projected[j]).real)
}

fn projected(p: &Inverse8, u: &[Complex32; 4]) -> [Complex32; 8] {
    p.map(|row| {
        let terms = row.iter().zip(u).map(|(x, symbol)| {
            let conjugate = Complex32 {
                real: symbol.real,
                imaginary: -symbol.imaginary,
            };
            cmul(*x, conjugate)
        });
        sum(terms)
    })
}

fn sum(terms: impl Iterator<Item = Complex32>) -> Complex32 {
    terms.fold(Complex32::default(), |sum, term| Complex32 {
        real: sum.real + term.real,
        imaginary: sum.imaginary + term.imaginary,
    })
}

/// The new inverse's diagonal, made again, before it is doubled and halved.
fn diagonal(p: &Inverse8, u: &[Complex32; 4], denominator: f32) -> [f32; 8] {
    let gain = projected(p, u).map(|v| Complex32 {
        real: v.real / denominator,
        imaginary: v.imaginary / denominator,
    });
    std::array::from_fn(|k| {
        let row = sum((0..4).map(|i| cmul(u[i], p[i][k])));
        (p[k][k].real - cmul(gain[k], row).real) / LAMBDA
    })
}

/// A number of an inverse that is set: row, column, and what stands there.
pub type Entry = (usize, usize, Complex32);

fn real(real: f32) -> Complex32 {
    Complex32 {
        real,
        imaginary: 0.0,
    }
}

/// Nothing but a diagonal.
fn only(diagonal: [f32; 8]) -> Vec<Entry> {
    (0..8).map(|k| (k, k, real(diagonal[k]))).collect()
}

/// Nothing but this lower end of the diagonal once the model has been advanced: what it adds to the
/// upper left is taken off before.
fn only_after_advance(ends: &[f32]) -> Vec<Entry> {
    let mut entries = only([0.0; 8]);
    for (k, &end) in (0..8).rev().zip(ends) {
        entries[k] = (k, k, real(end));
        entries[k - 4] = (k - 4, k - 4, real(end));
        entries.push((k, k - 4, real(-end)));
        entries.push((k - 4, k, real(-end)));
    }
    entries
}

/// The number so many patterns away from x, further from 0 where positive.
fn beside(x: f32, patterns: i32) -> f32 {
    f32::from_bits(x.to_bits().wrapping_add_signed(patterns))
}

/// A diagonal whose denominator is exactly this small number. With the first term the sum is a whole
/// number of 2^-24, with the second it is there; both sums are exact. A term is nearly the number on
/// the diagonal, which is looked for beside it.
fn meeting(last: f32) -> Option<Vec<Entry>> {
    let of = |x: f32, y: f32| {
        let mut p = [[Complex32::default(); 8]; 8];
        (p[0][0].real, p[1][1].real) = (x, y);
        denominator(&p, &[SYMBOLS[0]; 4])
    };
    let near = |x: f32| (-8..=8).map(move |patterns| beside(x, patterns));
    (-16..48).find_map(|units| {
        let first = units as f32 * 2.0_f32.powi(-24);
        let x = near(first - LAMBDA).find(|x| of(*x, 0.0) == first)?;
        let y = near(last - first).find(|y| of(x, *y) == last)?;
        Some(only([x, y, 0.0, 0.0, 0.0, 0.0, 0.0, 0.0]))
    })
}

/// Denominators at and around their limits.
pub fn denominators() -> Result<Vec<Vec<Entry>>, String> {
    let small = [
        LEAST,
        beside(LEAST, -1),
        beside(LEAST, 1),
        2.0_f32.powi(-20),
        1.1e-6,
        0.0,
        f32::from_bits(8),
        -f32::from_bits(8),
        -2.0_f32.powi(-24),
        -1.0,
    ];
    let mut cases = Vec::new();
    for last in small {
        cases.push(meeting(last).ok_or(format!("no denominator {last:e}"))?);
    }
    let large = [
        [3e38, 0.0],
        [3e38, 3e38],
        [-3e38, -3e38],
        [f32::INFINITY, 0.0],
        [f32::NEG_INFINITY, 0.0],
        [f32::NAN, 0.0],
    ];
    cases.extend(large.map(|[x, y]| only([x, y, 0.0, 0.0, 0.0, 0.0, 0.0, 0.0])));
    Ok(cases)
}

/// Traces at and around their limits: what stands on the diagonal is divided by 0.8, doubled and
/// halved, and added up. Then zeros of either sign.
pub fn traces() -> Vec<Vec<Entry>> {
    let ends: [&[f32]; 14] = [
        &[8000.0],
        &[beside(8000.0, -1)],
        &[beside(8000.0, 2)],
        &[-8000.0],
        &[4000.0, 4000.0],
        &[2.5e38],
        &[-2.5e38],
        &[-1.3e38],
        &[-1.4e38],
        &[f32::MAX],
        &[f32::MIN],
        &[-1.3e38, -1.3e38, -1.3e38],
        &[2.5e38, -2.5e38],
        &[0.0],
    ];
    let mut cases: Vec<_> = ends.into_iter().map(only_after_advance).collect();
    let zero = Complex32 {
        real: -0.0,
        imaginary: -0.0,
    };
    cases.push((0..64).map(|e| (e / 8, e % 8, zero)).collect());
    cases.push(only([-0.0; 8]));
    cases
}

/// What the updates of a list met, by name.
#[derive(Default)]
pub struct Met {
    counts: Vec<(&'static str, u64)>,
}

impl Met {
    fn count(&mut self, names: &[(&'static str, bool)]) {
        for (name, met) in names {
            match self.counts.iter_mut().find(|(n, _)| n == name) {
                Some((_, count)) => *count += *met as u64,
                None => self.counts.push((name, *met as u64)),
            }
        }
    }

    pub fn has(&self, name: &str) -> bool {
        let met = |(n, count): &(&str, u64)| *n == name && *count > 0;
        self.counts.iter().any(met)
    }

    /// The name of what was never met.
    pub fn missing(&self) -> Option<&'static str> {
        let never = self.counts.iter().find(|(_, count)| *count == 0);
        never.map(|(name, _)| *name)
    }

    /// Counts an update; fails where the inverse was renewed against the tests, or not renewed.
    pub fn update(&mut self, update: &Update) -> Result<(), String> {
        let d = denominator(update.before, &update.symbols);
        let x = diagonal(update.before, &update.symbols, d);
        let trace: f32 = x.iter().map(|x| doubled_half(*x)).sum();
        let usable = d.is_finite() && d > LEAST;
        let bounded = trace.is_finite() && trace < MOST;
        // On the diagonal an update leaves -0 or NaN.
        let renewed = update.after[0][0].imaginary.to_bits() == 0;
        if renewed == (usable && bounded) || (renewed && !same(update.after, &identity8())) {
            return Err(format!("{d:e}, trace {trace:e}: renewed is {renewed}"));
        }
        self.denominator(d);
        if usable {
            self.trace(trace, &x);
        }
        if usable && bounded {
            self.kept(update.after);
        }
        Ok(())
    }

    fn denominator(&mut self, d: f32) {
        self.count(&[
            ("updates", true),
            ("denominator NaN", d.is_nan()),
            ("denominator infinite", d == f32::INFINITY),
            ("denominator minus infinite", d == f32::NEG_INFINITY),
            ("denominator finite, negative", d.is_finite() && d < 0.0),
            ("denominator 0", d == 0.0),
            ("denominator above 0, below 1e-6", d > 0.0 && d < LEAST),
            ("denominator the next below 1e-6", d == beside(LEAST, -1)),
            ("denominator 1e-6", d == LEAST),
            ("denominator the next above 1e-6", d == beside(LEAST, 1)),
            ("renewed by the denominator", !(d.is_finite() && d > LEAST)),
        ]);
    }

    /// Counts a trace, of this diagonal.
    fn trace(&mut self, t: f32, x: &[f32; 8]) {
        let passes = |x: &f32| x.is_finite() && doubled_half(*x).is_infinite();
        let overflow = x.iter().any(passes);
        self.count(&[
            ("trace NaN", t.is_nan()),
            ("trace infinite", t == f32::INFINITY),
            ("trace minus infinite", t == f32::NEG_INFINITY),
            ("trace finite, above 1e4", t.is_finite() && t > MOST),
            ("trace the next above 1e4", t == beside(MOST, 1)),
            ("trace 1e4", t == MOST),
            ("trace the next below 1e4", t == beside(MOST, -1)),
            ("renewed by the trace", !(t.is_finite() && t < MOST)),
            ("finite on the diagonal, its double not", overflow),
            (
                "the same, the plain sum below 1e4",
                overflow && x.iter().sum::<f32>() < MOST,
            ),
        ]);
    }

    /// Counts what an inverse holds that was not renewed.
    fn kept(&mut self, p: &Inverse8) {
        let diagonal: [f32; 8] = std::array::from_fn(|k| p[k][k].real);
        let mut real = p.as_flattened().iter().map(|z| z.real);
        let parts = || p.as_flattened().iter().flat_map(|z| [z.real, z.imaginary]);
        self.count(&[
            ("kept", true),
            (
                "kept, negative on the diagonal",
                diagonal.iter().any(|x| *x < 0.0),
            ),
            (
                "kept, the trace negative",
                diagonal.iter().sum::<f32>() < 0.0,
            ),
            ("kept, NaN in the inverse", parts().any(f32::is_nan)),
            (
                "kept, infinite in the inverse",
                parts().any(f32::is_infinite),
            ),
            (
                "kept, subnormal in the inverse",
                parts().any(f32::is_subnormal),
            ),
            ("kept, a real part -0", real.any(is_minus_zero)),
        ]);
    }

    /// Counts what stands in the taps, drifts and inverses after a step.
    pub fn step(&mut self, tracker: &mut Tracker, reliable: bool) {
        let taps = parts(&by_tap(&mut tracker.taps));
        let drifts = parts(&by_tap(&mut tracker.drift.drift));
        let inverses = parts(&by_quad(&mut tracker.drift.inverse));
        let any = |parts: &[f32], test: fn(f32) -> bool| parts.iter().any(|x| test(*x));
        self.count(&[
            ("steps", true),
            ("steps unreliable", !reliable),
            ("steps with a NaN tap after them", any(&taps, f32::is_nan)),
            ("steps with an infinite tap", any(&taps, f32::is_infinite)),
            (TAP_MINUS_ZERO, any(&taps, is_minus_zero)),
            ("steps with a NaN drift", any(&drifts, f32::is_nan)),
            (
                "steps with an infinite drift",
                any(&drifts, f32::is_infinite),
            ),
            ("steps with a drift -0", any(&drifts, is_minus_zero)),
            (
                "steps with a NaN in an inverse",
                any(&inverses, f32::is_nan),
            ),
        ]);
    }
}

/// What an update makes of a number on the diagonal.
fn doubled_half(x: f32) -> f32 {
    0.5 * (x + x)
}

fn is_minus_zero(x: f32) -> bool {
    x == 0.0 && x.is_sign_negative()
}

fn parts(values: &[&mut Complex32]) -> Vec<f32> {
    values.iter().flat_map(|z| [z.real, z.imaginary]).collect()
}

fn same(p: &Inverse8, q: &Inverse8) -> bool {
    let bits = |z: &Complex32| (z.real.to_bits(), z.imaginary.to_bits());
    let pairs = p.as_flattened().iter().zip(q.as_flattened());
    pairs.into_iter().all(|(x, y)| bits(x) == bits(y))
}

impl Display for Met {
    fn fmt(&self, f: &mut Formatter) -> fmt::Result {
        self.counts
            .iter()
            .try_for_each(|(name, count)| writeln!(f, "{count:8} {name}"))
    }
}
