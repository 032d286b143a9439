//! The five routines against the machine's, as near as document 01 asks, for the self-test.

use crate::random::Random;
use crate::selftest::Verdict;
use crate::{platform, routines};

/// Random angles up to 64 in size, small ones too.
fn angles() -> impl Iterator<Item = f64> {
    let mut random = Random::new(3);
    (0..1_000_000).map(move |i| {
        let unit = random.below(1 << 53) as f64 / (1_u64 << 53) as f64;
        let size = if i % 4 == 0 { 1e-3 } else { 64.0 };
        (2.0 * unit - 1.0) * size
    })
}

pub fn circle() -> Verdict {
    let mut furthest = 0.0_f64;
    for x in angles() {
        let (s, c) = routines::sine_cosine(x);
        let (machine_s, machine_c) = platform::sine_cosine(x);
        furthest = furthest
            .max((s - machine_s).abs())
            .max((c - machine_c).abs());
        if routines::sine(-x) != -s || routines::cosine(-x) != c {
            return Err(format!("at {x:e}: not odd or not even"));
        }
        if s.abs() > 1.0 || c.abs() > 1.0 {
            return Err(format!("at {x:e}: beyond 1"));
        }
    }
    near(furthest, 40)
}

pub fn arctangent() -> Verdict {
    let mut random = Random::new(4);
    let mut furthest = 0.0_f64;
    for _ in 0..1_000_000 {
        let y = f32::from_bits(random.word() as u32);
        let x = f32::from_bits(random.word() as u32);
        let (ours, machine) = (routines::arctangent(y, x), platform::arctangent(y, x));
        if ours.is_nan() && machine.is_nan() {
            continue;
        }
        let signs_agree = ours.is_sign_negative() == machine.is_sign_negative();
        if ours.is_nan() || machine.is_nan() || !signs_agree {
            return Err(format!("at {y:e}, {x:e}: {ours:e} against {machine:e}"));
        }
        furthest = furthest.max((ours as f64 - machine as f64).abs());
    }
    near(furthest, 20)
}

fn near(furthest: f64, bits: i32) -> Verdict {
    let detail = format!("furthest from the machine's {furthest:e}, allowed 2^-{bits}");
    if furthest <= 2.0_f64.powi(-bits) {
        Ok(detail)
    } else {
        Err(detail)
    }
}

/// The exact root lies strictly between the result's two neighbours, by whole-number squares.
pub fn hypotenuse() -> Verdict {
    let mut random = Random::new(5);
    for i in 0..1_000_000 {
        // Two f32 of 24 bits, up to 12 places apart, in one unit; then subnormal, then normal.
        let (a, b) = (
            random.below(1 << 24) << random.below(13),
            random.below(1 << 24),
        );
        let unit = 2.0_f32.powi(if i % 2 == 0 { -149 } else { -60 });
        let length = routines::hypotenuse(a as f32 * unit, b as f32 * unit);
        // In parts of 2^-24 units, which every f32 here is a whole number of.
        let parts = |bits: u32| {
            let units = f32::from_bits(bits) as f64 / unit as f64;
            (units * (1 << 24) as f64) as u128
        };
        let (a, b) = ((a as u128) << 24, (b as u128) << 24);
        let square = a * a + b * b;
        let above = parts(length.to_bits() + 1);
        let below = parts(length.to_bits().saturating_sub(1));
        let within = square < above * above && (length == 0.0 || below * below < square);
        if !within {
            return Err(format!("{a} and {b} parts give {length:e}"));
        }
    }
    Ok("the exact root lies between the neighbours of every result".into())
}
