//! The five routines, coded by hand from docs/ROUTINES.md and from nothing else. Every `+ - * /`,
//! root and narrowing below is one IEEE 754 operation; nothing is fused, and no library routine but
//! the correctly rounded root is called.

const TWO_OVER_PI: f64 = f64::from_bits(0x3fe45f306dc9c883);
const HALF_PI_HIGH: f64 = f64::from_bits(0x3ff921fb54400000);
const HALF_PI_MIDDLE: f64 = f64::from_bits(0x3dd0b4611a600000);
const HALF_PI_LOW: f64 = f64::from_bits(0x3ba3198a2e037073);

const QUARTER_PI: f64 = f64::from_bits(0x3fe921fb54442d18);
const HALF_PI: f64 = f64::from_bits(0x3ff921fb54442d18);
const PI: f64 = f64::from_bits(0x400921fb54442d18);

// S1, and S2 to S6.
const SINE_FIRST: f64 = f64::from_bits(0x3fc5555555555549);
const SINE: [f64; 5] = [
    f64::from_bits(0x3f8111111110f8a6),
    f64::from_bits(0x3f2a01a019c161d5),
    f64::from_bits(0x3ec71de357b1fe7d),
    f64::from_bits(0x3e5ae5e68a2b9ceb),
    f64::from_bits(0x3de5d93a5acfd57c),
];

// C1 to C6.
const COSINE: [f64; 6] = [
    f64::from_bits(0x3fa555555555554c),
    f64::from_bits(0x3f56c16c16c15177),
    f64::from_bits(0x3efa01a019cb1590),
    f64::from_bits(0x3e927e4f809c52ad),
    f64::from_bits(0x3e21ee9ebdb4b1c4),
    f64::from_bits(0x3da8fae9be8838d4),
];

// A1 to A12.
const ARC: [f64; 12] = [
    f64::from_bits(0x3fd5555552f27572),
    f64::from_bits(0x3fc9999846c2fd87),
    f64::from_bits(0x3fc24903920e8756),
    f64::from_bits(0x3fbc6e85ac6dd140),
    f64::from_bits(0x3fb72d6302786d08),
    f64::from_bits(0x3fb33a16cba135fd),
    f64::from_bits(0x3faf02f9d4118f0c),
    f64::from_bits(0x3fa69ea5b3ff0dee),
    f64::from_bits(0x3f9b2f59905fb363),
    f64::from_bits(0x3f881f69e8f4ec81),
    f64::from_bits(0x3f6b402b8731dc65),
    f64::from_bits(0x3f3ce1a2307244cc),
];

/// The sine of `x`; NaN where `x` is NaN or beyond 64 in size. A zero keeps its sign.
pub fn sine(x: f64) -> f64 {
    let a = x.abs();
    if !(a <= 64.0) {
        return f64::NAN;
    }
    let angle = reduced(a);
    let size = within_one(match angle.quarter {
        0 => near_sine(&angle),
        1 => near_cosine(&angle),
        2 => -near_sine(&angle),
        _ => -near_cosine(&angle),
    });
    if x.is_sign_negative() {
        -size
    } else {
        size
    }
}

/// The cosine of `x`; NaN where `x` is NaN or beyond 64 in size.
pub fn cosine(x: f64) -> f64 {
    let a = x.abs();
    if !(a <= 64.0) {
        return f64::NAN;
    }
    let angle = reduced(a);
    within_one(match angle.quarter {
        0 => near_cosine(&angle),
        1 => -near_sine(&angle),
        2 => -near_cosine(&angle),
        _ => near_sine(&angle),
    })
}

/// The sine and the cosine of `x`.
pub fn sine_cosine(x: f64) -> (f64, f64) {
    (sine(x), cosine(x))
}

/// The angle of the point (x, y): zeros and infinities as in IEEE 754's atan2.
pub fn arctangent(y: f32, x: f32) -> f32 {
    if y.is_nan() || x.is_nan() {
        return f32::NAN;
    }
    let first = first_quadrant(f64::from(y.abs()), f64::from(x.abs()));
    let upper = if x.is_sign_negative() {
        PI - first
    } else {
        first
    };
    let angle = upper as f32;
    if y.is_sign_negative() {
        -angle
    } else {
        angle
    }
}

/// The length of (x, y): an infinity wins over a NaN.
pub fn hypotenuse(x: f32, y: f32) -> f32 {
    if x.is_infinite() || y.is_infinite() {
        return f32::INFINITY;
    }
    let (a, b) = (f64::from(x), f64::from(y));
    (a * a + b * b).sqrt() as f32
}

// What is left of an angle in 0..=64 after whole quarter turns, in two parts, and the number of
// those turns modulo 4.
struct Reduced {
    quarter: u64,
    rest: f64,
    tail: f64,
}

fn reduced(a: f64) -> Reduced {
    let n = (TWO_OVER_PI * a + 0.5) as u64;
    let k = n as f64;
    let t = a - k * HALF_PI_HIGH;
    let w = k * HALF_PI_MIDDLE;
    let u = t - w;
    let e = (t - u) - w;
    let v = k * HALF_PI_LOW - e;
    let rest = u - v;
    let tail = (u - rest) - v;
    Reduced {
        quarter: n % 4,
        rest,
        tail,
    }
}

fn near_sine(angle: &Reduced) -> f64 {
    let z = angle.rest * angle.rest;
    let v = z * angle.rest;
    let q2 = nested(z, &SINE);
    let g = z * (0.5 * angle.tail - v * q2) - angle.tail;
    angle.rest - (g + v * SINE_FIRST)
}

fn near_cosine(angle: &Reduced) -> f64 {
    let z = angle.rest * angle.rest;
    let q1 = nested(z, &COSINE);
    let h = 0.5 * z;
    let w = 1.0 - h;
    w + (((1.0 - w) - h) + (z * (z * q1) - angle.rest * angle.tail))
}

// From the last coefficient to the first: c - z p.
fn nested(z: f64, coefficients: &[f64]) -> f64 {
    let (last, others) = coefficients.split_last().expect("coefficients");
    others.iter().rev().fold(*last, |p, c| c - z * p)
}

fn within_one(v: f64) -> f64 {
    if v < -1.0 {
        -1.0
    } else if v > 1.0 {
        1.0
    } else {
        v
    }
}

// The angle of (x, y), both at least zero.
fn first_quadrant(v: f64, h: f64) -> f64 {
    if v > h {
        HALF_PI - arc(h / v)
    } else if h == 0.0 {
        0.0
    } else if v.is_infinite() {
        QUARTER_PI
    } else {
        arc(v / h)
    }
}

// The arctangent of t in 0..=1.
fn arc(t: f64) -> f64 {
    let z = t * t;
    t * (1.0 - z * nested(z, &ARC))
}
