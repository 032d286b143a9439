//! The number helpers' answers, by Rust's own operations, for the replay of our own helpers.

use crate::list::{Answer, Record};

/// A record's words as f64, and their low halves as f32.
struct Operands {
    a64: f64,
    b64: f64,
    a32: f32,
    b32: f32,
    bounds64: (f64, f64),
    bounds32: (f32, f32),
}

fn operands(r: Record) -> Operands {
    let (a64, b64, c64) = (
        f64::from_bits(r.a),
        f64::from_bits(r.b),
        f64::from_bits(r.c),
    );
    let (a32, b32, c32) = (
        f32::from_bits(r.a as u32),
        f32::from_bits(r.b as u32),
        f32::from_bits(r.c as u32),
    );
    Operands {
        a64,
        b64,
        a32,
        b32,
        bounds64: if b64 <= c64 { (b64, c64) } else { (-2.5, 1e10) },
        bounds32: if b32 <= c32 { (b32, c32) } else { (-2.5, 1e10) },
    }
}

/// Every answer for a record, by name, in the order of the digest.
pub fn answers(r: Record) -> Vec<Answer> {
    let o = operands(r);
    let mut all = signs(&o);
    all.extend(choices(&o));
    all.extend(conversions(&o));
    all.extend([
        ("from_i64", bits64(r.a as i64 as f64)),
        ("to_i64", o.a64 as i64 as u64),
        ("to_i32", o.a32 as i32 as i64 as u64),
        ("to_u8", o.a32 as u8 as u64),
        ("signed", r.a as i64 as u64),
        ("float64", bits64(f64::from_le_bytes(r.a.to_le_bytes()))),
        (
            "float32",
            bits32(f32::from_le_bytes((r.a as u32).to_le_bytes())),
        ),
    ]);
    all
}

fn signs(o: &Operands) -> Vec<Answer> {
    vec![
        ("is_nan 64", o.a64.is_nan() as u64),
        ("is_nan 32", o.a32.is_nan() as u64),
        ("is_finite 64", o.a64.is_finite() as u64),
        ("is_finite 32", o.a32.is_finite() as u64),
        (
            "is_negative 64",
            (o.a64.is_sign_negative() && !o.a64.is_nan()) as u64,
        ),
        (
            "is_negative 32",
            (o.a32.is_sign_negative() && !o.a32.is_nan()) as u64,
        ),
        ("abs 64", bits64(o.a64.abs())),
        ("abs 32", bits32(o.a32.abs())),
    ]
}

fn choices(o: &Operands) -> Vec<Answer> {
    vec![
        ("min 64", bits64(min64(o.a64, o.b64))),
        ("min 32", bits32(min32(o.a32, o.b32))),
        ("max 64", bits64(max64(o.a64, o.b64))),
        ("max 32", bits32(max32(o.a32, o.b32))),
        ("clamp 64", bits64(o.a64.clamp(o.bounds64.0, o.bounds64.1))),
        ("clamp 32", bits32(o.a32.clamp(o.bounds32.0, o.bounds32.1))),
    ]
}

fn conversions(o: &Operands) -> Vec<Answer> {
    vec![
        ("widen", bits64(o.a32 as f64)),
        ("narrow", bits32(o.a64 as f32)),
        ("floor 64", bits64(o.a64.floor())),
        ("floor 32", bits32(o.a32.floor())),
        ("round", bits64(o.a64.round())),
        ("round_ties_even", bits64(o.a64.round_ties_even())),
        ("sqrt 64", bits64(o.a64.sqrt())),
        ("sqrt 32", bits32(o.a32.sqrt())),
    ]
}

// Rust's own choice, with what it leaves open settled as in document 01: a NaN of either kind is
// passed over, and of unlike zeros min gives -0, max +0.
fn min64(x: f64, y: f64) -> f64 {
    if x.is_nan() {
        y
    } else if y.is_nan() {
        x
    } else if x == 0.0 && y == 0.0 {
        f64::from_bits(x.to_bits() | y.to_bits())
    } else {
        x.min(y)
    }
}

fn min32(x: f32, y: f32) -> f32 {
    if x.is_nan() {
        y
    } else if y.is_nan() {
        x
    } else if x == 0.0 && y == 0.0 {
        f32::from_bits(x.to_bits() | y.to_bits())
    } else {
        x.min(y)
    }
}

fn max64(x: f64, y: f64) -> f64 {
    if x.is_nan() {
        y
    } else if y.is_nan() {
        x
    } else if x == 0.0 && y == 0.0 {
        f64::from_bits(x.to_bits() & y.to_bits())
    } else {
        x.max(y)
    }
}

fn max32(x: f32, y: f32) -> f32 {
    if x.is_nan() {
        y
    } else if y.is_nan() {
        x
    } else if x == 0.0 && y == 0.0 {
        f32::from_bits(x.to_bits() & y.to_bits())
    } else {
        x.max(y)
    }
}

/// A float's pattern, every NaN as one.
pub fn bits64(x: f64) -> u64 {
    if x.is_nan() {
        0x7ff8_0000_0000_0000
    } else {
        x.to_bits()
    }
}

pub fn bits32(x: f32) -> u64 {
    if x.is_nan() {
        0x7fc0_0000
    } else {
        x.to_bits() as u64
    }
}
