//! The list of inputs for the five routines, and our answers to it. Word a is the angle of sine and
//! cosine as f64; the low halves of b and c are y and x of arctangent and hypotenuse as f32.

use crate::helpers::{bits32, bits64};
use crate::list::{self, Answer, Record};
use crate::numbers::SPECIAL32;
use crate::random::Random;
use crate::routines::{arctangent, cosine, hypotenuse, sine, sine_cosine};
use std::f64::consts::FRAC_PI_4;

const RECORDS: usize = 4000;

pub fn run(words: &[&str]) -> Result<(), String> {
    list::run(words, inputs, answers)
}

fn answers(r: Record) -> Vec<Answer> {
    let angle = f64::from_bits(r.a);
    let (y, x) = (f32::from_bits(r.b as u32), f32::from_bits(r.c as u32));
    let (s, c) = sine_cosine(angle);
    vec![
        ("sine", bits64(sine(angle))),
        ("cosine", bits64(cosine(angle))),
        ("pair's sine", bits64(s)),
        ("pair's cosine", bits64(c)),
        ("arctangent", bits32(arctangent(y, x))),
        ("hypotenuse", bits32(hypotenuse(y, x))),
    ]
}

/// As many angles as points: the shorter of the two edge lists is filled up with random ones.
fn inputs() -> Vec<Record> {
    let mut random = Random::new(2);
    let mut angles = edge_angles();
    let mut points = edge_points();
    assert!(angles.len() <= RECORDS && points.len() <= RECORDS);
    while angles.len() < RECORDS {
        angles.push(random_angle(&mut random));
    }
    while points.len() < RECORDS {
        points.push(random_point(&mut random));
    }
    let record = |(a, (y, x)): (f64, (f32, f32))| Record {
        a: a.to_bits(),
        b: y.to_bits() as u64,
        c: x.to_bits() as u64,
    };
    angles.into_iter().zip(points).map(record).collect()
}

/// Zeros, subnormals, powers of two, the end at 64, and what lies beyond, each with its neighbours;
/// the eighths of a turn with what lies from one last place to 2^-10 of them away; of both signs.
fn edge_angles() -> Vec<f64> {
    let mut sizes = vec![64.0, 1e300, f64::MAX, f64::INFINITY, f64::NAN];
    sizes.extend([0.0, f64::MIN_POSITIVE, 1e-310, 1e-320]);
    sizes.extend((-60..=10).map(|power: i64| f64::from_bits(((1023 + power) as u64) << 52)));
    let around = |x: f64| {
        let bits = x.to_bits();
        [bits.saturating_sub(1), bits, bits + 1]
    };
    let near = |eighths: u64| {
        let bits = (eighths as f64 * FRAC_PI_4).to_bits();
        let places = [1, 2, 3, 1 << 13, 1 << 28, 1 << 43];
        std::iter::once(bits).chain(places.into_iter().flat_map(move |p| [bits - p, bits + p]))
    };
    let patterns = sizes
        .into_iter()
        .flat_map(around)
        .chain((1..=82).flat_map(near));
    patterns.map(f64::from_bits).flat_map(|x| [x, -x]).collect()
}

/// Pairs of special values; quotients around 1, 1/2 and the tangents of odd sixteenths of a turn;
/// parts far apart; hypotenuses halfway between two f32.
fn edge_points() -> Vec<(f32, f32)> {
    let special = SPECIAL32.map(f32::from_bits);
    let mut points: Vec<(f32, f32)> = Vec::new();
    for y in special {
        points.extend(special.map(|x| (y, x)));
    }
    for x in [1.0_f32, 3.0, 1e-40, 1e-3, 7e5, 3e38] {
        for quotient in [1.0, 0.414_213_57, 2.414_213_7, 1e-8, 1e8, 0.5] {
            let bits = (x * quotient).to_bits();
            for y in [bits.saturating_sub(1), bits, bits + 1].map(f32::from_bits) {
                points.extend([(y, x), (-y, x), (y, -x), (-y, -x)]);
            }
        }
    }
    points.extend((2001..2101).step_by(2).map(halfway));
    points
}

/// The legs of a right triangle whose hypotenuse, an odd number of 25 bits, lies halfway between two
/// f32.
fn halfway(n: u32) -> (f32, f32) {
    let m = 3600;
    ((m * m - n * n) as f32, (2 * m * n) as f32)
}

/// Up to 64 in size, one in four small, one in sixteen of any pattern.
fn random_angle(random: &mut Random) -> f64 {
    let unit = random.below(1 << 53) as f64 / (1_u64 << 52) as f64 - 1.0;
    match random.below(16) {
        0 => f64::from_bits(random.word()),
        1..=4 => unit * 1e-3,
        _ => unit * 64.0,
    }
}

/// Moderate parts, or every other time of any pattern.
fn random_point(random: &mut Random) -> (f32, f32) {
    let any = random.below(2) == 0;
    let mut part = || {
        let word = random.word() as u32;
        if any {
            f32::from_bits(word)
        } else {
            (word as f64 / (1_u64 << 31) as f64 - 1.0) as f32
        }
    };
    (part(), part())
}
