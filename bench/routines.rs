//! The five routines as Rattle compiled them, against the published steps (bit for bit), a reference
//! of higher precision (errors), exact squares (hypotenuse) and the system's math library (distance
//! and speed).

#[allow(dead_code)]
#[path = "../oracle/routines.rs"]
mod routines;

use std::hint::black_box;
use std::time::Instant;

extern "C" {
    fn xolindap_sine(x: f64) -> f64;
    fn xolindap_cosine(x: f64) -> f64;
    fn xolindap_sine_cosine(x: f64, pair: &mut [f64; 2]);
    fn xolindap_arctangent(y: f32, x: f32) -> f32;
    fn xolindap_hypotenuse(x: f32, y: f32) -> f32;
}

fn sine(x: f64) -> f64 {
    unsafe { xolindap_sine(x) }
}

fn cosine(x: f64) -> f64 {
    unsafe { xolindap_cosine(x) }
}

fn sine_cosine(x: f64) -> [f64; 2] {
    let mut pair = [0.0; 2];
    unsafe { xolindap_sine_cosine(x, &mut pair) };
    pair
}

fn arctangent(y: f32, x: f32) -> f32 {
    unsafe { xolindap_arctangent(y, x) }
}

fn hypotenuse(x: f32, y: f32) -> f32 {
    unsafe { xolindap_hypotenuse(x, y) }
}

fn main() {
    let number = |place, otherwise| match std::env::args().nth(place) {
        Some(word) => word.parse().expect("COUNT and SEED are whole numbers"),
        None => otherwise,
    };
    let (count, seed) = (number(1, 10_000_000), number(2, 1));
    println!("{count} inputs for each routine, seed {seed}");
    compare_circle(count, &mut Random(seed));
    compare_arctangent(count, &mut Random(seed + 1));
    compare_hypotenuse(count, &mut Random(seed + 2));
    time_all(&mut Random(seed + 3));
}

// ---- inputs

/// splitmix64.
struct Random(u64);

impl Random {
    fn word(&mut self) -> u64 {
        self.0 = self.0.wrapping_add(0x9e37_79b9_7f4a_7c15);
        let mut z = self.0;
        z = (z ^ (z >> 30)).wrapping_mul(0xbf58_476d_1ce4_e5b9);
        z = (z ^ (z >> 27)).wrapping_mul(0x94d0_49bb_1331_11eb);
        z ^ (z >> 31)
    }

    fn below(&mut self, n: u64) -> u64 {
        self.word() % n
    }

    /// -1..1
    fn part(&mut self) -> f64 {
        (self.word() >> 11) as f64 / (1_u64 << 52) as f64 - 1.0
    }
}

/// In turn: anywhere up to 64; up to 2^43 last places from an eighth of a turn; of any size up to 64;
/// within 32 last places of an eighth.
fn angle(i: u64, random: &mut Random) -> f64 {
    let eighth = random.below(82) as f64 * std::f64::consts::FRAC_PI_4;
    let nearby = |places: u64, random: &mut Random| {
        let bits = eighth.to_bits().saturating_add(random.below(places));
        f64::from_bits(bits.saturating_sub(places / 2))
    };
    let size = match i % 4 {
        0 => random.part() * 64.0,
        1 => {
            let places = 2 << random.below(44);
            nearby(places, random)
        }
        2 => random.part() * 2.0_f64.powi(6 - random.below(40) as i32),
        _ => nearby(64, random),
    };
    let size = size.abs().min(64.0);
    if random.below(2) == 0 {
        size
    } else {
        -size
    }
}

/// In turn: of any pattern; moderate; of one size within 64 last places; up to 24 places apart.
fn point(i: u64, random: &mut Random) -> (f32, f32) {
    let any = |random: &mut Random| f32::from_bits(random.word() as u32);
    match i % 4 {
        0 => (any(random), any(random)),
        1 => (random.part() as f32, random.part() as f32),
        2 => {
            let y = any(random);
            let bits = y.to_bits().wrapping_add(random.below(128) as u32);
            (y, f32::from_bits(bits.wrapping_sub(64)))
        }
        _ => {
            let power = random.below(200) as i32 - 100;
            let y = random.part() * 2.0_f64.powi(power);
            let x = random.part() * 2.0_f64.powi(power - random.below(25) as i32);
            (y as f32, x as f32)
        }
    }
}

// ---- sine and cosine

/// A sum of two f64, about 106 bits.
#[derive(Clone, Copy)]
struct Double(f64, f64);

impl Double {
    fn sum(a: f64, b: f64) -> Double {
        let s = a + b;
        let t = s - a;
        Double(s, (a - (s - t)) + (b - t))
    }

    fn product(a: f64, b: f64) -> Double {
        let p = a * b;
        Double(p, a.mul_add(b, -p))
    }

    fn plus(self, other: Double) -> Double {
        let (high, low) = (Double::sum(self.0, other.0), Double::sum(self.1, other.1));
        let next = Double::sum(high.0, high.1 + low.0);
        Double::sum(next.0, next.1 + low.1)
    }

    fn times(self, other: Double) -> Double {
        let p = Double::product(self.0, other.0);
        Double::sum(p.0, p.1 + (self.0 * other.1 + self.1 * other.0))
    }

    fn over(self, divisor: f64) -> Double {
        let q = self.0 / divisor;
        let p = Double::product(q, divisor);
        Double::sum(q, (((self.0 - p.0) - p.1) + self.1) / divisor)
    }

    fn negative(self) -> Double {
        Double(-self.0, -self.1)
    }
}

/// pi / 2 in parts of 33, 33, 53 and 53 bits.
const HALF_PI: [f64; 4] = [
    f64::from_bits(0x3ff921fb54400000),
    f64::from_bits(0x3dd0b4611a600000),
    f64::from_bits(0x3ba3198a2e037073),
    1.0085854035872483e-37,
];

/// Sine and cosine of a size up to 64, by the Taylor series of what four parts of pi / 2 leave.
fn reference(a: f64) -> (Double, Double) {
    let turns = (a * std::f64::consts::FRAC_2_PI).round();
    let rest = Double::sum(a - turns * HALF_PI[0], -turns * HALF_PI[1])
        .plus(Double::product(-turns, HALF_PI[2]))
        .plus(Double(-turns * HALF_PI[3], 0.0));
    let s = series(rest, rest, 2.0);
    let c = series(rest, Double(1.0, 0.0), 1.0);
    match turns as u64 % 4 {
        0 => (s, c),
        1 => (c, s.negative()),
        2 => (s.negative(), c.negative()),
        _ => (c.negative(), s),
    }
}

/// first - first x^2 / (n (n + 1)) + ..
fn series(x: Double, first: Double, mut n: f64) -> Double {
    let square = x.times(x);
    let (mut term, mut sum) = (first, first);
    while term.0.abs() > 1e-40 * sum.0.abs() {
        term = term.times(square).over(-(n * (n + 1.0)));
        sum = sum.plus(term);
        n += 2.0;
    }
    sum
}

/// A last place of the f64 nearest to x.
fn last_place(x: f64) -> f64 {
    let field = (x.to_bits() >> 52 & 0x7ff).max(1);
    2.0_f64.powi(field as i32 - 1075)
}

#[derive(Default)]
struct Largest {
    places: f64,
    at: f64,
    system: f64,
}

impl Largest {
    fn take(&mut self, x: f64, ours: f64, exact: Double, system: f64) {
        let places = ((ours - exact.0) - exact.1).abs() / last_place(exact.0);
        if places > self.places {
            (self.places, self.at) = (places, x);
        }
        self.system = self.system.max((ours - system).abs());
    }

    fn print(&self, name: &str) {
        println!(
            "{name}: at most {:.4} ulp off, at {:e}; from the system's at most {:e} (2^{:.1})",
            self.places,
            self.at,
            self.system,
            self.system.log2()
        );
        assert!(
            self.places < 1.0 && self.system <= 2.0_f64.powi(-40),
            "{name}"
        );
    }
}

fn compare_circle(count: u64, random: &mut Random) {
    let (mut sines, mut cosines) = (Largest::default(), Largest::default());
    for i in 0..count {
        let x = angle(i, random);
        let (s, c) = (sine(x), cosine(x));
        let pair = sine_cosine(x);
        let steps = [routines::sine(x), routines::cosine(x)];
        let same = |a: [f64; 2], b: [f64; 2]| a.map(f64::to_bits) == b.map(f64::to_bits);
        assert!(
            same([s, c], steps) && same(pair, steps),
            "the steps at {x:e}"
        );
        if x == 0.0 {
            continue;
        }
        let (mut exact, exact_cosine) = reference(x.abs());
        if x < 0.0 {
            exact = exact.negative();
        }
        sines.take(x, s, exact, x.sin());
        cosines.take(x, c, exact_cosine, x.cos());
    }
    sines.print("sine");
    cosines.print("cosine");
}

// ---- arctangent

/// A last place of the f32 nearest to x.
fn last_place32(x: f64) -> f64 {
    let power = (x.to_bits() >> 52 & 0x7ff) as i32 - 1023;
    2.0_f64.powi(power.max(-126) - 23)
}

fn compare_arctangent(count: u64, random: &mut Random) {
    let (mut places, mut at, mut system) = (0.0_f64, (0.0, 0.0), 0.0_f64);
    for i in 0..count {
        let (y, x) = point(i, random);
        let ours = arctangent(y, x);
        let steps = routines::arctangent(y, x);
        if y.is_nan() || x.is_nan() {
            assert!(ours.is_nan() && steps.is_nan(), "a NaN at {y:e}, {x:e}");
            continue;
        }
        assert!(
            ours.to_bits() == steps.to_bits(),
            "the steps at {y:e}, {x:e}"
        );
        let machine = y.atan2(x);
        assert!(
            ours.is_sign_negative() == machine.is_sign_negative(),
            "the sign at {y:e}, {x:e}"
        );
        let exact = f64::from(y).atan2(f64::from(x));
        let off = (f64::from(ours) - exact).abs() / last_place32(exact);
        if off > places {
            (places, at) = (off, (y, x));
        }
        system = system.max((f64::from(ours) - f64::from(machine)).abs());
    }
    println!(
        "arctangent: at most {places:.4} ulp off, at {:e}, {:e}; from the system's at most {system:e} (2^{:.1})",
        at.0,
        at.1,
        system.log2()
    );
    assert!(system <= 2.0_f64.powi(-20), "arctangent");
}

// ---- hypotenuse

/// A whole number of 640 bits, low word first.
type Whole = [u64; 10];

/// The square of a size, in squares of the smallest f32.
fn square(x: f32) -> Whole {
    let bits = x.to_bits() & 0x7fff_ffff;
    let (field, trailing) = (bits >> 23, u64::from(bits & 0x7f_ffff));
    let (digits, power) = match field {
        0 => (trailing, 0),
        _ => (trailing + 0x80_0000, 2 * (field - 1)),
    };
    let product = u128::from(digits * digits) << (power % 64);
    let mut whole = [0; 10];
    whole[(power / 64) as usize] = product as u64;
    whole[(power / 64) as usize + 1] = (product >> 64) as u64;
    whole
}

fn sum(a: Whole, b: Whole) -> Whole {
    let (mut whole, mut carry) = ([0; 10], 0);
    for k in 0..10 {
        let t = u128::from(a[k]) + u128::from(b[k]) + carry;
        (whole[k], carry) = (t as u64, t >> 64);
    }
    whole
}

fn is_less(a: Whole, b: Whole) -> bool {
    a.iter().rev().lt(b.iter().rev())
}

fn compare_hypotenuse(count: u64, random: &mut Random) {
    let (mut finite, mut system) = (0_u64, 0_u32);
    for i in 0..count {
        let (x, y) = point(i, random);
        let ours = hypotenuse(x, y);
        let steps = routines::hypotenuse(x, y);
        if x.is_infinite() || y.is_infinite() {
            assert!(
                ours == f32::INFINITY && steps == ours,
                "an infinity at {x:e}, {y:e}"
            );
            continue;
        }
        if x.is_nan() || y.is_nan() {
            assert!(ours.is_nan() && steps.is_nan(), "a NaN at {x:e}, {y:e}");
            continue;
        }
        assert!(
            ours.to_bits() == steps.to_bits(),
            "the steps at {x:e}, {y:e}"
        );
        let squares = sum(square(x), square(y));
        let bits = ours.to_bits();
        let above_lower = bits == 0 || is_less(square(f32::from_bits(bits - 1)), squares);
        let below_upper =
            bits >= f32::MAX.to_bits() || is_less(squares, square(f32::from_bits(bits + 1)));
        assert!(above_lower && below_upper, "the neighbours at {x:e}, {y:e}");
        finite += 1;
        system = system.max(bits.abs_diff(x.hypot(y).to_bits()));
    }
    println!(
        "hypotenuse: the exact root lies strictly between the neighbours of all {finite} finite results; \
         from the system's at most {system} last place"
    );
}

// ---- speed

const TIMED: usize = 1 << 16;

/// The best of many passes over the inputs, in nanoseconds a call.
fn timed<T: Copy, R>(inputs: &[T], call: impl Fn(T) -> R) -> f64 {
    let pass = || {
        let start = Instant::now();
        for &x in inputs {
            black_box(call(black_box(x)));
        }
        start.elapsed().as_nanos() as f64 / inputs.len() as f64
    };
    (0..200).map(|_| pass()).fold(f64::MAX, f64::min)
}

fn row(name: &str, ours: f64, system: f64) {
    println!("{name:32} {ours:8.1} {system:8.1}");
}

fn time_all(random: &mut Random) {
    println!("{:32} {:>8} {:>8}", "ns a call", "ours", "system");
    for (name, size) in [("up to 64", 64.0), ("up to 0.7", 0.7)] {
        let angles: Vec<f64> = (0..TIMED).map(|_| random.part() * size).collect();
        let named = |what: &str| format!("{what}, {name}");
        row(
            &named("sine"),
            timed(&angles, sine),
            timed(&angles, f64::sin),
        );
        row(
            &named("cosine"),
            timed(&angles, cosine),
            timed(&angles, f64::cos),
        );
        row(
            &named("pair"),
            timed(&angles, sine_cosine),
            timed(&angles, f64::sin_cos),
        );
    }
    let part = |random: &mut Random| random.part() as f32;
    let points: Vec<(f32, f32)> = (0..TIMED).map(|_| (part(random), part(random))).collect();
    row(
        "arctangent",
        timed(&points, |(y, x)| arctangent(y, x)),
        timed(&points, |(y, x): (f32, f32)| y.atan2(x)),
    );
    row(
        "hypotenuse",
        timed(&points, |(y, x)| hypotenuse(y, x)),
        timed(&points, |(y, x): (f32, f32)| y.hypot(x)),
    );
}
