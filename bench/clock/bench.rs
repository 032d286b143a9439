// What bench.rattle does, with the upstream's clock and mixer; bench/part puts what it includes beside
// it.

include!("shared.rs");

use dsp::ClockRecovery;

/// The arm of a phase, for the digest alone.
fn arm_of(phase: f32) -> u64 {
    (phase.floor() as i64).rem_euclid(32) as u64
}

fn symbols(rounds: u64) -> u64 {
    let (xs, ys) = (numbers_from(1), numbers_from(2));
    let mut clock = ClockRecovery::new();
    let mut h = 0;
    for _ in 0..rounds {
        for i in 0..1024 {
            let arm = arm_of(clock.phase);
            if let Some((values, derivatives)) = clock.process(Complex32 {
                real: xs[i],
                imaginary: ys[i],
            }) {
                clock.update(0.05 * ys[i]);
                let (v, d) = (values[i % 21], derivatives[i % 21]);
                let part = (v.real + v.imaginary) + (d.real + d.imaginary);
                h = mixed(mixed32(h, part), arm);
            }
        }
    }
    mixed32(h, clock.phase)
}

struct Mixer {
    oscillator_real: f64,
    oscillator_imaginary: f64,
    step_real: f64,
    step_imaginary: f64,
    renormalize: usize,
    symbols: Profile,
}

struct Profile {
    profile: i32,
}

include!("mixer.rs");

fn mixes(rounds: u64, profile: i32) -> u64 {
    let (xs, ys) = (numbers_from(1), numbers_from(2));
    let start = dsp::Demodulator::new(400000.0, 2000.0, profile);
    let mut mixer = Mixer {
        oscillator_real: start.oscillator_real,
        oscillator_imaginary: start.oscillator_imaginary,
        step_real: start.step_real,
        step_imaginary: start.step_imaginary,
        renormalize: 0,
        symbols: Profile { profile },
    };
    let (mut real, mut imaginary) = (0.0_f32, 0.0_f32);
    for _ in 0..rounds {
        for i in 0..1024 {
            let sample = Complex32 {
                real: xs[i],
                imaginary: ys[i],
            };
            let z = mixer.process(&sample);
            real += z.real;
            imaginary += z.imaginary;
        }
    }
    mixed32(mixed32(0, real), imaginary)
}

fn main() {
    let mut line = String::new();
    std::io::stdin().read_line(&mut line).unwrap();
    let h = match line.trim() {
        "clock" => symbols(4000),
        "mixer" => mixes(40000, 0),
        _ => mixes(40000, 1),
    };
    println!("{h:016x}");
}
