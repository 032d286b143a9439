// What bench.rattle does, with the upstream's mixer and resampler; bench/part puts what it includes beside it.

include!("shared.rs");

use dsp::Resampler;

struct Front {
    resampler: Resampler,
    oscillator_real: f64,
    oscillator_imaginary: f64,
    step_real: f64,
    step_imaginary: f64,
    renormalize: usize,
    symbols: Profile,
}

struct Profile {
    profile: i32,
}

impl Front {
    fn run(&mut self, input: &[Complex32], sink: &mut impl FnMut(Complex32)) {
        for sample in input {
            let sample = self.process(sample);
            self.resampler.process(sample, sink);
        }
    }
}

include!("mixer.rs");

fn run(rate: f64, blocks: u64) -> u64 {
    let mut s = 1;
    let mut number = || {
        s = mixed(s, 12345);
        unit(s)
    };
    let samples: Vec<Complex32> = (0..1024)
        .map(|_| Complex32 {
            real: number(),
            imaginary: number(),
        })
        .collect();
    let start = dsp::Demodulator::new(rate, 2000.0, 1);
    let mut front = Front {
        resampler: start.resampler,
        oscillator_real: start.oscillator_real,
        oscillator_imaginary: start.oscillator_imaginary,
        step_real: start.step_real,
        step_imaginary: start.step_imaginary,
        renormalize: 0,
        symbols: Profile { profile: 1 },
    };
    let (mut real, mut imaginary, mut made) = (0.0_f32, 0.0_f32, 0);
    for _ in 0..blocks {
        front.run(&samples, &mut |v| {
            real += v.real;
            imaginary += v.imaginary;
            made += 1;
        });
    }
    mixed(mixed32(mixed32(0, real), imaginary), made)
}

fn main() {
    let mut line = String::new();
    std::io::stdin().read_line(&mut line).unwrap();
    let rate: f64 = line.trim().parse().unwrap();
    let h = run(rate, if rate < 256000.0 { 4000 } else { 20000 });
    println!("{h:016x}");
}
