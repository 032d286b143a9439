// What bench.rattle does, with the upstream's `Resampler`; bench/part puts what it includes beside it.

include!("shared.rs");

use dsp::Resampler;

/// Rounds of 1,024 values, two outputs to each.
fn passes(rate: f64, rounds: u64) -> u64 {
    let mut s = 1;
    let values: Vec<f32> = (0..2048)
        .map(|_| {
            s = mixed(s, 12345);
            unit(s)
        })
        .collect();
    let mut resampler = Resampler::new(rate);
    resampler.step = 0.5;
    let (mut real, mut imaginary) = (0.0_f32, 0.0_f32);
    for _ in 0..rounds {
        for pair in values.chunks_exact(2) {
            let value = Complex32 {
                real: pair[0],
                imaginary: pair[1],
            };
            resampler.process(value, &mut |v: Complex32| {
                real += v.real;
                imaginary += v.imaginary;
            });
        }
    }
    let h = mixed(0, real.to_bits() as u64);
    mixed(h, imaginary.to_bits() as u64)
}

fn main() {
    let mut line = String::new();
    std::io::stdin().read_line(&mut line).unwrap();
    let h = match line.trim() {
        "9600" => passes(9600.0, 14000),
        "48000" => passes(48000.0, 3000),
        "192000" => passes(192000.0, 750),
        _ => passes(383999.0, 375),
    };
    print!("{h:016x}");
}
