// What bench.rattle does, with the upstream's detector and its second tracker; bench/part puts what it includes beside it.

include!("shared.rs");

use sequence::{Sequence, Tracking};

/// Parts of received symbols from a seed.
fn parts_from(seed: u64) -> [f32; 1024] {
    let mut s = seed;
    std::array::from_fn(|_| {
        s = random(s);
        let level = if s % 2 == 0 { 0.70710677 } else { -0.70710677 };
        level + 0.25 * (unit(s))
    })
}

fn steps(rounds: u64, reliable: usize) -> u64 {
    let (xs, ys) = (parts_from(1), parts_from(2));
    let mut detector = Sequence::new(Tracking::Drift);
    let mut h = 0;
    for _ in 0..rounds {
        for i in 0..1024 {
            let input = Complex32 {
                real: xs[i],
                imaginary: ys[i],
            };
            let (answer, phase, power) = detector.process(input, i % 8 < reliable);
            h = mixed32(mixed32(h, phase), power);
            if let Some((dibit, [high, low])) = answer {
                h = mixed(h, dibit as u64 + 256 * high as u64 + 65536 * low as u64);
            }
            if let Some(z) = detector.equalized() {
                h = mixed32(mixed32(h, z.real), z.imaginary);
            }
        }
    }
    h
}

fn main() {
    let mut line = String::new();
    std::io::stdin().read_line(&mut line).unwrap();
    let reliable = match line.trim() {
        "all" => 8,
        "none" => 0,
        _ => 7,
    };
    let h = steps(50, reliable);
    println!("{h:016x}");
}
