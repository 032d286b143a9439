// What bench.rattle does, with the upstream's chain; bench/part puts what it includes beside it.

include!("shared.rs");

use dsp::{Carrier, SymbolChain};
use sequence::Tracking;

fn point(eighth: usize) -> f32 {
    const S: f32 = 0.70710677;
    [1.0, S, 0.0, -S, -1.0, -S, 0.0, S][eighth % 8]
}

/// Rows of 256 values, four to a symbol that turns by an odd number of eighths, with noise.
fn rows(profile: i32, both: bool, rounds: u64) -> u64 {
    let mut chain = Box::new(SymbolChain::new(profile));
    if both {
        chain.alternate = Some(Carrier::new(Tracking::Drift));
    }
    let (mut seed, mut eighth) = (1, 0);
    let mut row = [Complex32 { real: 0.0, imaginary: 0.0 }; 256];
    let mut told = [[(0u8, [0u8; 2]); 2]; 256];
    let mut h = 0;
    for _ in 0..rounds {
        for (i, value) in row.iter_mut().enumerate() {
            seed = random(seed);
            if i % 4 == 0 {
                eighth = (eighth + 1 + 2 * (seed % 4) as usize) % 8;
            }
            value.real = point(eighth) + 0.1 * unit(seed);
            seed = random(seed);
            value.imaginary = point(eighth + 6) + 0.1 * unit(seed);
        }
        let mut written = 0;
        for value in &row {
            if let Some(streams) = chain.process(*value) {
                told[written] = streams;
                written += 1;
            }
        }
        for stream in 0..if both { 2 } else { 1 } {
            for (dibit, soft) in told[..written].iter().map(|streams| streams[stream]) {
                h = mixed(h, dibit as u64 + 256 * soft[0] as u64 + 65536 * soft[1] as u64);
            }
        }
    }
    h = mixed(mixed(h, chain.symbols as u64), chain.locked_symbols as u64);
    mixed_float(mixed_float(h, chain.carrier.phase), chain.carrier.error)
}

fn main() {
    let mut line = String::new();
    std::io::stdin().read_line(&mut line).unwrap();
    let h = rows(if line.trim() == "1" { 1 } else { 0 }, line.trim() == "2", 8000);
    println!("{h:016x}");
}
