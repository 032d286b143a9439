//! Overload, which the Rust does not count: the samples with a part at an end of what a 16-bit
//! converter gives, or beyond it (change request A1).

use crate::Complex32;

const UPPER_END: f32 = 32767.0 / 32768.0;
const LOWER_END: f32 = -1.0;

pub fn overloads(iq: &[Complex32]) -> u64 {
    let at_end = |x: f32| x >= UPPER_END || x <= LOWER_END;
    let overloaded = |s: &&Complex32| at_end(s.real) || at_end(s.imaginary);
    iq.iter().filter(overloaded).count() as u64
}

/// Parts at both ends, next to them and beyond them, as patterns, and whether one is counted.
const PARTS: [(u32, bool); 10] = [
    (0x3f7f_fe00, true),  // 32767/32768
    (0x3f7f_fdff, false), // the f32 below it
    (0x3f80_0000, true),  // 1
    (0x3f80_0001, true),  // the f32 above it
    (0x7f7f_ffff, true),  // the largest f32
    (0xbf7f_fe00, false), // -32767/32768
    (0xbf7f_ffff, false), // the f32 above -1
    (0xbf80_0000, true),  // -1
    (0xbf80_0001, true),  // the f32 below it
    (0xff7f_ffff, true),  // the lowest f32
];

/// Each of the parts as the real part alone, as the imaginary part alone, and as both; and how often
/// the sample is counted.
pub fn around_the_ends() -> Vec<(Complex32, u64)> {
    let samples = |(pattern, counted): (u32, bool)| {
        let part = f32::from_bits(pattern);
        [(part, 0.0), (0.0, part), (part, part)]
            .map(|(real, imaginary)| (Complex32 { real, imaginary }, u64::from(counted)))
    };
    PARTS.into_iter().flat_map(samples).collect()
}

/// Whether the rule gives what the table says.
pub fn tested() -> Result<String, String> {
    let all = around_the_ends();
    match all.iter().find(|&&(sample, count)| overloads(&[sample]) != count) {
        None => Ok(format!("{} samples around the ends", all.len())),
        Some((s, _)) => Err(format!("sample ({:e}, {:e})", s.real, s.imaginary)),
    }
}
