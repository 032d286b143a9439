// What the timing programs of the parts share: the oracle's opened copy of the upstream, the digest of
// what came out and numbers from a seed, both as `replay` has them.

#[allow(dead_code)]
mod dsp;
#[allow(dead_code)]
mod equalizer;
#[allow(dead_code)]
mod routines;
#[allow(dead_code)]
mod sequence;
#[allow(dead_code)]
mod signal;

use dsp::Complex32;

#[allow(dead_code)]
fn mixed(h: u64, x: u64) -> u64 {
    let mut h = h ^ x;
    h = h.wrapping_add(h << 21);
    h ^= h >> 24;
    h = h.wrapping_add(h << 3);
    h = h.wrapping_add(h << 8);
    h ^ (h >> 14)
}

#[allow(dead_code)]
fn mixed32(h: u64, x: f32) -> u64 {
    mixed(h, if x.is_nan() { 0x7fc0_0000 } else { x.to_bits() as u64 })
}

#[allow(dead_code)]
fn mixed_float(h: u64, x: f64) -> u64 {
    mixed(h, if x.is_nan() { 0x7ff8_0000_0000_0000 } else { x.to_bits() })
}

#[allow(dead_code)]
fn random(s: u64) -> u64 {
    let a = s ^ (s << 13);
    let b = a ^ (a >> 7);
    b ^ (b << 17)
}

#[allow(dead_code)]
/// A number in -1..1.
fn unit(s: u64) -> f32 {
    (s >> 40) as f32 / 8388608.0 - 1.0
}

#[allow(dead_code)]
/// Numbers in -1..1 from a seed.
fn numbers_from(seed: u64) -> [f32; 1024] {
    let mut s = seed;
    std::array::from_fn(|_| {
        s = random(s);
        unit(s)
    })
}
