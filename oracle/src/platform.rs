//! The machine's own routines under the names of ours, for the second binary.

pub fn sine(x: f64) -> f64 {
    x.sin()
}

pub fn cosine(x: f64) -> f64 {
    x.cos()
}

pub fn sine_cosine(x: f64) -> (f64, f64) {
    x.sin_cos()
}

pub fn arctangent(y: f32, x: f32) -> f32 {
    y.atan2(x)
}

pub fn hypotenuse(x: f32, y: f32) -> f32 {
    x.hypot(y)
}
