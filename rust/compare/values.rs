//! Numbers within 0..1 for pictures and opacities.

use crate::generator::Draw;

/// A pixel's channel: a byte of 255, any number, or one of the ends (-0.0 counts as within 0..1).
pub fn channel(d: &mut Draw) -> f32 {
    match d.below(8) {
        0 => d.one_of(&[0.0, -0.0, 1.0, 1e-45, f32::MIN_POSITIVE, 0.999_999_94]),
        1..=4 => d.below(256) as f32 / 255.0,
        _ => d.unit(),
    }
}

pub fn opacity(d: &mut Draw) -> f32 {
    match d.below(8) {
        0 => d.one_of(&[0.0, -0.0, 1.0, 1e-45, f32::MIN_POSITIVE, 0.999_999_94]),
        1..=3 => d.one_of(&[0.2, 0.3, 0.5, 0.9]),
        _ => d.unit(),
    }
}

/// Any pattern within 0..1: subnormals are as likely as their patterns are many, and -0.0 is among them.
pub fn pattern(d: &mut Draw) -> f32 {
    match d.below(16) {
        0 => -0.0,
        1 => f32::from_bits(d.below(0x80_0000) as u32),
        _ => f32::from_bits(d.below(0x3F80_0001) as u32),
    }
}

/// A picture of w by h, from a seed: noise, any patterns, one colour, or a slope.
pub fn picture(seed: u64, w: i64, h: i64) -> Vec<f32> {
    let mut d = Draw::named(seed, "picture");
    let n = (w * h * 3) as usize;
    match d.below(5) {
        0 => {
            let c = [channel(&mut d), channel(&mut d), channel(&mut d)];
            (0..n).map(|i| c[i % 3]).collect()
        }
        1 => (0..n).map(|i| (i / 3) as f32 / (n / 3) as f32).collect(),
        2 => (0..n).map(|_| pattern(&mut d)).collect(),
        _ => (0..n).map(|_| channel(&mut d)).collect(),
    }
}
