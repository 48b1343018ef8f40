//! Narrowing an f64 to an f32 by value, ours and the machine's cast.
//! A NaN has the bits of document 01, 7FC00000: no proof sees them there, so they are compared here.
//! Needs: probe_narrow

use crate::generator::Draw;
use crate::harness::{any_case, unequal, Comparison};
use crate::narrow::cast;
use crate::ours;

/// NaNs of both signs, with each single digit, all digits, and all digits but one; infinities, zeros.
fn each_nan(see: &mut dyn FnMut(&[i64])) {
    let mantissa = (1u64 << 52) - 1;
    for sign in [0, 1u64 << 63] {
        for place in 0..52u32 {
            for digits in [1 << place, mantissa, mantissa ^ (1 << place), mantissa >> place] {
                see(&[(sign | 0x7FF << 52 | digits) as i64]);
            }
        }
        see(&[(sign | 0x7FF << 52) as i64]);
        see(&[sign as i64]);
    }
}

/// Any bits, and as often a NaN.
fn draw_bits(d: &mut Draw, case: &mut Vec<i64>) {
    let any = d.word();
    let bits = if d.below(2) == 0 { any } else { any | 0x7FF << 52 };
    case.push(bits as i64);
}

pub fn comparisons() -> Vec<Comparison> {
    vec![Comparison {
        name: "narrow: narrow by value and the cast",
        numbers: "bits",
        cost: 1,
        fixed: each_nan,
        draw: draw_bits,
        allowed: any_case,
        differs: |c| unequal(ours::probe_narrow(f64::from_bits(c[0] as u64)).to_bits() as i64, cast(c[0] as u64)),
    }]
}
