//! Narrowing the bits of an f64 to those of an f32, ours and the machine's cast.
//! A NaN's bits are document 01's, 7FC00000, since the cast leaves them open.
//! Needs: sillbadger_narrow_bits

use crate::generator::Draw;
use crate::harness::{any_case, unequal, Comparison};
use crate::ours;

pub fn cast(bits: u64) -> i64 {
    let x = f64::from_bits(bits);
    if x.is_nan() { 0x7FC0_0000 } else { (x as f32).to_bits() as i64 }
}

/// Each sign and exponent, with each place at which a tie can lie: below it nothing, a tie and its
/// neighbours, and all ones; above it an even number, an odd one, and all ones.
fn each_tie(see: &mut dyn FnMut(&[i64])) {
    let mantissa = (1u64 << 52) - 1;
    for top in 0..4096u64 {
        for place in 0..=52u32 {
            let half = (1u64 << place) >> 1;
            for low in [0, half.wrapping_sub(1), half, half + 1, (1 << place) - 1] {
                for high in [0, 1, 2, u64::MAX >> 1, u64::MAX - 1, u64::MAX] {
                    let bits = ((high << place) | (low & ((1 << place) - 1))) & mantissa;
                    see(&[(top << 52 | bits) as i64]);
                }
            }
        }
    }
}

/// Any bits; or an exponent at which an f32 is finite; or a pattern that ends in a tie.
fn draw_bits(d: &mut Draw, case: &mut Vec<i64>) {
    let any = d.word();
    let near = (any & !(0x7FFu64 << 52)) | (d.between(1023 - 152, 1023 + 129) as u64) << 52;
    let bits = match d.below(4) {
        0 => any,
        1 | 2 => near,
        _ => {
            let place = d.between(28, 52);
            (near >> place << place) ^ (1 << (place - 1))
        }
    };
    case.push(bits as i64);
}

pub fn comparisons() -> Vec<Comparison> {
    vec![Comparison {
        name: "narrow: narrow_bits and the cast",
        numbers: "bits",
        cost: 1,
        fixed: each_tie,
        draw: draw_bits,
        allowed: any_case,
        differs: |c| unequal(ours::sillbadger_narrow_bits(c[0] as u64), cast(c[0] as u64)),
    }]
}
