//! The opacity levels for a number of bits, ours and the Rust's; the places behind them, and refusals.
//! Needs: probe_alpha_levels

use crate::generator::Draw;
use crate::harness::{unequal, Comparison};
use crate::ours;
use oracle::codec::probe::alpha_levels_owned;

fn bits(list: &[f32]) -> Vec<u32> {
    list.iter().map(|x| x.to_bits()).collect()
}

/// Level bits and the length of the lent list.
fn differs(case: &[i64]) -> Option<(String, String)> {
    let (b, places) = (case[0] as u32, case[1] as usize);
    let lent: Vec<f32> = (0..places).map(|i| i as f32 - 7.5).collect();
    let mut after = lent.clone();
    let answer = ours::probe_alpha_levels(b, &mut after);
    let expected = if places != 64 {
        (2, lent)
    } else if b > 6 {
        (3, lent)
    } else {
        let mut levels = alpha_levels_owned(b);
        levels.resize(64, 0.0);
        (0, levels)
    };
    unequal((answer, bits(&after)), (expected.0, bits(&expected.1)))
}

fn draw(d: &mut Draw, case: &mut Vec<i64>) {
    let places = if d.below(2) == 0 { 64 } else { d.between(0, 130) };
    case.extend([d.any_i64() & u32::MAX as i64, places]);
}

pub fn comparisons() -> Vec<Comparison> {
    vec![Comparison {
        name: "levels: alpha_levels",
        numbers: "bits places",
        cost: 100,
        fixed: |see| {
            for b in 0..=70 {
                for places in 0..=130 {
                    see(&[b, places]);
                }
            }
        },
        draw,
        allowed: |c| (0..=u32::MAX as i64).contains(&c[0]) && (0..=130).contains(&c[1]),
        differs,
    }]
}
