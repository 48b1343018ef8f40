//! The whole-number root and the two divisions, ours and the Rust's.
//! Needs: probe_isqrt_i64 probe_div_floor_i64 probe_div_ceil_i64

use crate::cases::whole::{divides, divisions, roots, ROOT_END};
use crate::generator::Draw;
use crate::harness::{unequal, Comparison};
use crate::ours;
use oracle::shape::integral::probe;

fn every_exponent() -> Vec<u32> {
    (1..=62).collect()
}

fn each_root(see: &mut dyn FnMut(&[i64])) {
    for n in roots(100_000, &every_exponent()) {
        see(&[n]);
    }
}

fn each_division(see: &mut dyn FnMut(&[i64])) {
    for (a, b) in divisions(&every_exponent()) {
        see(&[a, b]);
    }
}

fn draw_division(d: &mut Draw, case: &mut Vec<i64>) {
    case.push(d.any_i64());
    case.push(d.any_i64());
    if !divides(case[0], case[1]) {
        case[1] = 1;
    }
    // Exact quotients and their neighbours are rare among free draws.
    if d.below(4) == 0 {
        let near = case[0].wrapping_mul(case[1]).wrapping_add(d.between(-1, 1));
        if divides(near, case[1]) {
            case[0] = near;
        }
    }
}

fn draw_root(d: &mut Draw, case: &mut Vec<i64>) {
    let n = if d.below(2) == 0 {
        d.any_i64()
    } else {
        let side = d.below(3_037_000_500) as i64 >> d.below(32);
        (side * side).wrapping_add(d.between(-1, 1))
    };
    case.push(n.min(ROOT_END));
}

pub fn comparisons() -> Vec<Comparison> {
    vec![
        Comparison {
            name: "whole: isqrt_i64",
            numbers: "n",
            cost: 1,
            fixed: each_root,
            draw: draw_root,
            allowed: |c| c[0] <= ROOT_END,
            differs: |c| unequal(ours::probe_isqrt_i64(c[0]), probe::isqrt_i64(c[0])),
        },
        Comparison {
            name: "whole: div_floor_i64",
            numbers: "a b",
            cost: 1,
            fixed: each_division,
            draw: draw_division,
            allowed: |c| divides(c[0], c[1]),
            differs: |c| unequal(ours::probe_div_floor_i64(c[0], c[1]), probe::div_floor_i64(c[0], c[1])),
        },
        Comparison {
            name: "whole: div_ceil_i64",
            numbers: "a b",
            cost: 1,
            fixed: each_division,
            draw: draw_division,
            allowed: |c| divides(c[0], c[1]),
            differs: |c| unequal(ours::probe_div_ceil_i64(c[0], c[1]), probe::div_ceil_i64(c[0], c[1])),
        },
    ]
}
