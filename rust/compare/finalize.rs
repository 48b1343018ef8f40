//! A score from given sums at one opacity, ours and the Rust's.
//! Needs: probe_finalize

use crate::generator::Draw;
use crate::harness::{unequal, Comparison};
use crate::ours::{self, ProbedSums};
use crate::values::{channel, opacity};
use oracle::shape::raster::{probe, ShapeSums};

/// A number beside a border of f32: of its normal range, of a tie, of the next power of two.
fn border(d: &mut Draw) -> f64 {
    let digits = d.below(1 << 23) << 29;
    let last = [0, 1, (1 << 28) - 1, 1 << 28, (1 << 28) + 1, (1 << 29) - 1][d.below(6) as usize];
    let digits = if d.below(4) == 0 { (1 << 52) - 1 - d.below(1 << 30) } else { digits | last };
    let x = f64::from_bits(((d.between(-165, 2) + 1023) as u64) << 52 | digits);
    if d.below(8) == 0 { -x } else { x }
}

/// By the kind: sums of so many drawn pixels; any finite sums; or sums whose colours lie beside a border of f32 (where the opacity is 1,
/// and for a power of two of pixels, they are what was drawn). Of the last two none is 0: sums of pixels are never -0, and the Rust's `sum`
/// begins with -0 since 1.83, which shows only there.
fn sums(d: &mut Draw, pixels: u64, kind: i64) -> ShapeSums {
    let mut s = ShapeSums::new();
    if kind > 0 {
        let mut any = || -> f64 {
            let x = d.any_i64() as f64 / 1024.0;
            if x == 0.0 { 1.0 } else { x }
        };
        for list in [&mut s.s_t, &mut s.s_c, &mut s.s_t2, &mut s.s_c2, &mut s.s_tc] {
            *list = [any(), any(), any()];
        }
        s.count = pixels as u32;
        if kind == 2 {
            s.s_t = std::array::from_fn(|_| border(d) * pixels as f64);
            s.s_c = std::array::from_fn(|_| border(d));
        }
        return s;
    }
    for _ in 0..pixels {
        let t: [f32; 3] = std::array::from_fn(|_| channel(d));
        let c: [f32; 3] = std::array::from_fn(|_| channel(d));
        probe::push(&mut s, &t, &c);
    }
    s
}

fn differs(case: &[i64]) -> Option<(String, String)> {
    let mut d = Draw::new(case[0] as u64);
    let a = if case[3] < 0 { opacity(&mut d) } else { f32::from_bits(case[3] as u32) };
    let s = sums(&mut d, case[1] as u64, case[2]);
    let ours = ours::probe_finalize(
        ProbedSums { s_t: s.s_t, s_c: s.s_c, s_t2: s.s_t2, s_c2: s.s_c2, s_tc: s.s_tc, count: s.count },
        a,
    );
    let rust = s.finalize(a, None);
    let bits = |x: [f32; 4]| x.map(|y| format!("{:08X}", y.to_bits()));
    unequal(
        (ours.opacity.to_bits(), ours.count, bits([ours.change, ours.red, ours.green, ours.blue])),
        (a.to_bits(), s.count, bits([rust.delta_sse, rust.color[0], rust.color[1], rust.color[2]])),
    )
}

pub fn comparisons() -> Vec<Comparison> {
    vec![Comparison {
        name: "score: finalize",
        numbers: "seed pixels kind opacity-bits",
        cost: 20,
        fixed: |see| {
            for a in [0.0f32, -0.0, 1.0, 0.5, 1e-45, 0.2, 0.9, 0.999_999_94] {
                for pixels in 0..40 {
                    for seed in 0..25 {
                        see(&[seed, pixels, seed % 2, a.to_bits() as i64]);
                    }
                }
            }
            for a in [1.0f32, 0.5] {
                for seed in 0..20_000 {
                    see(&[seed, 1 << (seed % 4), 2, a.to_bits() as i64]);
                }
            }
        },
        draw: |d, case| case.extend([d.below(1 << 40) as i64, d.between(0, 64), d.between(0, 2), -1]),
        allowed: |c| (0..=65536).contains(&c[1]) && (0..=2).contains(&c[2]) && (c[3] == -1 || (0.0..=1.0).contains(&f32::from_bits(c[3] as u32))),
        differs,
    }]
}
