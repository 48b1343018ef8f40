//! What the oracle says of a shape's pixels: by span counts, by point counts and by painting.

use crate::shapes::{i32s, pairs};
use oracle::shape::integral::{
    collect_circle_sums_integral, collect_quad_sums_integral, collect_triangle_sums_integral, probe, Integral,
};
use oracle::shape::raster::{
    apply_circle, apply_quad, apply_triangle, collect_circle_sums, collect_triangle_sums, quad_row_range, ShapeSums,
};
use std::cell::RefCell;
use std::collections::HashMap;

thread_local! {
    /// Tables of zeros by their sizes, and how many numbers they have together.
    static EMPTY: RefCell<(HashMap<(i64, i64), Integral>, i64)> = RefCell::new((HashMap::new(), 0));
    static ZEROS: Vec<f32> = vec![0.0; 256 * 256 * 3];
}

/// The span count. The table is all zeros: a count does not look at it.
pub fn span_count(case: &[i64]) -> i64 {
    let (w, h, kind, c) = (case[0], case[1], case[2], i32s(&case[3..]));
    EMPTY.with_borrow_mut(|(kept, numbers)| {
        if *numbers > 1 << 24 {
            kept.clear();
            *numbers = 0;
        }
        let table = kept.entry((w, h)).or_insert_with(|| {
            let n = h * (w + 1) * 15;
            *numbers += n;
            probe::with_data(h as u32, w as u32, vec![0.0; n as usize])
        });
        let (h, w) = (h as u32, w as u32);
        let sums: ShapeSums = match kind {
            1 => collect_circle_sums_integral(table, h, w, c[0], c[1], c[2]),
            2 => collect_triangle_sums_integral(table, h, w, c[0], c[1], c[2], c[3], c[4], c[5]),
            _ => collect_quad_sums_integral(table, h, w, pairs(&case[3..])),
        };
        sums.count as i64
    })
}

/// The point count; quads have none in the Rust.
pub fn point_count(case: &[i64]) -> Option<i64> {
    let (w, h, kind, c) = (case[0] as i32, case[1] as i32, case[2], i32s(&case[3..]));
    ZEROS.with(|zeros| {
        let picture = &zeros[..(w * h * 3) as usize];
        match kind {
            1 => Some(collect_circle_sums(picture, picture, h, w, c[0], c[1], c[2]).count as i64),
            2 => Some(collect_triangle_sums(picture, picture, h, w, c[0], c[1], c[2], c[3], c[4], c[5]).count as i64),
            _ => None,
        }
    })
}

/// A picture of distinct numbers, all below 1.
pub fn marks(w: i64, h: i64) -> Vec<f32> {
    (0..w * h * 3).map(|i| i as f32 / (1 << 18) as f32).collect()
}

pub fn apply(canvas: &mut [f32], case: &[i64], alpha: f32, colour: &[f32; 3]) {
    let (w, h, kind, c) = (case[0] as i32, case[1] as i32, case[2], i32s(&case[3..]));
    match kind {
        1 => apply_circle(canvas, h, w, c[0], c[1], c[2], alpha, colour),
        2 => apply_triangle(canvas, h, w, pairs(&case[3..]), alpha, colour),
        _ => apply_quad(canvas, h, w, pairs(&case[3..]), alpha, colour),
    }
}

/// The pixels that painting changes, row after row. Each of them must be painted exactly once.
pub fn painted(case: &[i64]) -> Vec<bool> {
    let before = marks(case[0], case[1]);
    let mut after = before.clone();
    apply(&mut after, case, 0.5, &[1.0, 1.25, 1.5]);
    before
        .chunks(3)
        .zip(after.chunks(3))
        .map(|(b, a)| {
            let blended: Vec<f32> = b.iter().zip([1.0, 1.25, 1.5]).map(|(x, c)| 0.5 * x + 0.5 * c).collect();
            assert!(a == b || a == blended, "a pixel painted in part or twice");
            a != b
        })
        .collect()
}

/// The rows that the Rust redoes after painting.
pub fn row_range(case: &[i64]) -> (i64, i64) {
    let (h, kind, c) = (case[1] as u32, case[2], i32s(&case[3..]));
    let (a, b) = match kind {
        1 => oracle::shape::circle::probe::circle_row_range(c[1], c[2], h),
        2 => oracle::shape::triangle::probe::triangle_row_range(pairs(&case[3..]), h),
        _ => quad_row_range(pairs(&case[3..]), h),
    };
    (a as i64, b as i64)
}
