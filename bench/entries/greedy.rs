//! A whole fit: 64 triangles, each the best of the same 60 proposals, scored from the table, painted, the table updated. For one fit.
//! Needs: sillbadger_paint probe_span_score

use crate::generator::Draw;
use crate::harness::{taken, Entry};
use crate::ours;
use oracle::shape::integral::{eval_triangle_integral_with_sums, Integral};
use oracle::shape::raster::apply_triangle;
use oracle::shape::triangle::probe::triangle_row_range;

const SHAPES: usize = 64;
const PROPOSALS: usize = 60;
const OPACITY: f32 = 0.5;

struct Scene {
    w: usize,
    h: usize,
    target: Vec<f32>,
    background: Vec<f32>,
    proposals: Vec<[i32; 6]>,
    levels: Vec<f32>,
}

fn scene(w: usize, h: usize) -> Scene {
    let mut d = Draw::named(1, "bench greedy");
    let target = (0..w * h * 3).map(|_| d.below(256) as f32 / 255.0).collect();
    let proposals = (0..SHAPES * PROPOSALS)
        .map(|_| {
            let mut c = [0i32; 6];
            for k in 0..3 {
                c[2 * k] = d.between(-8, w as i64 + 8) as i32;
                c[2 * k + 1] = d.between(-8, h as i64 + 8) as i32;
            }
            c
        })
        .collect();
    Scene { w, h, target, background: vec![0.5; w * h * 3], proposals, levels: vec![0.0; 64] }
}

/// The place of the first proposal with the smallest change.
fn best(changes: impl Iterator<Item = f32>) -> usize {
    let mut found = (0, f32::INFINITY);
    for (i, c) in changes.enumerate() {
        if c < found.1 {
            found = (i, c);
        }
    }
    found.0
}

fn our_fit(s: &Scene, canvas: &mut Vec<f32>, table: &mut Vec<f64>) -> u64 {
    canvas.copy_from_slice(&s.background);
    assert_eq!(ours::sillbadger_build(s.w as u32, s.h as u32, &s.target, canvas, table), 0);
    for group in s.proposals.chunks(PROPOSALS) {
        let score = |c: &[i32; 6], table: &[f64]| {
            ours::probe_span_score(2, c[0], c[1], c[2], c[3], c[4], c[5], 0, 0, true, OPACITY, 0, &s.levels, s.w, s.h, table)
        };
        let c = group[best(group.iter().map(|c| score(c, table).change))];
        let e = score(&c, table);
        ours::sillbadger_paint(s.w as u32, s.h as u32, &c, OPACITY, e.red, e.green, e.blue, &s.target, canvas, table);
    }
    canvas.iter().step_by(7).fold(0, |sum, x| taken(sum, x.to_bits() as u64))
}

fn rust_fit(s: &Scene, canvas: &mut Vec<f32>) -> u64 {
    let (w, h) = (s.w as u32, s.h as u32);
    canvas.copy_from_slice(&s.background);
    let mut table = Integral::build(&s.target, canvas, h, w);
    for group in s.proposals.chunks(PROPOSALS) {
        let score = |c: &[i32; 6], table: &Integral| {
            eval_triangle_integral_with_sums(table, h, w, c[0], c[1], c[2], c[3], c[4], c[5], OPACITY, None).0
        };
        let c = group[best(group.iter().map(|c| score(c, &table).delta_sse))];
        let e = score(&c, &table);
        let corners = [(c[0], c[1]), (c[2], c[3]), (c[4], c[5])];
        apply_triangle(canvas, s.h as i32, s.w as i32, corners, OPACITY, &e.color);
        let (first, last) = triangle_row_range(corners, h);
        table.update_canvas_rows(&s.target, canvas, first, last);
    }
    canvas.iter().step_by(7).fold(0, |sum, x| taken(sum, x.to_bits() as u64))
}

fn sized(name: &'static str, w: usize, h: usize) -> Entry {
    let (a, b) = (scene(w, h), scene(w, h));
    let (mut mine, mut theirs) = (a.background.clone(), a.background.clone());
    let mut table = vec![0.0; h * (w + 1) * 15];
    Entry {
        name,
        units: 1,
        ours: Box::new(move || our_fit(&a, &mut mine, &mut table)),
        rust: Box::new(move || rust_fit(&b, &mut theirs)),
    }
}

pub fn entries() -> Vec<Entry> {
    vec![
        sized("greedy fit of 64 triangles, 32 by 24", 32, 24),
        sized("greedy fit of 64 triangles, 96 by 64", 96, 64),
        sized("greedy fit of 64 triangles, 256 by 256", 256, 256),
    ]
}
