//! Scores from a table at one opacity and over 64 levels, and from the two pictures, for one call.
//! Needs: probe_span_score probe_circle_point_score probe_triangle_point_score probe_collect_circle_sums probe_collect_triangle_sums

use crate::generator::Draw;
use crate::harness::{taken, Entry};
use crate::ours::{self, ProbedAnswer, ProbedCollected};
use oracle::shape::common::probe::alpha_sweep;
use oracle::shape::integral::{
    eval_circle_integral_with_sums, eval_quad_integral_with_sums, eval_triangle_integral_with_sums, probe, Integral,
};
use oracle::shape::raster::{collect_circle_sums, collect_triangle_sums, eval_circle, eval_triangle, EvalResult, ShapeSums};
use std::rc::Rc;

const W: usize = 96;
const H: usize = 64;
// A search scores each proposal once. With few shapes, over and over, the processor learns the way of every branch through all of them.
const MANY: usize = 4096;

struct Scene {
    target: Vec<f32>,
    canvas: Vec<f32>,
    table: Integral,
    levels: Vec<f32>,
}

fn scene() -> Rc<Scene> {
    let mut d = Draw::named(1, "bench scores");
    let mut picture = || (0..W * H * 3).map(|_| d.below(256) as f32 / 255.0).collect::<Vec<f32>>();
    let (target, canvas) = (picture(), picture());
    let table = Integral::build(&target, &canvas, H as u32, W as u32);
    let levels = (0..64).map(|i| 0.2 + (0.9 - 0.2) * i as f32 / 63.0).collect();
    Rc::new(Scene { target, canvas, table, levels })
}

fn ours_taken(sum: u64, a: &ProbedAnswer) -> u64 {
    taken(taken(sum, a.change.to_bits() as u64), (a.red.to_bits() as u64) << 32 | a.blue.to_bits() as u64)
}

fn rust_taken(sum: u64, e: &EvalResult) -> u64 {
    taken(taken(sum, e.delta_sse.to_bits() as u64), (e.color[0].to_bits() as u64) << 32 | e.color[2].to_bits() as u64)
}

/// Shapes of a kind whose corners lie within `reach` of a point of the picture; or left of it, for none.
fn shapes(kind: u8, reach: i64, off: i64) -> Vec<[i32; 8]> {
    let mut d = Draw::named(reach as u64, "bench shapes");
    (0..MANY)
        .map(|_| {
            let (x, y) = (d.between(0, W as i64 - 1) - off, d.between(0, H as i64 - 1));
            let mut c = [0i32; 8];
            match kind {
                1 => c[..3].copy_from_slice(&[x as i32, y as i32, d.between((reach + 1) / 2, reach) as i32]),
                2 => {
                    for i in 0..3 {
                        c[2 * i] = (x + d.between(-reach, reach)) as i32;
                        c[2 * i + 1] = (y + d.between(-reach, reach)) as i32;
                    }
                }
                _ => {
                    // a turned rectangle
                    let (a, b) = (d.between(1, reach), d.between(-reach, reach));
                    for (i, (p, q)) in [(a, b), (-b, a), (-a, -b), (b, -a)].into_iter().enumerate() {
                        c[2 * i] = (x + p) as i32;
                        c[2 * i + 1] = (y + q) as i32;
                    }
                }
            }
            c
        })
        .collect()
}

#[inline(never)]
fn rust_span(s: &Scene, kind: u8, c: &[i32; 8], a: f32) -> (EvalResult, ShapeSums) {
    let (t, h, w) = (&s.table, H as u32, W as u32);
    match kind {
        1 => eval_circle_integral_with_sums(t, h, w, c[0], c[1], c[2], a, None),
        2 => eval_triangle_integral_with_sums(t, h, w, c[0], c[1], c[2], c[3], c[4], c[5], a, None),
        _ => eval_quad_integral_with_sums(t, h, w, [(c[0], c[1]), (c[2], c[3]), (c[4], c[5]), (c[6], c[7])], a, None),
    }
}

fn our_span(s: &Scene, kind: u8, c: &[i32; 8], single: bool) -> ProbedAnswer {
    ours::probe_span_score(
        kind, c[0], c[1], c[2], c[3], c[4], c[5], c[6], c[7], single, 0.5, 64, &s.levels, W, H, probe::data(&s.table),
    )
}

fn spans(name: &'static str, s: &Rc<Scene>, kind: u8, reach: i64, off: i64, sweep: bool) -> Entry {
    let (a, b) = (s.clone(), s.clone());
    let (one, two) = (shapes(kind, reach, off), shapes(kind, reach, off));
    Entry {
        name,
        units: MANY as u64,
        ours: Box::new(move || one.iter().fold(0, |sum, c| ours_taken(sum, &our_span(&a, kind, c, !sweep)))),
        rust: Box::new(move || {
            two.iter().fold(0, |sum, c| {
                let (e, sums) = rust_span(&b, kind, c, 0.5);
                let e = if sweep { alpha_sweep(&sums, &b.levels, None).1 } else { e };
                rust_taken(sum, &e)
            })
        }),
    }
}

fn points(name: &'static str, s: &Rc<Scene>, kind: u8, reach: i64, off: i64) -> Entry {
    let (a, b) = (s.clone(), s.clone());
    let (one, two) = (shapes(kind, reach, off), shapes(kind, reach, off));
    Entry {
        name,
        units: MANY as u64,
        ours: Box::new(move || {
            one.iter().fold(0, |sum, c| {
                let (t, v, l) = (&a.target, &a.canvas, &a.levels);
                ours_taken(
                    sum,
                    &if kind == 1 {
                        ours::probe_circle_point_score(c[0], c[1], c[2], true, 0.5, 64, l, W, H, t, v)
                    } else {
                        ours::probe_triangle_point_score(c[0], c[1], c[2], c[3], c[4], c[5], true, 0.5, 64, l, W, H, t, v)
                    },
                )
            })
        }),
        rust: Box::new(move || {
            two.iter().fold(0, |sum, c| {
                let (t, v, h, w) = (&b.target, &b.canvas, H as i32, W as i32);
                rust_taken(
                    sum,
                    &if kind == 1 {
                        eval_circle(t, v, h, w, c[0], c[1], c[2], 0.5, None)
                    } else {
                        eval_triangle(t, v, h, w, c[0], c[1], c[2], c[3], c[4], c[5], 0.5, None)
                    },
                )
            })
        }),
    }
}

fn our_sums_taken(sum: u64, c: &ProbedCollected) -> u64 {
    taken(taken(sum, c.count as u64), c.s_t[0].to_bits() ^ c.s_tc[2].to_bits())
}

fn rust_sums_taken(sum: u64, s: &ShapeSums) -> u64 {
    taken(taken(sum, s.count as u64), s.s_t[0].to_bits() ^ s.s_tc[2].to_bits())
}

/// The sums alone, by points: a search sweeps them afterwards.
fn sums(name: &'static str, s: &Rc<Scene>, kind: u8, reach: i64) -> Entry {
    let (a, b) = (s.clone(), s.clone());
    let (one, two) = (shapes(kind, reach, 0), shapes(kind, reach, 0));
    Entry {
        name,
        units: MANY as u64,
        ours: Box::new(move || {
            one.iter().fold(0, |sum, c| {
                let (t, v) = (&a.target, &a.canvas);
                our_sums_taken(
                    sum,
                    &if kind == 1 {
                        ours::probe_collect_circle_sums(c[0], c[1], c[2], W, H, t, v)
                    } else {
                        ours::probe_collect_triangle_sums(c[0], c[1], c[2], c[3], c[4], c[5], W, H, t, v)
                    },
                )
            })
        }),
        rust: Box::new(move || {
            two.iter().fold(0, |sum, c| {
                let (t, v, h, w) = (&b.target, &b.canvas, H as i32, W as i32);
                rust_sums_taken(
                    sum,
                    &if kind == 1 {
                        collect_circle_sums(t, v, h, w, c[0], c[1], c[2])
                    } else {
                        collect_triangle_sums(t, v, h, w, c[0], c[1], c[2], c[3], c[4], c[5])
                    },
                )
            })
        }),
    }
}

pub fn entries() -> Vec<Entry> {
    let s = scene();
    let far = 3000;
    vec![
        spans("span score, circle, tiny", &s, 1, 3, 0, false),
        spans("span score, circle, medium", &s, 1, 16, 0, false),
        spans("span score, circle, whole picture", &s, 1, 150, 0, false),
        spans("span score, circle, far off", &s, 1, 16, far, false),
        spans("span score, triangle, tiny", &s, 2, 3, 0, false),
        spans("span score, triangle, medium", &s, 2, 16, 0, false),
        spans("span score, triangle, whole picture", &s, 2, 400, 0, false),
        spans("span score, triangle, far off", &s, 2, 16, far, false),
        spans("span score, quad, tiny", &s, 3, 3, 0, false),
        spans("span score, quad, medium", &s, 3, 16, 0, false),
        spans("span score, quad, whole picture", &s, 3, 200, 0, false),
        spans("span score, quad, far off", &s, 3, 16, far, false),
        spans("sweep of 64 levels, circle, medium", &s, 1, 16, 0, true),
        spans("sweep of 64 levels, triangle, medium", &s, 2, 16, 0, true),
        spans("sweep of 64 levels, quad, medium", &s, 3, 16, 0, true),
        spans("sweep of 64 levels, circle, far off", &s, 1, 16, far, true),
        points("point score, circle, tiny", &s, 1, 3, 0),
        points("point score, circle, medium", &s, 1, 16, 0),
        points("point score, circle, whole picture", &s, 1, 150, 0),
        points("point score, circle, far off", &s, 1, 16, far),
        points("point score, triangle, tiny", &s, 2, 3, 0),
        points("point score, triangle, medium", &s, 2, 16, 0),
        points("point score, triangle, whole picture", &s, 2, 400, 0),
        points("point score, triangle, far off", &s, 2, 16, far),
        sums("sums by points, circle, tiny", &s, 1, 3),
        sums("sums by points, circle, medium", &s, 1, 16),
        sums("sums by points, triangle, tiny", &s, 2, 3),
        sums("sums by points, triangle, medium", &s, 2, 16),
    ]
}
