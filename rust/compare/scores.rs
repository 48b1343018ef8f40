//! Scores by spans and by points, at one opacity and over levels, and the sums behind them, bit for bit.
//! Needs: probe_span_score probe_circle_point_score probe_triangle_point_score probe_alpha_sweep
//! Needs: probe_collect_span_sums probe_collect_circle_sums probe_collect_triangle_sums

use crate::generator::Draw;
use crate::harness::{unequal, Comparison};
use crate::ours::{self, ProbedAnswer, ProbedCollected, ProbedSums};
use crate::scenes::{asked, draw_scene, with, Asked, Scene};
use crate::shapes::{draw_shape, every_radius, every_small, every_tiny, i32s, in_domain, pairs};
use oracle::shape::common::probe::alpha_sweep;
use oracle::shape::integral::{
    eval_circle_integral_with_sums, eval_quad_integral_with_sums, eval_triangle_integral_with_sums, probe,
};
use oracle::shape::raster::{collect_circle_sums, collect_triangle_sums, eval_circle, eval_triangle, EvalResult, ShapeSums};

type Answer = (u8, u32, u32, [u32; 4]);

fn flat(a: ProbedAnswer) -> Answer {
    (a.refused, a.opacity.to_bits(), a.count, [a.change, a.red, a.green, a.blue].map(f32::to_bits))
}

fn expected(opacity: f32, count: u32, e: &EvalResult) -> Answer {
    (0, opacity.to_bits(), count, [e.delta_sse, e.color[0], e.color[1], e.color[2]].map(f32::to_bits))
}

fn numbers(s: [[f64; 3]; 5], count: u32) -> (Vec<u64>, u32) {
    (s.iter().flatten().map(|x| x.to_bits()).collect(), count)
}

fn sums_differ(ours: &ProbedCollected, rust: &ShapeSums) -> Option<(String, String)> {
    unequal(ours.refused, 0).or_else(|| {
        unequal(
            numbers([ours.s_t, ours.s_c, ours.s_t2, ours.s_c2, ours.s_tc], ours.count),
            numbers([rust.s_t, rust.s_c, rust.s_t2, rust.s_c2, rust.s_tc], rust.count),
        )
    })
}

/// A score at one opacity, a sweep from the shape, a sweep from the sums, and the sums.
fn all_differ(
    q: &Asked,
    rust: &(EvalResult, ShapeSums),
    collected: ProbedCollected,
    score: impl Fn(bool) -> ProbedAnswer,
) -> Option<(String, String)> {
    let (one, sums) = rust;
    let (best, swept) = alpha_sweep(sums, &q.levels[..q.count], None);
    sums_differ(&collected, sums)
        .or_else(|| unequal(flat(score(true)), expected(q.opacity, sums.count, one)))
        .or_else(|| unequal(flat(score(false)), expected(best, sums.count, &swept)))
        .or_else(|| {
            let s = ProbedSums {
                s_t: sums.s_t, s_c: sums.s_c, s_t2: sums.s_t2, s_c2: sums.s_c2, s_tc: sums.s_tc, count: sums.count,
            };
            unequal(flat(ours::probe_alpha_sweep(s, &q.levels, q.count)), expected(best, sums.count, &swept))
        })
}

fn span(scene: &Scene, q: &Asked, shape: &[i64]) -> Option<(String, String)> {
    let (w, h, kind) = (shape[0] as usize, shape[1] as usize, shape[2] as u8);
    let mut c = i32s(&shape[3..]);
    let (t, hh, ww, a) = (&scene.table, h as u32, w as u32, q.opacity);
    let rust = match kind {
        1 => eval_circle_integral_with_sums(t, hh, ww, c[0], c[1], c[2], a, None),
        2 => eval_triangle_integral_with_sums(t, hh, ww, c[0], c[1], c[2], c[3], c[4], c[5], a, None),
        _ => eval_quad_integral_with_sums(t, hh, ww, pairs(&shape[3..]), a, None),
    };
    c.resize(8, 77);
    let table = probe::data(t);
    all_differ(
        q,
        &rust,
        ours::probe_collect_span_sums(kind, c[0], c[1], c[2], c[3], c[4], c[5], c[6], c[7], w, h, table),
        |single| {
            ours::probe_span_score(kind, c[0], c[1], c[2], c[3], c[4], c[5], c[6], c[7], single, a, q.count, &q.levels, w, h, table)
        },
    )
}

fn point(scene: &Scene, q: &Asked, shape: &[i64]) -> Option<(String, String)> {
    let (w, h, c) = (shape[0] as usize, shape[1] as usize, i32s(&shape[3..]));
    let (hh, ww, a, n, l) = (h as i32, w as i32, q.opacity, q.count, &q.levels);
    let (t, v) = (&scene.target, &scene.canvas);
    if shape[2] == 1 {
        let rust = (eval_circle(t, v, hh, ww, c[0], c[1], c[2], a, None), collect_circle_sums(t, v, hh, ww, c[0], c[1], c[2]));
        all_differ(q, &rust, ours::probe_collect_circle_sums(c[0], c[1], c[2], w, h, t, v), |single| {
            ours::probe_circle_point_score(c[0], c[1], c[2], single, a, n, l, w, h, t, v)
        })
    } else {
        let rust = (
            eval_triangle(t, v, hh, ww, c[0], c[1], c[2], c[3], c[4], c[5], a, None),
            collect_triangle_sums(t, v, hh, ww, c[0], c[1], c[2], c[3], c[4], c[5]),
        );
        all_differ(q, &rust, ours::probe_collect_triangle_sums(c[0], c[1], c[2], c[3], c[4], c[5], w, h, t, v), |single| {
            ours::probe_triangle_point_score(c[0], c[1], c[2], c[3], c[4], c[5], single, a, n, l, w, h, t, v)
        })
    }
}

fn differs(case: &[i64], way: fn(&Scene, &Asked, &[i64]) -> Option<(String, String)>) -> Option<(String, String)> {
    with(case[0], case[2], case[3], |scene| way(scene, &asked(case[1]), &case[2..]))
}

fn draw(d: &mut Draw, kind: i64, case: &mut Vec<i64>) {
    let (seed, w, h) = draw_scene(d);
    case.extend([seed, d.below(1 << 40) as i64, w, h, kind]);
    draw_shape(d, kind, w, h, case);
}

fn seeded(case: &[i64], see: &mut dyn FnMut(&[i64])) {
    let mut whole = vec![3, case.iter().sum::<i64>() & 1023];
    whole.extend(case);
    see(&whole);
}

fn allowed(c: &[i64]) -> bool {
    c.len() > 5 && c[0] >= 0 && c[1] >= 0 && in_domain(&c[2..])
}

const CIRCLE: &str = "scene request w h kind cx cy r";
const TRIANGLE: &str = "scene request w h kind x0 y0 x1 y1 x2 y2";
const QUAD: &str = "scene request w h kind x0 y0 x1 y1 x2 y2 x3 y3";

pub fn comparisons() -> Vec<Comparison> {
    vec![
        Comparison {
            name: "score: spans of a circle",
            numbers: CIRCLE,
            cost: 10,
            fixed: |see| {
                every_small(1, &mut |case| seeded(case, see));
                every_tiny(1, &mut |case| seeded(case, see));
                every_radius(&mut |case| seeded(case, see));
            },
            draw: |d, case| draw(d, 1, case),
            allowed,
            differs: |case| differs(case, span),
        },
        Comparison {
            name: "score: spans of a triangle",
            numbers: TRIANGLE,
            cost: 10,
            fixed: |see| every_tiny(2, &mut |case| seeded(case, see)),
            draw: |d, case| draw(d, 2, case),
            allowed,
            differs: |case| differs(case, span),
        },
        Comparison {
            name: "score: spans of a quad",
            numbers: QUAD,
            cost: 10,
            fixed: |see| every_tiny(3, &mut |case| seeded(case, see)),
            draw: |d, case| draw(d, 3, case),
            allowed,
            differs: |case| differs(case, span),
        },
        Comparison {
            name: "score: points of a circle",
            numbers: CIRCLE,
            cost: 20,
            fixed: |see| {
                every_small(1, &mut |case| seeded(case, see));
                every_tiny(1, &mut |case| seeded(case, see));
            },
            draw: |d, case| draw(d, 1, case),
            allowed,
            differs: |case| differs(case, point),
        },
        Comparison {
            name: "score: points of a triangle",
            numbers: TRIANGLE,
            cost: 20,
            fixed: |see| every_tiny(2, &mut |case| seeded(case, see)),
            draw: |d, case| draw(d, 2, case),
            allowed,
            differs: |case| differs(case, point),
        },
    ]
}
