//! The published C functions on slices, one after another as an app calls them, beside the Rust: levels, mean, fill, build, then
//! strokes, each scored by spans and by points, at one opacity and over levels, painted with its colour, then the total; at the
//! end the strokes are refined. Every answer and every lent number by its bits.
//! Needs: sillbadger_levels sillbadger_fill sillbadger_mean sillbadger_total sillbadger_build sillbadger_update
//! Needs: sillbadger_span_score sillbadger_span_sweep sillbadger_point_score sillbadger_point_sweep sillbadger_paint
//! Needs: sillbadger_refine

use crate::generator::Draw;
use crate::harness::{no_fixed, unequal, Comparison};
use crate::ours::{self, SillbadgerAnswer};
use crate::pictures::{apply, row_range};
use crate::shapes::{draw_shape, draw_size, i32s, pairs, places};
use crate::values::{channel, opacity, picture};
use oracle::codec::probe::alpha_levels_owned;
use oracle::shape::common::probe as common;
use oracle::shape::integral::{
    eval_circle_integral_with_sums, eval_quad_integral_with_sums, eval_triangle_integral_with_sums, probe, Integral,
};
use oracle::shape::raster::{collect_circle_sums, collect_triangle_sums, EvalResult, ShapeSums};

type Difference = Option<(String, String)>;

fn bits(p: &[f32]) -> Vec<u32> {
    p.iter().map(|x| x.to_bits()).collect()
}

/// The first place at which two lists differ.
fn at<T: PartialEq + std::fmt::Debug + Copy>(what: &str, one: &[T], other: &[T]) -> Difference {
    let i = (0..one.len().max(other.len())).find(|&i| one.get(i) != other.get(i))?;
    Some((format!("{what}[{i}] = {:X?}", one.get(i)), format!("{what}[{i}] = {:X?}", other.get(i))))
}

fn scored(a: SillbadgerAnswer) -> (u32, u32, Vec<u32>) {
    (a.refusal, a.count, bits(&[a.opacity, a.change, a.red, a.green, a.blue]))
}

fn score(opacity: f32, count: u32, e: &EvalResult) -> (u32, u32, Vec<u32>) {
    (0, count, bits(&[opacity, e.delta_sse, e.color[0], e.color[1], e.color[2]]))
}

#[derive(Clone, Debug, PartialEq)]
struct Stroke {
    /// w, h, kind, coordinates
    case: Vec<i64>,
    paint: [f32; 4],
}

impl Stroke {
    fn draw(d: &mut Draw, w: i64, h: i64) -> Stroke {
        let kind = d.between(1, 3);
        let mut case = vec![w, h, kind];
        if d.below(3) == 0 {
            draw_shape(d, kind, w, h, &mut case);
        } else {
            for i in 0..places(kind) {
                let most = if i % 2 == 0 { w } else { h };
                case.push(if kind == 1 && i == 2 { d.between(0, most) } else { d.between(-2, most + 1) });
            }
        }
        Stroke { case, paint: [opacity(d), channel(d), channel(d), channel(d)] }
    }
}

fn stroke(s: &Stroke, levels: &[f32; 64], count: usize, target: &[f32], canvas: &mut Vec<f32>, table: &mut [f64], rust: &mut Integral, drawn: &mut [f32]) -> Difference {
    let (w, h, kind, c, a) = (s.case[0] as u32, s.case[1] as u32, s.case[2], i32s(&s.case[3..]), s.paint[0]);
    let (one, sums): (EvalResult, ShapeSums) = match kind {
        1 => eval_circle_integral_with_sums(rust, h, w, c[0], c[1], c[2], a, None),
        2 => eval_triangle_integral_with_sums(rust, h, w, c[0], c[1], c[2], c[3], c[4], c[5], a, None),
        _ => eval_quad_integral_with_sums(rust, h, w, pairs(&s.case[3..]), a, None),
    };
    let (best, swept) = common::alpha_sweep(&sums, &levels[..count], None);
    let spans = unequal(scored(ours::sillbadger_span_score(w, h, &c, a, table)), score(a, sums.count, &one))
        .or_else(|| unequal(scored(ours::sillbadger_span_sweep(w, h, &c, levels, count as u32, table)), score(best, sums.count, &swept)));
    if spans.is_some() {
        return spans;
    }
    if kind < 3 {
        let sums = if kind == 1 {
            collect_circle_sums(target, canvas, h as i32, w as i32, c[0], c[1], c[2])
        } else {
            collect_triangle_sums(target, canvas, h as i32, w as i32, c[0], c[1], c[2], c[3], c[4], c[5])
        };
        let (best, swept) = common::alpha_sweep(&sums, &levels[..count], None);
        let points = unequal(scored(ours::sillbadger_point_score(w, h, &c, a, target, canvas)), score(a, sums.count, &sums.finalize(a, None)))
            .or_else(|| {
                unequal(scored(ours::sillbadger_point_sweep(w, h, &c, levels, count as u32, target, canvas)), score(best, sums.count, &swept))
            });
        if points.is_some() {
            return points;
        }
    }
    let p = one.color;
    apply(drawn, &s.case, a, &p);
    let (first, last) = row_range(&s.case);
    rust.update_canvas_rows(target, drawn, first as i32, last as i32);
    let number = ours::sillbadger_paint(w, h, &c, a, p[0], p[1], p[2], target, canvas, table);
    let words = |t: &[f64]| t.iter().map(|x| x.to_bits()).collect::<Vec<_>>();
    unequal(number, 0)
        .or_else(|| at("canvas", &bits(canvas), &bits(drawn)))
        .or_else(|| at("table", &words(table), &words(probe::data(rust))))
        .or_else(|| {
            let t = ours::sillbadger_total(w, h, target, canvas);
            unequal((t.refusal, t.total.to_bits()), (0, common::sse_total(target, drawn).to_bits()))
        })
}

/// A list as it crosses.
fn crossed<'a>(list: impl Iterator<Item = Option<&'a Stroke>>) -> (Vec<u8>, Vec<i32>, Vec<f32>) {
    let (mut sizes, mut zs, mut paints) = (Vec::new(), Vec::new(), Vec::new());
    for s in list {
        let mut c = s.map_or(Vec::new(), |s| i32s(&s.case[3..]));
        sizes.push(c.len() as u8);
        // what stands past a kind's own coordinates is not looked at
        c.resize(8, i32::MIN);
        zs.extend(c);
        paints.extend(s.map_or([f32::NAN; 4], |s| s.paint));
    }
    (sizes, zs, paints)
}

fn refinement(d: &mut Draw, list: &[Stroke], target: &[f32], background: [f32; 3], w: i64, h: i64) -> Difference {
    let passes = d.below(4) as u32;
    let offers: Vec<Option<Stroke>> = (0..d.below(8)).map(|_| (d.below(5) > 0).then(|| Stroke::draw(d, w, h))).collect();
    let mut rust = list.to_vec();
    let mut trial = 0;
    common::refine_shapes(
        target,
        background,
        h as u32,
        w as u32,
        &mut rust,
        passes,
        |canvas, s| apply(canvas, &s.case, s.paint[0], &[s.paint[1], s.paint[2], s.paint[3]]),
        |_| {
            trial += 1;
            offers.get(trial - 1).cloned().flatten()
        },
    );
    let mut drawn = common::filled_canvas(background, h as u32, w as u32);
    for s in &rust {
        apply(&mut drawn, &s.case, s.paint[0], &[s.paint[1], s.paint[2], s.paint[3]]);
    }
    let (mut sizes, mut zs, mut paints) = crossed(list.iter().map(Some));
    let (a, b, c) = crossed(offers.iter().map(Option::as_ref));
    let (mut first, mut second) = (vec![f32::NAN; target.len()], vec![-7.5; target.len()]);
    let [red, green, blue] = background;
    let answer = ours::sillbadger_refine(
        w as u32, h as u32, red, green, blue, &mut sizes, &mut zs, &mut paints, &a, &b, &c, passes, target, &mut first, &mut second,
    );
    let (right, mut places, colours) = crossed(rust.iter().map(Some));
    // and comes back as 0
    places.iter_mut().for_each(|z| if *z == i32::MIN { *z = 0 });
    unequal((answer.refusal, answer.trials), (0, trial as u64))
        .or_else(|| unequal((sizes, zs, bits(&paints)), (right, places, bits(&colours))))
        .or_else(|| at("first", &bits(&first), &bits(&drawn)))
        .or_else(|| at("second", &bits(&second), &bits(&drawn)))
}

/// seed w h strokes.
fn differs(case: &[i64]) -> Difference {
    let (seed, w, h) = (case[0] as u64, case[1], case[2]);
    let (ww, hh) = (w as u32, h as u32);
    let mut d = Draw::named(seed, "face");
    let target = picture(seed, w, h);
    let mut levels = [-7.5f32; 64];
    let b = d.below(7) as u32;
    let number = ours::sillbadger_levels(b, &mut levels);
    let mut right = alpha_levels_owned(b);
    let count = right.len();
    right.resize(64, 0.0);
    let mean = ours::sillbadger_mean(ww, hh, &target);
    let background = common::mean_rgb(&target);
    let early = unequal((number, bits(&levels)), (0, bits(&right)))
        .or_else(|| unequal((mean.refusal, bits(&[mean.red, mean.green, mean.blue])), (0, bits(&background))));
    if early.is_some() {
        return early;
    }
    let mut canvas = vec![f32::NAN; target.len()];
    let mut table = vec![f64::NAN; (h * (w + 1) * 15) as usize];
    let filled = ours::sillbadger_fill(ww, hh, background[0], background[1], background[2], &mut canvas);
    let mut drawn = common::filled_canvas(background, hh, ww);
    let built = ours::sillbadger_build(ww, hh, &target, &canvas, &mut table);
    let mut rust = Integral::build(&target, &drawn, hh, ww);
    if let Some(found) = unequal((filled, built), (0, 0)).or_else(|| at("canvas", &bits(&canvas), &bits(&drawn))) {
        return Some(found);
    }
    let list: Vec<Stroke> = (0..case[3]).map(|_| Stroke::draw(&mut d, w, h)).collect();
    for (i, s) in list.iter().enumerate() {
        if let Some((one, other)) = stroke(s, &levels, count, &target, &mut canvas, &mut table, &mut rust, &mut drawn) {
            let which = format!("stroke {i}, {:?} at {}: ", &s.case[2..], s.paint[0]);
            return Some((which.clone() + &one, which + &other));
        }
    }
    refinement(&mut d, &list, &target, background, w, h)
}

fn draw(d: &mut Draw, case: &mut Vec<i64>) {
    let (w, h) = draw_size(d, 40);
    case.extend([d.below(1 << 40) as i64, w, h, d.below(8) as i64]);
}

fn allowed(c: &[i64]) -> bool {
    c.len() == 4 && c[0] >= 0 && (1..=256).contains(&c[1]) && (1..=256).contains(&c[2]) && (0..=64).contains(&c[3])
}

pub fn comparisons() -> Vec<Comparison> {
    vec![Comparison {
        name: "face: sessions through the C functions",
        numbers: "seed w h strokes",
        cost: 200,
        fixed: no_fixed,
        draw,
        allowed,
        differs,
    }]
}
