//! Painting: the very pixels, every bit, ours and the Rust's; the row reach; and refusals.
//! Needs: probe_blend probe_reach

use crate::generator::Draw;
use crate::harness::{unequal, Comparison};
use crate::ours::{self, ProbedReach};
use crate::pictures::{apply, marks, row_range};
use crate::shapes::{draw_case, draw_passable, every_radius, every_small, i32s, in_domain, passable, refused, NUMBERS};
use crate::values::{channel, opacity, picture};
use std::cell::RefCell;

pub fn blend(case: &[i64], a: f32, p: [f32; 3], canvas: &mut [f32]) -> u8 {
    ours::probe_blend(case[0] as usize, case[1] as usize, &i32s(&case[3..]), a, p[0], p[1], p[2], canvas)
}

pub fn reach(case: &[i64]) -> ProbedReach {
    ours::probe_reach(case[0] as usize, case[1] as usize, &i32s(&case[3..]))
}

/// The first number at which two pictures differ, with both numbers' bits.
pub fn first_difference(ours: &[f32], rust: &[f32]) -> Option<(String, String)> {
    let at = (0..ours.len().max(rust.len())).find(|&i| ours.get(i).map(|x| x.to_bits()) != rust.get(i).map(|x| x.to_bits()))?;
    let shown = |t: &[f32]| format!("picture[{at}] = {:08X?}", t.get(at).map(|x| x.to_bits()));
    Some((shown(ours), shown(rust)))
}

thread_local! {
    /// Two pictures that hold the marks of the size at hand.
    static KEPT: RefCell<(i64, i64, Vec<f32>, Vec<f32>, Vec<f32>)> = const { RefCell::new((0, 0, Vec::new(), Vec::new(), Vec::new())) };
}

/// On a picture of distinct marks: which pixels change shows by itself, and each is blended once.
fn pixels_differ(case: &[i64]) -> Option<(String, String)> {
    KEPT.with_borrow_mut(|(w, h, before, mine, rust)| {
        if (*w, *h) != (case[0], case[1]) {
            (*w, *h) = (case[0], case[1]);
            *before = marks(*w, *h);
            *mine = before.clone();
            *rust = before.clone();
        } else {
            mine.copy_from_slice(before);
            rust.copy_from_slice(before);
        }
        let colour = [1.0, 1.25, 1.5];
        let answer = blend(case, 0.5, colour, mine);
        apply(rust, case, 0.5, &colour);
        let r = reach(case);
        unequal(answer, 0)
            .or_else(|| if mine == rust { None } else { first_difference(mine, rust) })
            .or_else(|| unequal((r.number, (r.first as i64, r.last as i64)), (0, row_range(case))))
    })
}

/// seed, how much longer than stated the picture is, and a shape: any picture, opacity and colour within 0..1.
fn blend_differs(case: &[i64]) -> Option<(String, String)> {
    let (seed, more, shape) = (case[0] as u64, case[1], &case[2..]);
    let mut d = Draw::named(seed, "painting");
    let (a, p) = (opacity(&mut d), [channel(&mut d), channel(&mut d), channel(&mut d)]);
    let number = refused(shape);
    let (w, h) = if number == 1 { (shape[0].clamp(1, 4), shape[1].clamp(1, 4)) } else { (shape[0], shape[1]) };
    let mut before = picture(seed, w, h);
    before.resize((before.len() as i64 + more).max(0) as usize, 0.25);
    let number = if number != 1 && before.len() as i64 != w * h * 3 { 2 } else { number };
    let mut after = before.clone();
    let answer = blend(shape, a, p, &mut after);
    if number == 0 {
        apply(&mut before, shape, a, &p);
    }
    let r = reach(shape);
    let expected = match refused(shape) {
        0 => (0, row_range(shape)),
        n => (n, (0, 0)),
    };
    unequal(answer as i64, number)
        .or_else(|| first_difference(&after, &before))
        .or_else(|| unequal((r.number as i64, (r.first as i64, r.last as i64)), expected))
}

fn draw_blend(d: &mut Draw, kind: i64, case: &mut Vec<i64>) {
    let more = if d.below(16) == 0 { d.one_of(&[-3, -1, 1, 3, -1000]) } else { 0 };
    let mut shape = Vec::new();
    draw_passable(d, kind, &mut shape);
    case.extend([d.below(1 << 40) as i64, more]);
    case.extend(shape);
}

fn circles(see: &mut dyn FnMut(&[i64])) {
    every_small(1, see);
    every_radius(see);
}

pub fn comparisons() -> Vec<Comparison> {
    let near: [fn(&mut Draw, &mut Vec<i64>); 3] =
        [|d, c| draw_case(d, 1, 256, c), |d, c| draw_case(d, 2, 256, c), |d, c| draw_case(d, 3, 256, c)];
    let any: [fn(&mut Draw, &mut Vec<i64>); 3] = [|d, c| draw_blend(d, 1, c), |d, c| draw_blend(d, 2, c), |d, c| draw_blend(d, 3, c)];
    let lists: [fn(&mut dyn FnMut(&[i64])); 3] = [circles, |see| every_small(2, see), |see| every_small(3, see)];
    let names = [
        ["painting: circles, the very pixels and rows", "painting: circles, any bits within 0..1"],
        ["painting: triangles, the very pixels and rows", "painting: triangles, any bits within 0..1"],
        ["painting: quads, the very pixels and rows", "painting: quads, any bits within 0..1"],
    ];
    (0..3)
        .flat_map(|i| {
            [
                Comparison {
                    name: names[i][0],
                    numbers: NUMBERS[i + 1],
                    cost: 20,
                    fixed: lists[i],
                    draw: near[i],
                    allowed: in_domain,
                    differs: pixels_differ,
                },
                Comparison {
                    name: names[i][1],
                    numbers: "seed picture+ w h kind coordinates",
                    cost: 100,
                    fixed: crate::harness::no_fixed,
                    draw: any[i],
                    allowed: |c| (-1000..=3).contains(&c[1]) && passable(&c[2..]),
                    differs: blend_differs,
                },
            ]
        })
        .collect()
}
