//! Fill, mean and total: ours and the Rust's, every bit; and refusals.
//! Needs: probe_filled_canvas probe_mean_rgb probe_sse_total

use crate::generator::Draw;
use crate::harness::{unequal, Comparison};
use crate::ours;
use crate::painting::first_difference;
use crate::shapes::draw_size;
use crate::values::{channel, picture};
use oracle::shape::common::probe;

const BAD: [f32; 6] = [f32::NAN, -1e-45, 1.000_000_1, f32::INFINITY, f32::NEG_INFINITY, -1.0];

/// A case: seed, w, h, how much longer than stated the first and the second picture are, and what is
/// not within 0..1: 0 nothing, 1 in the first picture, 2 in the second, 3 to 5 a channel of the colour.
struct Asked {
    size: bool,
    w: usize,
    h: usize,
    pictures: [Vec<f32>; 2],
    colour: [f32; 3],
}

fn asked(case: &[i64]) -> Asked {
    let (seed, w, h) = (case[0] as u64, case[1], case[2]);
    let size = !(1..=256).contains(&w) || !(1..=256).contains(&h);
    let (pw, ph) = if size { (w.clamp(1, 4), h.clamp(1, 4)) } else { (w, h) };
    let mut d = Draw::named(seed, "means");
    let mut colour = [channel(&mut d), channel(&mut d), channel(&mut d)];
    let bad = d.one_of(&BAD);
    let mut pictures = [picture(seed, pw, ph), picture(seed + 1, pw, ph)];
    for (list, by) in pictures.iter_mut().zip(&case[3..5]) {
        list.resize((list.len() as i64 + by).max(0) as usize, 0.25);
    }
    match case[5] {
        k @ 1..=2 if !pictures[k as usize - 1].is_empty() => {
            let list = &mut pictures[k as usize - 1];
            let i = d.below(list.len() as u64) as usize;
            list[i] = bad;
        }
        k @ 3..=5 => colour[k as usize - 3] = bad,
        _ => (),
    }
    Asked { size, w: w as usize, h: h as usize, pictures, colour }
}

fn within(list: &[f32]) -> bool {
    list.iter().all(|x| (0.0..=1.0).contains(x))
}

fn number(a: &Asked, lists: &[Vec<f32>], last: u8, bad: bool) -> u8 {
    match () {
        _ if a.size => 1,
        _ if lists.iter().any(|l| l.len() != a.w * a.h * 3) => 2,
        _ if bad => last,
        _ => 0,
    }
}

fn fill_differs(case: &[i64]) -> Option<(String, String)> {
    let a = asked(case);
    let mut after = a.pictures[0].clone();
    let answer = ours::probe_filled_canvas(a.w, a.h, a.colour[0], a.colour[1], a.colour[2], &mut after);
    let n = number(&a, &a.pictures[..1], 6, !within(&a.colour));
    let expected = if n == 0 { probe::filled_canvas(a.colour, a.h as u32, a.w as u32) } else { a.pictures[0].clone() };
    unequal(answer, n).or_else(|| first_difference(&after, &expected))
}

fn mean_differs(case: &[i64]) -> Option<(String, String)> {
    let a = asked(case);
    let r = ours::probe_mean_rgb(a.w, a.h, &a.pictures[0]);
    let n = number(&a, &a.pictures[..1], 7, !within(&a.pictures[0]));
    let expected = if n == 0 { probe::mean_rgb(&a.pictures[0]) } else { [0.0; 3] };
    unequal((r.number, [r.red, r.green, r.blue].map(f32::to_bits)), (n, expected.map(f32::to_bits)))
}

fn total_differs(case: &[i64]) -> Option<(String, String)> {
    let a = asked(case);
    let r = ours::probe_sse_total(a.w, a.h, &a.pictures[0], &a.pictures[1]);
    let n = number(&a, &a.pictures, 7, a.pictures.iter().any(|p| !within(p)));
    // The Rust's sum begins with -0.0; ours, as document 01 has it, with +0.
    let expected = if n == 0 { 0.0 + probe::sse_total(&a.pictures[0], &a.pictures[1]) } else { 0.0 };
    unequal((r.number, r.total.to_bits()), (n, expected.to_bits()))
}

fn draw(d: &mut Draw, case: &mut Vec<i64>) {
    let (w, h) = draw_size(d, 256);
    case.extend([d.below(1 << 40) as i64, w, h, 0, 0, 0]);
    if d.below(8) == 0 {
        let i = 1 + d.below(2) as usize;
        case[i] = d.one_of(&[0, 257, 1 << 40, i64::MAX]);
    }
    if d.below(8) == 0 {
        let i = 3 + d.below(2) as usize;
        case[i] = d.one_of(&[-3, -1, 1, 3, -1000]);
    }
    if d.below(8) == 0 {
        case[5] = d.between(1, 5);
    }
}

fn fixed(see: &mut dyn FnMut(&[i64])) {
    for w in 1..=6 {
        for h in 1..=6 {
            for seed in 0..20 {
                see(&[seed, w, h, 0, 0, 0]);
            }
            for bad in 1..=5 {
                see(&[w + h, w, h, 0, 0, bad]);
                see(&[w + h, w, h, 1, 0, bad]);
                see(&[w + h, w, h, 0, -1, bad]);
                see(&[w + h, 257, h, 0, 1, bad]);
                see(&[w + h, w, 0, 0, 0, bad]);
            }
        }
    }
    for (w, h) in [(256, 255), (255, 256), (256, 256)] {
        see(&[1, w, h, 0, 0, 0]);
    }
}

pub fn comparisons() -> Vec<Comparison> {
    let one = |name, differs| Comparison {
        name,
        numbers: "seed w h first+ second+ bad",
        cost: 100,
        fixed,
        draw,
        allowed: |c: &[i64]| c[1] >= 0 && c[2] >= 0 && (0..=5).contains(&c[5]),
        differs,
    };
    vec![
        one("means: filled_canvas", fill_differs as fn(&[i64]) -> Option<(String, String)>),
        one("means: mean_rgb", mean_differs),
        one("means: sse_total", total_differs),
    ]
}
