//! Paint calls in a row, refused ones between: number, every bit of the picture and of the table after every call,
//! beside the Rust's painting, row range and update.
//! Needs: sillbadger_paint

use crate::generator::Draw;
use crate::harness::{unequal, Comparison};
use crate::ours;
use crate::pictures::{apply, row_range};
use crate::shapes::{draw_shape, draw_size, i32s};
use crate::values::{channel, opacity, picture};
use oracle::shape::integral::{probe, Integral};

/// A call as it is made: sizes, shape, opacity, colour, and how many numbers are lent of each slice.
struct Call {
    shape: Vec<i64>,
    a: f32,
    p: [f32; 3],
    lent: [usize; 3],
}

fn paint(c: &Call, target: &[f32], canvas: &mut [f32], table: &mut [f64]) -> u8 {
    let (w, h, shape) = (c.shape[0] as u32, c.shape[1] as u32, i32s(&c.shape[3..]));
    let (target, canvas, table) = (&target[..c.lent[0]], &mut canvas[..c.lent[1]], &mut table[..c.lent[2]]);
    ours::sillbadger_paint(w, h, &shape, c.a, c.p[0], c.p[1], c.p[2], target, canvas, table)
}

/// The lowest number of document 01's table that holds.
fn number(c: &Call) -> u8 {
    let (w, h) = (c.shape[0], c.shape[1]);
    let within = |x: f32| (0.0..=1.0).contains(&x);
    let pixels = |n: usize| n as i64 == w * h * 3;
    if !(1..=256).contains(&w) || !(1..=256).contains(&h) {
        1
    } else if !pixels(c.lent[0]) || !pixels(c.lent[1]) || c.lent[2] as i64 != h * (w + 1) * 15 {
        2
    } else if c.shape[3..].iter().any(|z| z.abs() > 8191) {
        4
    } else if !within(c.a) {
        5
    } else if !c.p.iter().all(|x| within(*x)) {
        6
    } else {
        0
    }
}

/// A shape on the picture; or moved wholly above, below or beside it.
fn place(d: &mut Draw, kind: i64, w: i64, h: i64) -> Vec<i64> {
    let mut out = Vec::new();
    draw_shape(d, kind, w, h, &mut out);
    let away = d.below(8);
    if away < 4 {
        // near the picture first, so that the move leads outside
        for (i, z) in out.iter_mut().enumerate() {
            *z = if kind == 1 && i == 2 { (*z).rem_euclid(40) - 3 } else { (*z).rem_euclid(if i % 2 == 0 { w } else { h }) };
        }
        let by = [(0, -h - 90), (0, h + 90), (-w - 90, 0), (w + 90, 0)][away as usize];
        // by a little more or less now and then, so that a shape ends just above the first row or below the last
        let by = if d.below(2) == 0 { by } else { (by.0 / 2, by.1 / 2) };
        for (i, z) in out.iter_mut().enumerate() {
            if !(kind == 1 && i == 2) {
                *z += if i % 2 == 0 { by.0 } else { by.1 };
            }
        }
    }
    out
}

/// One or more things that are refused.
fn spoil(d: &mut Draw, c: &mut Call) {
    let bad = [f32::NAN, -1e-45, 1.000_000_1, f32::INFINITY, -1.0];
    for _ in 0..d.between(1, 3) {
        match d.below(6) {
            0 => {
                let i = d.below(2) as usize;
                c.shape[i] = d.one_of(&[0, 257, 1 << 40, i64::MAX]);
            }
            1 => c.shape.swap(0, 1),
            2 => {
                let i = d.below(3) as usize;
                c.lent[i] -= 1;
            }
            3 => {
                let i = 3 + d.below(c.shape.len() as u64 - 3) as usize;
                c.shape[i] = d.one_of(&[8192, -8192, i32::MAX as i64, i32::MIN as i64]);
            }
            4 => c.a = d.one_of(&bad),
            _ => {
                let i = d.below(3) as usize;
                c.p[i] = d.one_of(&bad);
            }
        }
    }
}

fn differs_at(i: i64, c: &Call, what: &str, one: Option<u64>, other: Option<u64>) -> Option<(String, String)> {
    let call = format!("call {i}, {:?} at {:?} with {:?}: {what}", c.shape, c.a, c.p);
    Some((format!("{call} {one:016X?}"), format!("{call} {other:016X?}")))
}

/// seed, w, h, number of calls.
fn calls_differ(case: &[i64]) -> Option<(String, String)> {
    let (seed, w, h) = (case[0] as u64, case[1], case[2]);
    let mut d = Draw::named(seed, "paint calls");
    let target = picture(seed, w, h);
    let mut canvas = picture(seed + 1, w, h);
    let mut rust = canvas.clone();
    let mut integral = Integral::build(&target, &rust, h as u32, w as u32);
    let mut table = probe::data(&integral).to_vec();
    for i in 0..case[3] {
        let kind = d.between(1, 3);
        let mut shape = vec![w, h, kind];
        shape.extend(place(&mut d, kind, w, h));
        let mut c = Call {
            shape,
            a: opacity(&mut d),
            p: [channel(&mut d), channel(&mut d), channel(&mut d)],
            lent: [target.len(), canvas.len(), table.len()],
        };
        if d.below(6) == 0 {
            spoil(&mut d, &mut c);
        }
        let expected = number(&c);
        let answer = paint(&c, &target, &mut canvas, &mut table);
        if expected == 0 {
            apply(&mut rust, &c.shape, c.a, &c.p);
            let (ymin, ymax) = row_range(&c.shape);
            integral.update_canvas_rows(&target, &rust, ymin as i32, ymax as i32);
        }
        if let Some((one, other)) = unequal(answer, expected) {
            return Some((format!("call {i}, {:?}: {one}", c.shape), other));
        }
        if let Some(at) = (0..canvas.len()).find(|&k| canvas[k].to_bits() != rust[k].to_bits()) {
            return differs_at(i, &c, &format!("picture[{at}]"), Some(canvas[at].to_bits() as u64), Some(rust[at].to_bits() as u64));
        }
        let other = probe::data(&integral);
        if let Some(at) = (0..table.len()).find(|&k| table[k].to_bits() != other[k].to_bits()) {
            return differs_at(i, &c, &format!("table[{at}]"), Some(table[at].to_bits()), Some(other[at].to_bits()));
        }
    }
    None
}

fn draw(d: &mut Draw, case: &mut Vec<i64>) {
    let (w, h) = draw_size(d, 256);
    case.extend([d.below(1 << 40) as i64, w, h, d.between(1, 64)]);
}

pub fn comparisons() -> Vec<Comparison> {
    vec![Comparison {
        name: "paint: calls in a row, picture and table after every one",
        numbers: "seed w h calls",
        cost: 2000,
        fixed: |see| {
            for (w, h) in [(1, 1), (1, 5), (7, 2), (4, 3)] {
                for seed in 0..50 {
                    see(&[seed, w, h, 64]);
                }
            }
            see(&[1, 256, 255, 16]);
            see(&[2, 255, 256, 16]);
            see(&[3, 256, 256, 16]);
        },
        draw,
        allowed: |c| c[0] >= 0 && (1..=256).contains(&c[1]) && (1..=256).contains(&c[2]) && (0..=64).contains(&c[3]),
        differs: calls_differ,
    }]
}
