//! The table: built and updated by ours and by the Rust, every number's bits; and refusals.
//! Needs: sillbadger_build sillbadger_update

use crate::generator::Draw;
use crate::harness::{unequal, Comparison};
use crate::ours;
use crate::shapes::draw_size;
use crate::values::picture;
use oracle::shape::integral::{probe, Integral};

/// The first place at which two tables differ, with both numbers' bits.
fn first_difference(ours: &[f64], rust: &[f64]) -> Option<(String, String)> {
    let at = (0..ours.len().max(rust.len())).find(|&i| ours.get(i).map(|x| x.to_bits()) != rust.get(i).map(|x| x.to_bits()))?;
    let shown = |t: &[f64]| format!("table[{at}] = {:016X?}", t.get(at).map(|x| x.to_bits()));
    Some((shown(ours), shown(rust)))
}

fn places(w: i64, h: i64) -> usize {
    (h * (w + 1) * 15) as usize
}

/// What a table holds before a build: nothing that a build may keep.
fn stale(n: usize) -> Vec<f64> {
    (0..n).map(|i| -1.0 - i as f64).collect()
}

/// seed, w, h; how much longer than stated target, canvas and table are; a bad pixel: 0 none, 1 in the
/// target, 2 in the canvas.
fn build_differs(case: &[i64]) -> Option<(String, String)> {
    let (seed, w, h) = (case[0] as u64, case[1], case[2]);
    let size = !(1..=256).contains(&w) || !(1..=256).contains(&h);
    let (pw, ph) = if size { (w.clamp(1, 4), h.clamp(1, 4)) } else { (w, h) };
    let resized = |mut list: Vec<f32>, by: i64| {
        list.resize((list.len() as i64 + by).max(0) as usize, 0.25);
        list
    };
    let mut target = resized(picture(seed, pw, ph), case[3]);
    let mut canvas = resized(picture(seed + 1, pw, ph), case[4]);
    let mut d = Draw::new(seed);
    let bad = d.one_of(&[f32::NAN, -1e-45, 1.000_000_1, f32::INFINITY, f32::NEG_INFINITY, -1.0]);
    let list = if case[6] == 1 { &mut target } else { &mut canvas };
    let spoilt = case[6] != 0 && !list.is_empty();
    if spoilt {
        let i = d.below(list.len() as u64) as usize;
        list[i] = bad;
    }
    let before = stale((places(pw, ph) as i64 + case[5]).max(0) as usize);
    let mut table = before.clone();
    let answer = ours::sillbadger_build(w as u32, h as u32, &target, &canvas, &mut table);
    let number = if size {
        1
    } else if target.len() as i64 != w * h * 3 || canvas.len() as i64 != w * h * 3 || table.len() != places(w, h) {
        2
    } else if spoilt {
        7
    } else {
        0
    };
    let expected = if number > 0 {
        before
    } else {
        probe::data(&Integral::build(&target, &canvas, h as u32, w as u32)).to_vec()
    };
    unequal(answer, number).or_else(|| first_difference(&table, &expected))
}

/// seed, w, h, ymin, ymax: the table of one canvas, updated for another.
fn update_differs(case: &[i64]) -> Option<(String, String)> {
    let (seed, w, h) = (case[0] as u64, case[1], case[2]);
    let (target, canvas, changed) = (picture(seed, w, h), picture(seed + 1, w, h), picture(seed + 2, w, h));
    let mut rust = Integral::build(&target, &canvas, h as u32, w as u32);
    let mut table = probe::data(&rust).to_vec();
    rust.update_canvas_rows(&target, &changed, case[3] as i32, case[4] as i32);
    let answer = ours::sillbadger_update(w as u32, h as u32, &target, &changed, case[3] as i32, case[4] as i32, &mut table);
    unequal(answer, 0).or_else(|| first_difference(&table, probe::data(&rust)))
}

fn draw_build(d: &mut Draw, case: &mut Vec<i64>) {
    let (w, h) = draw_size(d, 256);
    case.extend([d.below(1 << 40) as i64, w, h, 0, 0, 0, 0]);
    match d.below(8) {
        0 => {
            let i = 1 + d.below(2) as usize;
            case[i] = d.one_of(&[0, 257, 1 << 40, i64::MAX]);
        }
        1 => {
            let i = 3 + d.below(3) as usize;
            case[i] = d.one_of(&[-15, -3, -1, 1, 3, 15]);
        }
        2 => case[6] = d.between(1, 2),
        _ => (),
    }
}

fn draw_update(d: &mut Draw, case: &mut Vec<i64>) {
    let (w, h) = draw_size(d, 256);
    let row = |d: &mut Draw| match d.below(4) {
        0 => d.one_of(&[i32::MIN as i64, i32::MAX as i64, -1, h - 1, h]),
        _ => d.between(-3, h + 3),
    };
    case.extend([d.below(1 << 40) as i64, w, h, row(d), row(d)]);
}

pub fn comparisons() -> Vec<Comparison> {
    vec![
        Comparison {
            name: "table: build",
            numbers: "seed w h target+ canvas+ table+ bad-pixel",
            cost: 500,
            fixed: |see| {
                for w in 1..=6 {
                    for h in 1..=6 {
                        for seed in 0..20 {
                            see(&[seed, w, h, 0, 0, 0, 0]);
                        }
                    }
                }
                see(&[1, 256, 255, 0, 0, 0, 0]);
                see(&[1, 255, 256, 0, 0, 0, 0]);
                see(&[1, 256, 256, 0, 0, 0, 0]);
            },
            draw: draw_build,
            allowed: |c| c[1] >= 0 && c[2] >= 0 && (0..=2).contains(&c[6]),
            differs: build_differs,
        },
        Comparison {
            name: "table: update_canvas_rows",
            numbers: "seed w h ymin ymax",
            cost: 500,
            fixed: |see| {
                for (w, h) in [(2, 3), (3, 1), (1, 4)] {
                    for ymin in -5..=6 {
                        for ymax in -5..=6 {
                            for seed in 0..4 {
                                see(&[seed, w, h, ymin, ymax]);
                            }
                        }
                    }
                }
            },
            draw: draw_update,
            allowed: |c| {
                (1..=256).contains(&c[1]) && (1..=256).contains(&c[2]) && c[3..].iter().all(|y| i32::try_from(*y).is_ok())
            },
            differs: update_differs,
        },
    ]
}
