//! Refinement of 64 shapes, for one trial: mostly rejected candidates, and mixed ones.
//! Both sides draw and total as their own code does; the Rust's painter is `apply_*`.
//! Needs: sillbadger_refine

use crate::generator::Draw;
use crate::harness::{taken, Entry};
use crate::ours;
use oracle::shape::common::probe;
use oracle::shape::raster::{apply_circle, apply_quad, apply_triangle};

#[derive(Clone)]
struct Shape {
    kind: u8,
    places: [i32; 8],
    paint: [f32; 4],
}

fn shape(d: &mut Draw, w: i64, h: i64, part: i64) -> Shape {
    let kind = d.between(1, 3) as u8;
    let mut places = [0; 8];
    let (cx, cy, r) = (d.between(0, w - 1), d.between(0, h - 1), w.max(h) / part + 1);
    if kind == 1 {
        places[..3].copy_from_slice(&[cx as i32, cy as i32, d.between(1, r) as i32]);
    } else {
        for i in 0..4 {
            places[2 * i] = d.between(cx - r, cx + r) as i32;
            places[2 * i + 1] = d.between(cy - r, cy + r) as i32;
        }
    }
    let a = 0.2 + 0.7 * d.unit();
    Shape { kind, places, paint: [a, d.unit(), d.unit(), d.unit()] }
}

fn apply(canvas: &mut [f32], s: &Shape, w: i32, h: i32) {
    let [a, r, g, b] = s.paint;
    let z = &s.places;
    match s.kind {
        1 => apply_circle(canvas, h, w, z[0], z[1], z[2], a, &[r, g, b]),
        2 => apply_triangle(canvas, h, w, [(z[0], z[1]), (z[2], z[3]), (z[4], z[5])], a, &[r, g, b]),
        _ => apply_quad(canvas, h, w, [(z[0], z[1]), (z[2], z[3]), (z[4], z[5]), (z[6], z[7])], a, &[r, g, b]),
    }
}

fn flat(list: &[Shape]) -> (Vec<u8>, Vec<i32>, Vec<f32>) {
    (
        list.iter().map(|s| [0, 3, 6, 8][s.kind as usize]).collect(),
        list.iter().flat_map(|s| s.places).collect(),
        list.iter().flat_map(|s| s.paint).collect(),
    )
}

/// What is compared: some of the final picture, and the opacities of the list in order.
fn summed(picture: &[f32], opacities: impl Iterator<Item = f32>) -> u64 {
    let sum = picture.iter().step_by(61).fold(0, |s, x| taken(s, x.to_bits() as u64));
    opacities.fold(sum, |s, x| taken(s, x.to_bits() as u64))
}

/// What the target is. The list drawn: nearly every exchange is worse, and since the total is 0, it is so from the first row on. The list
/// drawn, with noise: the same, but a trial's sum must be followed. Other shapes: candidates are taken too.
#[derive(PartialEq)]
enum Aim {
    List,
    Near,
    Others,
}

fn entry(name: &'static str, w: usize, h: usize, passes: usize, aim: Aim, part: i64) -> Entry {
    let rejected = aim != Aim::Others;
    let mut d = Draw::named(7, name);
    let list: Vec<Shape> = (0..64).map(|_| shape(&mut d, w as i64, h as i64, part)).collect();
    let wanted: Vec<Shape> = (0..64).map(|_| shape(&mut d, w as i64, h as i64, part)).collect();
    let background = [0.25, 0.5, 0.75];
    let mut target = probe::filled_canvas(background, h as u32, w as u32);
    for s in if rejected { &list } else { &wanted } {
        apply(&mut target, s, w as i32, h as i32);
    }
    if aim == Aim::Near {
        for x in target.iter_mut() {
            *x = (*x + 0.2 * (d.unit() - 0.5)).clamp(0.0, 1.0);
        }
    }
    let offers: Vec<Shape> = (0..1024)
        .map(|i| if rejected { shape(&mut d, w as i64, h as i64, part) } else if i % 2 == 0 { wanted[d.below(64) as usize].clone() } else { shape(&mut d, w as i64, h as i64, part) })
        .collect();
    let (tags, places, paints) = flat(&list);
    let (offered_tags, offered_places, offered_paints) = flat(&offers);
    let n = w * h * 3;
    let (mut first, mut second) = (vec![0.0; n], vec![0.0; n]);
    let target2 = target.clone();
    let run = move |first: &mut [f32], second: &mut [f32]| {
        let (mut t, mut z, mut p) = (tags.clone(), places.clone(), paints.clone());
        let r = ours::sillbadger_refine(
            w as u32, h as u32, background[0], background[1], background[2], &mut t, &mut z, &mut p, &offered_tags, &offered_places, &offered_paints, passes as u32, &target, first, second,
        );
        (r, summed(first, (0..64).map(|i| p[4 * i])))
    };
    let seen = run(&mut first, &mut second).0;
    println!("  {name}: {} trials, {} accepted", seen.trials, seen.acceptances);
    Entry {
        name,
        units: seen.trials as u64,
        ours: Box::new(move || run(&mut first, &mut second).1),
        rust: Box::new(move || {
            let mut shapes = list.clone();
            let mut k = 0;
            probe::refine_shapes(
                &target2,
                background,
                h as u32,
                w as u32,
                &mut shapes,
                passes as u32,
                |canvas, s| apply(canvas, s, w as i32, h as i32),
                |_| {
                    k += 1;
                    offers.get(k - 1).cloned()
                },
            );
            // ours leaves the final list drawn, so the Rust draws it too
            let mut picture = probe::filled_canvas(background, h as u32, w as u32);
            for s in &shapes {
                apply(&mut picture, s, w as i32, h as i32);
            }
            summed(&picture, shapes.iter().map(|s| s.paint[0]))
        }),
    }
}

/// Shapes reach up to a tenth, or up to half of the picture's longer side from their middle.
pub fn entries() -> Vec<Entry> {
    vec![
        entry("refine, rejected, small, 32 by 24, a trial", 32, 24, 2, Aim::List, 10),
        entry("refine, rejected, large, 32 by 24, a trial", 32, 24, 2, Aim::List, 2),
        entry("refine, rejected, small, noise, 32 by 24, a trial", 32, 24, 2, Aim::Near, 10),
        entry("refine, rejected, large, noise, 32 by 24, a trial", 32, 24, 2, Aim::Near, 2),
        entry("refine, mixed, small, 32 by 24, a trial", 32, 24, 4, Aim::Others, 10),
        entry("refine, mixed, large, 32 by 24, a trial", 32, 24, 4, Aim::Others, 2),
        entry("refine, rejected, small, 256 by 256, a trial", 256, 256, 1, Aim::List, 10),
        entry("refine, rejected, large, 256 by 256, a trial", 256, 256, 1, Aim::List, 2),
        entry("refine, rejected, small, noise, 256 by 256, a trial", 256, 256, 1, Aim::Near, 10),
        entry("refine, rejected, large, noise, 256 by 256, a trial", 256, 256, 1, Aim::Near, 2),
        entry("refine, mixed, small, 256 by 256, a trial", 256, 256, 1, Aim::Others, 10),
        entry("refine, mixed, large, 256 by 256, a trial", 256, 256, 1, Aim::Others, 2),
    ]
}
