//! The paint call beside the Rust's painting, row range and update of the table, for one shape. Both sides read the same
//! shapes in turn. Ours tests sizes, lengths, places, opacity and colour; the Rust tests nothing.
//! Needs: sillbadger_paint

use crate::generator::Draw;
use crate::harness::{taken, Entry};
use crate::ours;
use oracle::shape::circle::probe::circle_row_range;
use oracle::shape::integral::{probe, Integral};
use oracle::shape::raster::{apply_circle, apply_quad, apply_triangle, quad_row_range};
use oracle::shape::triangle::probe::triangle_row_range;

const SIDE: usize = 256;
const MANY: usize = 64;
// a call far off takes some nanoseconds: so many that setting the picture back counts little
const MANY_FAR: usize = 65536;
const A: f32 = 0.3;
const P: [f32; 3] = [0.1, 0.7, 0.9];

/// Small: some pixels across. Large: a good part of the picture. Far off: nothing of the picture is covered, below it.
#[derive(Clone, Copy)]
enum Reach {
    Small,
    Large,
    Far,
}

/// For a circle cx, cy, r; else corners in turn round a middle, so that a quad covers something.
fn shape(d: &mut Draw, kind: usize, reach: Reach) -> [i32; 8] {
    let side = SIDE as i64;
    let (x, y) = (d.between(16, side - 16), d.between(16, side - 16));
    let (x, y, r) = match reach {
        Reach::Small => (x, y, d.between(2, 8)),
        Reach::Large => (128 + (x - 128) / 4, 128 + (y - 128) / 4, d.between(60, 120)),
        Reach::Far => (x, side + 2000 + y, d.between(40, 120)),
    };
    let (x, y, r) = (x as i32, y as i32, r as i32);
    let near = |d: &mut Draw| d.between(-(r as i64) / 4, r as i64 / 4) as i32;
    match kind {
        1 => [x, y, r, 0, 0, 0, 0, 0],
        2 => [x + near(d), y - r, x + r, y + r + near(d), x - r, y + r, 0, 0],
        _ => [x + near(d), y - r, x + r, y + near(d), x + near(d), y + r, x - r, y],
    }
}

fn paint(kind: usize, c: &[i32; 8], target: &[f32], canvas: &mut [f32], table: &mut [f64]) {
    let numbers = [3, 6, 8][kind - 1];
    let side = SIDE as u32;
    ours::sillbadger_paint(side, side, &c[..numbers], A, P[0], P[1], P[2], target, canvas, table);
}

fn rust_paint(kind: usize, c: &[i32; 8], target: &[f32], canvas: &mut [f32], table: &mut Integral) {
    let (s, h) = (SIDE as i32, SIDE as u32);
    let three = [(c[0], c[1]), (c[2], c[3]), (c[4], c[5])];
    let four = [(c[0], c[1]), (c[2], c[3]), (c[4], c[5]), (c[6], c[7])];
    match kind {
        1 => apply_circle(canvas, s, s, c[0], c[1], c[2], A, &P),
        2 => apply_triangle(canvas, s, s, three, A, &P),
        _ => apply_quad(canvas, s, s, four, A, &P),
    }
    let (ymin, ymax) = match kind {
        1 => circle_row_range(c[1], c[2], h),
        2 => triangle_row_range(three, h),
        _ => quad_row_range(four, h),
    };
    table.update_canvas_rows(target, canvas, ymin, ymax);
}

fn sampled(canvas: &[f32], table: &[f64]) -> u64 {
    let s = canvas.iter().step_by(97).fold(0, |s, x| taken(s, x.to_bits() as u64));
    table.iter().step_by(4099).fold(s, |s, x| taken(s, x.to_bits()))
}

fn entry(name: &'static str, kind: usize, reach: Reach) -> Entry {
    let mut d = Draw::named(1, "bench paint");
    let many = if matches!(reach, Reach::Far) { MANY_FAR } else { MANY };
    let list: Vec<_> = (0..many).map(|_| shape(&mut d, kind, reach)).collect();
    let again = list.clone();
    let target: Vec<f32> = (0..SIDE * SIDE * 3).map(|_| d.below(256) as f32 / 255.0).collect();
    let start: Vec<f32> = (0..SIDE * SIDE * 3).map(|_| d.below(256) as f32 / 255.0).collect();
    let (target2, start2, mut canvas, mut canvas2) = (target.clone(), start.clone(), start.clone(), start.clone());
    let mut rust = Integral::build(&target, &start, SIDE as u32, SIDE as u32);
    let mut table = probe::data(&rust).to_vec();
    Entry {
        name,
        units: many as u64,
        // the picture begins as it was, so that every run is the same
        ours: Box::new(move || {
            canvas.copy_from_slice(&start);
            list.iter().for_each(|c| paint(kind, c, &target, &mut canvas, &mut table));
            sampled(&canvas, &table)
        }),
        rust: Box::new(move || {
            canvas2.copy_from_slice(&start2);
            again.iter().for_each(|c| rust_paint(kind, c, &target2, &mut canvas2, &mut rust));
            sampled(&canvas2, probe::data(&rust))
        }),
    }
}

pub fn entries() -> Vec<Entry> {
    vec![
        entry("paint call, small circle", 1, Reach::Small),
        entry("paint call, small triangle", 2, Reach::Small),
        entry("paint call, small quad", 3, Reach::Small),
        entry("paint call, large circle", 1, Reach::Large),
        entry("paint call, large triangle", 2, Reach::Large),
        entry("paint call, large quad", 3, Reach::Large),
        entry("paint call, circle far off", 1, Reach::Far),
        entry("paint call, triangle far off", 2, Reach::Far),
        entry("paint call, quad far off", 3, Reach::Far),
    ]
}
