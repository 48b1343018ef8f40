//! Counting by runs beside the Rust's span sums, painting beside its painting, and fill, mean and total.
//! Ours tests sizes, lengths and places; the Rust tests nothing, and its span sums read the table.
//! Needs: sillbadger_count_circle sillbadger_count_triangle sillbadger_count_quad
//! Needs: probe_blend probe_filled_canvas probe_mean_rgb probe_sse_total

use crate::generator::Draw;
use crate::harness::{taken, Entry};
use crate::ours;
use oracle::shape::common::probe as common;
use oracle::shape::integral::{
    collect_circle_sums_integral, collect_quad_sums_integral, collect_triangle_sums_integral, probe, Integral,
};
use oracle::shape::raster::{apply_circle, apply_quad, apply_triangle};

const SIDE: usize = 256;
const MANY: usize = 256;

/// Small: some pixels across. Large: a good part of the picture. Far off: large, with corners outside.
#[derive(Clone, Copy)]
enum Reach {
    Small,
    Large,
    Far,
}

fn point(d: &mut Draw, reach: Reach, around: (i64, i64)) -> (i32, i32) {
    let side = SIDE as i64;
    let near = |d: &mut Draw, z: i64, by: i64| (z + d.between(-by, by)) as i32;
    match reach {
        Reach::Small => (near(d, around.0, 6), near(d, around.1, 6)),
        Reach::Large => (d.between(0, side - 1) as i32, d.between(0, side - 1) as i32),
        Reach::Far => (near(d, side / 2, 8000), near(d, side / 2, 8000)),
    }
}

/// A shape's numbers: for a circle cx, cy, r, else corners.
fn shape(d: &mut Draw, kind: usize, reach: Reach) -> [i32; 8] {
    let side = SIDE as i64;
    let around = (d.between(8, side - 8), d.between(8, side - 8));
    let mut c = [0; 8];
    if kind == 1 {
        let ((x, y), r) = match reach {
            Reach::Small => (point(d, reach, around), d.between(2, 8) as i32),
            Reach::Large => (point(d, reach, around), d.between(40, 127) as i32),
            Reach::Far => {
                let (x, y) = point(d, reach, around);
                let away = (((x as i64 - 128).pow(2) + (y as i64 - 128).pow(2)) as f64).sqrt() as i32;
                ((x, y), away.min(8191))
            }
        };
        c[..3].copy_from_slice(&[x, y, r]);
        return c;
    }
    // Corners in turn round a middle, so that a quad covers something.
    let n = kind + 1;
    let mut corners: Vec<(i32, i32)> = (0..n).map(|_| point(d, reach, around)).collect();
    let middle = corners.iter().fold((0i64, 0i64), |m, p| (m.0 + p.0 as i64, m.1 + p.1 as i64));
    corners.sort_by(|a, b| {
        let angle = |p: &(i32, i32)| ((p.1 as i64 * n as i64 - middle.1) as f64).atan2((p.0 as i64 * n as i64 - middle.0) as f64);
        angle(a).total_cmp(&angle(b))
    });
    for (i, (x, y)) in corners.into_iter().enumerate() {
        c[2 * i] = x;
        c[2 * i + 1] = y;
    }
    c
}

fn count(kind: usize, c: &[i32; 8]) -> u64 {
    let s = SIDE as u32;
    (match kind {
        1 => ours::sillbadger_count_circle(s, s, c[0], c[1], c[2]),
        2 => ours::sillbadger_count_triangle(s, s, c[0], c[1], c[2], c[3], c[4], c[5]),
        _ => ours::sillbadger_count_quad(s, s, c[0], c[1], c[2], c[3], c[4], c[5], c[6], c[7]),
    }) as u64
}

fn rust_count(table: &Integral, kind: usize, c: &[i32; 8]) -> u64 {
    let s = SIDE as u32;
    let sums = match kind {
        1 => collect_circle_sums_integral(table, s, s, c[0], c[1], c[2]),
        2 => collect_triangle_sums_integral(table, s, s, c[0], c[1], c[2], c[3], c[4], c[5]),
        _ => collect_quad_sums_integral(table, s, s, [(c[0], c[1]), (c[2], c[3]), (c[4], c[5]), (c[6], c[7])]),
    };
    sums.count as u64
}

const A: f32 = 0.3;
const P: [f32; 3] = [0.1, 0.7, 0.9];

fn blend(kind: usize, c: &[i32; 8], canvas: &mut [f32]) {
    ours::probe_blend(SIDE, SIDE, &c[..[3, 6, 8][kind - 1]], A, P[0], P[1], P[2], canvas);
}

fn rust_blend(kind: usize, c: &[i32; 8], canvas: &mut [f32]) {
    let s = SIDE as i32;
    match kind {
        1 => apply_circle(canvas, s, s, c[0], c[1], c[2], A, &P),
        2 => apply_triangle(canvas, s, s, [(c[0], c[1]), (c[2], c[3]), (c[4], c[5])], A, &P),
        _ => apply_quad(canvas, s, s, [(c[0], c[1]), (c[2], c[3]), (c[4], c[5]), (c[6], c[7])], A, &P),
    }
}

fn sampled(canvas: &[f32]) -> u64 {
    canvas.iter().step_by(97).fold(0, |s, x| taken(s, x.to_bits() as u64))
}

fn shapes(kind: usize, reach: Reach) -> Vec<[i32; 8]> {
    let mut d = Draw::named(1, "bench pictures");
    (0..MANY).map(|_| shape(&mut d, kind, reach)).collect()
}

fn counting(name: &'static str, kind: usize, reach: Reach) -> Entry {
    let list = shapes(kind, reach);
    let again = list.clone();
    let table = probe::with_data(SIDE as u32, SIDE as u32, vec![0.0; SIDE * (SIDE + 1) * 15]);
    Entry {
        name,
        units: MANY as u64,
        ours: Box::new(move || list.iter().fold(0, |s, c| taken(s, count(kind, c)))),
        rust: Box::new(move || again.iter().fold(0, |s, c| taken(s, rust_count(&table, kind, c)))),
    }
}

fn painting(name: &'static str, kind: usize, reach: Reach) -> Entry {
    let list = shapes(kind, reach);
    let again = list.clone();
    let mut canvas = vec![0.5; SIDE * SIDE * 3];
    let mut rust = canvas.clone();
    Entry {
        name,
        units: MANY as u64,
        ours: Box::new(move || {
            canvas.fill(0.5);
            list.iter().for_each(|c| blend(kind, c, &mut canvas));
            sampled(&canvas)
        }),
        rust: Box::new(move || {
            rust.fill(0.5);
            again.iter().for_each(|c| rust_blend(kind, c, &mut rust));
            sampled(&rust)
        }),
    }
}

fn pictures() -> Vec<Entry> {
    let mut d = Draw::named(1, "bench means");
    let n = SIDE * SIDE * 3;
    let t: Vec<f32> = (0..n).map(|_| d.below(256) as f32 / 255.0).collect();
    let c: Vec<f32> = (0..n).map(|_| d.below(256) as f32 / 255.0).collect();
    let (t2, t3, c3, t4, c4) = (t.clone(), t.clone(), c.clone(), t.clone(), c.clone());
    let mut canvas = vec![0.5f32; n];
    // a quad around the picture: blending and little else
    let around = [-1, -1, 300, -1, 300, 300, -1, 300];
    let (mut ours_painted, mut rust_painted) = (t.clone(), t.clone());
    let units = (SIDE * SIDE) as u64;
    let bits = |x: [f32; 3]| x.iter().fold(0, |s, y| taken(s, y.to_bits() as u64));
    vec![
        Entry {
            name: "fill, 256 by 256, a pixel",
            units,
            ours: Box::new(move || {
                ours::probe_filled_canvas(SIDE, SIDE, P[0], P[1], P[2], &mut canvas);
                sampled(&canvas)
            }),
            rust: Box::new(move || sampled(&common::filled_canvas(P, SIDE as u32, SIDE as u32))),
        },
        Entry {
            name: "paint, quad around 256 by 256, a pixel",
            units,
            ours: Box::new(move || {
                blend(3, &around, &mut ours_painted);
                sampled(&ours_painted)
            }),
            rust: Box::new(move || {
                rust_blend(3, &around, &mut rust_painted);
                sampled(&rust_painted)
            }),
        },
        Entry {
            name: "mean, 256 by 256, a pixel",
            units,
            ours: Box::new(move || {
                let m = ours::probe_mean_rgb(SIDE, SIDE, &t);
                bits([m.red, m.green, m.blue])
            }),
            rust: Box::new(move || bits(common::mean_rgb(&t2))),
        },
        Entry {
            name: "total, 256 by 256, a pixel",
            units,
            ours: Box::new(move || ours::probe_sse_total(SIDE, SIDE, &t3, &c3).total.to_bits()),
            rust: Box::new(move || common::sse_total(&t4, &c4).to_bits()),
        },
    ]
}

pub fn entries() -> Vec<Entry> {
    use Reach::{Far, Large, Small};
    let mut all = vec![
        counting("count, small circles", 1, Small),
        counting("count, large circles", 1, Large),
        counting("count, far-off circles", 1, Far),
        counting("count, small triangles", 2, Small),
        counting("count, large triangles", 2, Large),
        counting("count, far-off triangles", 2, Far),
        counting("count, small quads", 3, Small),
        counting("count, large quads", 3, Large),
        counting("count, far-off quads", 3, Far),
        painting("paint, small circles", 1, Small),
        painting("paint, large circles", 1, Large),
        painting("paint, far-off circles", 1, Far),
        painting("paint, small triangles", 2, Small),
        painting("paint, large triangles", 2, Large),
        painting("paint, far-off triangles", 2, Far),
        painting("paint, small quads", 3, Small),
        painting("paint, large quads", 3, Large),
        painting("paint, far-off quads", 3, Far),
    ];
    all.extend(pictures());
    all
}
