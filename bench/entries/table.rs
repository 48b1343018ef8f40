//! The table: a build of the whole picture, and an update of all rows, for one pixel.
//! Ours tests every pixel to be within 0..1 before it builds; the Rust allocates its table.
//! Needs: sillbadger_build sillbadger_update

use crate::generator::Draw;
use crate::harness::{taken, Entry};
use crate::ours;
use oracle::shape::integral::{probe, Integral};

fn picture(d: &mut Draw, w: usize, h: usize) -> Vec<f32> {
    (0..w * h * 3).map(|_| d.below(256) as f32 / 255.0).collect()
}

/// Some of a table's numbers: all would take longer than the build.
fn sampled(table: &[f64]) -> u64 {
    table.iter().step_by(257).fold(0, |s, x| taken(s, x.to_bits()))
}

fn sized(build: &'static str, update: &'static str, w: usize, h: usize) -> [Entry; 2] {
    let mut d = Draw::named(1, "bench table");
    let (t, c) = (picture(&mut d, w, h), picture(&mut d, w, h));
    let (t2, c2, t3, c3, t4, c4) = (t.clone(), c.clone(), t.clone(), c.clone(), t.clone(), c.clone());
    let mut table = vec![0.0; h * (w + 1) * 15];
    let mut rust = Integral::build(&t, &c, h as u32, w as u32);
    let mut kept = probe::data(&rust).to_vec();
    [
        Entry {
            name: build,
            units: (w * h) as u64,
            ours: Box::new(move || {
                ours::sillbadger_build(w as u32, h as u32, &t, &c, &mut table);
                sampled(&table)
            }),
            rust: Box::new(move || sampled(probe::data(&Integral::build(&t2, &c2, h as u32, w as u32)))),
        },
        Entry {
            name: update,
            units: (w * h) as u64,
            ours: Box::new(move || {
                ours::sillbadger_update(w as u32, h as u32, &t3, &c3, 0, h as i32 - 1, &mut kept);
                sampled(&kept)
            }),
            rust: Box::new(move || {
                rust.update_canvas_rows(&t4, &c4, 0, h as i32 - 1);
                sampled(probe::data(&rust))
            }),
        },
    ]
}

pub fn entries() -> Vec<Entry> {
    [
        sized("table build, 16 by 16, a pixel", "table update, 16 by 16, a pixel", 16, 16),
        sized("table build, 64 by 64, a pixel", "table update, 64 by 64, a pixel", 64, 64),
        sized("table build, 256 by 256, a pixel", "table update, 256 by 256, a pixel", 256, 256),
    ]
    .into_iter()
    .flatten()
    .collect()
}
