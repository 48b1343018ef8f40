//! The program's frames on a 16 by 16 picture: a line read, decoded, scored and its answer written, for one frame.
//! Beside it stands the same over the Rust, whose lines are read and written by the reference of rust/compare.
//! Needs: probe_frames

use crate::frames_reference::output;
use crate::generator::Draw;
use crate::harness::{taken, Entry};
use crate::ours;
use crate::shapes::draw_shape;

const MANY: usize = 4096;

/// A picture with its sixteen rows, then so many frames that begin with a number.
fn script(first: u8, kinds: &[i64]) -> Vec<u8> {
    let mut d = Draw::named(1, "bench frames");
    let mut frames = vec![vec![1, 16, 16, 40, 90, 200]];
    for y in 0..16 {
        let mut row = vec![2, y];
        row.extend((0..48).map(|_| d.word() as u8));
        frames.push(row);
    }
    for _ in 0..MANY {
        let kind = d.one_of(kinds);
        let mut c = Vec::new();
        draw_shape(&mut d, kind, 16, 16, &mut c);
        let mut frame = vec![first, kind as u8];
        frame.extend(d.unit().to_bits().to_be_bytes());
        c.iter().for_each(|z| frame.extend((*z as i16).to_be_bytes()));
        frames.push(frame);
    }
    let mut out = Vec::new();
    for frame in frames {
        out.extend(frame.iter().flat_map(|b| format!("{b:02X}").into_bytes()));
        out.push(b'\n');
    }
    out
}

/// Every byte that was written.
fn summed(text: &[u8]) -> u64 {
    text.chunks(8).fold(0, |s, c| taken(s, c.iter().fold(0, |n, b| n << 8 | *b as u64)))
}

fn entry(name: &'static str, first: u8, kinds: &[i64]) -> Entry {
    let (input, again) = (script(first, kinds), script(first, kinds));
    let mut out = vec![0u8; 60 * (MANY + 17)];
    Entry {
        name,
        units: MANY as u64,
        ours: Box::new(move || {
            let n = ours::probe_frames(&input, &mut out);
            summed(&out[..n])
        }),
        rust: Box::new(move || summed((output(&again).join("\n") + "\n").as_bytes())),
    }
}

pub fn entries() -> Vec<Entry> {
    vec![
        entry("frames 03, any shape", 3, &[1, 2, 3]),
        entry("frames 03, circles", 3, &[1]),
        entry("frames 04, any shape", 4, &[1, 2, 3]),
    ]
}
