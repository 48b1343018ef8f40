//! What crates/run_refine must write: the same draws, refined by the published Rust. Refusals are document 01's; the Rust has none.
//! `oracle/stored` builds it with both builds of the oracle, and compares or makes crates/run_refine/stdout.

use oracle::shape::common::probe;
use oracle::shape::raster::{apply_circle, apply_quad, apply_triangle};
use std::cell::RefCell;

thread_local! {
    /// The shapes that were dropped, one for each trial with a candidate: it, or the one that left for it.
    static DROPPED: RefCell<Vec<usize>> = const { RefCell::new(Vec::new()) };
}

#[derive(Clone)]
struct Shape {
    kind: u8,
    places: [i32; 8],
    paint: [f32; 4],
}

struct Held(usize, Shape);

impl Drop for Held {
    fn drop(&mut self) {
        DROPPED.with_borrow_mut(|d| d.push(self.0));
    }
}

fn paint(canvas: &mut [f32], s: &Shape, w: usize, h: usize) {
    let ([a, r, g, b], z, w, h) = (s.paint, s.places, w as i32, h as i32);
    match s.kind {
        0 => apply_circle(canvas, h, w, z[0], z[1], z[2], a, &[r, g, b]),
        1 => apply_triangle(canvas, h, w, [(z[0], z[1]), (z[2], z[3]), (z[4], z[5])], a, &[r, g, b]),
        _ => apply_quad(canvas, h, w, [(z[0], z[1]), (z[2], z[3]), (z[4], z[5]), (z[6], z[7])], a, &[r, g, b]),
    }
}

// ---- the draws of crates/run_refine

fn mixed(x: u64) -> u64 {
    (x * 75 + x / 128 * 31 + 74) % 65537
}

fn byte(seed: u64, k: usize, j: u64) -> u8 {
    let x = (seed * 7919 + k as u64 * 271 + j * 8191) % 65537;
    (mixed(mixed(mixed(x))) / 256 % 256) as u8
}

fn channel(seed: u64, k: usize, j: u64) -> f32 {
    byte(seed, k, j) as f32 / 255.0
}

fn shape(seed: u64, k: usize) -> Shape {
    let kind = byte(seed, k, 0) % 3;
    let mut places = std::array::from_fn(|j| (byte(seed, k, j as u64 + 1) % 16) as i32);
    if kind == 0 {
        places[2] %= 8;
    }
    let opacity = (byte(seed, k, 9) % 128 + 64) as f32 / 256.0;
    Shape { kind, places, paint: [opacity, channel(seed, k, 10), channel(seed, k, 11), channel(seed, k, 12)] }
}

fn offer(seed: u64, k: usize) -> Option<Shape> {
    if byte(seed, k + 64, 13) < 32 { None } else { Some(shape(seed, k + 64)) }
}

// ---- what is written

fn checksum(p: &[f32]) -> u64 {
    p.iter().fold(0, |sum, x| (sum * 31 + x.to_bits() as u64) % 4294967291)
}

struct Call<'a> {
    w: usize,
    h: usize,
    passes: usize,
    background: [f32; 3],
    target: &'a [f32],
    list: Vec<Shape>,
    offers: Vec<Option<Shape>>,
}

fn write_refused(number: u8, list: &[Shape], pixels: usize) {
    print!(": refusal {number} passes 0 trials 0 accepted 0 list");
    for s in list.iter().take(64) {
        print!(" {:08x}", s.paint[0].to_bits());
    }
    let sum = checksum(&vec![0.0; pixels * 3]);
    println!(" pictures {sum:08x} {sum:08x}");
}

fn write(c: &Call) {
    let n = c.list.len();
    let mut list: Vec<Held> = c.list.iter().enumerate().map(|(i, s)| Held(i, s.clone())).collect();
    DROPPED.with_borrow_mut(|d| d.clear());
    let (mut trials, mut offered) = (0, Vec::new());
    probe::refine_shapes(
        c.target,
        c.background,
        c.h as u32,
        c.w as u32,
        &mut list,
        c.passes as u32,
        |canvas, s| paint(canvas, &s.1, c.w, c.h),
        |_| {
            trials += 1;
            let s = c.offers.get(trials - 1)?.clone()?;
            offered.push(n + trials);
            Some(Held(n + trials, s))
        },
    );
    let accepted = DROPPED.with_borrow(|d| d.iter().zip(&offered).filter(|(a, b)| a != b).count());
    print!(": refusal 0 passes {} trials {trials} accepted {accepted} list", if n == 0 { 0 } else { trials / n });
    let mut picture = probe::filled_canvas(c.background, c.h as u32, c.w as u32);
    for s in &list {
        print!(" {:08x}", s.1.paint[0].to_bits());
        paint(&mut picture, &s.1, c.w, c.h);
    }
    let sum = checksum(&picture);
    println!(" pictures {sum:08x} {sum:08x}");
}

fn run(seed: u64, w: usize, h: usize, n: usize, m: usize, passes: usize) {
    print!("seed {seed} size {w} {h} shapes {n} offers {m} passes {passes}");
    let list: Vec<Shape> = (0..n).map(|k| shape(seed, k)).collect();
    if !(1..=256).contains(&w) || !(1..=256).contains(&h) {
        return write_refused(1, &list, w * h);
    }
    if n > 64 || m > 1024 || passes > 16 {
        return write_refused(3, &list, w * h);
    }
    let target: Vec<f32> = (0..w * h * 3).map(|i| channel(seed, i, 14)).collect();
    let background = [channel(seed, 1999, 0), channel(seed, 1999, 1), channel(seed, 1999, 2)];
    write(&Call { w, h, passes, background, target: &target, list, offers: (0..m).map(|k| offer(seed, k)).collect() });
}

fn edge(red: f32, green: f32, blue: f32) {
    print!("edge {}", red.to_bits());
    let step = 67108864.0f32;
    let circle = |cx: i32, cy: i32, r, g, b| Shape { kind: 0, places: [cx, cy, 1, 0, 0, 0, 0, 0], paint: [1.0, r, g, b] };
    let (red, green, blue) = (red / step, green / step, blue / step);
    let target = [1.0, 0.0, 0.0, red, green, blue];
    let off = circle(9, 9, 0.0, 0.0, 0.0);
    write(&Call { w: 2, h: 1, passes: 1, background: [0.0; 3], target: &target, list: vec![off.clone(), off], offers: vec![Some(circle(2, 0, red, green, blue))] });
}

fn main() {
    run(1, 5, 4, 0, 4, 3);
    run(2, 5, 4, 1, 4, 3);
    run(3, 5, 4, 3, 4, 0);
    run(4, 5, 4, 3, 0, 3);
    run(7, 4, 3, 2, 2, 1);
    run(6, 7, 5, 3, 1, 2);
    run(7, 9, 6, 4, 6, 3);
    run(8, 6, 8, 5, 12, 4);
    run(313, 8, 6, 12, 192, 16);
    run(10, 3, 2, 64, 2, 1);
    run(11, 3, 2, 2, 1024, 16);
    run(12, 3, 2, 65, 2, 1);
    run(13, 3, 2, 2, 1025, 16);
    run(14, 3, 2, 2, 4, 17);
    run(15, 0, 4, 65, 0, 0);
    edge(1540.0, 1180.0, 860.0);
    edge(1541.0, 1180.0, 860.0);
    edge(1539.0, 1180.0, 860.0);
    edge(0.0, 0.0, 0.0);
}
