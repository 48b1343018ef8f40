//! The leaves: narrowing beside the machine's cast, the root and the divisions beside the Rust's.
//! Both sides are called, not inlined, as the app calls ours.
//! Needs: sillbadger_narrow_bits probe_isqrt_i64 probe_div_floor_i64 probe_div_ceil_i64

use crate::generator::Draw;
use crate::harness::{taken, Entry};
use crate::ours;
use oracle::shape::integral::probe;

const MANY: usize = 4096;

#[inline(never)]
fn cast(bits: u64) -> i64 {
    let x = f64::from_bits(bits);
    if x.is_nan() { 0x7FC0_0000 } else { (x as f32).to_bits() as i64 }
}

#[inline(never)]
fn root(n: i64) -> i64 {
    probe::isqrt_i64(n)
}

#[inline(never)]
fn floor(a: i64, b: i64) -> i64 {
    probe::div_floor_i64(a, b)
}

#[inline(never)]
fn ceil(a: i64, b: i64) -> i64 {
    probe::div_ceil_i64(a, b)
}

fn over<T: Copy + 'static>(name: &'static str, inputs: Vec<T>, ours: impl Fn(T) -> i64 + 'static, rust: impl Fn(T) -> i64 + 'static) -> Entry {
    let again = inputs.clone();
    Entry {
        name,
        units: inputs.len() as u64,
        ours: Box::new(move || inputs.iter().fold(0, |s, x| taken(s, ours(*x) as u64))),
        rust: Box::new(move || again.iter().fold(0, |s, x| taken(s, rust(*x) as u64))),
    }
}

pub fn entries() -> Vec<Entry> {
    let mut d = Draw::named(1, "bench leaves");
    let any = (0..MANY).map(|_| d.word()).collect();
    // What scores narrow: numbers within 0..1, and changes up to thousands.
    let usual = (0..MANY).map(|_| (d.unit() as f64 * d.one_of(&[1.0, -1.0, 4096.0]) / 3.0).to_bits()).collect();
    // Row limits of circles in a picture, and of the largest radius.
    let small: Vec<i64> = (0..MANY).map(|_| d.between(0, 127 * 127)).collect();
    let large: Vec<i64> = (0..MANY).map(|_| d.between(0, 8191 * 8191)).collect();
    // Constants and steps of edges.
    let edges: Vec<(i64, i64)> = (0..MANY)
        .map(|_| (d.between(-300_000_000, 300_000_000), d.between(1, 16382) * d.one_of(&[1, -1])))
        .collect();
    vec![
        over("narrow_bits, any bits", any, ours::sillbadger_narrow_bits, cast),
        over("narrow_bits, usual numbers", usual, ours::sillbadger_narrow_bits, cast),
        over("isqrt_i64, radius up to 127", small, ours::probe_isqrt_i64, root),
        over("isqrt_i64, radius up to 8191", large, ours::probe_isqrt_i64, root),
        over("div_floor_i64, edges", edges.clone(), |(a, b)| ours::probe_div_floor_i64(a, b), |(a, b)| floor(a, b)),
        over("div_ceil_i64, edges", edges, |(a, b)| ours::probe_div_ceil_i64(a, b), |(a, b)| ceil(a, b)),
    ]
}
