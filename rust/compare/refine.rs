//! Refinement: our call beside the Rust's `refine_shapes`, with a candidate list as its search and `apply_*` as its painter.
//! Needs: sillbadger_refine

use crate::generator::Draw;
use crate::harness::{unequal, Comparison};
use crate::ours;
use crate::pictures::apply;
use crate::shapes::{draw_shape, draw_size, places};
use crate::values::{channel, opacity, picture};
use oracle::shape::common::probe;
use std::cell::RefCell;

const SHAPES: usize = 64;
const OFFERS: usize = 1024;

thread_local! {
    /// The numbers of the shapes that the Rust dropped, in order: one for each trial with a candidate.
    static DROPPED: RefCell<Vec<usize>> = const { RefCell::new(Vec::new()) };
}

#[derive(Clone, Debug, PartialEq)]
struct Plain {
    kind: i64,
    places: Vec<i64>,
    paint: [f32; 4],
}

/// A shape as the Rust holds it. Its number tells which one is dropped.
struct Held {
    number: usize,
    shape: Plain,
}

impl Drop for Held {
    fn drop(&mut self) {
        DROPPED.with_borrow_mut(|d| d.push(self.number));
    }
}

/// One call: all that is handed in.
struct Call {
    w: i64,
    h: i64,
    passes: i64,
    background: [f32; 3],
    target: Vec<f32>,
    list: Vec<Plain>,
    offers: Vec<Option<Plain>>,
}

fn paint(canvas: &mut [f32], s: &Plain, w: i64, h: i64) {
    let mut case = vec![w, h, s.kind];
    case.extend(&s.places);
    apply(canvas, &case, s.paint[0], &[s.paint[1], s.paint[2], s.paint[3]]);
}

fn drawn(call: &Call, list: &[Plain]) -> Vec<f32> {
    let mut canvas = probe::filled_canvas(call.background, call.h as u32, call.w as u32);
    for s in list {
        paint(&mut canvas, s, call.w, call.h);
    }
    canvas
}

/// A shape near the picture. Its colour is any, or the target's at some pixel, which is often accepted.
fn shape(d: &mut Draw, w: i64, h: i64, target: &[f32]) -> Plain {
    let kind = d.between(1, 3);
    let mut numbers = Vec::new();
    if d.below(4) == 0 {
        draw_shape(d, kind, w, h, &mut numbers);
    } else if kind == 1 {
        numbers.extend([d.between(-2, w + 1), d.between(-2, h + 1), d.between(0, w.max(h) / 2 + 1)]);
    } else {
        for _ in 0..places(kind) / 2 {
            numbers.extend([d.between(-2, w + 1), d.between(-2, h + 1)]);
        }
    }
    let at = 3 * d.below((w * h) as u64) as usize;
    let colour = if d.below(2) == 0 { [target[at], target[at + 1], target[at + 2]] } else { [channel(d), channel(d), channel(d)] };
    Plain { kind, places: numbers, paint: [opacity(d), colour[0], colour[1], colour[2]] }
}

/// seed w h shapes offers passes.
fn call(case: &[i64]) -> Call {
    let (w, h) = (case[1], case[2]);
    let mut d = Draw::named(case[0] as u64, "refine");
    let target = picture(case[0] as u64, w, h);
    let background = [channel(&mut d), channel(&mut d), channel(&mut d)];
    let list: Vec<Plain> = (0..case[3]).map(|_| shape(&mut d, w, h, &target)).collect();
    // one in so many offers is nothing; some are shapes of the list over again
    let nothing = d.one_of(&[2, 5, 1 << 30]);
    let offers = (0..case[4])
        .map(|_| match d.below(nothing) {
            0 => None,
            1 if !list.is_empty() => Some(list[d.below(list.len() as u64) as usize].clone()),
            _ => Some(shape(&mut d, w, h, &target)),
        })
        .collect();
    Call { w, h, passes: case[5], background, target, list, offers }
}

/// Refusal, passes, trials, acceptances, the list, and both pictures by their bits.
type Answer = (u8, usize, usize, usize, Vec<Plain>, Vec<u32>, Vec<u32>);

fn bits(p: &[f32]) -> Vec<u32> {
    p.iter().map(|x| x.to_bits()).collect()
}

fn rust(c: &Call) -> Answer {
    let n = c.list.len();
    let mut list: Vec<Held> = c.list.iter().enumerate().map(|(i, s)| Held { number: i, shape: s.clone() }).collect();
    DROPPED.with_borrow_mut(|d| d.clear());
    let mut trials = 0;
    let mut offered = Vec::new();
    probe::refine_shapes(
        &c.target,
        c.background,
        c.h as u32,
        c.w as u32,
        &mut list,
        c.passes as u32,
        |canvas, s| paint(canvas, &s.shape, c.w, c.h),
        |_| {
            trials += 1;
            let s = c.offers.get(trials - 1)?.clone()?;
            let number = n + trials;
            offered.push(number);
            Some(Held { number, shape: s })
        },
    );
    let dropped = DROPPED.with_borrow(|d| d.clone());
    assert_eq!(dropped.len(), offered.len());
    let accepted = dropped.iter().zip(&offered).filter(|(a, b)| a != b).count();
    let passes = if n == 0 { 0 } else { trials / n };
    let last: Vec<Plain> = list.iter().map(|s| s.shape.clone()).collect();
    let picture = bits(&drawn(c, &last));
    (0, passes, trials, accepted, last, picture.clone(), picture)
}

/// A list as it crosses: of each shape its number of coordinates, eight places for them, four floats.
struct Flat {
    sizes: Vec<u8>,
    places: Vec<i32>,
    paints: Vec<f32>,
}

fn flat<'a>(shapes: impl Iterator<Item = Option<&'a Plain>>, count: usize) -> Flat {
    let mut f = Flat { sizes: vec![0; count], places: vec![0; count * 8], paints: vec![0.0; count * 4] };
    for (i, s) in shapes.enumerate() {
        let Some(s) = s else { continue };
        f.sizes[i] = places(s.kind) as u8;
        for (j, z) in s.places.iter().enumerate() {
            f.places[i * 8 + j] = *z as i32;
        }
        f.paints[i * 4..i * 4 + 4].copy_from_slice(&s.paint);
    }
    f
}

fn plain(f: &Flat, i: usize) -> Plain {
    let n = f.sizes[i] as usize;
    let kind = (1..=3).find(|k| places(*k) == n).unwrap();
    Plain {
        kind,
        places: f.places[i * 8..i * 8 + n].iter().map(|z| *z as i64).collect(),
        paint: std::array::from_fn(|j| f.paints[i * 4 + j]),
    }
}

/// The work pictures hold anything at first.
fn ours(c: &Call) -> Answer {
    let mut list = flat(c.list.iter().map(Some), c.list.len());
    let offers = flat(c.offers.iter().map(Option::as_ref), c.offers.len());
    let n = (c.w * c.h * 3) as usize;
    let (mut first, mut second) = (vec![f32::NAN; n], vec![-7.5; n]);
    let r = ours::sillbadger_refine(
        c.w as u32,
        c.h as u32,
        c.background[0],
        c.background[1],
        c.background[2],
        &mut list.sizes,
        &mut list.places,
        &mut list.paints,
        &offers.sizes,
        &offers.places,
        &offers.paints,
        c.passes as u32,
        &c.target,
        &mut first,
        &mut second,
    );
    let last = (0..c.list.len()).map(|i| plain(&list, i)).collect();
    (r.refusal as u8, r.passes as usize, r.trials as usize, r.acceptances as usize, last, bits(&first), bits(&second))
}

/// What two answers look like, short: the pictures by the first place where they differ.
fn shown(a: &Answer, b: &Answer) -> String {
    let first = a.5.iter().zip(&b.5).position(|(x, y)| x != y);
    let second = a.6.iter().zip(&b.6).position(|(x, y)| x != y);
    format!("refusal {} passes {} trials {} accepted {} list {:?} pictures differ at {first:?} {second:?}", a.0, a.1, a.2, a.3, a.4)
}

fn differs(case: &[i64]) -> Option<(String, String)> {
    let c = call(case);
    let (a, b) = (ours(&c), rust(&c));
    if a == b { None } else { Some((shown(&a, &b), shown(&b, &a))) }
}

// ---- refusals: document 01's table

/// What is spoilt in a call, one bit each.
const SPOILS: [(&str, u8); 16] = [
    ("width", 1),
    ("height", 1),
    ("target's length", 2),
    ("first's length", 2),
    ("second's length", 2),
    ("shapes", 3),
    ("candidates", 3),
    ("passes", 3),
    ("a shape's place", 4),
    ("a candidate's place", 4),
    ("a shape's opacity", 5),
    ("a candidate's opacity", 5),
    ("a shape's colour", 6),
    ("a candidate's colour", 6),
    ("the background", 6),
    ("a pixel", 7),
];

/// seed spoilt passes: a call of two shapes and two offers on 4 by 3, spoilt; the number that is due, and all lent numbers as they were.
fn refused(case: &[i64]) -> Option<(String, String)> {
    let mut d = Draw::named(case[0] as u64, "refusals");
    let spoilt = |i: usize| case[1] >> i & 1 == 1;
    let c = call(&[case[0], 4, 3, if spoilt(5) { SHAPES as i64 + 1 } else { 2 }, if spoilt(6) { OFFERS as i64 + 1 } else { 2 }, case[2]]);
    let mut list = flat(c.list.iter().map(Some), c.list.len());
    // the second offer is nothing, and so never looked at, whatever its numbers
    let mut offers = flat(c.offers.iter().map(Option::as_ref), c.offers.len());
    offers.sizes[0] = 3;
    offers.sizes[1] = 0;
    offers.places[8] = 9000;
    offers.paints[4] = 2.0;
    let far = d.one_of(&[8192, -8192, i32::MAX, i32::MIN]);
    let out = d.one_of(&[-0.1, 1.000_000_1, f32::NAN, f32::INFINITY, -1e-45]);
    let mut background = c.background;
    let mut target = c.target.clone();
    let at = d.below(2) as usize;
    if spoilt(8) { list.places[8 * at + 2] = far }
    if spoilt(9) { offers.places[d.below(3) as usize] = far }
    if spoilt(10) { list.paints[4 * at] = out }
    if spoilt(11) { offers.paints[0] = out }
    if spoilt(12) { list.paints[4 * at + 1 + d.below(3) as usize] = out }
    if spoilt(13) { offers.paints[1 + d.below(3) as usize] = out }
    if spoilt(14) { background[d.below(3) as usize] = out }
    if spoilt(15) { target[d.below(36) as usize] = out }
    if spoilt(2) { target.push(0.5) }
    let (mut first, mut second) = (vec![f32::NAN; 36], vec![3.0; 36]);
    if spoilt(3) { first.pop(); }
    if spoilt(4) { second.push(0.0) }
    let size = d.one_of(&[0, 257, u32::MAX]);
    let before = (list.sizes.clone(), list.places.clone(), bits(&list.paints), bits(&first), bits(&second));
    let r = ours::sillbadger_refine(
        if spoilt(0) { size } else { 4 },
        if spoilt(1) { size } else { 3 },
        background[0],
        background[1],
        background[2],
        &mut list.sizes,
        &mut list.places,
        &mut list.paints,
        &offers.sizes,
        &offers.places,
        &offers.paints,
        if spoilt(7) { d.one_of(&[17, u32::MAX]) } else { case[2] as u32 },
        &target,
        &mut first,
        &mut second,
    );
    let due = (0..16).filter(|i| spoilt(*i)).map(|i| SPOILS[i].1).min().unwrap_or(0);
    if due == 0 {
        return unequal(r.refusal, 0);
    }
    let after = (list.sizes, list.places, bits(&list.paints), bits(&first), bits(&second));
    unequal((r.refusal, r.passes, r.trials, r.acceptances, before == after), (due as u32, 0, 0, 0, true))
}

pub fn comparisons() -> Vec<Comparison> {
    vec![
        Comparison {
            name: "refine: list, counts and both pictures",
            numbers: "seed w h shapes offers passes",
            cost: 250,
            fixed: |see| {
                for seed in 0..4 {
                    for (n, m, p) in [(0, 0, 0), (0, 5, 3), (1, 5, 3), (2, 0, 0), (2, 0, 5), (2, 3, 2), (3, 4, 2), (5, 7, 3), (64, 1024, 16), (64, 1000, 16), (64, 70, 16), (63, 1024, 16), (2, 1024, 16)] {
                        see(&[seed, 5, 4, n, m, p]);
                    }
                }
                for (w, h) in [(256, 256), (256, 255), (1, 256), (255, 256)] {
                    see(&[9, w, h, 6, 30, 3]);
                }
            },
            draw: |d, case| {
                let large = d.below(150) == 0;
                let (w, h) = if large { (d.between(200, 256), d.between(200, 256)) } else { draw_size(d, 20) };
                let n = match d.below(12) {
                    0 => 64,
                    1 => d.between(0, 64),
                    2..=4 => d.between(2, 16),
                    _ => d.between(0, 6),
                };
                let p = if d.below(4) == 0 { 16 } else { d.between(0, 16) };
                let (n, p) = if large { (n.min(6), p.min(3)) } else { (n, p) };
                let m = match d.below(4) {
                    0 => d.between(0, 1024),
                    1 => (n * p - d.between(0, n)).max(0),
                    2 => d.between(0, n + 1),
                    _ => n * p,
                };
                case.extend([d.below(1 << 40) as i64, w, h, n, m, p]);
            },
            allowed: |c| (1..=256).contains(&c[1]) && (1..=256).contains(&c[2]) && (0..=64).contains(&c[3]) && (0..=1024).contains(&c[4]) && (0..=16).contains(&c[5]),
            differs,
        },
        Comparison {
            name: "refine: refusals",
            numbers: "seed spoilt passes",
            cost: 250,
            fixed: |see| {
                for seed in 0..20 {
                    for i in 0..16 {
                        see(&[seed, 1 << i, seed % 3]);
                        for j in 0..i {
                            see(&[seed, 1 << i | 1 << j, seed % 3]);
                        }
                    }
                }
            },
            draw: |d, case| {
                let bits = d.below(1 << 16) & d.below(1 << 16);
                case.extend([d.below(1 << 40) as i64, bits as i64, d.between(0, 3)])
            },
            allowed: |c| (0..1 << 16).contains(&c[1]) && (0..=16).contains(&c[2]),
            differs: refused,
        },
    ]
}
