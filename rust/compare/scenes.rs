//! Two pictures with their table, and requests, from seeds: for the comparisons of scores.

use crate::generator::Draw;
use crate::shapes::draw_size;
use crate::values::{channel, opacity, picture};
use oracle::shape::integral::Integral;
use std::cell::RefCell;

pub struct Scene {
    pub target: Vec<f32>,
    pub canvas: Vec<f32>,
    pub table: Integral,
}

thread_local! {
    /// The last few scenes: many cases in a row share one.
    static LAST: RefCell<Vec<((i64, i64, i64), Scene)>> = const { RefCell::new(Vec::new()) };
    static DRAWN: RefCell<Option<(i64, i64, i64)>> = const { RefCell::new(None) };
}

/// Any bits of a number within 0..1: as many small numbers as large ones, subnormals too; -0 now and then.
pub fn any_bits(d: &mut Draw) -> f32 {
    match d.below(32) {
        0 => -0.0,
        1 => f32::from_bits(d.below(1 << 23) as u32),
        _ => f32::from_bits(d.below(0x3F80_0001) as u32),
    }
}

/// Numbers of any bits, of several binades below 1, or as the other comparisons have them.
fn drawn(seed: u64, w: i64, h: i64) -> Vec<f32> {
    let mut d = Draw::named(seed, "scene");
    let n = (w * h * 3) as usize;
    match d.below(4) {
        0 => (0..n).map(|_| any_bits(&mut d)).collect(),
        1 => (0..n).map(|_| f32::from_bits(0x3C00_0000 + d.below(0x0380_0001) as u32)).collect(),
        2 => (0..n).map(|_| if d.below(2) == 0 { any_bits(&mut d) } else { channel(&mut d) }).collect(),
        _ => picture(seed, w, h),
    }
}

/// What a seed and a size give, handed over.
pub fn with<T>(seed: i64, w: i64, h: i64, work: impl FnOnce(&Scene) -> T) -> T {
    LAST.with_borrow_mut(|last| {
        let kept = last.iter().position(|l| l.0 == (seed, w, h));
        let at = kept.unwrap_or_else(|| {
            let (target, canvas) = (drawn(seed as u64, w, h), drawn(seed as u64 ^ (1 << 50), w, h));
            let table = Integral::build(&target, &canvas, h as u32, w as u32);
            if last.len() > 3 {
                last.remove(0);
            }
            last.push(((seed, w, h), Scene { target, canvas, table }));
            last.len() - 1
        });
        work(&last[at].1)
    })
}

/// A scene's seed and size: mostly the last one's, since a scene takes far longer than a score.
pub fn draw_scene(d: &mut Draw) -> (i64, i64, i64) {
    DRAWN.with_borrow_mut(|last| {
        let fresh = d.below(200) == 0;
        if fresh || last.is_none() {
            let (w, h) = draw_size(d, 256);
            *last = Some((d.below(1 << 40) as i64, w, h));
        }
        last.unwrap()
    })
}

/// An opacity, levels and their count. Equal levels come up, and what stands behind the count is no level.
pub struct Asked {
    pub opacity: f32,
    pub levels: Vec<f32>,
    pub count: usize,
}

pub fn asked(seed: i64) -> Asked {
    let mut d = Draw::named(seed as u64, "asked");
    let one = |d: &mut Draw| if d.below(2) == 0 { opacity(d) } else { any_bits(d) };
    let opacity = one(&mut d);
    let count = d.one_of(&[1, 2, 3, 7, 16, 63, 64]);
    let few: Vec<f32> = (0..3).map(|_| one(&mut d)).collect();
    let style = d.below(3);
    let behind = d.one_of(&[f32::NAN, -1.0, 2.0, f32::INFINITY, 0.5]);
    let levels = (0..64)
        .map(|i| match style {
            _ if i >= count => behind,
            0 => 0.2 + (0.9 - 0.2) * i as f32 / 63.0,
            1 => d.one_of(&few),
            _ => one(&mut d),
        })
        .collect();
    Asked { opacity, levels, count }
}
