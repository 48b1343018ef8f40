//! The Rust against document 01's rule, with none of our code in it: the same pixels by span counts,
//! by point counts and by painting, and the same row reach.

use crate::generator::Draw;
use crate::harness::{unequal, Comparison};
use crate::pictures::{painted, point_count, row_range, span_count};
use crate::shapes::{draw_case, every_radius, every_small, in_domain, pixels, reach, NUMBERS};

fn differs(case: &[i64]) -> Option<(String, String)> {
    let covered = pixels(case);
    let count = covered.iter().filter(|p| **p).count() as i64;
    let points = point_count(case);
    unequal((span_count(case), points, row_range(case)), (count, points.map(|_| count), reach(case)))
        .or_else(|| unequal(painted(case), covered))
}

fn circles(see: &mut dyn FnMut(&[i64])) {
    every_small(1, see);
    every_radius(see);
}

pub fn comparisons() -> Vec<Comparison> {
    let draws: [fn(&mut Draw, &mut Vec<i64>); 3] =
        [|d, c| draw_case(d, 1, 256, c), |d, c| draw_case(d, 2, 256, c), |d, c| draw_case(d, 3, 256, c)];
    let lists: [fn(&mut dyn FnMut(&[i64])); 3] = [circles, |see| every_small(2, see), |see| every_small(3, see)];
    let names = ["cover: circles, the Rust and the rule", "cover: triangles, the Rust and the rule", "cover: quads, the Rust and the rule"];
    (0..3)
        .map(|i| Comparison {
            name: names[i],
            numbers: NUMBERS[i + 1],
            cost: 1000,
            fixed: lists[i],
            draw: draws[i],
            allowed: in_domain,
            differs,
        })
        .collect()
}
