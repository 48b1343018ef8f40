//! Refusals of the scoring calls: any of the arguments wrong, several at once, against document 01's table.
//! Needs: probe_span_score probe_circle_point_score probe_triangle_point_score probe_alpha_sweep
//! Needs: probe_collect_span_sums probe_collect_circle_sums probe_collect_triangle_sums

use crate::generator::Draw;
use crate::harness::{unequal, Comparison};
use crate::ours::{self, ProbedAnswer, ProbedCollected, ProbedSums};

/// What is wrong, one bit each.
const SIZE: i64 = 1;
const LEVELS: i64 = 2;
const TABLE: i64 = 4;
const TARGET: i64 = 8;
const CANVAS: i64 = 16;
const COUNT: i64 = 32;
const PLACE: i64 = 64;
const LEVEL: i64 = 128;
const BEHIND: i64 = 256;

/// The number of each entry point, by which of its tests hold.
fn number(wrong: i64, entry: i64, single: bool) -> u8 {
    let scores = matches!(entry, 0 | 1 | 2 | 3);
    let shape = entry != 3;
    let spans = matches!(entry, 0 | 4);
    let held = |bit: i64| wrong & bit != 0;
    let length = (scores && held(LEVELS))
        || (shape && spans && held(TABLE))
        || (shape && !spans && (held(TARGET) || held(CANVAS)));
    if shape && held(SIZE) {
        1
    } else if length {
        2
    } else if scores && !(single && shape) && held(COUNT) {
        3
    } else if shape && held(PLACE) {
        4
    } else if scores && held(LEVEL) {
        5
    } else {
        0
    }
}

fn zeros(a: &ProbedAnswer) -> bool {
    a.count == 0 && [a.opacity, a.change, a.red, a.green, a.blue].iter().all(|x| x.to_bits() == 0)
}

fn none(c: &ProbedCollected) -> bool {
    c.count == 0 && [c.s_t, c.s_c, c.s_t2, c.s_c2, c.s_tc].iter().flatten().all(|x| x.to_bits() == 0)
}

/// seed, what is wrong, entry point: 0 span score, 1 and 2 point scores, 3 sweep, 4 span sums, 5 and 6 point sums.
fn differs(case: &[i64]) -> Option<(String, String)> {
    let (wrong, entry) = (case[1], case[2]);
    let mut d = Draw::named(case[0] as u64, "refusals");
    let held = |bit: i64| wrong & bit != 0;
    let single = d.below(2) == 0;
    let (mut w, mut h) = (d.between(1, 6) as usize, d.between(1, 6) as usize);
    let resized = |d: &mut Draw, n: usize, other: bool| if other { (n as i64 + d.one_of(&[-3, -1, 1, 3])).max(0) as usize } else { n };
    let target = vec![0.25f32; resized(&mut d, w * h * 3, held(TARGET))];
    let canvas = vec![0.5f32; resized(&mut d, w * h * 3, held(CANVAS))];
    let table = vec![0.0f64; resized(&mut d, h * (w + 1) * 15, held(TABLE))];
    let count = if held(COUNT) { d.one_of(&[0, 65, 1 << 40, usize::MAX]) } else { d.between(1, 64) as usize };
    let no_level = d.one_of(&[f32::NAN, -1e-45, 1.000_000_1, f32::INFINITY, f32::NEG_INFINITY]);
    let mut levels = vec![0.5f32; if held(LEVELS) { d.one_of(&[0, 1, 63, 65]) } else { 64 }];
    if held(LEVEL) && !single || held(LEVEL) && entry == 3 {
        let i = d.below(count.clamp(1, 64) as u64) as usize;
        if i < levels.len() {
            levels[i] = no_level;
        }
    }
    if held(BEHIND) {
        for i in count.min(64)..levels.len() {
            levels[i] = no_level;
        }
    }
    let opacity = if held(LEVEL) && single { no_level } else { 0.5 };
    if held(SIZE) {
        let bad = d.one_of(&[0, 257, 1 << 40, usize::MAX]);
        if d.below(2) == 0 { w = bad } else { h = bad }
    }
    let kind = match entry {
        1 | 5 => 1,
        2 | 6 => 2,
        _ => d.between(1, 3),
    };
    let mut c: Vec<i32> = (0..8).map(|_| d.between(-5, 9) as i32).collect();
    if held(PLACE) {
        let i = d.below([3, 6, 8][kind as usize - 1]) as usize;
        c[i] = d.one_of(&[-8192, 8192, i32::MIN, i32::MAX]);
    }
    let s = ProbedSums { s_t: [1.0; 3], s_c: [0.5; 3], s_t2: [0.75; 3], s_c2: [0.5; 3], s_tc: [0.25; 3], count: 3 };
    let no = number(wrong, entry, single);
    let refused = |no: u8, clean: bool| (no, no == 0 || clean);
    let answer = match entry {
        0 => {
            let k = kind as u8;
            let a = ours::probe_span_score(k, c[0], c[1], c[2], c[3], c[4], c[5], c[6], c[7], single, opacity, count, &levels, w, h, &table);
            refused(a.refused, zeros(&a))
        }
        1 => {
            let a = ours::probe_circle_point_score(c[0], c[1], c[2], single, opacity, count, &levels, w, h, &target, &canvas);
            refused(a.refused, zeros(&a))
        }
        2 => {
            let a = ours::probe_triangle_point_score(c[0], c[1], c[2], c[3], c[4], c[5], single, opacity, count, &levels, w, h, &target, &canvas);
            refused(a.refused, zeros(&a))
        }
        3 => {
            let a = ours::probe_alpha_sweep(s, &levels, count);
            refused(a.refused, zeros(&a))
        }
        4 => {
            let a = ours::probe_collect_span_sums(kind as u8, c[0], c[1], c[2], c[3], c[4], c[5], c[6], c[7], w, h, &table);
            refused(a.refused, none(&a))
        }
        5 => {
            let a = ours::probe_collect_circle_sums(c[0], c[1], c[2], w, h, &target, &canvas);
            refused(a.refused, none(&a))
        }
        _ => {
            let a = ours::probe_collect_triangle_sums(c[0], c[1], c[2], c[3], c[4], c[5], w, h, &target, &canvas);
            refused(a.refused, none(&a))
        }
    };
    unequal(answer, (no, true))
}

pub fn comparisons() -> Vec<Comparison> {
    vec![Comparison {
        name: "score: refusals",
        numbers: "seed wrong entry",
        cost: 20,
        fixed: |see| {
            for wrong in 0..512 {
                for entry in 0..7 {
                    for seed in 0..20 {
                        see(&[seed, wrong, entry]);
                    }
                }
            }
        },
        draw: |d, case| {
            let seed = d.below(1 << 40) as i64;
            case.extend([seed, d.below(512) as i64, d.below(7) as i64]);
        },
        allowed: |c| c[0] >= 0 && (0..512).contains(&c[1]) && (0..7).contains(&c[2]),
        differs,
    }]
}
