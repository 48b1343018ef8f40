//! Counts and span ends of the exports, beside the pixels that the Rust counts and paints.

use crate::harness::unequal;
use crate::pictures::{painted, span_count};
use crate::shapes::refused;

/// A count that was answered, against the refusal due or the Rust's span count.
pub fn count_differs(case: &[i64], answered: i64) -> Option<(String, String)> {
    let no = refused(case);
    unequal(answered, if no > 0 { -no } else { span_count(case) })
}

/// Left and right ends of a row, against the refusal due or the pixels that the Rust paints, for every
/// row of the picture and a few outside.
pub fn ends_differ(case: &[i64], answered: impl Fn(i32) -> (i64, i64)) -> Option<(String, String)> {
    let no = refused(case);
    let rows = |h: i64| [i32::MIN as i64, -1, h, i32::MAX as i64].into_iter().chain(0..h);
    if no > 0 {
        return rows(1).find_map(|y| unequal((y, answered(y as i32)), (y, (-no, -no))));
    }
    let (w, h) = (case[0] as usize, case[1]);
    let covered = painted(case);
    rows(h).find_map(|y| {
        let ends = if (0..h).contains(&y) {
            let row = &covered[y as usize * w..][..w];
            match row.iter().position(|p| *p) {
                Some(l) => (l as i64, row.iter().rposition(|p| *p).unwrap() as i64),
                None => (-9, -9),
            }
        } else {
            (-9, -9)
        };
        unequal((y, answered(y as i32)), (y, ends))
    })
}
