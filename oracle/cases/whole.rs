//! Fixed cases for the whole-number root and the two divisions.

use crate::generator::edges;

/// The largest number whose root the Rust works out: at i64::MAX its last loop never ends, since the
/// saturating square stays at most n.
pub const ROOT_END: i64 = i64::MAX - 1;

/// The largest root there is.
const LARGEST_ROOT: i64 = 3_037_000_499;

/// Numbers up to `small`, those around powers of two, and those around the squares of all of these.
pub fn roots(small: i64, exponents: &[u32]) -> Vec<i64> {
    let mut list: Vec<i64> = (-20..=small).collect();
    list.extend(edges(exponents));
    let mut sides: Vec<i64> = list.iter().copied().filter(|x| (2..=LARGEST_ROOT).contains(x)).collect();
    sides.extend([LARGEST_ROOT - 1, LARGEST_ROOT]);
    for x in sides {
        list.extend([x * x - 1, x * x, (x * x).saturating_add(1)]);
    }
    list.retain(|n| *n <= ROOT_END);
    list.sort();
    list.dedup();
    list
}

/// Whether both languages divide a by b: the Rust panics at b = 0 and at MIN / -1.
pub fn divides(a: i64, b: i64) -> bool {
    b != 0 && !(a == i64::MIN && b == -1)
}

/// All pairs of numbers from -20 to 20, and all pairs of numbers around powers of two.
pub fn divisions(exponents: &[u32]) -> Vec<(i64, i64)> {
    let mut list = Vec::new();
    let small: Vec<i64> = (-20..=20).collect();
    for numbers in [small, edges(exponents)] {
        for &a in &numbers {
            for &b in &numbers {
                if divides(a, b) {
                    list.push((a, b));
                }
            }
        }
    }
    list.sort();
    list.dedup();
    list
}
