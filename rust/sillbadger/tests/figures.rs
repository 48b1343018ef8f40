//! Document 01's boundary figures, through the exports.

use sillbadger::{count, narrow, narrow_bits, row_ends, Refusal, Shape};

fn circle(cx: i32, cy: i32, r: i32) -> Shape {
    Shape::Circle { cx, cy, r }
}

#[test]
fn half_widths() {
    for (dy, d) in [(0, 5), (3, 4), (4, 3), (5, 0)] {
        assert_eq!(row_ends(256, 256, circle(128, 128, 5), 128 + dy), Ok(Some((128 - d, 128 + d))));
    }
    assert_eq!(row_ends(256, 256, circle(127, 127, 127), 128), Ok(Some((1, 253))));
    assert_eq!(row_ends(256, 256, circle(128, 127, 128), 128), Ok(Some((1, 255))));
}

#[test]
fn circles() {
    assert_eq!(count(16, 16, circle(8, 8, 5)), Ok(81));
    assert_eq!(count(16, 16, circle(0, 0, 1)), Ok(3));
    assert_eq!(count(16, 16, circle(8, 8, 0)), Ok(0));
    assert_eq!(count(16, 16, circle(8, 8, -3)), Ok(0));
    assert_eq!(row_ends(16, 16, circle(8, 8, 5), 0), Ok(None));
    assert_eq!(row_ends(16, 16, circle(8, 8, 5), 16), Ok(None));
    assert_eq!(row_ends(16, 16, circle(8, 8, 5), i32::MIN), Ok(None));
    // Width and height are not alike.
    assert_eq!(count(1, 4, circle(3, 0, 3)), Ok(1));
    assert_eq!(count(4, 1, circle(3, 0, 3)), Ok(4));
}

#[test]
fn triangles() {
    let t = [(0, 0), (4, 0), (0, 4)];
    assert_eq!(count(16, 16, Shape::Triangle(t)), Ok(15));
    assert_eq!(count(16, 16, Shape::Triangle([t[2], t[1], t[0]])), Ok(15));
    assert_eq!(count(3, 3, Shape::Triangle(t)), Ok(9));
    assert_eq!(count(16, 16, Shape::Triangle([(0, 0), (2, 2), (5, 5)])), Ok(0));
    assert_eq!(row_ends(16, 16, Shape::Triangle(t), 1), Ok(Some((0, 3))));
}

#[test]
fn quads() {
    assert_eq!(count(16, 16, Shape::Quad([(1, 1), (3, 1), (3, 2), (1, 2)])), Ok(6));
    assert_eq!(count(16, 16, Shape::Quad([(0, 0), (2, 0), (4, 0), (0, 4)])), Ok(0));
    assert_eq!(count(16, 16, Shape::Quad([(0, 0), (2, 0), (0, 2), (2, 2)])), Ok(0));
    assert_eq!(row_ends(16, 16, Shape::Quad([(1, 1), (3, 1), (3, 2), (1, 2)]), 2), Ok(Some((1, 3))));
}

#[test]
fn refusals() {
    assert_eq!(count(0, 1, circle(0, 0, 1)), Err(Refusal::Size));
    assert_eq!(count(1, 257, circle(9000, 0, 1)), Err(Refusal::Size));
    assert_eq!(count(1, 1, circle(8192, 0, 1)), Err(Refusal::Place));
    assert!(count(1, 1, circle(8191, 0, 1)).is_ok());
    assert_eq!(row_ends(1, 1, circle(0, -8192, 1), 0), Err(Refusal::Place));
}

#[test]
fn narrowing() {
    let e = |n: i32| 2f64.powi(n);
    assert_eq!(narrow(1.0 + e(-24)), 1.0);
    assert_eq!(narrow(1.0 + 3.0 * e(-24)), 1.0 + 2f32.powi(-22));
    assert_eq!(narrow_bits(e(-150).to_bits()), 0);
    assert_eq!(narrow(e(127) * 2.0f64 - e(103)), f32::INFINITY);
    assert_eq!(narrow_bits(f64::NAN.to_bits() | 1 << 63), 0x7FC0_0000);
    assert_eq!(narrow_bits((-0.0f64).to_bits()), 0x8000_0000);
}
