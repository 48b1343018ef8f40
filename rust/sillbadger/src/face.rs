//! The C functions on plain slices, as safe Rust. The rest of this crate puts types over them.
//! Made by `rust/check --write` from the source of the crate `capi`: not to be edited.

#![allow(clippy::too_many_arguments)]

#[derive(Clone, Copy, Debug, PartialEq)]
#[repr(C)]
pub struct SillbadgerAnswer {
    // Kept: the C interface needs a number.
    pub refusal: u32,
    pub count: u32,
    pub opacity: f32,
    pub change: f32,
    pub red: f32,
    pub green: f32,
    pub blue: f32,
    pub passes: u64,
    pub trials: u64,
    pub acceptances: u64,
    pub total: f64,
}

mod c {
    use super::*;
    unsafe extern "C" {
    pub fn sillbadger_narrow_bits(bits: u64) -> i64;
    pub fn sillbadger_count_circle(w: u32, h: u32, cx: i32, cy: i32, r: i32) -> i64;
    pub fn sillbadger_count_triangle(w: u32, h: u32, x0: i32, y0: i32, x1: i32, y1: i32, x2: i32, y2: i32) -> i64;
    pub fn sillbadger_count_quad(w: u32, h: u32, x0: i32, y0: i32, x1: i32, y1: i32, x2: i32, y2: i32, x3: i32, y3: i32) -> i64;
    pub fn sillbadger_left_circle(w: u32, h: u32, cx: i32, cy: i32, r: i32, y: i32) -> i64;
    pub fn sillbadger_right_circle(w: u32, h: u32, cx: i32, cy: i32, r: i32, y: i32) -> i64;
    pub fn sillbadger_left_triangle(w: u32, h: u32, x0: i32, y0: i32, x1: i32, y1: i32, x2: i32, y2: i32, y: i32) -> i64;
    pub fn sillbadger_right_triangle(w: u32, h: u32, x0: i32, y0: i32, x1: i32, y1: i32, x2: i32, y2: i32, y: i32) -> i64;
    pub fn sillbadger_left_quad(w: u32, h: u32, x0: i32, y0: i32, x1: i32, y1: i32, x2: i32, y2: i32, x3: i32, y3: i32, y: i32) -> i64;
    pub fn sillbadger_right_quad(w: u32, h: u32, x0: i32, y0: i32, x1: i32, y1: i32, x2: i32, y2: i32, x3: i32, y3: i32, y: i32) -> i64;
    pub fn sillbadger_paint(w: u32, h: u32, shape: *const i32, shape_count: usize, opacity: f32, red: f32, green: f32, blue: f32, target: *const f32, target_count: usize, canvas: *mut f32, canvas_count: usize, table: *mut f64, table_count: usize) -> u8;
    pub fn sillbadger_levels(bits: u32, levels: *mut f32, levels_count: usize) -> u8;
    pub fn sillbadger_fill(w: u32, h: u32, red: f32, green: f32, blue: f32, canvas: *mut f32, canvas_count: usize) -> u8;
    pub fn sillbadger_mean(w: u32, h: u32, target: *const f32, target_count: usize) -> SillbadgerAnswer;
    pub fn sillbadger_total(w: u32, h: u32, target: *const f32, target_count: usize, canvas: *const f32, canvas_count: usize) -> SillbadgerAnswer;
    pub fn sillbadger_refine(w: u32, h: u32, red: f32, green: f32, blue: f32, sizes: *mut u8, sizes_count: usize, places: *mut i32, places_count: usize, paints: *mut f32, paints_count: usize, offered_sizes: *const u8, offered_sizes_count: usize, offered_places: *const i32, offered_places_count: usize, offered_paints: *const f32, offered_paints_count: usize, passes: u32, target: *const f32, target_count: usize, first: *mut f32, first_count: usize, second: *mut f32, second_count: usize) -> SillbadgerAnswer;
    pub fn sillbadger_span_score(w: u32, h: u32, shape: *const i32, shape_count: usize, opacity: f32, table: *const f64, table_count: usize) -> SillbadgerAnswer;
    pub fn sillbadger_span_sweep(w: u32, h: u32, shape: *const i32, shape_count: usize, levels: *const f32, levels_count: usize, count: u32, table: *const f64, table_count: usize) -> SillbadgerAnswer;
    pub fn sillbadger_point_score(w: u32, h: u32, shape: *const i32, shape_count: usize, opacity: f32, target: *const f32, target_count: usize, canvas: *const f32, canvas_count: usize) -> SillbadgerAnswer;
    pub fn sillbadger_point_sweep(w: u32, h: u32, shape: *const i32, shape_count: usize, levels: *const f32, levels_count: usize, count: u32, target: *const f32, target_count: usize, canvas: *const f32, canvas_count: usize) -> SillbadgerAnswer;
    pub fn sillbadger_build(w: u32, h: u32, target: *const f32, target_count: usize, canvas: *const f32, canvas_count: usize, table: *mut f64, table_count: usize) -> u8;
    pub fn sillbadger_update(w: u32, h: u32, target: *const f32, target_count: usize, canvas: *const f32, canvas_count: usize, ymin: i32, ymax: i32, table: *mut f64, table_count: usize) -> u8;
    }
}

/// The pattern of an f32 from that of an f64. Nothing is refused.
#[inline]
pub fn sillbadger_narrow_bits(bits: u64) -> i64 {
    unsafe { c::sillbadger_narrow_bits(bits) }
}

/// How many pixels of a picture of w by h a shape covers.
#[inline]
pub fn sillbadger_count_circle(w: u32, h: u32, cx: i32, cy: i32, r: i32) -> i64 {
    unsafe { c::sillbadger_count_circle(w, h, cx, cy, r) }
}

#[inline]
pub fn sillbadger_count_triangle(w: u32, h: u32, x0: i32, y0: i32, x1: i32, y1: i32, x2: i32, y2: i32) -> i64 {
    unsafe { c::sillbadger_count_triangle(w, h, x0, y0, x1, y1, x2, y2) }
}

#[inline]
pub fn sillbadger_count_quad(w: u32, h: u32, x0: i32, y0: i32, x1: i32, y1: i32, x2: i32, y2: i32, x3: i32, y3: i32) -> i64 {
    unsafe { c::sillbadger_count_quad(w, h, x0, y0, x1, y1, x2, y2, x3, y3) }
}

/// The first and the last covered column of row y.
#[inline]
pub fn sillbadger_left_circle(w: u32, h: u32, cx: i32, cy: i32, r: i32, y: i32) -> i64 {
    unsafe { c::sillbadger_left_circle(w, h, cx, cy, r, y) }
}

#[inline]
pub fn sillbadger_right_circle(w: u32, h: u32, cx: i32, cy: i32, r: i32, y: i32) -> i64 {
    unsafe { c::sillbadger_right_circle(w, h, cx, cy, r, y) }
}

#[inline]
pub fn sillbadger_left_triangle(w: u32, h: u32, x0: i32, y0: i32, x1: i32, y1: i32, x2: i32, y2: i32, y: i32) -> i64 {
    unsafe { c::sillbadger_left_triangle(w, h, x0, y0, x1, y1, x2, y2, y) }
}

#[inline]
pub fn sillbadger_right_triangle(w: u32, h: u32, x0: i32, y0: i32, x1: i32, y1: i32, x2: i32, y2: i32, y: i32) -> i64 {
    unsafe { c::sillbadger_right_triangle(w, h, x0, y0, x1, y1, x2, y2, y) }
}

#[inline]
pub fn sillbadger_left_quad(w: u32, h: u32, x0: i32, y0: i32, x1: i32, y1: i32, x2: i32, y2: i32, x3: i32, y3: i32, y: i32) -> i64 {
    unsafe { c::sillbadger_left_quad(w, h, x0, y0, x1, y1, x2, y2, x3, y3, y) }
}

#[inline]
pub fn sillbadger_right_quad(w: u32, h: u32, x0: i32, y0: i32, x1: i32, y1: i32, x2: i32, y2: i32, x3: i32, y3: i32, y: i32) -> i64 {
    unsafe { c::sillbadger_right_quad(w, h, x0, y0, x1, y1, x2, y2, x3, y3, y) }
}

/// Blends a shape into the canvas, then updates the table over the shape's rows.
#[inline]
pub fn sillbadger_paint(w: u32, h: u32, shape: &[i32], opacity: f32, red: f32, green: f32, blue: f32, target: &[f32], canvas: &mut [f32], table: &mut [f64]) -> u8 {
    unsafe { c::sillbadger_paint(w, h, shape.as_ptr(), shape.len(), opacity, red, green, blue, target.as_ptr(), target.len(), canvas.as_mut_ptr(), canvas.len(), table.as_mut_ptr(), table.len()) }
}

/// Fills 64 lent places with the opacity levels of a number of level bits; the unused are 0.
#[inline]
pub fn sillbadger_levels(bits: u32, levels: &mut [f32]) -> u8 {
    unsafe { c::sillbadger_levels(bits, levels.as_mut_ptr(), levels.len()) }
}

/// Every pixel has the colour.
#[inline]
pub fn sillbadger_fill(w: u32, h: u32, red: f32, green: f32, blue: f32, canvas: &mut [f32]) -> u8 {
    unsafe { c::sillbadger_fill(w, h, red, green, blue, canvas.as_mut_ptr(), canvas.len()) }
}

/// The mean colour of a picture: red, green, blue.
#[inline]
pub fn sillbadger_mean(w: u32, h: u32, target: &[f32]) -> SillbadgerAnswer {
    unsafe { c::sillbadger_mean(w, h, target.as_ptr(), target.len()) }
}

/// The total squared difference of two pictures: total.
#[inline]
pub fn sillbadger_total(w: u32, h: u32, target: &[f32], canvas: &[f32]) -> SillbadgerAnswer {
    unsafe { c::sillbadger_total(w, h, target.as_ptr(), target.len(), canvas.as_ptr(), canvas.len()) }
}

/// Refines the list over the background: passes, trials, acceptances. The list comes back in its slices; both work pictures end holding it drawn.
#[inline]
pub fn sillbadger_refine(w: u32, h: u32, red: f32, green: f32, blue: f32, sizes: &mut [u8], places: &mut [i32], paints: &mut [f32], offered_sizes: &[u8], offered_places: &[i32], offered_paints: &[f32], passes: u32, target: &[f32], first: &mut [f32], second: &mut [f32]) -> SillbadgerAnswer {
    unsafe { c::sillbadger_refine(w, h, red, green, blue, sizes.as_mut_ptr(), sizes.len(), places.as_mut_ptr(), places.len(), paints.as_mut_ptr(), paints.len(), offered_sizes.as_ptr(), offered_sizes.len(), offered_places.as_ptr(), offered_places.len(), offered_paints.as_ptr(), offered_paints.len(), passes, target.as_ptr(), target.len(), first.as_mut_ptr(), first.len(), second.as_mut_ptr(), second.len()) }
}

/// The score of a shape at one opacity, from a table: count, opacity, change, colour.
#[inline]
pub fn sillbadger_span_score(w: u32, h: u32, shape: &[i32], opacity: f32, table: &[f64]) -> SillbadgerAnswer {
    unsafe { c::sillbadger_span_score(w, h, shape.as_ptr(), shape.len(), opacity, table.as_ptr(), table.len()) }
}

/// The best score of a shape over the first `count` of 64 lent levels, from a table.
#[inline]
pub fn sillbadger_span_sweep(w: u32, h: u32, shape: &[i32], levels: &[f32], count: u32, table: &[f64]) -> SillbadgerAnswer {
    unsafe { c::sillbadger_span_sweep(w, h, shape.as_ptr(), shape.len(), levels.as_ptr(), levels.len(), count, table.as_ptr(), table.len()) }
}

/// The score of a circle or a triangle at one opacity, pixel by pixel from the pictures: count, opacity, change, colour.
#[inline]
pub fn sillbadger_point_score(w: u32, h: u32, shape: &[i32], opacity: f32, target: &[f32], canvas: &[f32]) -> SillbadgerAnswer {
    unsafe { c::sillbadger_point_score(w, h, shape.as_ptr(), shape.len(), opacity, target.as_ptr(), target.len(), canvas.as_ptr(), canvas.len()) }
}

/// The best score of a circle or a triangle over the first `count` of 64 lent levels, pixel by pixel from the pictures.
#[inline]
pub fn sillbadger_point_sweep(w: u32, h: u32, shape: &[i32], levels: &[f32], count: u32, target: &[f32], canvas: &[f32]) -> SillbadgerAnswer {
    unsafe { c::sillbadger_point_sweep(w, h, shape.as_ptr(), shape.len(), levels.as_ptr(), levels.len(), count, target.as_ptr(), target.len(), canvas.as_ptr(), canvas.len()) }
}

/// Writes the table of a target and a canvas.
#[inline]
pub fn sillbadger_build(w: u32, h: u32, target: &[f32], canvas: &[f32], table: &mut [f64]) -> u8 {
    unsafe { c::sillbadger_build(w, h, target.as_ptr(), target.len(), canvas.as_ptr(), canvas.len(), table.as_mut_ptr(), table.len()) }
}

/// Rewrites the canvas's sums in rows ymin to ymax, any numbers; with a negative ymax in every row from ymin on.
#[inline]
pub fn sillbadger_update(w: u32, h: u32, target: &[f32], canvas: &[f32], ymin: i32, ymax: i32, table: &mut [f64]) -> u8 {
    unsafe { c::sillbadger_update(w, h, target.as_ptr(), target.len(), canvas.as_ptr(), canvas.len(), ymin, ymax, table.as_mut_ptr(), table.len()) }
}
