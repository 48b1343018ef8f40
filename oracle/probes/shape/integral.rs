pub mod probe {
    use super::{Integral, ShapeSums};

    pub fn isqrt_i64(n: i64) -> i64 {
        super::isqrt_i64(n)
    }

    pub fn div_floor_i64(a: i64, b: i64) -> i64 {
        super::div_floor_i64(a, b)
    }

    pub fn div_ceil_i64(a: i64, b: i64) -> i64 {
        super::div_ceil_i64(a, b)
    }

    /// The table's numbers.
    pub fn data(integral: &Integral) -> &[f64] {
        &integral.data
    }

    /// A table of any numbers, built from no picture.
    pub fn with_data(h: u32, w: u32, data: Vec<f64>) -> Integral {
        let row_stride = (w as usize + 1) * super::SLOT;
        assert_eq!(data.len(), h as usize * row_stride);
        Integral { h: h as usize, w: w as usize, row_stride, data }
    }

    pub fn add_span(integral: &Integral, y: usize, x_l: usize, x_r: usize, sums: &mut ShapeSums) {
        integral.add_span(y, x_l, x_r, sums)
    }
}
