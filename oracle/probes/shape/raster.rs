pub mod probe {
    use super::ShapeSums;

    pub fn push(sums: &mut ShapeSums, t: &[f32], c: &[f32]) {
        sums.push(t, c)
    }
}
