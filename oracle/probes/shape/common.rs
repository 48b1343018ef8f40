pub mod probe {
    use super::{EvalResult, PaletteIndex, ShapeSums};

    pub fn mean_rgb(target: &[f32]) -> [f32; 3] {
        super::mean_rgb(target)
    }

    pub fn filled_canvas(bg: [f32; 3], h: u32, w: u32) -> Vec<f32> {
        super::filled_canvas(bg, h, w)
    }

    pub fn alpha_sweep(
        sums: &ShapeSums,
        alpha_levels: &[f32],
        palette: Option<&PaletteIndex>,
    ) -> (f32, EvalResult) {
        super::alpha_sweep(sums, alpha_levels, palette)
    }

    pub fn sse_total(target: &[f32], canvas: &[f32]) -> f64 {
        super::sse_total(target, canvas)
    }

    #[allow(clippy::too_many_arguments)]
    pub fn refine_shapes<S>(
        target: &[f32],
        bg: [f32; 3],
        h: u32,
        w: u32,
        shapes: &mut Vec<S>,
        passes: u32,
        apply_quantized: impl Fn(&mut [f32], &S),
        search: impl FnMut(&[f32]) -> Option<S>,
    ) {
        super::refine_shapes(target, bg, h, w, shapes, passes, apply_quantized, search)
    }
}
