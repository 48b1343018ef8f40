pub mod probe {
    use super::{Codec, SearchOptions, Triangle};

    pub fn triangle_row_range(verts: [(i32, i32); 3], h: u32) -> (i32, i32) {
        super::triangle_row_range(verts, h)
    }

    pub fn fit_topk_uniform(
        target: &[f32],
        h: u32,
        w: u32,
        codec: &Codec,
        seed: u64,
        search: &SearchOptions,
    ) -> ([f32; 3], Vec<Triangle>) {
        super::fit_topk_uniform(target, h, w, codec, seed, search)
    }
}
