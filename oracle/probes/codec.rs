pub mod probe {
    use super::CodecConfig;

    /// The opacity levels for a number of level bits.
    pub fn alpha_levels_owned(bits: u32) -> Vec<f32> {
        let config = CodecConfig { alpha_bits: bits, ..CodecConfig::default() };
        config.alpha_levels_owned()
    }

    /// A configuration that hands `fit_topk_uniform` any level list, with no palette.
    pub fn with_levels(n_shapes: u32, levels: &[f32]) -> CodecConfig {
        CodecConfig { n_shapes, alpha_levels: Some(levels.to_vec()), ..CodecConfig::default() }
    }
}
