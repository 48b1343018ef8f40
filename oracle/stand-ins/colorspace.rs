//! Stand-in for the published colorspace.rs, which is not at hand. Nothing that is ported calls it.

pub fn srgb_u8_to_linear(_byte: u8) -> f32 {
    unimplemented!("colorspace is a stand-in")
}

pub fn linear_to_srgb_u8(_value: f32) -> u8 {
    unimplemented!("colorspace is a stand-in")
}
