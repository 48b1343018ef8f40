//! The published Rust as one crate: the modules that are at hand, and two stand-ins.
//! `oracle/build` puts this file beside copies of the published files, each with its
//! probes appended (see oracle/README.md), and compiles it.

#![allow(dead_code)]

pub mod bitio;
pub mod codec;
pub mod colorspace;

pub mod shape {
    pub mod circle;
    pub mod common;
    pub mod integral;
    pub mod options;
    pub mod palette;
    pub mod quant;
    pub mod raster;
    pub mod residual;
    pub mod rng;
    pub mod triangle;
}
