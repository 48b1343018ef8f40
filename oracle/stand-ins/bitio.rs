//! Stand-in for the published bitio.rs, which is not at hand. Nothing that is ported calls it.

pub struct BitWriter;

impl BitWriter {
    pub fn new() -> Self {
        BitWriter
    }

    pub fn write(&mut self, _value: u32, _bits: u32) {
        unimplemented!("bitio is a stand-in")
    }

    pub fn finish(self) -> Vec<u8> {
        unimplemented!("bitio is a stand-in")
    }
}

pub struct BitReader<'a>(std::marker::PhantomData<&'a [u8]>);

impl<'a> BitReader<'a> {
    pub fn new(_bytes: &'a [u8]) -> Self {
        unimplemented!("bitio is a stand-in")
    }

    pub fn read(&mut self, _bits: u32) -> u32 {
        unimplemented!("bitio is a stand-in")
    }
}
