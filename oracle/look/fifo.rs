
// Appended at build time: looking at private fields.

impl BgFifo {
    /// The live pixels, front to back.
    pub fn look(&self) -> impl Iterator<Item = &BgFifoPixel> + '_ {
        self.pixels.iter()
    }
}

impl SpriteFifo {
    /// The live pixels, front to back.
    pub fn look(&self) -> impl Iterator<Item = &SpriteFifoPixel> + '_ {
        self.pixels.iter()
    }
}
