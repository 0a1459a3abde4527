
// Appended at build time: looking at private fields.

impl ColorPalette {
    /// The four raw colours.
    pub fn look_raw(&self) -> [u16; 4] {
        self.data
    }
}

impl ColorPalettesCollection {
    /// Index, auto bit, the eight palettes.
    pub fn look(&self) -> (u8, bool, &[ColorPalette; 8]) {
        (self.index, self.auto_increment, &self.palettes)
    }
}
