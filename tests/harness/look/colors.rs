
// Appended at build time: between the given palettes and the Rattle ones.

impl ColorPalette {
    pub fn part_new(p: &rattle::colors::ColorPalette) -> Self {
        Self {
            data: [p.c0, p.c1, p.c2, p.c3],
        }
    }

    pub fn part(&self) -> rattle::colors::ColorPalette {
        let [c0, c1, c2, c3] = self.data;
        rattle::colors::ColorPalette { c0, c1, c2, c3 }
    }
}

impl ColorPalettesCollection {
    pub fn part_set(&mut self, p: &rattle::colors::PaletteSet) {
        self.index = p.index;
        self.auto_increment = p.auto;
        for (i, palette) in self.palettes.iter_mut().enumerate() {
            for (k, word) in palette.data.iter_mut().enumerate() {
                let at = 8 * i + 2 * k;
                *word = u16::from_le_bytes([p.bytes[at], p.bytes[at + 1]]);
            }
        }
    }

    pub fn part(&self) -> rattle::colors::PaletteSet {
        let mut bytes = [0; 64];
        for (i, palette) in self.palettes.iter().enumerate() {
            for (k, word) in palette.data.iter().enumerate() {
                let at = 8 * i + 2 * k;
                bytes[at..at + 2].copy_from_slice(&word.to_le_bytes());
            }
        }
        rattle::colors::PaletteSet {
            bytes,
            index: self.index,
            auto: self.auto_increment,
        }
    }
}
