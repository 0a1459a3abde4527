
// Appended at build time: looking at private fields.

/// A byte that `push` never leaves in `raw_buf`: it stores at most 0x1F there.
const LOOK_MARK: u8 = 0xEE;

impl Lcd {
    pub fn look_set_x(&mut self, x: u8) {
        self.x = x;
    }

    /// 0 for picture A, 1 for picture B.
    pub fn look_shown(&self) -> u8 {
        self.selected_buffer as u8
    }

    /// The shown picture (0) or the other one (1).
    pub fn look_picture(&self, other: usize) -> &[u8] {
        &self.buf[self.selected_buffer ^ (other & 1)]
    }

    /// Marks in `raw_buf`, which is no part of the machine, the next `count` places of
    /// the line, so that `look_stored` can tell which of them `push` has written since.
    pub fn look_mark(&mut self, line: u8, count: u8) -> std::ops::Range<usize> {
        if line as usize >= LCD_HEIGHT {
            return 0..0;
        }
        let first = line as usize * LCD_WIDTH + self.x as usize;
        let end = (first + count as usize).min((line as usize + 1) * LCD_WIDTH);
        for place in first..end {
            self.raw_buf[place * 3] = LOOK_MARK;
        }
        first..end
    }

    /// How many of the marked places were written.
    pub fn look_stored(&self, places: std::ops::Range<usize>) -> u16 {
        places
            .filter(|place| self.raw_buf[place * 3] != LOOK_MARK)
            .count() as u16
    }
}
