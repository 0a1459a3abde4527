
// Appended at build time: the pictures A and B.

impl Lcd {
    pub fn part_set_shown(&mut self, shown: u8) {
        self.selected_buffer = shown as usize;
    }

    pub fn part_pictures(&mut self) -> [&mut [u8]; 2] {
        let [a, b] = &mut *self.buf;
        [a, b]
    }

    pub fn part_picture(&self, which: usize) -> &[u8] {
        &self.buf[which]
    }
}
