
// Appended at build time: looking at private fields, and the parts under their names.

pub mod parts {
    pub use super::bg_attribs::BgAttribute;
    pub use super::colors::{Color, ColorPalette, ColorPalettesCollection};
    pub use super::lcd::{Lcd, LCD_HEIGHT, LCD_WIDTH};
    pub use super::sprite::Sprite;
}

/// Index, y, x, tile, flags.
pub type LookSelected = [u8; 5];

impl Ppu {
    /// The fresh state of the document: STAT holds the mode and nothing else.
    pub fn look_fresh(colour: bool, is_dmg: bool) -> Self {
        let mut ppu = Self::new_skip_boot_rom(colour, GameBoyConfig { is_dmg });
        ppu.lcd_status.coincidence_flag_set(false);
        ppu
    }

    pub fn look_stat(&self) -> u8 {
        self.lcd_status.bits()
    }

    pub fn look_line(&self) -> u8 {
        self.scanline
    }

    pub fn look_cycle(&self) -> u16 {
        self.cycle
    }

    pub fn look_mode_3_end(&self) -> u16 {
        self.mode_3_end_cycle
    }

    pub fn look_in_window(&self) -> bool {
        self.is_drawing_window
    }

    pub fn look_fetch_column(&self) -> u8 {
        self.fetcher.x
    }

    pub fn look_window_row(&self) -> u8 {
        self.window_y_counter
    }

    pub fn look_discard(&self) -> u8 {
        self.fine_scroll_x_discard
    }

    /// Whether a fetched row waits, and the lengths of the two queues.
    pub fn look_queues(&self) -> (bool, usize, usize) {
        (
            self.fetcher.data.is_some(),
            self.bg_fifo.len(),
            self.sprite_fifo.len(),
        )
    }

    pub fn look_lcd(&self) -> &Lcd {
        &self.lcd
    }

    pub fn look_oam(&self) -> [u8; 160] {
        let mut bytes = [0; 160];
        for (i, byte) in bytes.iter_mut().enumerate() {
            *byte = self.oam[i / 4].get_at_offset(i as u8 % 4);
        }
        bytes
    }

    pub fn look_vram(&self) -> &[u8; 0x4000] {
        &self.vram
    }

    pub fn look_mark(&mut self, count: u8) -> std::ops::Range<usize> {
        self.lcd.look_mark(self.scanline, count)
    }

    pub fn look_stored(&self, places: std::ops::Range<usize>) -> u16 {
        self.lcd.look_stored(places)
    }

    /// The given selection for a line and a sprite height, from empty slots.
    /// The machine itself stays as it was.
    pub fn look_pick(&mut self, line: u8, height: u8) -> (u8, [LookSelected; 10]) {
        let kept_line = self.scanline;
        let kept_control = self.lcd_control.bits();
        let kept_selected = self.selected_oam;
        let kept_size = self.selected_oam_size;

        self.scanline = line;
        self.lcd_control.set(LcdControl::SPRITE_SIZE, height == 16);
        self.selected_oam = [SelectedSprite::default(); 10];
        self.load_selected_sprites_oam();
        let mut slots = [[0; 5]; 10];
        for (slot, selected) in slots.iter_mut().zip(self.selected_oam.iter()) {
            *slot = look_selected(selected);
        }
        let count = self.selected_oam_size;

        self.scanline = kept_line;
        self.lcd_control = LcdControl::from_bits_truncate(kept_control);
        self.selected_oam = kept_selected;
        self.selected_oam_size = kept_size;
        (count, slots)
    }

    /// The bytes of the state in the order of the state digest.
    pub fn look_state(&self, count: u16, blanked: bool, out: &mut Vec<u8>) {
        out.extend_from_slice(&[
            self.lcd_control.bits(),
            self.lcd_status.bits(),
            self.scroll_y,
            self.scroll_x,
            self.ly,
            self.lyc,
            self.dmg_bg_palette,
            self.dmg_sprite_palettes[0],
            self.dmg_sprite_palettes[1],
            self.windows_y,
            self.windows_x,
            self.vram_bank,
            self.stat_interrupt_line as u8,
            (self.sprite_priority_mode == SpritePriorityMode::ByCoord) as u8,
            self.is_cgb_mode as u8,
            self.config.is_dmg as u8,
            self.scanline,
        ]);
        out.extend_from_slice(&self.cycle.to_le_bytes());
        out.extend_from_slice(&[self.lcd.x(), self.lcd.look_shown()]);
        out.extend_from_slice(&self.mode_3_end_cycle.to_le_bytes());
        out.extend_from_slice(&count.to_le_bytes());
        out.extend_from_slice(&[
            self.lcd_turned_on as u8,
            blanked as u8,
            self.is_drawing_window as u8,
            self.window_y_counter,
            self.fine_scroll_x_discard,
            self.fetcher.delay_counter,
            self.fetcher.x,
            self.fetcher.data.is_some() as u8,
        ]);
        if let Some((colours, attributes)) = &self.fetcher.data {
            out.extend_from_slice(colours);
            out.push(attributes.bits());
        }

        out.push(self.bg_fifo.len() as u8);
        for pixel in self.bg_fifo.look() {
            out.extend_from_slice(&[pixel.color, pixel.bg_priority as u8]);
            look_palette(&pixel.palette, out);
        }
        out.push(self.sprite_fifo.len() as u8);
        for pixel in self.sprite_fifo.look() {
            out.extend_from_slice(&[
                pixel.color,
                pixel.dmg_palette,
                pixel.index,
                pixel.oam_bg_priority as u8,
            ]);
            look_palette(&pixel.palette, out);
        }

        out.push(self.selected_oam_size);
        for selected in &self.selected_oam[..self.selected_oam_size as usize] {
            out.extend_from_slice(&look_selected(selected));
        }

        for set in [&self.cgb_bg_palettes, &self.cgb_sprite_palettes] {
            let (index, auto, palettes) = set.look();
            out.extend_from_slice(&[index, auto as u8]);
            for palette in palettes {
                look_palette(palette, out);
            }
        }
    }

    /// The first rule of "a state is in order" that does not hold, if any.
    pub fn look_disorder(&self) -> Option<&'static str> {
        let fetched_in_order = match &self.fetcher.data {
            Some((colours, _)) => colours.iter().all(|&colour| colour <= 3),
            None => true,
        };
        let rules = [
            (self.cycle % 2 == 0 && self.cycle < 456, "cycle"),
            (self.scanline < 154, "line"),
            (self.ly < 154, "LY"),
            (self.lcd.x() < 160, "LCD x"),
            (self.vram_bank < 2, "bank"),
            (self.lcd.look_shown() < 2, "shown picture"),
            (self.fetcher.delay_counter <= 8, "fetch delay"),
            (self.bg_fifo.len() <= 16, "background queue"),
            (self.sprite_fifo.len() <= 8, "sprite queue"),
            (self.selected_oam_size <= 10, "selected count"),
            (
                self.selected_oam[..self.selected_oam_size as usize]
                    .iter()
                    .all(|selected| selected.index() < 40),
                "selected index",
            ),
            (fetched_in_order, "fetched colour"),
            (
                self.bg_fifo.look().all(|pixel| pixel.color <= 3),
                "queued background colour",
            ),
            (
                self.sprite_fifo
                    .look()
                    .all(|p| p.color <= 3 && p.index < 40 && p.dmg_palette < 2),
                "queued sprite pixel",
            ),
            (
                self.cgb_bg_palettes.look().0 < 64 && self.cgb_sprite_palettes.look().0 < 64,
                "palette index",
            ),
            (self.lcd_status.bits() < 128, "STAT"),
            (
                self.lcd_status.current_mode() != 3 || self.scanline < 144,
                "mode 3 on a line above 143",
            ),
        ];
        rules.iter().find(|(holds, _)| !holds).map(|(_, name)| *name)
    }
}

fn look_palette(palette: &ColorPalette, out: &mut Vec<u8>) {
    for raw in palette.look_raw() {
        out.extend_from_slice(&raw.to_le_bytes());
    }
}

fn look_selected(selected: &SelectedSprite) -> LookSelected {
    let sprite = selected.sprite();
    [
        selected.index(),
        sprite.get_at_offset(0),
        sprite.get_at_offset(1),
        sprite.get_at_offset(2),
        sprite.get_at_offset(3),
    ]
}
