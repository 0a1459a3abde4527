
// Appended at build time: between the given machine and the Rattle state, field by field, and the given parts that are
// private. The count of stored places, whether it was blanked since the last swap and whether the start wanted colour mode
// are no part of the given machine.

pub mod more {
    pub use super::fifo::{BgFifo, SpriteFifo};
    pub use super::sprite::SelectedSprite;
}

impl Ppu {
    /// Every field but the count, the blanking, the wanted colour mode, VRAM, OAM and the pictures.
    pub fn part_set(&mut self, s: &rattle::state::State) {
        let r = &s.regs;
        self.lcd_control = LcdControl::from_bits_truncate(r.lcdc);
        self.lcd_status = LcdStatus::from_bits_truncate(r.stat);
        self.scroll_y = r.scy;
        self.scroll_x = r.scx;
        self.ly = r.ly;
        self.lyc = r.lyc;
        self.dmg_bg_palette = r.bgp;
        self.dmg_sprite_palettes = [r.obp0, r.obp1];
        self.windows_y = r.wy;
        self.windows_x = r.wx;
        self.vram_bank = r.vbk;
        self.sprite_priority_mode = fifo::part_mode(r.coord);
        self.is_cgb_mode = r.cgb;
        self.config = GameBoyConfig {
            is_dmg: s.machine.dmg,
        };
        self.cgb_bg_palettes.part_set(&s.palettes.bg);
        self.cgb_sprite_palettes.part_set(&s.palettes.obj);
        self.part_set_selection(&s.selection);
        self.part_set_pipe(&s.pipe, r.coord);
        let b = &s.beam;
        self.scanline = b.line;
        self.cycle = b.cycle;
        self.lcd.look_set_x(b.x);
        self.lcd.part_set_shown(b.shown);
        self.mode_3_end_cycle = b.end;
        self.stat_interrupt_line = b.level;
        self.lcd_turned_on = b.turned;
    }

    pub fn part_set_selection(&mut self, l: &rattle::sprite::Selection) {
        self.selected_oam_size = l.count;
        for (slot, selected) in self.selected_oam.iter_mut().zip(&l.slots) {
            *slot = SelectedSprite::part_new(selected);
        }
    }

    fn part_set_pipe(&mut self, p: &rattle::state::Pipe, coord: bool) {
        self.fetcher.delay_counter = p.fetcher.delay;
        self.fetcher.x = p.fetcher.column;
        let waiting = p.fetcher.waiting;
        self.fetcher.data = waiting.map(|t| (p.fetcher.row, BgAttribute::new(t.bits)));
        self.bg_fifo.part_set(&p.bg);
        self.sprite_fifo.part_set(&p.obj, coord);
        self.is_drawing_window = p.window;
        self.window_y_counter = p.wrow;
        self.fine_scroll_x_discard = p.discard;
    }

    /// The state in its plain form: queues from slot 0 on, 0s where nothing stands.
    pub fn part_state(&self, count: u16, blanked: bool, cgb: bool) -> rattle::state::State {
        use rattle::bg_attribs::BgAttribute;
        use rattle::state::{Beam, Fetcher, Palettes, Pipe, Registers, State};
        let coord = self.sprite_priority_mode == SpritePriorityMode::ByCoord;
        assert!(coord == self.sprite_fifo.part_coord());
        let (row, waiting) = match &self.fetcher.data {
            Some((row, t)) => (*row, Some(BgAttribute { bits: t.bits() })),
            None => ([0; 8], None),
        };
        State {
            machine: rattle::hardware::Machine {
                dmg: self.config.is_dmg,
                cgb,
            },
            regs: Registers {
                lcdc: self.lcd_control.bits(),
                stat: self.lcd_status.bits(),
                scy: self.scroll_y,
                scx: self.scroll_x,
                ly: self.ly,
                lyc: self.lyc,
                bgp: self.dmg_bg_palette,
                obp0: self.dmg_sprite_palettes[0],
                obp1: self.dmg_sprite_palettes[1],
                wy: self.windows_y,
                wx: self.windows_x,
                vbk: self.vram_bank,
                coord,
                cgb: self.is_cgb_mode,
            },
            palettes: Palettes {
                bg: self.cgb_bg_palettes.part(),
                obj: self.cgb_sprite_palettes.part(),
            },
            selection: rattle::sprite::Selection {
                count: self.selected_oam_size,
                slots: std::array::from_fn(|k| self.selected_oam[k].part()),
            },
            pipe: Pipe {
                fetcher: Fetcher {
                    delay: self.fetcher.delay_counter,
                    column: self.fetcher.x,
                    row,
                    waiting,
                },
                bg: self.bg_fifo.part(),
                obj: self.sprite_fifo.part(),
                window: self.is_drawing_window,
                wrow: self.window_y_counter,
                discard: self.fine_scroll_x_discard,
            },
            beam: Beam {
                line: self.scanline,
                cycle: self.cycle,
                x: self.lcd.x(),
                shown: self.lcd.look_shown(),
                count,
                end: self.mode_3_end_cycle,
                level: self.stat_interrupt_line,
                turned: self.lcd_turned_on,
                blanked,
            },
        }
    }

    pub fn part_vram(&mut self) -> &mut [u8] {
        &mut self.vram
    }

    pub fn part_lcd(&mut self) -> &mut Lcd {
        &mut self.lcd
    }

    pub fn part_bg(&mut self) -> &mut BgFifo {
        &mut self.bg_fifo
    }

    pub fn part_obj(&mut self) -> &mut SpriteFifo {
        &mut self.sprite_fifo
    }

    pub fn part_set_oam(&mut self, bytes: &[u8]) {
        for (sprite, four) in self.oam.iter_mut().zip(bytes.chunks_exact(4)) {
            *sprite = Sprite::part_new([four[0], four[1], four[2], four[3]]);
        }
    }

    /// Mode and cycle, for a corruption of OAM.
    pub fn part_set_cycle(&mut self, mode: u8, cycle: u16) {
        self.lcd_status.current_mode_set(mode);
        self.cycle = cycle;
    }

    /// `fetch_bg` of a fetch.
    pub fn part_fetch_bg(&mut self, f: &rattle::tiles::Fetch) -> ([u8; 8], u8) {
        self.is_cgb_mode = f.cgb;
        self.lcd_control = LcdControl::from_bits_truncate(f.lcdc);
        self.is_drawing_window = f.window;
        self.scroll_x = f.scx;
        self.scroll_y = f.scy;
        self.scanline = f.line;
        self.window_y_counter = f.wrow;
        self.fetcher.x = f.column;
        let (row, attribute) = self.fetch_bg();
        (row, attribute.bits())
    }

    /// The row at an offset of a bank, read and decoded by the given text.
    pub fn part_row(&self, bank: u8, offset: u16) -> [u8; 8] {
        self.get_tile_pattern_from_index(offset, 0, bank)
    }

    /// The row of two bytes alone, decoded by the given text; they are put at the beginning of VRAM.
    pub fn part_decode(&mut self, bytes: [u8; 2]) -> [u8; 8] {
        self.vram[..2].copy_from_slice(&bytes);
        self.part_row(0, 0)
    }

    /// The colours that the first selected sprite brings into an empty queue at a place, if it starts there.
    pub fn part_sprite_colors(
        &mut self,
        s: &rattle::sprite::Sprite,
        line: u8,
        tall: u8,
        x: u8,
    ) -> Option<[u8; 8]> {
        let bit = if tall == 16 { 4 } else { 0 };
        self.lcd_control = LcdControl::from_bits_truncate(2 + bit);
        self.selected_oam[0] =
            SelectedSprite::part_new(&rattle::sprite::SelectedSprite { sprite: *s, index: 0 });
        self.selected_oam_size = 1;
        self.scanline = line;
        self.lcd.look_set_x(x);
        self.sprite_fifo.clear();
        self.try_add_sprite();
        match self.sprite_fifo.len() {
            0 => None,
            _ => {
                let mut colors = [0; 8];
                for (color, pixel) in colors.iter_mut().zip(self.sprite_fifo.look()) {
                    *color = pixel.color;
                }
                Some(colors)
            }
        }
    }

    pub fn part_select(&mut self) {
        self.load_selected_sprites_oam();
    }

    /// The selection of a line for sprites so tall, from empty slots.
    pub fn part_pick(&mut self, line: u8, tall: u8) -> rattle::sprite::Selection {
        self.scanline = line;
        self.lcd_control.set(LcdControl::SPRITE_SIZE, tall == 16);
        self.selected_oam = [SelectedSprite::default(); 10];
        self.load_selected_sprites_oam();
        rattle::sprite::Selection {
            count: self.selected_oam_size,
            slots: std::array::from_fn(|k| self.selected_oam[k].part()),
        }
    }

    pub fn part_try_enter_window(&mut self) {
        self.try_enter_window();
    }

    /// The fetcher's cycle, as in `draw`.
    pub fn part_cycle_fetcher(&mut self) {
        if self.fetcher.cycle() {
            let (bg, attribs) = self.fetch_bg();
            self.fetcher.push(bg, attribs);
        }
    }

    /// The fetched row into the queue, as in `draw`.
    pub fn part_feed(&mut self) {
        if self.bg_fifo.len() <= 8 {
            if let Some((pixels, attribs)) = self.fetcher.pop() {
                self.bg_fifo.push(
                    pixels,
                    self.cgb_bg_palettes.get_palette(attribs.palette()),
                    attribs.priority(),
                );
            }
        }
    }

    pub fn part_try_add_sprite(&mut self) {
        self.try_add_sprite();
    }

    pub fn part_next_color(&mut self) -> [u8; 3] {
        let color = self.get_next_color();
        [color.r, color.g, color.b]
    }

    /// One draw and, if it ends the line, what `clock` does then; gives the number of places stored.
    pub fn part_draw(&mut self) -> u16 {
        let places = self.look_mark(1);
        if self.draw() {
            self.lcd_status.current_mode_set(0);
            self.mode_3_end_cycle = self.cycle;
            self.enter_hblank();
        }
        self.look_stored(places)
    }
}
