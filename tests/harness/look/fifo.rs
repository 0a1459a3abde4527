
// Appended at build time: between the given queues and the Rattle ones. Of a Rattle queue only the pixels from the
// head on, as many as its length, count; read back, they stand from slot 0 on and the other slots are 0.

pub fn part_mode(coord: bool) -> SpritePriorityMode {
    if coord {
        SpritePriorityMode::ByCoord
    } else {
        SpritePriorityMode::ByIndex
    }
}

impl BgFifo {
    pub fn part_set(&mut self, q: &rattle::fifo::BgFifo) {
        self.pixels.clear();
        for k in 0..q.len as usize {
            let pixel = &q.pixels[(q.head as usize + k) % 16];
            *self.pixels.push_back() = BgFifoPixel {
                color: pixel.color,
                palette: ColorPalette::part_new(&pixel.palette),
                bg_priority: pixel.priority,
            };
        }
    }

    pub fn part(&self) -> rattle::fifo::BgFifo {
        let mut q = rattle::fifo::BgFifo::fresh();
        for (slot, pixel) in q.pixels.iter_mut().zip(self.pixels.iter()) {
            *slot = pixel.part();
        }
        q.len = self.pixels.len() as u8;
        q
    }
}

impl BgFifoPixel {
    pub fn part(&self) -> rattle::fifo::BgFifoPixel {
        rattle::fifo::BgFifoPixel {
            color: self.color,
            palette: self.palette.part(),
            priority: self.bg_priority,
        }
    }
}

impl SpriteFifo {
    pub fn part_set(&mut self, q: &rattle::fifo::SpriteFifo, coord: bool) {
        self.sprite_priority_mode = part_mode(coord);
        self.pixels.clear();
        for k in 0..q.len as usize {
            let pixel = &q.pixels[(q.head as usize + k) % 8];
            *self.pixels.push_back() = SpriteFifoPixel {
                color: pixel.color,
                palette: ColorPalette::part_new(&pixel.palette),
                dmg_palette: pixel.obp,
                index: pixel.index,
                oam_bg_priority: pixel.priority,
            };
        }
    }

    pub fn part(&self) -> rattle::fifo::SpriteFifo {
        let mut q = rattle::fifo::SpriteFifo::fresh();
        for (slot, pixel) in q.pixels.iter_mut().zip(self.pixels.iter()) {
            *slot = pixel.part();
        }
        q.len = self.pixels.len() as u8;
        q
    }

    pub fn part_coord(&self) -> bool {
        self.sprite_priority_mode == SpritePriorityMode::ByCoord
    }
}

impl SpriteFifoPixel {
    pub fn part(&self) -> rattle::fifo::SpriteFifoPixel {
        rattle::fifo::SpriteFifoPixel {
            color: self.color,
            palette: self.palette.part(),
            obp: self.dmg_palette,
            index: self.index,
            priority: self.oam_bg_priority,
        }
    }
}
