//! One pixel: the sprites that start at a place, and the mixer.

use crate::bench::Bench;
use crate::states;
use rattle::pixel::{self, Spot};

/// A pop of both queues, and the colour that is seen.
pub fn mixer(bench: &mut Bench) -> Result<(), String> {
    for _ in 0..1_000_000 {
        let mut s = states::drawing(&mut bench.random);
        s.pipe.bg.len = 1 + (s.pipe.bg.len + 15) % 16;
        let q = &mut s.pipe.bg;
        for pixel in &mut q.pixels {
            pixel.color %= 4;
        }
        bench.compare_after(
            &s,
            |g| g.ppu.part_next_color(),
            |s, _| {
                let bg = s.pipe.bg.take_front();
                let color = pixel::mixer(s.regs, bg, s.pipe.obj.pop());
                [color.r, color.g, color.b]
            },
        )?;
    }
    Ok(())
}

pub fn sprites(bench: &mut Bench) -> Result<(), String> {
    for i in 0..1_000_000 {
        if i % 20_000 == 0 {
            bench.shuffle_vram();
        }
        let mut s = states::drawing(&mut bench.random);
        if !bench.random.once_in(8) {
            s.regs.lcdc |= 2;
        }
        bench.compare_after(
            &s,
            |g| g.ppu.part_try_add_sprite(),
            |s, m| {
                let at = Spot {
                    line: s.beam.line,
                    x: s.beam.x,
                };
                s.pipe.obj = pixel::add_sprites(
                    &m.vram,
                    s.regs,
                    s.palettes.obj,
                    s.selection,
                    at,
                    s.pipe.obj,
                );
            },
        )?;
    }
    Ok(())
}
