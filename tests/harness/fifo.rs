//! The two queues, by pushes, pops and clears in any order.

use crate::bench::Bench;
use crate::states::{self, COLOUR};
use given::ppu::more::SelectedSprite;
use given::ppu::parts::ColorPalette;
use rattle::fifo::SpriteFifoPixel;
use rattle::sprite::Sprite;

fn colors(bench: &mut Bench) -> [u8; 8] {
    bench.random.next().to_le_bytes().map(|color| color % 4)
}

/// Sprites laid over each other, by index and by coordinate.
pub fn sprites(bench: &mut Bench) -> Result<(), String> {
    let mut s = rattle::memory::fresh_state(COLOUR);
    for i in 0..1_000_000 {
        if i % 40 == 0 {
            let len = bench.random.below(9) as u8;
            s.pipe.obj = states::sprite_queue(&mut bench.random, len);
            s.regs.coord = bench.random.once_in(2);
        }
        let op = bench.random.below(40);
        s = if op == 0 {
            bench
                .compare_after(
                    &s,
                    |g| g.ppu.part_obj().clear(),
                    |s, _| s.pipe.obj.clear(),
                )
                .map_err(|found| format!("  clear\n{}", found))?
        } else if op < 15 {
            let colors = colors(bench);
            let ink = SpriteFifoPixel {
                color: bench.random.byte(),
                ..states::sprite_pixel(&mut bench.random, true)
            };
            let flags = ink.obp << 4 | (ink.priority as u8) << 7;
            let sprite = Sprite {
                y: 0,
                x: 0,
                tile: 0,
                flags,
            };
            let selected = rattle::sprite::SelectedSprite {
                sprite,
                index: ink.index,
            };
            let selected = SelectedSprite::part_new(&selected);
            let palette = ColorPalette::part_new(&ink.palette);
            bench
                .compare_after(
                    &s,
                    |g| g.ppu.part_obj().push(colors, &selected, palette),
                    |s, _| s.pipe.obj.push(colors, ink, s.regs.coord),
                )
                .map_err(|found| format!("  push of {:?} in {:?}\n{}", colors, ink, found))?
        } else {
            bench
                .compare_after(
                    &s,
                    |g| g.ppu.part_obj().pop().map(|pixel| pixel.part()),
                    |s, _| s.pipe.obj.pop(),
                )
                .map_err(|found| format!("  pop\n{}", found))?
        };
    }
    Ok(())
}

pub fn background(bench: &mut Bench) -> Result<(), String> {
    let mut s = rattle::memory::fresh_state(COLOUR);
    for i in 0..1_000_000 {
        if i % 40 == 0 {
            let len = bench.random.below(17) as u8;
            s.pipe.bg = states::bg_queue(&mut bench.random, len);
        }
        s = if bench.random.once_in(40) {
            bench
                .compare_after(
                    &s,
                    |g| g.ppu.part_bg().clear(),
                    |s, _| s.pipe.bg.clear(),
                )
                .map_err(|found| format!("  clear\n{}", found))?
        } else if s.pipe.bg.len == 0 || s.pipe.bg.len <= 8 && bench.random.once_in(4) {
            let colors = colors(bench);
            let tile = states::bg_pixel(&mut bench.random, true);
            let palette = ColorPalette::part_new(&tile.palette);
            bench
                .compare_after(
                    &s,
                    |g| g.ppu.part_bg().push(colors, palette, tile.priority),
                    |s, _| s.pipe.bg.push(colors, tile.palette, tile.priority),
                )
                .map_err(|found| format!("  push of {:?} with {:?}\n{}", colors, tile, found))?
        } else {
            bench
                .compare_after(
                    &s,
                    |g| g.ppu.part_bg().pop().part(),
                    |s, _| s.pipe.bg.take_front(),
                )
                .map_err(|found| format!("  pop\n{}", found))?
        };
    }
    Ok(())
}
