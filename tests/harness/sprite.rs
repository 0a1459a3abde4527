//! The selection of a line, over the slots of the one before.

use crate::bench::{fill, Bench};
use crate::states;

pub fn selects(bench: &mut Bench) -> Result<(), String> {
    for i in 0..300_000 {
        let s = states::in_order(&mut bench.random);
        fill(&mut bench.random, &mut bench.memory.oam);
        // none to all forty in range
        let often = 1 + i % 9;
        for entry in bench.memory.oam.chunks_exact_mut(4) {
            if bench.random.once_in(often) {
                entry[0] = s.beam.line.wrapping_add(17).wrapping_sub(entry[0] % 18);
            }
        }
        bench.given.ppu.part_set_oam(&bench.memory.oam);
        bench.compare_after(
            &s,
            |g| g.ppu.part_select(),
            |s, m| {
                let tall = if s.regs.lcdc & 4 == 0 { 8 } else { 16 };
                s.selection = rattle::sprite::select(&m.oam, s.beam.line, tall, s.selection.slots);
            },
        )?;
    }
    Ok(())
}
