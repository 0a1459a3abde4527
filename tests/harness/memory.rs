//! The start, and writes to VRAM and OAM.

use crate::bench::{fill, same, Bench, Given};
use crate::states::{self, COLOUR};
use rattle::hardware::Machine;

/// Every machine, over whatever stood in the memory.
pub fn start(bench: &mut Bench) -> Result<(), String> {
    for i in 0..400 {
        bench.shuffle();
        let (dmg, cgb) = (i & 1 == 1, i & 2 == 2);
        let machine = Machine { dmg, cgb };
        let s = states::in_order(&mut bench.random);
        bench
            .compare_after(
                &s,
                |g: &mut Given| g.answer([1, dmg as u8, cgb as u8, 0, 0, 0, 0, 0])[0],
                |s, m| {
                    *s =
                        rattle::memory::start(machine, &mut m.vram, &mut m.oam, &mut m.a, &mut m.b);
                    0
                },
            )
            .and_then(|_| bench.compare_memory())
            .map_err(|found| format!("  start, {:?}\n{}", machine, found))?;
        let got = || rattle::order::in_order(rattle::memory::fresh_state(machine));
        same(true, got, || format!("fresh state in order, {:?}", machine))?;
    }
    Ok(())
}

pub fn vram(bench: &mut Bench) -> Result<(), String> {
    let mut s = rattle::memory::fresh_state(COLOUR);
    bench.set(&s);
    for i in 0..1_000_000u32 {
        if i % 256 == 0 {
            s.regs.vbk = bench.random.below(2) as u8;
            bench.given.ppu.write_vram_bank(s.regs.vbk);
        }
        let word = bench.random.next();
        let (address, value) = (word as u16, (word >> 16) as u8);
        bench.given.ppu.write_vram(address, value);
        let vram = &mut bench.memory.vram;
        let at = 8192 * s.regs.vbk as usize + address as usize % 8192;
        same(
            value,
            || {
                rattle::memory::write_vram(vram, s.regs.vbk, address, value);
                vram[at]
            },
            || {
                format!(
                    "bank {}, address {:04X}, value {:02X}",
                    s.regs.vbk, address, value
                )
            },
        )?;
        if i % 256 == 255 {
            bench.compare_memory()?;
            fill(&mut bench.random, &mut bench.memory.vram[..64]);
            bench.given.ppu.part_vram()[..64].copy_from_slice(&bench.memory.vram[..64]);
        }
        bench.cases += 1;
    }
    bench.compare_memory()
}

pub fn oam(bench: &mut Bench) -> Result<(), String> {
    for _ in 0..1_000_000 {
        let word = bench.random.next();
        let address = (word as u16 & 0xFF00) | bench.random.below(160) as u16;
        let value = (word >> 16) as u8;
        bench.given.ppu.write_oam_no_lock(address, value);
        let oam = &mut bench.memory.oam;
        same(
            bench.given.ppu.look_oam().to_vec(),
            || {
                rattle::memory::write_oam(oam, address, value);
                oam.clone()
            },
            || format!("address {:04X}, value {:02X}", address, value),
        )?;
        bench.cases += 1;
    }
    Ok(())
}
