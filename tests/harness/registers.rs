//! The registers: the table, writes, blanking, reads, and the colour flag.

use crate::bench::{fill, same, Bench, Given};
use crate::states;
use rattle::registers::{kept_bits, read_register, set_colour, write_register};
use rattle::state::State;

/// The writable addresses and the bits kept, as the document has them.
const KEPT: [(u16, u8); 16] = [
    (0xFF40, 0xFF),
    (0xFF41, 0x78),
    (0xFF42, 0xFF),
    (0xFF43, 0xFF),
    (0xFF45, 0xFF),
    (0xFF47, 0xFF),
    (0xFF48, 0xFF),
    (0xFF49, 0xFF),
    (0xFF4A, 0xFF),
    (0xFF4B, 0xFF),
    (0xFF4F, 0x01),
    (0xFF68, 0xBF),
    (0xFF69, 0xFF),
    (0xFF6A, 0xBF),
    (0xFF6B, 0xFF),
    (0xFF6C, 0x01),
];

pub fn table(bench: &mut Bench) -> Result<(), String> {
    for address in 0..=0xFFFF {
        let wanted = KEPT
            .iter()
            .find(|(at, _)| *at == address)
            .map_or(0, |(_, kept)| *kept);
        same(
            wanted,
            || kept_bits(address),
            || format!("address {:04X}", address),
        )?;
        bench.cases += 1;
    }
    Ok(())
}

/// A write on both sides; the answer is whether the address is refused.
fn write(bench: &mut Bench, s: &State, address: u16, value: u8) -> Result<State, String> {
    let [low, high] = address.to_le_bytes();
    let given = |g: &mut Given| g.answer([3, low, high, value, 0, 0, 0, 0])[0] == 4;
    bench
        .compare_after(s, given, |s, m| {
            *s = write_register(*s, &mut m.a, &mut m.b, address, value);
            kept_bits(address) == 0
        })
        .map_err(|found| format!("  write of {:02X} to {:04X}\n{}", value, address, found))
}

/// Every address, sixteen values each, and every value at the writable ones.
pub fn writes(bench: &mut Bench) -> Result<(), String> {
    for address in 0..=0xFFFF {
        let mut s = states::in_order(&mut bench.random);
        for k in 0..16 {
            if k == 8 {
                s = states::in_order(&mut bench.random);
            }
            let value = bench.random.byte();
            write(bench, &s, address, value)?;
        }
    }
    for (address, _) in KEPT {
        for _ in 0..32 {
            let mut s = states::in_order(&mut bench.random);
            if address == 0xFF40 {
                s.regs.lcdc &= 0x7F;
            }
            for value in 0..=255 {
                write(bench, &s, address, value)?;
            }
        }
    }
    bench.compare_memory()
}

/// Both pictures white, and every field as it must be after it.
pub fn blanking(bench: &mut Bench) -> Result<(), String> {
    for _ in 0..5_000 {
        let mut s = states::in_order(&mut bench.random);
        s.regs.lcdc |= 0x80;
        let value = bench.random.byte() & 0x7F;
        for picture in [&mut bench.memory.a, &mut bench.memory.b] {
            let at = bench.random.below(69_120 - 512) as usize;
            fill(&mut bench.random, &mut picture[at..at + 512]);
        }
        let [a, b] = bench.given.ppu.part_lcd().part_pictures();
        a.copy_from_slice(&bench.memory.a);
        b.copy_from_slice(&bench.memory.b);
        let after = write(bench, &s, 0xFF40, value)?;
        bench.compare_memory()?;
        for (name, picture) in [("A", &bench.memory.a), ("B", &bench.memory.b)] {
            let white = picture.iter().all(|&byte| byte == 255);
            same(
                true,
                || white,
                || format!("picture {} after a blanking: white", name),
            )?;
        }
        let mut wanted = s;
        wanted.regs.lcdc = value;
        wanted.regs.stat &= 0xFC;
        wanted.regs.ly = 0;
        wanted.beam.line = 0;
        wanted.beam.cycle = 4;
        wanted.beam.count = 0;
        wanted.beam.turned = true;
        wanted.beam.blanked = true;
        same(
            wanted,
            || after,
            || format!("write of {:02X} to FF40 on {:?}", value, s),
        )?;
    }
    Ok(())
}

pub fn reads(bench: &mut Bench) -> Result<(), String> {
    for _ in 0..100_000 {
        let s = states::in_order(&mut bench.random);
        for address in 0xFF68..=0xFF6Bu16 {
            let [low, high] = address.to_le_bytes();
            bench
                .compare_after(
                    &s,
                    |g| {
                        let answer = g.answer([4, low, high, 0, 0, 0, 0, 0]);
                        (answer[0], answer[1])
                    },
                    |s, _| (0, read_register(s.palettes, address)),
                )
                .map_err(|found| format!("  read of {:04X}\n{}", address, found))?;
        }
    }
    Ok(())
}

pub fn colour(bench: &mut Bench) -> Result<(), String> {
    for i in 0..100_000 {
        let mut s = states::in_order(&mut bench.random);
        s.machine.dmg = i & 1 == 1;
        let flag = i & 2 == 2;
        bench
            .compare_after(
                &s,
                |g| g.ppu.update_cgb_mode(flag),
                |s, _| *s = set_colour(*s, flag),
            )
            .map_err(|found| format!("  colour flag {}\n{}", flag, found))?;
    }
    Ok(())
}
