//! The OAM corruption: every row, mode and kind of access.

use crate::bench::{caught, fill, Bench};
use crate::bytes::{set_bytes, shrink};
use given::machine::{corrupt, CORRUPTIONS};
use given::ppu::Ppu;
use rattle::oam_bug;

const KINDS: u8 = CORRUPTIONS.len() as u8;

fn wanted(ppu: &mut Ppu, oam: &[u8], kind: u8, mode: u8, cycle: u16) -> [u8; 160] {
    ppu.part_set_oam(oam);
    ppu.part_set_cycle(mode, cycle);
    corrupt(ppu, kind);
    ppu.look_oam()
}

fn got(oam: &[u8], kind: u8, mode: u8, cycle: u16) -> Result<[u8; 160], String> {
    caught(|| {
        let mut oam: [u8; 160] = oam.try_into().unwrap();
        let row = oam_bug::corrupted_row(mode, cycle);
        oam_bug::corrupt(&mut oam, row, kind.try_into().unwrap());
        oam
    })
}

fn compare(bench: &mut Bench, oam: &[u8], kind: u8, mode: u8, cycle: u16) -> Result<(), String> {
    let ppu = &mut bench.given.ppu;
    if Ok(wanted(ppu, oam, kind, mode, cycle)) == got(oam, kind, mode, cycle) {
        bench.cases += 1;
        return Ok(());
    }
    let mut oam = oam.to_vec();
    shrink(&mut oam, |oam| {
        Ok(wanted(ppu, oam, kind, mode, cycle)) != got(oam, kind, mode, cycle)
    });
    let bytes =
        |name: &str, bytes: &[u8]| set_bytes(name, bytes).unwrap_or(format!("  {}: all 0", name));
    let wanted = bytes("wanted", &wanted(ppu, &oam, kind, mode, cycle));
    let got = match got(&oam, kind, mode, cycle) {
        Ok(after) => bytes("got", &after),
        Err(stop) => format!("  got: {}", stop),
    };
    let name = CORRUPTIONS[kind as usize];
    let inputs = format!("  {} in mode {} at cycle {}", name, mode, cycle);
    Err([inputs, bytes("OAM", &oam), wanted, got].join("\n"))
}

pub fn corruptions(bench: &mut Bench) -> Result<(), String> {
    let mut oam = [0; 160];
    for i in 0..20_000 {
        fill(&mut bench.random, &mut oam);
        if i % 4 == 0 {
            // few bits set
            let mut mask = [0; 160];
            fill(&mut bench.random, &mut mask);
            oam.iter_mut()
                .zip(mask)
                .for_each(|(byte, mask)| *byte &= mask);
        }
        for kind in 0..KINDS {
            for row in 0..20 {
                let cycle = 4 + 4 * row + bench.random.below(4) as u16;
                compare(bench, &oam, kind, 2, cycle)?;
            }
            let (mode, cycle) = (bench.random.of(&[0, 1, 3]), bench.random.below(456) as u16);
            compare(bench, &oam, kind, mode, cycle)?;
        }
    }
    // every mode and cycle
    for kind in 0..KINDS {
        for mode in 0..4 {
            for cycle in 0..456 {
                if mode != 2 || (4..=83).contains(&cycle) {
                    compare(bench, &oam, kind, mode, cycle)?;
                }
            }
        }
    }
    Ok(())
}
