//! "In order": the document's sentence said again in plain Rust, on states with a clause or two broken.

use crate::bench::{caught, same, Bench};
use crate::states;
use given::list::Random;
use rattle::state::State;

/// A state is in order if: cycle even and below 456; line and LY below 154; LCD x below 160; bank, sprite palette
/// selectors and shown picture 0 or 1; fetch delay at most 8; queue lengths at most 16 and 8; at most 10 selected;
/// selected and queued indexes at most 39; queued and fetched colours at most 3; palette indexes at most 63; STAT below
/// 128; mode 3 only on lines below 144.
pub fn in_order(s: &State) -> bool {
    let (b, r, p) = (&s.beam, &s.regs, &s.pipe);
    if p.bg.len > 16 || p.obj.len > 8 || s.selection.count > 10 {
        return false;
    }
    let mut bg = (0..p.bg.len as usize).map(|k| p.bg.pixels[(p.bg.head as usize + k) % 16]);
    let mut obj = (0..p.obj.len as usize).map(|k| p.obj.pixels[(p.obj.head as usize + k) % 8]);
    let mut selected = s.selection.slots.iter().take(s.selection.count as usize);
    let fetched = match p.fetcher.waiting {
        Some(_) => &p.fetcher.row[..],
        None => &[],
    };
    b.cycle & 1 == 0
        && b.cycle < 456
        && b.line < 154
        && r.ly < 154
        && b.x < 160
        && r.vbk < 2
        && b.shown < 2
        && p.fetcher.delay <= 8
        && obj.all(|pixel| pixel.obp < 2 && pixel.index <= 39 && pixel.color <= 3)
        && selected.all(|slot| slot.index <= 39)
        && bg.all(|pixel| pixel.color <= 3)
        && fetched.iter().all(|&color| color <= 3)
        && s.palettes.bg.index <= 63
        && s.palettes.obj.index <= 63
        && r.stat & 0x80 == 0
        && (r.stat & 3 != 3 || b.line < 144)
}

/// From `least` on, the least itself often.
fn from(random: &mut Random, least: u8) -> u8 {
    match random.below(3) {
        0 => least,
        1 => least.wrapping_sub(1),
        _ => least + random.below(256 - least as u32) as u8,
    }
}

/// Breaks a clause, or comes as near to it as can be.
fn touch(random: &mut Random, s: &mut State) {
    let (b, r, p) = (&mut s.beam, &mut s.regs, &mut s.pipe);
    let (slot16, slot8, slot10) = (
        random.below(16) as usize,
        random.below(8) as usize,
        random.below(10) as usize,
    );
    match random.below(21) {
        0 => b.cycle |= 1,
        1 => b.cycle = [454, 455, 456, 457, 458, 512, 65534, 65535][slot8],
        2 => b.line = from(random, 154),
        3 => r.ly = from(random, 154),
        4 => b.x = from(random, 160),
        5 => r.vbk = from(random, 2),
        6 => b.shown = from(random, 2),
        7 => p.fetcher.delay = from(random, 9),
        8 => p.bg.len = from(random, 17),
        9 => p.obj.len = from(random, 9),
        10 => s.selection.count = from(random, 11),
        11 => s.selection.slots[slot10].index = from(random, 40),
        12 => p.obj.pixels[slot8].index = from(random, 40),
        13 => p.obj.pixels[slot8].obp = from(random, 2),
        14 => p.obj.pixels[slot8].color = from(random, 4),
        15 => p.bg.pixels[slot16].color = from(random, 4),
        16 => p.fetcher.row[slot8] = from(random, 4),
        17 => s.palettes.bg.index = from(random, 64),
        18 => s.palettes.obj.index = from(random, 64),
        19 => r.stat |= 0x80,
        _ => {
            r.stat |= 3;
            b.line = random.of(&[142, 143, 144, 145, 153]);
        }
    }
}

fn differs(s: &State) -> bool {
    caught(|| rattle::order::in_order(*s)) != Ok(in_order(s))
}

pub fn sentence(bench: &mut Bench) -> Result<(), String> {
    let mut yes = 0;
    for i in 0..1_000_000 {
        let mut s = states::in_order(&mut bench.random);
        for _ in 0..i % 3 {
            touch(&mut bench.random, &mut s);
        }
        let wanted = in_order(&s);
        yes += wanted as u64;
        if differs(&s) {
            states::smaller(&mut s, differs);
            same(
                in_order(&s),
                || rattle::order::in_order(s),
                || states::shown(&s).join("").trim().to_string(),
            )?;
        }
        bench.cases += 1;
    }
    bench.note = format!(
        "yes {}, no {}",
        given::list::spaced(yes),
        given::list::spaced(bench.cases - yes)
    );
    Ok(())
}
