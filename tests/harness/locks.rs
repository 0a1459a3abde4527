//! The locked calls on random states; and the lock by STAT beside the given text's own lock of OAM, cycle by cycle.

use crate::bench::{Bench, Given};
use crate::runs::answer;
use crate::states;
use given::list::spaced;
use rattle::ppu;
use rattle::refusals::Refusal;
use rattle::state::State;
use std::cell::Cell;

/// The ops of the four calls.
const CALLS: [u8; 4] = [16, 17, 18, 19];

/// Every call on random states in order: any mode, the display on and off, any address.
pub fn calls(bench: &mut Bench) -> Result<(), String> {
    let slots = Cell::new(rattle::sprite::blank());
    // by the call: closed, open, refused
    let mut met = [[0u64; 3]; 4];
    for i in 0..1_000_000 {
        let s = states::in_order(&mut bench.random);
        let (k, word) = (i % 4, bench.random.next().to_le_bytes());
        let q = [CALLS[k], word[0], word[1], word[2], 0, 0, 0, 0];
        let after = bench
            .compare_after(&s, |g| g.answer(q), |s, m| answer(s, m, &slots, q))
            .map_err(|found| format!("  request {:?}\n{}", q, found))?;
        if after != s {
            return Err(format!("  request {:?}: the state is not as it was given", q));
        }
        let closed = if k < 2 { bench.given.vram_closed() } else { bench.given.oam_closed() };
        let refused = k >= 2 && word[0] >= 160;
        met[k][if refused { 2 } else { !closed as usize }] += 1;
    }
    bench.note = format!("closed, open, refused by call {:?}", met);
    bench.compare_memory()
}

/// The byte that stands at VRAM 8000 and OAM FE00: it is read where the memory is open, else FF.
const BYTE: u8 = 0x12;

/// The lines at whose every cycle the display is switched off.
const LINES: [u8; 6] = [0, 1, 80, 143, 144, 153];

/// Where the given text's lock parts from the lock by STAT, by what docs/DIFFERENCES.md says of them.
const CLASSES: [&str; 6] = [
    "OAM behind mode 3",
    "cycle 0 of lines 1 to 143",
    "line 144 up to cycle 4",
    "off",
    "line 0 after it",
    "VRAM in mode 3",
];

/// A walk of both sides, with what the classes are told by.
struct Walk<'a> {
    bench: &'a mut Bench,
    state: State,
    cycles: u8,
    /// The cycle of the step in which mode 3 of this line ended.
    ended: Option<u16>,
    /// On line 0 since the display was switched on.
    first: bool,
    /// The last switch-off came behind a mode 3, or on a first line of such.
    kept: bool,
    met: [u64; CLASSES.len()],
}

impl Walk<'_> {
    fn call(&mut self, q: [u8; 8]) -> Result<(), String> {
        let slots = Cell::new(rattle::sprite::blank());
        let given = |g: &mut Given| g.answer(q);
        self.state = self.bench.compare_on(&self.state, given, |s, m| answer(s, m, &slots, q))?;
        Ok(())
    }

    fn mode(&self) -> u8 {
        self.state.regs.stat % 4
    }

    fn lit(&self) -> bool {
        self.state.regs.lcdc >= 0x80
    }

    fn step(&mut self) -> Result<(), String> {
        let (mode, line, cycle) = (self.mode(), self.state.beam.line, self.state.beam.cycle);
        self.call([2, self.cycles, 0, 0, 0, 0, 0, 0])?;
        // the step at cycle 80 begins mode 3, and may end it where a switch-off left the last place to draw
        let drew = mode == 3 || line < 144 && cycle == 80;
        if drew && self.lit() && self.mode() == 0 {
            self.ended = Some(cycle);
        }
        if self.state.beam.line != line {
            self.ended = None;
            self.first = false;
        }
        self.look()
    }

    fn switch(&mut self, lcdc: u8) -> Result<(), String> {
        if lcdc < 0x80 {
            let old = self.first && self.ended.is_none();
            self.kept = if old { self.kept } else { self.mode() == 0 };
            self.ended = None;
        }
        self.first = lcdc >= 0x80;
        self.call([3, 0x40, 0xFF, lcdc, 0, 0, 0, 0])?;
        self.look()
    }

    /// The class in which OAM is closed by the given text's test alone.
    fn class(&self) -> Option<usize> {
        let (line, cycle) = (self.state.beam.line, self.state.beam.cycle);
        match (line, cycle, self.ended) {
            _ if !self.lit() => self.kept.then_some(3),
            _ if self.mode() != 0 => None,
            (_, _, Some(end)) => [end + 2, end + 4, end + 6].contains(&cycle).then_some(0),
            (0, 4..=80, None) if self.first => self.kept.then_some(4),
            (1..=143, 0, None) => Some(1),
            (144, 0 | 2 | 4, None) => Some(2),
            _ => None,
        }
    }

    /// Reads both memories on both sides where the walk stands.
    fn look(&mut self) -> Result<(), String> {
        let (s, m, given) = (self.state, &self.bench.memory, &self.bench.given.ppu);
        let told = |read: Result<u8, Refusal>| match read {
            Ok(BYTE) => Ok(false),
            Ok(0xFF) => Ok(true),
            other => Err(format!("  a locked read gives {:02X?}", other)),
        };
        let oam = told(ppu::locked_read_oam(&s, &m.oam, 0xFE00))?;
        let vram = told(ppu::locked_read_vram(&s, &m.vram, 0x8000))?;
        let given_oam = given.read_oam(0xFE00) == 0xFF;
        let given_vram = given.read_vram(0x8000) == 0xFF;
        let (lit, mode, class) = (self.lit(), self.mode(), self.class());
        let wanted_oam = lit && (mode == 2 || mode == 3);
        let wanted_vram = lit && mode == 3;
        // closed here and open there: OAM never, VRAM always
        let wanted = (wanted_oam, wanted_vram, wanted_oam || class.is_some(), false);
        if (oam, vram, given_oam, given_vram) != wanted {
            let b = s.beam;
            return Err(format!(
                "  line {}, cycle {}, mode {}, on {}: closed (OAM, VRAM, OAM there, VRAM there) wanted {:?}, got {:?}",
                b.line, b.cycle, mode, lit, wanted, (oam, vram, given_oam, given_vram)
            ));
        }
        if let Some(k) = class {
            self.met[k] += 1;
        }
        self.met[5] += vram as u64;
        Ok(())
    }

    fn off_and_on(&mut self) -> Result<(), String> {
        self.switch(0x11)?;
        self.step()?;
        self.switch(0x91)
    }

    /// Off where the walk stands, on again and into line 1; then the same with a second switch-off in mode 3 of the first line.
    fn blank(&mut self) -> Result<(), String> {
        let (state, ended) = (self.state, self.ended);
        for twice in [false, true] {
            self.off_and_on()?;
            if twice {
                while self.state.beam.cycle < 100 {
                    self.step()?;
                }
                self.off_and_on()?;
            }
            while self.state.beam.line == 0 || self.state.beam.cycle < 20 {
                self.step()?;
            }
            // back to where it stood
            self.bench.set(&state);
            (self.state, self.ended, self.first, self.kept) = (state, ended, false, false);
        }
        Ok(())
    }
}

/// A frame and the lines before and behind it, in steps of 2 and of 4, on three devices; at every moment of some of its lines the display is
/// switched off and on.
pub fn given(bench: &mut Bench) -> Result<(), String> {
    let mut met = [0; CLASSES.len()];
    for (dmg, cgb) in [(1, 0), (0, 0), (0, 1)] {
        for cycles in [2, 4] {
            let mut walk = Walk {
                state: bench.given.state(),
                bench: &mut *bench,
                cycles,
                ended: None,
                first: false,
                kept: false,
                met,
            };
            walk.call([1, dmg, cgb, 0, 0, 0, 0, 0])?;
            walk.call([5, 0x00, 0x80, BYTE, 0, 0, 0, 0])?;
            walk.call([6, 0x00, 0xFE, BYTE, 0, 0, 0, 0])?;
            let mut swaps = 0;
            while swaps < 2 || walk.state.beam.line < 2 {
                if swaps == 1 && LINES.contains(&walk.state.beam.line) {
                    walk.blank()?;
                }
                let before = walk.state.beam.line;
                walk.step()?;
                swaps += (walk.state.beam.line < before) as u32;
            }
            met = walk.met;
        }
    }
    if met.contains(&0) {
        return Err(format!("  of {:?} some were not met: {:?}", CLASSES, met));
    }
    let notes = CLASSES.iter().zip(met).map(|(class, times)| format!("{} {}", class, spaced(times)));
    bench.note = notes.collect::<Vec<_>>().join("; ");
    bench.moved = 0;
    Ok(())
}
