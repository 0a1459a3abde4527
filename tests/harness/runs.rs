//! Runs: the oracle's lists of random calls, answered by both sides from one start, the state compared after every call.

use crate::bench::{number, Bench, Given, Memory};
use crate::step;
use given::machine_lists;
use rattle::hardware::Machine;
use rattle::ppu;
use rattle::refusals::Refusal;
use rattle::sprite::{SelectedSprite, Selection};
use rattle::state::State;
use std::cell::Cell;
use std::io::{self, Write};

/// The calls of a list that starts anew.
const LIST: u64 = 500_000;

/// The answer to a call as the protocol `machine` has it; digests are answered by 0s, what they are of is compared.
pub fn answer(
    s: &mut State,
    m: &mut Memory,
    slots: &Cell<[SelectedSprite; 10]>,
    q: [u8; 8],
) -> [u8; 16] {
    let address = u16::from_le_bytes([q[1], q[2]]);
    let mut out = [0; 16];
    match q[0] {
        1 => {
            let (dmg, cgb) = (q[1] != 0, q[2] != 0);
            let machine = Machine { dmg, cgb };
            let t = ppu::start(machine, &mut m.vram, &mut m.oam, &mut m.a, &mut m.b);
            (out[0], *s) = match t {
                Ok(state) => (0, state),
                Err(refused) => (refused.why.number(), refused.state),
            };
        }
        2 => return step::step(s, m, q[1]),
        3 => {
            let t = ppu::write_register(s, &mut m.a, &mut m.b, address, q[3]);
            out[0] = number(&t);
        }
        4 => (out[0], out[1]) = read(ppu::read_register(s, address)),
        5 => out[0] = number(&ppu::write_vram(s, &mut m.vram, address, q[3])),
        6 => out[0] = number(&ppu::write_oam(&mut m.oam, address, q[3])),
        7 => out[0] = number(&ppu::set_colour(s, q[1] != 0)),
        8 => out[0] = number(&ppu::oam_bug(s, &mut m.oam, q[1])),
        11 | 12 => {}
        13 => {
            let t = ppu::pick(&m.oam, q[1], q[2]);
            out[0] = number(&t);
            let picked = t.unwrap_or(Selection {
                count: 0,
                slots: rattle::sprite::blank(),
            });
            out[1] = picked.count;
            slots.set(picked.slots);
        }
        14 if q[1] < 10 => {
            let SelectedSprite { sprite, index } = slots.get()[q[1] as usize];
            out[1..6].copy_from_slice(&[index, sprite.y, sprite.x, sprite.tile, sprite.flags]);
        }
        15 => {
            let (b, end) = (&s.beam, s.beam.end.to_le_bytes());
            let cycle = b.cycle.to_le_bytes();
            let mode = s.regs.stat % 4;
            out[1..8].copy_from_slice(&[b.line, cycle[0], cycle[1], b.x, mode, end[0], end[1]]);
        }
        16 => out[0] = number(&ppu::locked_write_vram(s, &mut m.vram, address, q[3])),
        17 => (out[0], out[1]) = read(ppu::locked_read_vram(s, &m.vram, address)),
        18 => out[0] = number(&ppu::locked_write_oam(s, &mut m.oam, address, q[3])),
        19 => (out[0], out[1]) = read(ppu::locked_read_oam(s, &m.oam, address)),
        _ => out[0] = 255,
    }
    out
}

/// The number of a read and its value, 0 where it is refused.
fn read(t: Result<u8, Refusal>) -> (u8, u8) {
    (number(&t), t.unwrap_or(0))
}

/// What a list is written to: it makes each call on both sides.
struct Pair<'a> {
    bench: &'a mut Bench,
    state: State,
    slots: Cell<[SelectedSprite; 10]>,
    found: Option<String>,
}

impl Pair<'_> {
    fn call(&mut self, q: [u8; 8]) -> Result<(), String> {
        let slots = &self.slots;
        let silent = q[0] == 11 || q[0] == 12;
        let given = |g: &mut Given| if silent { [0; 16] } else { g.answer(q) };
        self.state = self
            .bench
            .compare_on(&self.state, given, |s, m| answer(s, m, slots, q))?;
        if q[0] == 1 || q[0] == 11 {
            self.bench.compare_memory()?;
        }
        Ok(())
    }
}

impl Write for Pair<'_> {
    fn write(&mut self, bytes: &[u8]) -> io::Result<usize> {
        let q = bytes.try_into().map_err(|_| io::ErrorKind::InvalidData)?;
        let (s, at) = (self.state, self.bench.cases);
        self.call(q).map_err(|found| {
            let (line, cycle) = (s.beam.line, s.beam.cycle);
            self.found = Some(format!(
                "  call {} of the run, {:?}, at line {}, cycle {}\n{}",
                at, q, line, cycle, found
            ));
            io::ErrorKind::Other
        })?;
        Ok(bytes.len())
    }

    fn flush(&mut self) -> io::Result<()> {
        Ok(())
    }
}

pub fn runs(bench: &mut Bench) -> Result<(), String> {
    let mut left = bench.size.unwrap_or(2_000_000);
    while left > 0 {
        let count = left.min(LIST);
        let seed = bench.random.next();
        bench.given = Given::new();
        let mut pair = Pair {
            state: bench.given.state(),
            slots: Cell::new(rattle::sprite::blank()),
            bench: &mut *bench,
            found: None,
        };
        let made = machine_lists::random(&mut pair, seed, count);
        if let Some(found) = pair.found {
            return Err(format!("  machine-random {} {}\n{}", seed, count, found));
        }
        made.map_err(|error| error.to_string())?;
        left -= count;
    }
    bench.compare_memory()
}
