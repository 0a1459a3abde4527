//! One step, from any state in order.

use crate::bench::{number, Bench, Memory};
use crate::states;
use rattle::ppu;
use rattle::state::State;

/// The answer to a step as the protocol `machine` has it.
pub fn step(s: &mut State, m: &mut Memory, cycles: u8) -> [u8; 16] {
    let t = ppu::step(s, &m.vram, &m.oam, &mut m.a, &mut m.b, cycles);
    let mut answer = [0; 16];
    answer[0] = number(&t);
    let r = match t {
        Ok(report) => report,
        Err(_) => return answer,
    };
    answer[1..7].copy_from_slice(&[
        r.requests,
        r.mode,
        r.coincidence as u8,
        r.ly,
        r.swapped as u8,
        r.mark.number(),
    ]);
    answer[8..10].copy_from_slice(&r.count.to_le_bytes());
    answer
}

pub fn steps(bench: &mut Bench) -> Result<(), String> {
    for i in 0..1_000_000 {
        if i % 20_000 == 0 {
            bench.shuffle();
        }
        let mut s = states::in_order(&mut bench.random);
        s.regs.lcdc |= if i % 16 == 0 { 0 } else { 0x80 };
        let aligned = s.beam.cycle % 4 == 0;
        let cycles = if aligned { bench.random.of(&[2, 4]) } else { 2 };
        bench
            .compare_after(
                &s,
                |g| g.answer([2, cycles, 0, 0, 0, 0, 0, 0]),
                |s, m| step(s, m, cycles),
            )
            .map_err(|found| format!("  step of {}\n{}", cycles, found))?;
    }
    bench.compare_memory()
}
