//! The pipe of a draw: the window, the fetcher, and the row that goes in, each alone and one after the other.

use crate::bench::{Bench, Given, Memory};
use crate::states;
use rattle::pipe;
use rattle::state::State;

fn enter(s: &mut State, _: &mut Memory) {
    let allowed = pipe::is_open(s.regs, s.beam.line);
    s.pipe = pipe::try_enter_window(allowed, s.beam.x, s.regs.wx, s.pipe);
}

fn cycle(s: &mut State, m: &mut Memory) {
    s.pipe = pipe::cycle_fetcher(&m.vram, s.regs, s.beam.line, s.pipe);
}

fn push(s: &mut State, _: &mut Memory) {
    s.pipe = pipe::feed(s.palettes.bg, s.pipe);
}

fn many(
    bench: &mut Bench,
    given: fn(&mut Given),
    rattle: fn(&mut State, &mut Memory),
) -> Result<(), String> {
    for i in 0..1_000_000 {
        if i % 20_000 == 0 {
            bench.shuffle_vram();
        }
        let s = states::drawing(&mut bench.random);
        bench.compare_after(&s, given, rattle)?;
    }
    Ok(())
}

pub fn window(bench: &mut Bench) -> Result<(), String> {
    many(bench, |g| g.ppu.part_try_enter_window(), enter)
}

pub fn fetcher(bench: &mut Bench) -> Result<(), String> {
    many(bench, |g| g.ppu.part_cycle_fetcher(), cycle)
}

pub fn feed(bench: &mut Bench) -> Result<(), String> {
    many(bench, |g| g.ppu.part_feed(), push)
}

pub fn all(bench: &mut Bench) -> Result<(), String> {
    many(
        bench,
        |g| {
            g.ppu.part_try_enter_window();
            g.ppu.part_cycle_fetcher();
            g.ppu.part_feed();
        },
        |s, m| {
            enter(s, m);
            cycle(s, m);
            push(s, m);
        },
    )
}
