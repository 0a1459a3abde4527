//! One draw, and what it stores in the picture not shown.

use crate::bench::{Bench, Memory};
use crate::states;
use rattle::draw::{does_join, prepare, wait};
use rattle::state::State;
use rattle::{burst, lcd};

/// A run of one draw. Where nothing joins the pipe, its first half is a cycle of the fetch delay.
fn draw(s: &mut State, m: &mut Memory) {
    if !does_join(*s) {
        assert_eq!(wait(s.pipe), prepare(&m.vram, *s));
    }
    let other = lcd::next_buffer_index(s.beam.shown);
    let picture = if other == 0 { &mut m.a } else { &mut m.b };
    *s = burst::draw_all(&m.vram, *s, picture, 1);
}

pub fn draws(bench: &mut Bench) -> Result<(), String> {
    for i in 0..1_000_000 {
        if i % 20_000 == 0 {
            bench.shuffle_vram();
        }
        let s = states::drawing(&mut bench.random);
        bench.compare_after(
            &s,
            |g| g.count = g.count.wrapping_add(g.ppu.part_draw()),
            draw,
        )?;
    }
    bench.compare_memory()
}
