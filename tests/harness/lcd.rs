//! The display: a pixel mixed and stored in the picture not shown, and whether picture A is the shown one, swapped or not.

use crate::bench::Bench;
use crate::states;
use rattle::colors::Color;
use rattle::lcd;

pub fn stores(bench: &mut Bench) -> Result<(), String> {
    for i in 0..300_000u32 {
        let s = states::drawing(&mut bench.random);
        let (r, g, b) = match i {
            // every colour of five bits a channel, then some with all eight bits
            0..=32_767 => (i as u8 % 32, (i / 32) as u8 % 32, (i / 1024) as u8),
            _ => (
                bench.random.byte(),
                bench.random.byte(),
                bench.random.byte(),
            ),
        };
        let swap = i % 3 == 0;
        bench
            .compare_after(
                &s,
                |given| {
                    let line = given.ppu.look_line();
                    let lcd = given.ppu.part_lcd();
                    lcd.push(given::ppu::parts::Color { r, g, b }, line);
                    let x = lcd.x();
                    lcd.look_set_x(if x == 160 { 0 } else { x });
                    if swap {
                        lcd.switch_buffers();
                    }
                    let shown = given.ppu.screen_buffer();
                    std::ptr::eq(shown, given.ppu.look_lcd().part_picture(0))
                },
                |s, m| {
                    let rgb = lcd::mixed(Color { r, g, b });
                    let other = lcd::next_buffer_index(s.beam.shown);
                    lcd::store(
                        if other == 0 { &mut m.a } else { &mut m.b },
                        s.beam.x,
                        s.beam.line,
                        rgb,
                    );
                    s.beam.x = (s.beam.x + 1) % 160;
                    if swap {
                        s.beam.shown = other;
                    }
                    let shown = lcd::screen_buffer(s.beam.shown, &m.a, &m.b);
                    std::ptr::eq(shown, &m.a[..])
                },
            )
            .map_err(|found| format!("  colour {:?}, swap {}\n{}", (r, g, b), swap, found))?;
    }
    bench.compare_memory()
}
