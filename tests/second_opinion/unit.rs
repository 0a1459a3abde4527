//! This unit's side: the calls of a scene, and the picture that it shows.

use crate::scene::{Kind, Scene, BANK, LCDC, REGISTERS};
use rattle::beam::Mark;
use rattle::hardware::Machine;
use rattle::ppu;
use rattle::refusals::Refusal;
use rattle::state::State;

struct Unit {
    state: State,
    vram: Vec<u8>,
    oam: Vec<u8>,
    a: Vec<u8>,
    b: Vec<u8>,
}

fn done<T>(answer: Result<T, Refusal>) -> T {
    answer.expect("a call of the scene is refused")
}

impl Unit {
    fn start(machine: Machine) -> Self {
        let [mut vram, mut oam] = [vec![0; 2 * BANK], vec![0; 160]];
        let [mut a, mut b] = [vec![0; 3 * 160 * 144], vec![0; 3 * 160 * 144]];
        let started = ppu::start(machine, &mut vram, &mut oam, &mut a, &mut b);
        Unit {
            state: done(started.map_err(|refused| refused.why)),
            vram,
            oam,
            a,
            b,
        }
    }

    fn write(&mut self, low: u8, value: u8) {
        let address = 0xff00 + low as u16;
        let (a, b) = (&mut self.a, &mut self.b);
        done(ppu::write_register(&mut self.state, a, b, address, value));
    }

    fn write_bank(&mut self, bank: u8, bytes: &[u8]) {
        self.write(0x4f, bank);
        for (at, &byte) in bytes.iter().enumerate() {
            let address = 0x8000 + at as u16;
            done(ppu::write_vram(&self.state, &mut self.vram, address, byte));
        }
    }

    fn write_palettes(&mut self, index: u8, bytes: &[u8]) {
        self.write(index, 0x80);
        for &byte in bytes {
            self.write(index + 1, byte);
        }
    }

    /// Steps to the next swap, which is at most a frame away; the mark of the picture now shown.
    fn frame(&mut self) -> Mark {
        for _ in 0..154 * 456 / 4 {
            let (a, b) = (&mut self.a, &mut self.b);
            let report = done(ppu::step(&mut self.state, &self.vram, &self.oam, a, b, 4));
            if report.swapped {
                return report.mark;
            }
        }
        panic!("no swap in the steps of a frame")
    }
}

/// The second picture after the display went on, three bytes a place. The first begins at cycle 4 of line 0.
pub fn picture(scene: &Scene) -> Vec<u8> {
    let machine = Machine {
        dmg: scene.kind == Kind::Dmg,
        cgb: scene.colour(),
    };
    let mut unit = Unit::start(machine);
    unit.write(LCDC, 0);
    unit.write_bank(1, &scene.vram[BANK..]);
    unit.write_bank(0, &scene.vram[..BANK]);
    for (at, &byte) in scene.oam.iter().enumerate() {
        done(ppu::write_oam(&mut unit.oam, 0xfe00 + at as u16, byte));
    }
    if scene.ports {
        unit.write_palettes(0x68, &scene.colours[..64]);
        unit.write_palettes(0x6a, &scene.colours[64..]);
    }
    for (low, &value) in REGISTERS.iter().zip(&scene.values) {
        unit.write(*low, value);
    }
    assert!(unit.frame() == Mark::Unseen, "the first picture is not whole but unseen");
    assert!(unit.frame() == Mark::Whole, "the second picture is not whole");
    ppu::screen_buffer(&unit.state, &unit.a, &unit.b).to_vec()
}
