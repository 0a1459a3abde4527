//! Scenes: what both sides are told while the display is off, the last write switching it on.

use crate::causes::{Cause, CAUSES};
use crate::list::Random;

/// The device, and whether it is in colour mode.
#[derive(Clone, Copy, PartialEq, Debug)]
pub enum Kind {
    Dmg,
    /// A colour device in colour mode.
    Colour,
    /// A colour device outside it, as with a DMG cartridge; mGBA then draws as a DMG.
    Plain,
}

/// The registers of a scene, by the low byte of their address, in the order of the writes: LCDC comes last.
pub const REGISTERS: [u8; 9] = [0x42, 0x43, 0x47, 0x48, 0x49, 0x4a, 0x4b, 0x6c, 0x40];
pub const LCDC: u8 = 0x40;
pub const SCY: u8 = 0x42;
pub const SCX: u8 = 0x43;
pub const WY: u8 = 0x4a;
pub const WX: u8 = 0x4b;
pub const OPRI: u8 = 0x6c;

pub const BANK: usize = 8192;

#[derive(Clone)]
pub struct Scene {
    pub kind: Kind,
    /// Whether the scene is free of every cause: then all places must be equal.
    pub strict: bool,
    /// Bank 1 follows bank 0.
    pub vram: Vec<u8>,
    pub oam: Vec<u8>,
    /// The bytes of the colour palettes, the background's 64 and then the sprites', and whether they are written.
    pub colours: Vec<u8>,
    pub ports: bool,
    /// The values of `REGISTERS`.
    pub values: Vec<u8>,
}

impl Scene {
    pub fn register(&self, low: u8) -> u8 {
        let at = REGISTERS.iter().position(|&r| r == low);
        self.values[at.expect("a register of the scene")]
    }

    pub fn set(&mut self, low: u8, value: u8) {
        let at = REGISTERS.iter().position(|&r| r == low);
        self.values[at.expect("a register of the scene")] = value;
    }

    pub fn lcdc(&self, bit: u8) -> bool {
        self.register(LCDC) >> bit & 1 == 1
    }

    pub fn colour(&self) -> bool {
        self.kind == Kind::Colour
    }
}

/// The scene of a seed: every other one is free of all causes, the rest of some.
pub fn scene(seed: u64) -> Scene {
    let mut random = Random::new(seed);
    let r = &mut random;
    let kind = [Kind::Dmg, Kind::Colour, Kind::Plain][r.below(3) as usize];
    let allowed = if r.once_in(2) { 0 } else { r.byte() };
    // palettes written outside colour mode change nearly every place
    let ports = r.once_in(4);
    with_causes(r, kind, |cause| {
        allowed >> cause as u8 & 1 == 1 && (cause != Cause::Ports || ports)
    })
}

/// A scene that is free of the causes that are not allowed.
pub fn with_causes(r: &mut Random, kind: Kind, allowed: impl Fn(Cause) -> bool) -> Scene {
    let mut scene = Scene {
        kind,
        strict: !CAUSES.iter().any(|&cause| allowed(cause)),
        vram: tables(r),
        oam: sprites(r),
        colours: colours(r),
        ports: true,
        values: registers(r),
    };
    for cause in CAUSES.into_iter().filter(|&cause| !allowed(cause)) {
        cause.avoid(&mut scene);
    }
    scene
}

/// Tiles, maps and attributes of random bits; in every other scene the tiles are sparse, so that more shows through.
fn tables(r: &mut Random) -> Vec<u8> {
    let sparse = r.once_in(2);
    (0..2 * BANK)
        .map(|at| {
            let byte = r.byte();
            if sparse && at % BANK < 0x1800 {
                byte & r.byte()
            } else {
                byte
            }
        })
        .collect()
}

/// Forty sprites, spread over the screen and its borders, or gathered on a few lines or columns.
fn sprites(r: &mut Random) -> Vec<u8> {
    let (tall, wide) = match r.below(4) {
        0 => (24, 168),
        1 => (160, 24),
        2 => (40, 40),
        _ => (176, 176),
    };
    let (top, left) = (r.below(177 - tall), r.below(177 - wide));
    (0..40)
        .flat_map(|_| {
            let y = (top + r.below(tall)) as u8;
            let x = (left + r.below(wide)) as u8;
            let far = r.once_in(20);
            let [tile, flags] = [r.byte(), r.byte()];
            [y, if far { r.byte() } else { x }, tile, flags]
        })
        .collect()
}

/// 64 colours that look different from each other, so that a place tells its palette and its colour number.
fn colours(r: &mut Random) -> Vec<u8> {
    let mut seen = Vec::new();
    let mut bytes = Vec::new();
    while seen.len() < 64 {
        let raw = r.next() as u16;
        let mixed = crate::mixed(raw);
        if !seen.contains(&mixed) {
            seen.push(mixed);
            bytes.extend(raw.to_le_bytes());
        }
    }
    bytes
}

fn registers(r: &mut Random) -> Vec<u8> {
    let shades = |r: &mut Random| match r.below(2) {
        0 => r.of(&[0xe4, 0x1b, 0xd2, 0x39]),
        _ => r.byte(),
    };
    REGISTERS
        .iter()
        .map(|low| match *low {
            LCDC => 0x80 | r.byte() | r.of(&[0, 2]),
            OPRI => r.byte() & 1,
            0x47..=0x49 => shades(r),
            WY => match r.below(4) {
                0 => 0,
                1 => r.byte(),
                _ => r.below(144) as u8,
            },
            WX => match r.below(6) {
                0 => r.below(16) as u8,
                1 => r.byte(),
                2 => r.of(&[0, 6, 7, 8, 159, 165, 166, 167]),
                _ => r.below(167) as u8,
            },
            SCX if r.once_in(4) => 0,
            _ => r.byte(),
        })
        .collect()
}
