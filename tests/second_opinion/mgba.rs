//! mGBA's side: a cartridge whose program makes the writes of a scene, and the picture that mGBA shows.

use crate::scene::{Kind, Scene, REGISTERS};
use std::ffi::CStr;
use std::os::raw::{c_char, c_int};

extern "C" {
    fn mgba_picture(
        rom: *const u8,
        size: usize,
        colour: bool,
        greys: *const u32,
        out: *mut u16,
    ) -> c_int;
    fn mgba_version() -> *const c_char;
}

/// Where the cartridge keeps what its program copies.
const PROGRAM: usize = 0x150;
const OAM: usize = 0x1000;
const COLOURS: usize = 0x1100;
const PAIRS: usize = 0x1200;
const VRAM: usize = 0x4000;

/// One bank from HL to VRAM, four bytes a turn.
const COPY_BANK: [u8; 20] = [
    0x11, 0x00, 0x80, // ld de, 8000
    0x2a, 0x12, 0x13, // ld a, (hl+); ld (de), a; inc de
    0x2a, 0x12, 0x13, //
    0x2a, 0x12, 0x13, //
    0x2a, 0x12, 0x13, //
    0x7a, 0xfe, 0xa0, // ld a, d; cp A0
    0x20, 0xef, // jr nz, the first ld a, (hl+)
];

/// The program: waits for VBlank, switches off, copies, writes the registers, says so in FF80, and loops.
fn program(ports: bool) -> Vec<u8> {
    let mut code = vec![
        0xf3, // di
        0xaf, 0xe0, 0x80, // xor a; ldh (80), a
        0xf0, 0x44, 0xfe, 0x90, 0x20, 0xfa, // ldh a, (44); cp 144; jr nz, back
        0xaf, 0xe0, 0x40, // xor a; ldh (40), a
        0x3e, 0x01, 0xe0, 0x4f, // ld a, 1; ldh (4F), a
        0x21, 0x00, 0x60, // ld hl, bank 1
    ];
    code.extend(COPY_BANK);
    // bank 0 second: where VBK does nothing, it goes over what was meant for bank 1
    code.extend([0xaf, 0xe0, 0x4f, 0x21, 0x00, 0x40]); // xor a; ldh (4F), a; ld hl, bank 0
    code.extend(COPY_BANK);
    code.extend([
        0x21, 0x00, 0x10, 0x11, 0x00, 0xfe, // ld hl, OAM; ld de, FE00
        0x2a, 0x12, 0x1c, 0x7b, 0xfe, 0xa0, // ld a, (hl+); ld (de), a; inc e; ld a, e; cp A0
        0x20, 0xf8, // jr nz, back
    ]);
    if ports {
        code.extend([0x21, 0x00, 0x11]); // ld hl, COLOURS
        for index in [0x68, 0x6a] {
            code.extend([0x3e, 0x80, 0xe0, index, 0x06, 64]); // ld a, 80; ldh (index), a; ld b, 64
            code.extend([0x2a, 0xe0, index + 1, 0x05, 0x20, 0xfa]); // ld a, (hl+); ldh (data), a; dec b; jr nz
        }
    }
    code.extend([
        0x21, 0x00, 0x12, // ld hl, PAIRS
        0x2a, 0x4f, 0x2a, 0xe2, // ld a, (hl+); ld c, a; ld a, (hl+); ld (c), a
        0x79, 0xfe, 0x40, 0x20, 0xf7, // ld a, c; cp 40; jr nz, back
        0x3e, 0x01, 0xe0, 0x80, // ld a, 1; ldh (80), a
        0x18, 0xfe, // jr here
    ]);
    code
}

fn cartridge(scene: &Scene) -> Vec<u8> {
    let mut rom = vec![0; 0x8000];
    let mut put = |at: usize, bytes: &[u8]| rom[at..at + bytes.len()].copy_from_slice(bytes);
    put(0x100, &[0x00, 0xc3, PROGRAM as u8, (PROGRAM >> 8) as u8]); // nop; jp PROGRAM
    put(0x143, &[if scene.colour() { 0xc0 } else { 0 }]);
    put(PROGRAM, &program(scene.ports));
    put(OAM, &scene.oam);
    put(COLOURS, &scene.colours);
    for (at, (&low, &value)) in REGISTERS.iter().zip(&scene.values).enumerate() {
        put(PAIRS + 2 * at, &[low, value]);
    }
    put(VRAM, &scene.vram);
    rom
}

/// The version of the library.
pub fn version() -> String {
    let name = unsafe { CStr::from_ptr(mgba_version()) };
    name.to_string_lossy().into_owned()
}

/// The picture, 15 bits a place; mGBA's greys are set to this unit's.
pub fn picture(scene: &Scene) -> Vec<u16> {
    let rom = cartridge(scene);
    let greys = [31, 21, 10, 0].map(|channel: u32| channel * 0x080808);
    let colour = scene.kind != Kind::Dmg;
    let mut out = vec![0; 160 * 144];
    let (from, to) = (rom.as_ptr(), out.as_mut_ptr());
    let taken = unsafe { mgba_picture(from, rom.len(), colour, greys.as_ptr(), to) };
    assert!(taken != 0, "mGBA does not run the cartridge");
    out
}
