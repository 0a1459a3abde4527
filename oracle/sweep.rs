//! One write of every register at every even cycle of four lines, on three kinds of device, and on
//! to the end of the frame.

use crate::list::request;
use crate::machine_lists::Run;
use std::io::{self, Write};

/// DMG, colour.
pub const KINDS: [(u8, u8); 3] = [(1, 0), (0, 1), (0, 0)];
/// The first, one among sprites, the last of the picture, the first of VBlank.
pub const LINES: [u8; 4] = [0, 80, 143, 144];
/// The even cycles of a line.
pub const CYCLES: usize = 228;
/// The steps of a frame.
pub const FRAME: u32 = 17_556;
/// Window, tall sprites and background on.
const CONTROL: u8 = 0xB7;

/// What is written.
#[derive(Clone, Copy)]
pub enum Value {
    Is(u8),
    /// LCDC as it was, with these bits turned.
    Turned(u8),
    /// So far past the line, past the LCD x.
    Line(u8),
    X(u8),
}

use Value::{Is, Line, Turned, X};

/// Register (FF..) and value.
pub const WRITES: [(u8, Value); 66] = [
    (0x40, Turned(0x01)),
    (0x40, Turned(0x02)),
    (0x40, Turned(0x04)),
    (0x40, Turned(0x18)),
    (0x40, Turned(0x20)),
    (0x40, Turned(0x40)),
    (0x40, Turned(0x80)),
    (0x41, Is(0x00)),
    (0x41, Is(0x08)),
    (0x41, Is(0x10)),
    (0x41, Is(0x20)),
    (0x41, Is(0x40)),
    (0x41, Is(0xFF)),
    (0x42, Is(0x00)),
    (0x42, Is(0x57)),
    (0x42, Is(0x80)),
    (0x42, Is(0xFF)),
    (0x43, Is(0x00)),
    (0x43, Is(0x03)),
    (0x43, Is(0x07)),
    (0x43, Is(0x08)),
    (0x43, Is(0xFF)),
    (0x45, Line(0)),
    (0x45, Line(1)),
    (0x45, Is(0)),
    (0x45, Is(153)),
    (0x47, Is(0x00)),
    (0x47, Is(0x1B)),
    (0x47, Is(0xFF)),
    (0x48, Is(0x00)),
    (0x48, Is(0x1B)),
    (0x48, Is(0xFF)),
    (0x49, Is(0x00)),
    (0x49, Is(0x1B)),
    (0x49, Is(0xFF)),
    (0x4A, Line(0)),
    (0x4A, Line(1)),
    (0x4A, Is(0)),
    (0x4A, Is(255)),
    (0x4B, Is(0)),
    (0x4B, Is(3)),
    (0x4B, Is(7)),
    (0x4B, X(7)),
    (0x4B, X(8)),
    (0x4B, X(15)),
    (0x4B, Is(166)),
    (0x4B, Is(167)),
    (0x4B, Is(255)),
    (0x4F, Is(0)),
    (0x4F, Is(1)),
    (0x68, Is(0x05)),
    (0x68, Is(0x3F)),
    (0x68, Is(0xBF)),
    (0x69, Is(0x00)),
    (0x69, Is(0x1F)),
    (0x69, Is(0x7C)),
    (0x69, Is(0xFF)),
    (0x6A, Is(0x05)),
    (0x6A, Is(0x3F)),
    (0x6A, Is(0xBF)),
    (0x6B, Is(0x00)),
    (0x6B, Is(0x1F)),
    (0x6B, Is(0x7C)),
    (0x6B, Is(0xFF)),
    (0x6C, Is(0)),
    (0x6C, Is(1)),
];

pub const CASES: usize = KINDS.len() * LINES.len() * CYCLES * WRITES.len();

/// A case by its parts.
#[derive(Clone, Copy)]
pub struct Case {
    pub kind: usize,
    pub line: usize,
    pub cycle: u16,
    pub write: usize,
}

pub fn case(number: usize) -> Case {
    let (rest, write) = (number / WRITES.len(), number % WRITES.len());
    let (rest, cycle) = (rest / CYCLES, rest % CYCLES);
    Case {
        kind: rest / LINES.len(),
        line: rest % LINES.len(),
        cycle: 2 * cycle as u16,
        write,
    }
}

/// The calls of a write, at an LCD x. A display that is switched off stays so for two steps.
pub fn write_calls(write: usize, line: u8, x: u8) -> Vec<[u8; 8]> {
    let (register, value) = WRITES[write];
    let byte = match value {
        Is(byte) => byte,
        Turned(bits) => CONTROL ^ bits,
        Line(past) => line + past,
        X(past) => x.wrapping_add(past),
    };
    let mut calls = vec![request(&[3, register, 0xFF, byte])];
    if let Turned(0x80) = value {
        calls.push(request(&[2, 4]));
        calls.push(request(&[2, 4]));
        calls.push(request(&[3, register, 0xFF, CONTROL]));
    }
    calls
}

/// The calls from a start to line 0, cycle 0.
pub fn prologue(seed: u64, kind: usize) -> Vec<[u8; 8]> {
    let mut bytes = Vec::new();
    let mut run = Run::new(&mut bytes, u64::MAX, seed, 0);
    run.call(&[1, KINDS[kind].0, KINDS[kind].1]);
    run.dense_scene();
    run.fill_palettes(64);
    let registers = [
        (0x41, 0x48),
        (0x42, 0x05),
        (0x43, 0x0D),
        (0x45, 80),
        (0x4A, 0),
        (0x4B, 87),
        (0x40, CONTROL),
    ];
    for (register, value) in registers {
        run.register(register, value);
    }
    for _ in 0..14 {
        run.step(4);
    }
    run.finish().expect("a list in memory");
    bytes.chunks_exact(8).map(request).collect()
}

/// Every case whose number is SEED modulo STRIDE.
pub fn list(out: &mut dyn Write, seed: u64, stride: u64) -> io::Result<()> {
    let mut run = Run::new(out, u64::MAX, seed, 0);
    let prologues: Vec<_> = (0..KINDS.len()).map(|kind| prologue(seed, kind)).collect();
    let stride = stride.max(1);
    for number in ((seed % stride) as usize..CASES).step_by(stride as usize) {
        let at = case(number);
        let line = LINES[at.line];
        for call in &prologues[at.kind] {
            run.call(call);
        }
        let before = line as u32 * 114 + at.cycle as u32 / 4;
        for _ in 0..before {
            run.step(4);
        }
        if at.cycle % 4 == 2 {
            run.step(2);
        }
        let x = run.machine.ppu.look_lcd().x();
        for call in write_calls(at.write, line, x) {
            run.call(&call);
        }
        run.call(&[12]);
        to_the_end(&mut run);
        run.call(&[11]);
        run.call(&[12]);
    }
    run.finish()
}

/// Steps until the pictures swap, a frame at most.
fn to_the_end(run: &mut Run) {
    for _ in 0..=FRAME {
        let cycles = if run.machine.ppu.look_cycle() % 4 == 0 { 4 } else { 2 };
        if run.step(cycles)[5] != 0 {
            return;
        }
    }
}
