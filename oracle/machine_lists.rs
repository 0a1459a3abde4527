//! The makers of lists for the protocol `machine`. They run the machine beside the list,
//! so that a call can be aimed at a mode, a line or an LCD x.

use crate::cases;
use crate::list::{request, List, Random};
use crate::machine::{place_of, Machine, CORRUPTIONS};
use crate::machine::{LOCKED_OAM_READ, LOCKED_OAM_WRITE, LOCKED_VRAM_READ, LOCKED_VRAM_WRITE};
use std::io::{self, Write};

/// A line and a frame in steps of 4.
const LINE: u32 = 114;
const FRAME: u32 = 17_556;

/// DMG and colour of the starts of a random list, in turn; all but 0 is yes.
const STARTS: [(u8, u8); 4] = [(1, 0), (0, 1), (255, 2), (0, 0)];
/// A random list starts anew after so many calls at the latest, and the stretch that is under way.
const AT_LATEST: u32 = 60_000;

pub struct Run<'a> {
    list: List<'a>,
    pub machine: Machine,
    random: Random,
    /// A state digest is due after so many calls; 0 for never.
    digest_every: u32,
    since_state: u32,
    since_pictures: u32,
    /// The display is not switched by a random write.
    steady: bool,
    /// The place in `STARTS` of the next start, and the calls since the last.
    next_start: usize,
    since_start: u32,
    /// Whether the next frame of `whole_frame` is to be unseen.
    next_unseen: bool,
    /// The ops of the last two calls.
    last: [u8; 2],
}

/// Which steps a stretch is made of.
#[derive(Clone, Copy)]
enum Gait {
    Fours,
    Twos,
    Mixed,
    Careless,
}

impl<'a> Run<'a> {
    pub fn new(out: &'a mut dyn Write, limit: u64, seed: u64, digest_every: u32) -> Self {
        Run {
            list: List::new(out, limit),
            machine: Machine::new(),
            random: Random::new(seed),
            digest_every,
            since_state: 0,
            since_pictures: 0,
            steady: false,
            next_start: 0,
            since_start: 0,
            next_unseen: true,
            last: [0; 2],
        }
    }

    pub fn left(&self) -> u64 {
        self.list.left
    }

    pub fn finish(self) -> io::Result<()> {
        self.list.finish()
    }

    /// Puts a call into the list and makes it.
    pub fn call(&mut self, bytes: &[u8]) -> [u8; 16] {
        let call = request(bytes);
        if !self.list.put(call) {
            return [0; 16];
        }
        let answer = self.machine.answer(call);
        self.last = [self.last[1], call[0]];
        self.since_start = self.since_start.saturating_add(1);
        if self.digest_every != 0 {
            self.since_state += 1;
            self.since_pictures += 1;
            if self.since_pictures >= 20 * self.digest_every {
                self.since_pictures = 0;
                if self.list.put(request(&[11])) {
                    self.machine.answer(request(&[11]));
                }
            }
            if self.since_state >= self.digest_every {
                self.since_state = self.random.below(self.digest_every / 4 + 1);
                self.list.put(request(&[12]));
            }
        }
        answer
    }

    pub fn register(&mut self, low: u8, value: u8) {
        self.call(&[3, low, 0xFF, value]);
    }

    pub fn vram(&mut self, address: u16, value: u8) {
        let address = address.to_le_bytes();
        self.call(&[5, address[0], address[1], value]);
    }

    pub fn oam(&mut self, address: u8, value: u8) {
        self.call(&[6, address, 0xFE, value]);
    }

    /// A locked call at an address: its answer. The value is that of a write, and 0 for a read.
    pub fn locked(&mut self, op: u8, address: u16, value: u8) -> [u8; 16] {
        let address = address.to_le_bytes();
        self.call(&[op, address[0], address[1], value])
    }

    pub fn step(&mut self, cycles: u8) -> [u8; 16] {
        self.call(&[2, cycles])
    }

    /// A corruption of a kind: its number.
    pub fn oam_bug(&mut self, kind: u8) -> u8 {
        self.call(&[8, kind])[0]
    }

    /// A corruption of a random kind, now and then of one that there is not.
    fn random_bug(&mut self) {
        let kind = if self.random.once_in(8) { self.random.byte() } else { self.random.below(3) as u8 };
        self.oam_bug(kind);
    }

    /// A random locked call, of OAM now and then at an address that it has not.
    fn random_locked(&mut self) {
        let (a, b, value) = (self.random.byte(), self.random.byte(), self.random.byte());
        let low = if self.random.once_in(8) { a } else { a % 160 };
        match self.random.below(4) {
            0 => self.locked(LOCKED_VRAM_WRITE, u16::from_le_bytes([a, b]), value),
            1 => self.locked(LOCKED_VRAM_READ, u16::from_le_bytes([a, b]), 0),
            2 => self.locked(LOCKED_OAM_WRITE, u16::from_le_bytes([low, b]), value),
            _ => self.locked(LOCKED_OAM_READ, u16::from_le_bytes([low, b]), 0),
        };
    }

    /// The digests of the state and of what is stored, unless they were the last two calls.
    pub fn digests(&mut self) {
        if self.last != [12, 11] {
            self.call(&[12]);
            self.call(&[11]);
        }
    }

    fn gait(&mut self) -> Gait {
        match self.random.below(20) {
            0..=10 => Gait::Fours,
            11..=12 => Gait::Twos,
            13..=17 => Gait::Mixed,
            _ => Gait::Careless,
        }
    }

    /// A step and perhaps a look; gives the step's answer.
    fn stride(&mut self, gait: Gait) -> [u8; 16] {
        let aligned = self.machine.ppu.look_cycle() % 4 == 0;
        let cycles = match gait {
            Gait::Fours if aligned => 4,
            Gait::Fours | Gait::Twos => 2,
            Gait::Mixed if aligned && !self.random.once_in(3) => 4,
            Gait::Mixed => 2,
            Gait::Careless => self.random.of(&[2, 2, 2, 4, 4, 4, 4, 0, 1, 3, 5, 6, 8, 255]),
        };
        let answer = self.step(cycles);
        self.watch();
        answer
    }

    /// Where the STAT level and the selection change in a step or two, look more often.
    fn watch(&mut self) {
        let line = self.machine.ppu.look_line();
        let cycle = self.machine.ppu.look_cycle();
        if line == 144 && cycle == 0 && (self.steady || self.random.once_in(2)) {
            let value = if self.steady { 0x20 } else { self.random.byte() };
            self.register(0x41, value);
        }
        let apart = match (line, cycle) {
            (144, 0..=8) if self.steady => 1,
            (144, 0..=8) => 2,
            (0, 0..=8) | (153, 0..=8) => 4,
            (_, 0..=8) | (_, 80..=90) => 40,
            _ => return,
        };
        if self.random.once_in(apart) {
            self.call(&[12]);
        }
    }

    fn strides(&mut self, count: u32, gait: Gait) {
        for _ in 0..count {
            if self.left() == 0 {
                return;
            }
            self.stride(gait);
        }
    }

    fn is_on(&self) -> bool {
        self.machine.ppu.read_lcd_control() & 0x80 != 0
    }

    /// Steps until the mode is held, two lines at most.
    fn until_mode(&mut self, mode: u8) {
        for _ in 0..2 * LINE {
            if self.machine.ppu.get_current_mode() == mode || !self.is_on() || self.left() == 0 {
                return;
            }
            self.stride(Gait::Mixed);
        }
    }

    /// A register write with values that matter where the machine stands.
    fn poke_register(&mut self) {
        let ly = self.machine.ppu.look_line();
        let x = self.machine.ppu.look_lcd().x();
        let any = self.random.byte();
        match self.random.below(24) {
            0..=3 => {
                // The display stays as it is, but for a rare switch.
                let now = self.machine.ppu.read_lcd_control() & 0x80;
                let switch = !self.steady && self.random.once_in(150);
                let bit = if switch { now ^ 0x80 } else { now };
                let more = if self.random.once_in(2) { 0x23 } else { 0 };
                self.register(0x40, any & 0x7F | bit | more);
            }
            4..=5 => self.register(0x41, any),
            6 => self.register(0x42, any),
            7..=8 => self.register(0x43, any),
            9..=10 => {
                let value = match self.random.below(5) {
                    0 => ly,
                    1 => ly.wrapping_add(1),
                    2 => self.random.of(&[0, 143, 144, 152, 153, 154]),
                    _ => any,
                };
                self.register(0x45, value);
            }
            11 => {
                let which = self.random.of(&[0x47, 0x48, 0x49]);
                self.register(which, any);
            }
            12..=13 => {
                let value = match self.random.below(4) {
                    0 => 0,
                    1 => ly,
                    2 => ly.wrapping_add(self.random.below(3) as u8),
                    _ => any % 150,
                };
                self.register(0x4A, value);
            }
            14..=17 => {
                let value = match self.random.below(5) {
                    0 => self.random.below(9) as u8,
                    1 => x.wrapping_add(7),
                    2 => x.wrapping_add(7 + self.random.below(12) as u8),
                    3 => self.random.of(&[87, 88, 158, 159, 165, 166, 167, 168, 255]),
                    _ => any % 167,
                };
                self.register(0x4B, value);
            }
            18 => self.register(0x4F, any),
            19 => {
                let which = self.random.of(&[0x68, 0x6A]);
                self.register(which, any);
            }
            20..=21 => {
                let which = self.random.of(&[0x69, 0x6B]);
                self.register(which, any);
            }
            22 => self.register(0x6C, any),
            _ => {
                let flag = self.random.of(&[0, 0, 0, 1, 1, 255]);
                self.call(&[7, flag]);
            }
        }
    }

    fn poke(&mut self) {
        let (a, b, c) = (self.random.byte(), self.random.byte(), self.random.byte());
        match self.random.below(44) {
            0..=18 => self.poke_register(),
            19..=22 => self.vram(0x8000 | u16::from_le_bytes([a, b & 0x1F]), c),
            23..=25 => self.vram(0x9800 | u16::from_le_bytes([a, b & 7]), c),
            26 => self.vram(u16::from_le_bytes([a, b]), c),
            27..=30 => self.oam(a % 160, b),
            31..=32 => {
                // A sprite on this line or the next, near the LCD x.
                let entry = a % 40;
                let y = self.machine.ppu.look_line().wrapping_add(1 + b % 18);
                let x = self.machine.ppu.look_lcd().x().wrapping_add(c % 40);
                self.oam(4 * entry, y);
                self.oam(4 * entry + 1, x);
            }
            33 => {
                self.call(&[6, a, b, c]);
            }
            34..=36 => self.random_bug(),
            37 => {
                let low = self.random.of(&[0x68, 0x69, 0x6A, 0x6B, 0x6B, 0x69, 0x6C, 0x40, 0x67, a]);
                let high = if b % 8 == 0 { c } else { 0xFF };
                self.call(&[4, low, high]);
            }
            38 => {
                let low = self.random.of(&[0x3F, 0x44, 0x46, 0x4C, 0x4E, 0x50, 0x67, 0x6D, 0x44]);
                let high = self.random.of(&[0xFF, 0xFF, 0xFE, 0x00]);
                self.call(&[3, low, high, c]);
            }
            39..=42 => self.random_locked(),
            _ => match self.random.below(6) {
                0..=2 => self.pick(),
                3..=4 => {
                    self.call(&[15]);
                }
                _ if a % 2 == 0 => {
                    self.call(&[14, b.max(10)]);
                }
                _ => {
                    let ops = unknown_ops();
                    self.call(&meaningful(ops[b as usize % ops.len()]));
                }
            },
        }
    }

    fn pick(&mut self) {
        let (line, height) = match self.random.below(6) {
            0 => (self.random.byte(), self.random.byte() & 31),
            1 => (144, self.random.of(&[8, 16])),
            _ => (self.random.below(144) as u8, self.random.of(&[8, 16])),
        };
        self.call(&[13, line, height]);
        for k in 0..10 {
            self.call(&[14, k]);
        }
    }

    /// Tiles and maps of both banks: `tiles` rows of tiles and `maps` map bytes in each bank.
    fn fill_vram(&mut self, tiles: u32, maps: u32) {
        for bank in 0..2 {
            self.register(0x4F, bank);
            for _ in 0..tiles {
                let row = 0x8000 + 2 * self.random.below(0xC00) as u16;
                let (low, high) = (self.random.byte(), self.random.byte());
                self.vram(row, low);
                self.vram(row + 1, high);
            }
            for _ in 0..maps {
                let place = 0x9800 + self.random.below(0x800) as u16;
                let byte = self.random.byte();
                self.vram(place, byte);
            }
        }
    }

    fn fill_oam(&mut self) {
        let style = self.random.below(4);
        let row = self.random.byte() % 150;
        for entry in 0..40 {
            let (y, x) = match style {
                0 => (self.random.byte(), self.random.byte()),
                1 => (16 + 4 * entry, self.random.below(170) as u8),
                2 => (row + self.random.below(12) as u8, self.random.below(24) as u8),
                _ => (16 + 8 * (entry / 2), 8 + self.random.below(40) as u8),
            };
            let (tile, flags) = (self.random.byte(), self.random.byte());
            for (k, &byte) in [y, x, tile, flags].iter().enumerate() {
                self.oam(4 * entry + k as u8, byte);
            }
        }
    }

    pub fn fill_palettes(&mut self, bytes: u32) {
        for port in [0x68, 0x6A] {
            let index = if bytes == 64 { 0x80 } else { self.random.byte() | 0x80 };
            self.register(port, index);
            for _ in 0..bytes {
                let byte = self.random.byte();
                self.register(port + 1, byte);
            }
        }
    }

    /// Few tiles and none of them empty, so that every pixel tells.
    pub fn dense_scene(&mut self) {
        for bank in [1, 0] {
            self.register(0x4F, bank);
            for address in (0x8000..0x8040).chain(0x8FC0..0x9040) {
                let byte = self.random.byte();
                self.vram(address, byte);
            }
            for k in 0..50 {
                let place = 0x9800 + 0x400 * (k & 1) + self.random.below(0x200) as u16;
                let byte = if bank == 0 {
                    self.random.of(&[1, 2, 3, 0xFC, 0xFD, 0xFE, 0xFF])
                } else {
                    self.random.byte()
                };
                self.vram(place, byte);
            }
        }
        for entry in 0..40u8 {
            // Four bands of ten or more, close together, some at the left edge.
            let y = 10 + 38 * (entry % 4) + self.random.below(26) as u8;
            let x = if entry % 5 == 0 {
                self.random.below(9) as u8
            } else {
                8 * (entry / 4) + self.random.below(30) as u8
            };
            let (tile, flags) = (self.random.byte() & 3, self.random.byte());
            for (k, &byte) in [y, x, tile, flags].iter().enumerate() {
                self.oam(4 * entry + k as u8, byte);
            }
        }
        for low in [0x47, 0x48, 0x49] {
            let byte = self.random.byte();
            self.register(low, byte);
        }
    }

    fn scene(&mut self) {
        if self.random.once_in(2) {
            self.dense_scene();
        } else {
            self.fill_vram(600, 900);
            self.fill_oam();
        }
        self.fill_palettes(64);
        for _ in 0..12 {
            self.poke_register();
        }
        let control = self.random.byte() | 0x83;
        self.register(0x40, control);
    }

    fn start(&mut self) {
        let (dmg, colour) = STARTS[self.next_start];
        self.next_start = (self.next_start + 1) % STARTS.len();
        self.since_start = 0;
        self.call(&[1, dmg, colour]);
        self.call(&[12]);
        self.call(&[11]);
    }

    fn switch_off(&mut self) {
        let control = self.machine.ppu.read_lcd_control();
        let change = if self.random.once_in(2) { self.random.byte() & 0x7F } else { 0 };
        self.register(0x40, control & 0x7F ^ change);
    }

    fn switch_on(&mut self) {
        let control = self.machine.ppu.read_lcd_control();
        let change = if self.random.once_in(2) { self.random.byte() & 0x7F } else { 0 };
        self.register(0x40, control ^ change | 0x80);
    }

    /// Off in mid line, calls while off, on again, then the first lines.
    fn off_and_on(&mut self) {
        let gait = self.gait();
        if self.random.once_in(2) {
            self.until_mode(3);
        }
        let before = self.random.below(60);
        self.strides(before, gait);
        self.switch_off();
        for _ in 0..self.random.below(12) {
            if self.random.once_in(2) {
                self.poke();
            } else {
                self.stride(Gait::Careless);
            }
        }
        self.call(&[12]);
        self.switch_on();
        for _ in 0..self.random.below(6) {
            let steps = 1 + self.random.below(90);
            self.strides(steps, gait);
            self.poke();
        }
        let after = self.random.below(3 * LINE);
        self.strides(after, gait);
        self.call(&[12]);
    }

    /// Off with the LCD x above 0, then a window that starts there with a discard left over:
    /// line 0 may not end.
    fn long_line(&mut self) {
        self.until_mode(3);
        let target = 1 + self.random.below(6) as u8;
        for _ in 0..2 * LINE {
            let x = self.machine.ppu.look_lcd().x();
            if x >= target || self.left() == 0 {
                break;
            }
            self.stride(Gait::Twos);
        }
        self.switch_off();
        let x = self.machine.ppu.look_lcd().x();
        let scroll = self.random.byte();
        self.register(0x43, scroll);
        self.register(0x4B, x.wrapping_add(7));
        self.register(0x4A, 0);
        let control = self.random.byte() | 0xA0;
        self.register(0x40, control);
        let gait = self.gait();
        self.strides(2 * LINE, gait);
        self.call(&[12]);
        self.strides(LINE, gait);
    }

    /// By turns: off and on at LCD x 0 and to the next swap, so that it is unseen; or on to a swap and from it to the next, with
    /// the display on, so that the second is whole. A write now and then.
    fn whole_frame(&mut self) {
        let unseen = self.is_on() && self.next_unseen;
        self.next_unseen = !unseen;
        if unseen {
            // A line of steps of 2 at most.
            for _ in 0..2 * LINE {
                if self.machine.ppu.look_lcd().x() == 0 || self.left() == 0 {
                    break;
                }
                self.stride(Gait::Twos);
            }
            self.switch_off();
        }
        if !self.is_on() {
            self.switch_on();
        }
        let (gait, apart) = (self.gait(), 100 + self.random.below(900));
        let gait = if let Gait::Fours = gait { gait } else { Gait::Mixed };
        self.steady = true;
        for _ in 0..if unseen { 1 } else { 2 } {
            // A frame of steps of 2 at most.
            for _ in 0..2 * FRAME {
                if self.left() == 0 || self.stride(gait)[5] != 0 {
                    break;
                }
                if self.random.once_in(apart) {
                    self.poke();
                }
            }
        }
        self.steady = false;
        self.digests();
    }

    /// Every kind of corruption at cycle 2 of a line, where mode 2 refuses them, and at cycle 4.
    fn early_corruptions(&mut self) {
        // A line of steps of 2 at most.
        for _ in 0..2 * LINE {
            if !self.is_on() || self.left() == 0 {
                return;
            }
            if self.machine.ppu.look_cycle() == 0 {
                break;
            }
            self.stride(Gait::Mixed);
        }
        for _ in 0..2 {
            self.step(2);
            for kind in 0..CORRUPTIONS.len() as u8 {
                self.oam_bug(kind);
            }
        }
        self.digests();
    }

    /// Every kind of corruption, of the 256, on line 0: in mode 2 at cycle 2, which is too early, and at row 6; then in mode 3.
    fn every_kind(&mut self) {
        self.call(&[1, 0, 1]);
        self.fill_oam();
        for steps in [28 + 1, 13, 36] {
            for _ in 0..steps {
                self.step(2);
            }
            for kind in 0..=255 {
                self.oam_bug(kind);
                if kind < CORRUPTIONS.len() as u8 {
                    self.call(&[11]);
                }
            }
            self.digests();
        }
    }

    /// A stretch of a random list. It begins with a call, so that a list of them fills up.
    fn episode(&mut self) {
        self.call(&[15]);
        let gait = self.gait();
        let what = if self.since_start < AT_LATEST { self.random.below(100) } else { 98 };
        match what {
            0..=16 => {
                let count = match self.random.below(10) {
                    0..=3 => self.random.below(LINE),
                    4..=7 => self.random.below(10 * LINE),
                    8 => self.random.below(FRAME),
                    _ => FRAME + self.random.below(FRAME),
                };
                self.strides(count, gait);
            }
            17 => self.whole_frame(),
            18..=49 => {
                for _ in 0..self.random.below(400) {
                    let steps = self.random.below(4);
                    self.strides(steps, gait);
                    self.poke();
                }
            }
            50..=71 => {
                for _ in 0..self.random.below(60) {
                    let steps = 1 + self.random.below(120);
                    self.strides(steps, gait);
                    self.poke();
                }
            }
            72..=77 => self.off_and_on(),
            78..=80 => self.long_line(),
            81..=83 => self.early_corruptions(),
            84..=86 => {
                self.until_mode(2);
                for _ in 0..60 {
                    if self.random.once_in(3) {
                        self.random_bug();
                    }
                    self.stride(gait);
                }
            }
            87..=90 => self.pick(),
            91..=92 => self.fill_oam(),
            93 => self.fill_palettes(20),
            94 => self.fill_vram(200, 200),
            95 => self.dense_scene(),
            96..=98 => {
                self.start();
                self.scene();
                if self.random.once_in(2) {
                    self.whole_frame();
                }
            }
            _ => {
                for _ in 0..10 {
                    self.poke_register();
                }
            }
        }
        // A display left off would make the rest of the list dull.
        if !self.is_on() && !self.random.once_in(4) {
            self.switch_on();
        }
    }
}

pub fn random(out: &mut dyn Write, seed: u64, count: u64) -> io::Result<()> {
    let mut run = Run::new(out, count, seed, 200);
    run.next_start = run.random.below(STARTS.len() as u32) as usize;
    run.start();
    if !run.random.once_in(4) {
        run.scene();
    }
    // Each episode takes a call at least.
    while run.left() > 0 {
        run.episode();
    }
    run.finish()
}

/// The named cases without their long frames; a whole frame outside DMG with a write now and
/// then; a DMG frame after switching off and on; blankings in mid line.
pub fn sample(out: &mut dyn Write) -> io::Result<()> {
    let mut run = Run::new(out, 42_000, 4, 0);
    cases::short(&mut run);

    run.digest_every = 400;
    run.call(&[1, 0, 1]);
    run.dense_scene();
    run.fill_palettes(64);
    run.register(0x40, 0x93);
    run.busy_frame(14 + FRAME, 60);
    run.call(&[11]);
    run.call(&[12]);

    run.call(&[1, 1, 0]);
    run.dense_scene();
    run.register(0x40, 0x93);
    run.register(0x40, 0x13);
    run.register(0x40, 0x93);
    run.busy_frame(FRAME - 1, 100);
    run.call(&[11]);
    run.call(&[12]);

    // Each takes its first five writes at least.
    while run.left() > 0 {
        run.short_blanking();
    }
    run.finish()
}

/// Every byte of VRAM in both banks, every OAM address, every value of every register and every address of their page, each
/// looked for afterwards: a write that is lost, or goes astray, at one address is seen. Then every kind of corruption.
pub fn writes(out: &mut dyn Write) -> io::Result<()> {
    let mut run = Run::new(out, u64::MAX, 5, 0);
    run.call(&[1, 0, 1]);
    for bank in 0..2u16 {
        run.register(0x4F, bank as u8);
        for offset in 0..0x2000u16 {
            // Never 0, which is there already; the address by turns in every 8 KiB.
            let byte = (offset ^ offset >> 7 ^ 77 * bank) as u8 | 1;
            run.vram(0x2000 * (offset % 8) + offset, byte);
            if offset % 0x400 == 0x3FF {
                run.call(&[11]);
            }
        }
    }
    for low in 0..=255u8 {
        run.call(&[6, low, low ^ 0xFE, low ^ 0x55]);
        if low % 16 == 15 {
            run.call(&[11]);
        }
    }
    for (dmg, colour) in STARTS {
        run.call(&[1, dmg, colour]);
        for low in 0..=255u8 {
            for value in 0..=255u8 {
                // The page of the registers once; where a write is accepted, every value and what the ports read as.
                if run.call(&[3, low, 0xFF, value])[0] != 0 {
                    break;
                }
                run.call(&[12]);
                run.call(&[4, low, 0xFF]);
            }
            run.call(&[4, low, 0xFF]);
        }
        run.digests();
    }
    run.every_kind();
    run.finish()
}

/// The locked calls: at every byte of VRAM in both banks and every OAM address while the display is off; then at every OAM address and
/// some bytes of VRAM in modes 2, 3, 0 and 1.
pub fn locks(out: &mut dyn Write) -> io::Result<()> {
    let mut run = Run::new(out, u64::MAX, 6, 0);
    run.call(&[1, 0, 1]);
    run.register(0x40, 0x11);
    run.lock_everywhere(1);
    // Line 1 at cycles 4, 124 and 364, then line 144.
    run.register(0x40, 0x91);
    for steps in [LINE, 30, 60, 143 * LINE] {
        for _ in 0..steps {
            run.step(4);
        }
        run.call(&[15]);
        run.lock_everywhere(61);
    }
    run.finish()
}

/// Every op that is none and every slot over 9, in mode 3 of a line with sprites. Between them stand the digests, the slots
/// of the last pick and accepted calls.
pub fn unknown(out: &mut dyn Write) -> io::Result<()> {
    let mut run = Run::new(out, u64::MAX, 4, 0);
    run.call(&[1, 0, 1]);
    run.dense_scene();
    run.fill_palettes(64);
    run.register(0x4B, 60);
    run.register(0x40, 0xB7);
    for _ in 0..14 + 16 * LINE + 30 {
        run.step(4);
    }
    run.call(&[13, 16, 16]);
    run.nothing_changed();

    for op in unknown_ops() {
        run.call(&meaningful(op));
        run.call(&[12]);
        if op % 16 == 15 {
            run.nothing_changed();
            run.step(4);
            run.register(0x42, op);
            run.oam(op % 160, op);
        }
    }
    run.call(&[13, 17, 16]);
    for k in 10..=255u8 {
        run.call(&[14, k, 1, 2, 3]);
        if k % 16 == 15 {
            run.nothing_changed();
            run.step(2);
            run.step(2);
        }
    }
    run.nothing_changed();
    for _ in 0..LINE {
        run.step(4);
    }
    run.digests();
    run.finish()
}

/// The ops that are none.
fn unknown_ops() -> Vec<u8> {
    (0..=255).filter(|&op| place_of(op).is_none()).collect()
}

/// A call with an op and the arguments of an accepted call of the op with the same lower four bits, to show a program that
/// looks at no more of it.
fn meaningful(op: u8) -> [u8; 8] {
    let arguments: &[u8] = match op % 16 {
        1 => &[1, 0],
        2 => &[4],
        3 => &[0x40, 0xFF, 0x11],
        4 => &[0x69, 0xFF],
        5 => &[0x00, 0x80, 0xAA],
        6 => &[0x05, 0xFE, 0xAA],
        7 => &[0],
        13 => &[40, 8],
        14 => &[3],
        _ => &[1, 2, 3, 4, 5, 6, 7],
    };
    let mut call = [0; 8];
    call[0] = op;
    call[1..1 + arguments.len()].copy_from_slice(arguments);
    call
}

impl<'a> Run<'a> {
    /// Locked writes and reads at every `apart`-th byte of both banks of VRAM, and at every OAM address; other bytes for another
    /// `apart`.
    fn lock_everywhere(&mut self, apart: usize) {
        for bank in 0..2u16 {
            self.register(0x4F, bank as u8);
            // The address by turns in every 8 KiB.
            let offsets = || (0..0x2000u16).step_by(apart).map(|offset| (offset, 0x2000 * (offset % 8) + offset));
            for (offset, address) in offsets() {
                let byte = (offset ^ offset >> 7 ^ 77 * bank) as u8;
                self.locked(LOCKED_VRAM_WRITE, address, byte.wrapping_add(apart as u8));
            }
            self.call(&[11]);
            for (_, address) in offsets() {
                self.locked(LOCKED_VRAM_READ, address, 0);
            }
        }
        let address = |low: u8| u16::from_le_bytes([low, low ^ 0xFE]);
        for low in 0..=255 {
            self.locked(LOCKED_OAM_WRITE, address(low), (low ^ 0xA5).wrapping_add(apart as u8));
        }
        self.digests();
        for low in 0..=255 {
            self.locked(LOCKED_OAM_READ, address(low), 0);
        }
        self.digests();
    }

    /// The slots of the last pick and the digests.
    fn nothing_changed(&mut self) {
        for k in 0..10 {
            self.call(&[14, k]);
        }
        self.digests();
    }

    /// Steps of 4 with a write about every `apart` steps; the display stays on.
    fn busy_frame(&mut self, steps: u32, apart: u32) {
        self.steady = true;
        for _ in 0..steps {
            self.step(4);
            self.watch();
            if self.random.once_in(apart) {
                self.poke();
            }
        }
        self.steady = false;
    }

    /// Off in mode 3 with a window and sprites, on again, and into mode 3 of line 0.
    fn short_blanking(&mut self) {
        let (stat, window, x) = (self.random.byte(), self.random.below(40) as u8, self.random.byte());
        self.register(0x4A, 0);
        self.register(0x4B, window);
        self.register(0x41, stat);
        self.register(0x43, x);
        self.register(0x40, 0xB3);
        let steps = 20 + self.random.below(30);
        self.strides(steps, Gait::Fours);
        self.switch_off();
        self.call(&[12]);
        self.strides(1, Gait::Careless);
        self.register(0x43, window);
        self.switch_on();
        let steps = 20 + self.random.below(16);
        self.strides(steps, Gait::Fours);
        self.call(&[12]);
    }
}
