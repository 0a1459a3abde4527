//! The protocol `machine`: one whole picture unit with the refusals and the count of stored
//! places of the document. NOTES.md has the table.

use crate::list::Digest;
use crate::memory::{InterruptManager, InterruptType};
use crate::ppu::parts::{LCD_HEIGHT, LCD_WIDTH};
use crate::ppu::{LookSelected, Ppu};

const WHOLE: u16 = (LCD_WIDTH * LCD_HEIGHT) as u16;

pub const REFUSED_STEP: u8 = 3;
pub const REFUSED_ARGUMENT: u8 = 4;
pub const REFUSED_CORRUPTION: u8 = 5;

/// The calls by their ops. 9 and 10 are none.
pub const CALLS: [(u8, &str); 17] = [
    (1, "start"),
    (2, "step"),
    (3, "register write"),
    (4, "register read"),
    (5, "VRAM write"),
    (6, "OAM write"),
    (7, "colour flag"),
    (8, "OAM corruption"),
    (11, "digest of pictures and memory"),
    (12, "digest of the state"),
    (13, "pick"),
    (14, "slot"),
    (15, "look"),
    (LOCKED_VRAM_WRITE, "locked VRAM write"),
    (LOCKED_VRAM_READ, "locked VRAM read"),
    (LOCKED_OAM_WRITE, "locked OAM write"),
    (LOCKED_OAM_READ, "locked OAM read"),
];

pub const LOCKED_VRAM_WRITE: u8 = 16;
pub const LOCKED_VRAM_READ: u8 = 17;
pub const LOCKED_OAM_WRITE: u8 = 18;
pub const LOCKED_OAM_READ: u8 = 19;

/// What a read of a closed memory gives.
const CLOSED_BYTE: u8 = 0xFF;

/// The place of an op in `CALLS`.
pub fn place_of(op: u8) -> Option<usize> {
    CALLS.iter().position(|&(known, _)| known == op)
}

/// The kinds of corruption by their numbers.
pub const CORRUPTIONS: [&str; 3] = ["write", "read", "read-write"];

/// The given function of a kind of corruption, without refusals.
pub fn corrupt(ppu: &mut Ppu, kind: u8) {
    match kind {
        0 => ppu.oam_bug_write(),
        1 => ppu.oam_bug_read(),
        2 => ppu.oam_bug_read_write(),
        _ => panic!("no kind of corruption: {}", kind),
    }
}

/// The marks of a swap by their numbers.
pub const MARKS: [&str; 3] = ["no", "whole", "unseen"];

/// Bit 1 for VBlank, bit 2 for STAT.
pub struct Requests(pub u8);

impl InterruptManager for Requests {
    fn request_interrupt(&mut self, interrupt: InterruptType) {
        self.0 |= match interrupt {
            InterruptType::Vblank => 1,
            InterruptType::LcdStat => 2,
        };
    }
}

pub struct Machine {
    pub ppu: Ppu,
    /// Places stored since the last swap or blanking.
    pub count: u16,
    /// Whether a blanking came since the last swap; a start is none.
    pub blanked: bool,
    pick: [LookSelected; 10],
    bytes: Vec<u8>,
}

impl Default for Machine {
    fn default() -> Self {
        Machine::new()
    }
}

impl Machine {
    /// As after a start of a device that is not DMG, outside colour mode.
    pub fn new() -> Self {
        Machine {
            ppu: Ppu::look_fresh(false, false),
            count: 0,
            blanked: false,
            pick: [[0; 5]; 10],
            bytes: Vec::new(),
        }
    }

    pub fn answer(&mut self, request: [u8; 8]) -> [u8; 16] {
        let a = &request[1..];
        let word = u16::from_le_bytes([a[0], a[1]]);
        let mut answer = [0; 16];
        match request[0] {
            1 => {
                self.ppu = Ppu::look_fresh(a[1] != 0, a[0] != 0);
                self.count = 0;
                self.blanked = false;
            }
            2 => self.step(a[0], &mut answer),
            3 => answer[0] = self.write_register(word, a[2]),
            4 => match self.read_register(word) {
                Some(value) => answer[1] = value,
                None => answer[0] = REFUSED_ARGUMENT,
            },
            5 => self.ppu.write_vram(word, a[2]),
            6 => {
                if a[0] < 160 {
                    self.ppu.write_oam_no_lock(word, a[2]);
                } else {
                    answer[0] = REFUSED_ARGUMENT;
                }
            }
            7 => self.ppu.update_cgb_mode(a[0] != 0),
            8 => answer[0] = self.oam_bug(a[0]),
            11 => {
                let mut digest = Digest::new();
                digest.take(self.ppu.look_lcd().look_picture(0));
                digest.take(self.ppu.look_lcd().look_picture(1));
                digest.take(&self.ppu.look_oam());
                digest.take(self.ppu.look_vram());
                answer[8..].copy_from_slice(&digest.0.to_le_bytes());
            }
            12 => {
                self.bytes.clear();
                self.ppu.look_state(self.count, self.blanked, &mut self.bytes);
                let mut digest = Digest::new();
                digest.take(&self.bytes);
                answer[8..].copy_from_slice(&digest.0.to_le_bytes());
            }
            13 => {
                self.pick = [[0; 5]; 10];
                if a[0] <= 143 && (a[1] == 8 || a[1] == 16) {
                    let (count, slots) = self.ppu.look_pick(a[0], a[1]);
                    self.pick = slots;
                    answer[1] = count;
                } else {
                    answer[0] = REFUSED_ARGUMENT;
                }
            }
            14 if a[0] < 10 => answer[1..6].copy_from_slice(&self.pick[a[0] as usize]),
            15 => {
                let cycle = self.ppu.look_cycle().to_le_bytes();
                let end = self.ppu.look_mode_3_end().to_le_bytes();
                answer[1..8].copy_from_slice(&[
                    self.ppu.look_line(),
                    cycle[0],
                    cycle[1],
                    self.ppu.look_lcd().x(),
                    self.ppu.get_current_mode(),
                    end[0],
                    end[1],
                ]);
            }
            LOCKED_VRAM_WRITE => {
                if !self.vram_closed() {
                    self.ppu.write_vram(word, a[2]);
                }
            }
            LOCKED_VRAM_READ => answer[1] = if self.vram_closed() { CLOSED_BYTE } else { self.ppu.read_vram(word) },
            LOCKED_OAM_WRITE | LOCKED_OAM_READ if a[0] >= 160 => answer[0] = REFUSED_ARGUMENT,
            LOCKED_OAM_WRITE => {
                if !self.oam_closed() {
                    self.ppu.write_oam_no_lock(word, a[2]);
                }
            }
            LOCKED_OAM_READ => answer[1] = if self.oam_closed() { CLOSED_BYTE } else { self.ppu.look_oam()[a[0] as usize] },
            _ => answer[0] = 255,
        }
        answer
    }

    /// Whether a locked call finds its memory closed, by Pan Docs: the display is on, in a mode that uses it. The given text
    /// has no such test of VRAM, and another one of OAM (`is_oam_locked`).
    pub fn vram_closed(&self) -> bool {
        self.drawing_in(&[3])
    }

    pub fn oam_closed(&self) -> bool {
        self.drawing_in(&[2, 3])
    }

    fn drawing_in(&self, modes: &[u8]) -> bool {
        self.ppu.read_lcd_control() & 0x80 != 0 && modes.contains(&self.ppu.get_current_mode())
    }

    fn step(&mut self, cycles: u8, answer: &mut [u8; 16]) {
        if !(cycles == 2 || cycles == 4 && self.ppu.look_cycle() % 4 == 0) {
            answer[0] = REFUSED_STEP;
            return;
        }
        let shown = self.ppu.look_lcd().look_shown();
        let places = self.ppu.look_mark(cycles);
        let mut requests = Requests(0);
        self.ppu.clock(&mut requests, cycles);
        self.count = self.count.wrapping_add(self.ppu.look_stored(places));

        let swapped = self.ppu.look_lcd().look_shown() != shown;
        let stat = self.ppu.look_stat();
        let count = self.count.to_le_bytes();
        answer[1..10].copy_from_slice(&[
            requests.0,
            stat & 3,
            stat >> 2 & 1,
            self.ppu.read_ly(),
            swapped as u8,
            if swapped { self.mark() } else { 0 },
            0,
            count[0],
            count[1],
        ]);
        if swapped {
            self.count = 0;
            self.blanked = false;
        }
    }

    /// The mark of the picture that a swap shows.
    fn mark(&self) -> u8 {
        match (self.count == WHOLE, self.blanked) {
            (false, _) => 0,
            (true, false) => 1,
            (true, true) => 2,
        }
    }

    fn write_register(&mut self, address: u16, value: u8) -> u8 {
        let ppu = &mut self.ppu;
        match address {
            0xFF40 => {
                let blanks = ppu.read_lcd_control() & 0x80 != 0 && value & 0x80 == 0;
                ppu.write_lcd_control(value);
                if blanks {
                    self.count = 0;
                    self.blanked = true;
                }
            }
            0xFF41 => ppu.write_lcd_status(value),
            0xFF42 => ppu.write_scroll_y(value),
            0xFF43 => ppu.write_scroll_x(value),
            0xFF45 => ppu.write_lyc(value),
            0xFF47 => ppu.write_dmg_bg_palette(value),
            0xFF48 => ppu.write_dmg_sprite_palettes(0, value),
            0xFF49 => ppu.write_dmg_sprite_palettes(1, value),
            0xFF4A => ppu.write_window_y(value),
            0xFF4B => ppu.write_window_x(value),
            0xFF4F => ppu.write_vram_bank(value),
            0xFF68 => ppu.write_cgb_bg_palettes_index(value),
            0xFF69 => ppu.write_cgb_bg_palettes_data(value),
            0xFF6A => ppu.write_cgb_sprite_palettes_index(value),
            0xFF6B => ppu.write_cgb_sprite_palettes_data(value),
            0xFF6C => ppu.write_sprite_priority_mode(value),
            _ => return REFUSED_ARGUMENT,
        }
        0
    }

    fn read_register(&self, address: u16) -> Option<u8> {
        match address {
            0xFF68 => Some(self.ppu.read_cgb_bg_palettes_index()),
            0xFF69 => Some(self.ppu.read_cgb_bg_palettes_data()),
            0xFF6A => Some(self.ppu.read_cgb_sprite_palettes_index()),
            0xFF6B => Some(self.ppu.read_cgb_sprite_palettes_data()),
            _ => None,
        }
    }

    fn oam_bug(&mut self, kind: u8) -> u8 {
        if kind >= CORRUPTIONS.len() as u8 {
            return REFUSED_ARGUMENT;
        }
        let cycle = self.ppu.look_cycle();
        if self.ppu.get_current_mode() == 2 && (cycle < 4 || cycle > 83) {
            return REFUSED_CORRUPTION;
        }
        corrupt(&mut self.ppu, kind);
        0
    }
}
