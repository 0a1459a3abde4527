//! The protocol `leaves`: the small parts, each asked by itself. NOTES.md has the table.

use crate::list::Digest;
use crate::ppu::parts::*;
use crate::ppu::{LookSelected, Ppu};

/// What the state of this protocol consists of: an OAM (held by a machine of its own),
/// the last pick, one palette set, one pair of pictures.
pub struct Leaves {
    holder: Ppu,
    pick: [LookSelected; 10],
    palettes: ColorPalettesCollection,
    lcd: Lcd,
    scratch: Lcd,
}

pub const GREYS: [u8; 4] = [31, 21, 10, 0];

/// Answer to an unknown op or to arguments outside the table.
const UNKNOWN: [u8; 8] = [255, 0, 0, 0, 0, 0, 0, 0];

fn sprite(bytes: &[u8]) -> Sprite {
    let mut sprite = Sprite::default();
    for offset in 0..4 {
        sprite.set_at_offset(offset, bytes[offset as usize]);
    }
    sprite
}

fn mixed(lcd: &mut Lcd, x: u8, y: u8, color: Color) -> [u8; 3] {
    lcd.look_set_x(x);
    lcd.push(color, y);
    lcd.look_set_x(0);
    place(lcd, 1, x, y)
}

fn place(lcd: &Lcd, which: usize, x: u8, y: u8) -> [u8; 3] {
    let first = (y as usize * LCD_WIDTH + x as usize) * 3;
    let bytes = &lcd.look_picture(which)[first..first + 3];
    [bytes[0], bytes[1], bytes[2]]
}

impl Leaves {
    pub fn new() -> Self {
        Leaves {
            holder: Ppu::look_fresh(false, true),
            pick: [[0; 5]; 10],
            palettes: ColorPalettesCollection::default(),
            lcd: Lcd::default(),
            scratch: Lcd::default(),
        }
    }

    pub fn answer(&mut self, request: [u8; 8]) -> [u8; 8] {
        let a = &request[1..];
        let on_screen = |x: u8, y: u8| (x as usize) < LCD_WIDTH && (y as usize) < LCD_HEIGHT;
        let mut answer = [0; 8];
        let mut put = |bytes: &[u8]| answer[..bytes.len()].copy_from_slice(bytes);
        match request[0] {
            1 => {
                let attribute = BgAttribute::new(a[0]);
                put(&[
                    attribute.bank(),
                    attribute.palette(),
                    attribute.is_horizontal_flip() as u8,
                    attribute.is_vertical_flip() as u8,
                    attribute.priority() as u8,
                ]);
            }
            2 => {
                let sprite = sprite(a);
                put(&[
                    sprite.screen_y(),
                    sprite.screen_x(),
                    sprite.dmg_palette(),
                    sprite.bg_priority() as u8,
                    sprite.y_flipped() as u8,
                    sprite.x_flipped() as u8,
                    sprite.cgb_palette(),
                    sprite.bank(),
                ]);
            }
            3 => {
                let sprite = sprite(&[a[0], 0, 0, 0]);
                put(&[(a[1].wrapping_sub(sprite.screen_y()) < a[2]) as u8]);
            }
            4 => {
                let mut sprite = sprite(a);
                let offset = a[4] % 4;
                let before = sprite.get_at_offset(offset);
                sprite.set_at_offset(offset, a[5]);
                put(&[
                    before,
                    sprite.y(),
                    sprite.x(),
                    sprite.tile(),
                    sprite.get_at_offset(3),
                ]);
            }
            5 => {
                if a[0] < 160 {
                    self.holder.write_oam_no_lock(a[0] as u16, a[1]);
                } else {
                    put(&[4]);
                }
            }
            6 => {
                self.pick = [[0; 5]; 10];
                if a[0] <= 143 && (a[1] == 8 || a[1] == 16) {
                    let (count, slots) = self.holder.look_pick(a[0], a[1]);
                    self.pick = slots;
                    put(&[0, count]);
                } else {
                    put(&[4, 0]);
                }
            }
            7 => put(&self.pick[a[0] as usize % 10]),
            8 => {
                let color = Color::from_raw(u16::from_le_bytes([a[0], a[1]]));
                let raw = color.to_raw().to_le_bytes();
                put(&[color.r, color.g, color.b, raw[0], raw[1]]);
            }
            9 => {
                let (r, g, b) = (a[0], a[1], a[2]);
                put(&Color { r, g, b }.to_raw().to_le_bytes());
            }
            10 => {
                let (r, g, b) = (a[0], a[1], a[2]);
                put(&mixed(&mut self.scratch, 0, 0, Color { r, g, b }));
            }
            11 => self.palettes = ColorPalettesCollection::default(),
            12 => {
                self.palettes.write_index(a[0]);
                put(&[self.palettes.read_index()]);
            }
            13 => {
                self.palettes.write_color_data(a[0]);
                put(&[self.palettes.read_index(), self.palettes.read_color_data()]);
            }
            14 => put(&[self.palettes.read_index(), self.palettes.read_color_data()]),
            15 => {
                let palette = self.palettes.get_palette(a[0]);
                let color = palette.get_color(a[1]);
                let raw = palette.look_raw()[a[1] as usize & 3].to_le_bytes();
                put(&[color.r, color.g, color.b, raw[0], raw[1]]);
            }
            16 => {
                let grey = |k: usize| Color {
                    r: GREYS[k],
                    g: GREYS[k],
                    b: GREYS[k],
                };
                let greys = ColorPalette::new([grey(0), grey(1), grey(2), grey(3)]);
                self.palettes.set_palette(a[0], greys);
            }
            17 => put(&[(a[0] >> (2 * (a[1] % 4))) & 3]),
            18 => self.lcd.clear(),
            19 if on_screen(a[0], a[1]) => {
                let (r, g, b) = (a[2], a[3], a[4]);
                put(&mixed(&mut self.lcd, a[0], a[1], Color { r, g, b }));
            }
            20 if on_screen(a[1], a[2]) => {
                put(&place(&self.lcd, (a[0] != 0) as usize, a[1], a[2]))
            }
            21 => {
                self.lcd.switch_buffers();
                put(&[self.lcd.look_shown()]);
            }
            22 => {
                let mut digest = Digest::new();
                digest.take(self.lcd.look_picture((a[0] != 0) as usize));
                put(&digest.0.to_le_bytes());
            }
            _ => return UNKNOWN,
        }
        answer
    }
}
