//! A still scene place by place, as Pan Docs has it, with a switch for each cause: either side's way.

use crate::causes::Cause;
use crate::mixed;
use crate::scene::{Scene, BANK, OPRI, SCX, SCY, WX, WY};

/// The causes in which this unit's way is taken; in the others it is mGBA's.
#[derive(Clone, Copy)]
pub struct Ways(u8);

impl Ways {
    pub const UNIT: Ways = Ways(!0);
    pub const MGBA: Ways = Ways(0);

    fn unit(self, cause: Cause) -> bool {
        self.0 >> cause as u8 & 1 == 1
    }

    /// The other way in one cause.
    pub fn but(self, cause: Cause) -> Ways {
        Ways(self.0 ^ 1 << cause as u8)
    }
}

/// What the background has at a place.
struct Ground {
    colour: u8,
    attribute: u8,
}

/// What a sprite has at a place.
#[derive(Clone, Copy)]
struct Dot {
    colour: u8,
    flags: u8,
}

/// A line of a scene with the sprites found on it, first the one that comes first.
pub struct Line<'a> {
    scene: &'a Scene,
    ways: Ways,
    y: u8,
    sprites: Vec<[u8; 4]>,
}

/// The two bits of a tile's place, from the left.
fn tile_colour(scene: &Scene, bank: u8, address: usize, x: u8) -> u8 {
    let at = BANK * bank as usize + address;
    let bit = |byte: u8| byte >> (7 - x) & 1;
    bit(scene.vram[at]) + 2 * bit(scene.vram[at + 1])
}

fn flipped(flip: bool, place: u8, size: u8) -> u8 {
    if flip {
        size - 1 - place
    } else {
        place
    }
}

impl<'a> Line<'a> {
    pub fn new(scene: &'a Scene, ways: Ways, y: u8) -> Self {
        let tall = if scene.lcdc(2) { 16 } else { 8 };
        let here = |s: &[u8]| (s[0]..s[0].saturating_add(tall)).contains(&(y + 16));
        let found = scene.oam.chunks(4).filter(|s| here(s)).take(10);
        let mut sprites: Vec<[u8; 4]> = found.map(|s| [s[0], s[1], s[2], s[3]]).collect();
        let by_coordinate = match scene.colour() {
            true => ways.unit(Cause::Opri),
            false => ways.unit(Cause::Coordinate),
        };
        if by_coordinate && scene.register(OPRI) == 1 {
            // this unit: all that start left of the screen start at its first place
            sprites.sort_by_key(|s| s[1].max(8));
        }
        Line {
            scene,
            ways,
            y,
            sprites,
        }
    }

    /// Whether the window holds this line from some place on.
    fn windowed(&self) -> bool {
        self.scene.lcdc(5) && self.y >= self.scene.register(WY)
    }

    fn ground(&self, x: u8) -> Ground {
        let scene = self.scene;
        let wx = scene.register(WX);
        if !scene.colour() && !scene.lcdc(0) {
            Ground {
                colour: 0,
                attribute: 0,
            }
        } else if self.windowed() && x + 7 >= wx {
            self.tile(scene.lcdc(6), x + 7 - wx, self.y - scene.register(WY))
        } else {
            let column = x.wrapping_add(scene.register(SCX));
            let row = self.y.wrapping_add(scene.register(SCY));
            self.tile(scene.lcdc(3), column, row)
        }
    }

    /// A place of a map.
    fn tile(&self, second: bool, column: u8, row: u8) -> Ground {
        let scene = self.scene;
        let map = if second { 0x1c00 } else { 0x1800 };
        let cell = map + 32 * (row as usize / 8) + column as usize / 8;
        let number = scene.vram[cell] as usize;
        let has_attribute = scene.colour() || self.ways.unit(Cause::Attributes);
        let attribute = if has_attribute {
            scene.vram[BANK + cell]
        } else {
            0
        };
        let base = if scene.lcdc(4) || number >= 128 {
            0
        } else {
            0x1000
        };
        let line = flipped(attribute & 0x40 != 0, row % 8, 8);
        let place = flipped(attribute & 0x20 != 0, column % 8, 8);
        let address = base + 16 * number + 2 * line as usize;
        Ground {
            colour: tile_colour(scene, attribute >> 3 & 1, address, place),
            attribute,
        }
    }

    /// What a sprite has at a place; nothing where it is transparent, elsewhere, or cut by the window's start.
    fn dot(&self, sprite: &[u8; 4], x: u8) -> Option<Dot> {
        let scene = self.scene;
        let [top, left, number, flags] = *sprite;
        let place = (x + 8).checked_sub(left).filter(|&place| place < 8)?;
        let wx = scene.register(WX);
        let crossed = wx > 7 && left <= wx && x + 7 >= wx;
        if self.ways.unit(Cause::Cut) && self.windowed() && crossed {
            return None;
        }
        let tall = if scene.lcdc(2) { 16 } else { 8 };
        let line = flipped(flags & 0x40 != 0, self.y + 16 - top, tall);
        let first = if tall == 16 { number & !1 } else { number };
        let address = 16 * first as usize + 2 * line as usize;
        let banked = scene.colour() || self.ways.unit(Cause::SpriteBank);
        let bank = if banked { flags >> 3 & 1 } else { 0 };
        let colour = tile_colour(scene, bank, address, flipped(flags & 0x20 != 0, place, 8));
        (colour != 0).then_some(Dot { colour, flags })
    }

    /// The sprite that is seen, if any: one that loses to the background hides those after it, but not in mGBA.
    fn winner(&self, ground: &Ground, x: u8) -> Option<Dot> {
        let scene = self.scene;
        let always = scene.colour() && !scene.lcdc(0) || ground.colour == 0;
        let wins = |dot: &Dot| always || (ground.attribute | dot.flags) & 0x80 == 0;
        let mut dots = self.sprites.iter().filter_map(|s| self.dot(s, x));
        if !scene.lcdc(1) {
            None
        } else if self.ways.unit(Cause::Behind) {
            dots.next().filter(wins)
        } else {
            dots.find(wins)
        }
    }

    /// The raw colour of a palette of the background or, from 8 on, of the sprites.
    fn raw(&self, palette: u8, colour: u8) -> u16 {
        let scene = self.scene;
        if scene.ports && (scene.colour() || self.ways.unit(Cause::Ports)) {
            let at = 8 * palette as usize + 2 * colour as usize;
            u16::from_le_bytes([scene.colours[at], scene.colours[at + 1]])
        } else if [0, 8, 9].contains(&palette) {
            [31, 21, 10, 0][colour as usize] * 0x421
        } else {
            0
        }
    }

    /// The bytes of a place.
    pub fn place(&self, x: u8) -> [u8; 3] {
        let scene = self.scene;
        let shade = |low: u8, colour: u8| scene.register(low) >> (2 * colour) & 3;
        let ground = self.ground(x);
        let raw = match self.winner(&ground, x) {
            None if scene.colour() => self.raw(ground.attribute & 7, ground.colour),
            None => self.raw(ground.attribute & 7, shade(0x47, ground.colour)),
            Some(dot) if scene.colour() => self.raw(8 + (dot.flags & 7), dot.colour),
            Some(dot) => {
                let palette = dot.flags >> 4 & 1;
                self.raw(8 + palette, shade(0x48 + palette, dot.colour))
            }
        };
        mixed(raw)
    }
}
