//! The causes for which the two sides may part in a still scene (docs/DIFFERENCES.md), and what keeps a scene free of each.

use crate::scene::{Scene, BANK, OPRI, WX};

/// For each cause this unit's way comes first, mGBA's second.
#[derive(Clone, Copy, PartialEq, Debug)]
pub enum Cause {
    /// Outside colour mode bank 1 holds attributes; there is no bank 1.
    Attributes,
    /// Outside colour mode OAM flag bit 3 picks bank 1; it has no meaning.
    SpriteBank,
    /// A sprite that the window's start crosses ends there; it goes on.
    Cut,
    /// Outside colour mode, FF6C as the start leaves it, sprites go by coordinate; by OAM order.
    Coordinate,
    /// In colour mode FF6C 1 makes sprites go by coordinate; it does nothing.
    Opri,
    /// The first sprite that is not transparent meets the background; one that loses lets the next one meet it.
    Behind,
    /// The colour palettes can be written outside colour mode; they cannot.
    Ports,
}

pub const CAUSES: [Cause; 7] = [
    Cause::Attributes,
    Cause::SpriteBank,
    Cause::Cut,
    Cause::Coordinate,
    Cause::Opri,
    Cause::Behind,
    Cause::Ports,
];

impl Cause {
    pub fn name(self) -> &'static str {
        match self {
            Cause::Attributes => "bank 1 attributes outside colour mode",
            Cause::SpriteBank => "OAM flag bit 3 outside colour mode",
            Cause::Cut => "a sprite cut where the window starts",
            Cause::Coordinate => "mGBA: sprites by OAM order outside colour mode too",
            Cause::Opri => "sprites by coordinate in colour mode, FF6C 1",
            Cause::Behind => "mGBA: a sprite behind the background shows the next one",
            Cause::Ports => "colour palettes written outside colour mode",
        }
    }

    /// Makes the scene one in which this cause changes no place.
    pub fn avoid(self, scene: &mut Scene) {
        match self {
            Cause::Attributes if !scene.colour() => scene.vram[BANK + 0x1800..].fill(0),
            Cause::SpriteBank if !scene.colour() => each(scene, |_, s| s[3] &= !8),
            Cause::Cut => step_aside(scene),
            Cause::Coordinate if !scene.colour() => in_one_order(scene),
            Cause::Opri if scene.colour() => scene.set(OPRI, 0),
            Cause::Behind => front_first(scene),
            Cause::Ports => scene.ports = scene.colour(),
            _ => {}
        }
    }
}

fn each(scene: &mut Scene, mut f: impl FnMut(usize, &mut [u8])) {
    for (k, sprite) in scene.oam.chunks_mut(4).enumerate() {
        f(k, sprite);
    }
}

/// A sprite that the window's start would cross starts with the window.
fn step_aside(scene: &mut Scene) {
    let wx = scene.register(WX);
    if scene.lcdc(5) && (8..167).contains(&wx) {
        each(scene, |_, s| {
            if s[1] <= wx && wx < s[1].saturating_add(7) {
                s[1] = wx + 1;
            }
        });
    }
}

/// Sprites go by coordinate, and OAM does too.
fn in_one_order(scene: &mut Scene) {
    scene.set(OPRI, 1);
    let mut sprites: Vec<Vec<u8>> = scene.oam.chunks(4).map(|s| s.to_vec()).collect();
    sprites.sort_by_key(|s| s[1]);
    scene.oam = sprites.concat();
}

/// Whether OAM order is also the order by which this unit takes the sprites.
fn has_one_order(scene: &Scene) -> bool {
    let rising = || {
        (4..160)
            .step_by(4)
            .all(|at| scene.oam[at - 3] <= scene.oam[at + 1])
    };
    scene.register(OPRI) == 0 || rising()
}

/// From some entry on all sprites are behind the background, before it none is; from the first on, where there are two orders.
fn front_first(scene: &mut Scene) {
    let first = match scene.oam[3] {
        flags if has_one_order(scene) => flags as usize % 41,
        flags => 40 * (flags as usize % 2),
    };
    each(scene, |k, s| s[3] = s[3] & 0x7f | ((k >= first) as u8) << 7);
}
