
// Appended at build time: between the given sprites and the Rattle ones.

impl Sprite {
    pub fn part_new(bytes: [u8; 4]) -> Self {
        let [y, x, tile, flags] = bytes;
        Self {
            y,
            x,
            tile,
            flags: SpriteFlags::from_bits_truncate(flags),
        }
    }
}

impl SelectedSprite {
    pub fn part_new(s: &rattle::sprite::SelectedSprite) -> Self {
        let sprite = &s.sprite;
        Self::new(
            Sprite::part_new([sprite.y, sprite.x, sprite.tile, sprite.flags]),
            s.index,
        )
    }

    pub fn part(&self) -> rattle::sprite::SelectedSprite {
        rattle::sprite::SelectedSprite {
            sprite: rattle::sprite::Sprite {
                y: self.sprite.y,
                x: self.sprite.x,
                tile: self.sprite.tile,
                flags: self.sprite.flags.bits(),
            },
            index: self.index,
        }
    }
}
