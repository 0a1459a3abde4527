//! Tile rows: every row of VRAM, the fetch of the background and the start of a sprite, each with where it was read.
//! A source is held against the given text twice: the two bytes of VRAM there, decoded by it, are the row; and it is those two that
//! it read, as its colours are turned round where they are. Where nothing was read all of VRAM is turned round, and nothing changes.
//! One kind of fetch is left out of the second: in the window the map goes on behind its end, at the beginning of a bank, so that a
//! tile's number or its attribute may be a byte of the row itself.

use crate::bench::{caught, Bench};
use crate::states;
use given::machine::Machine;
use given::ppu::Ppu;
use rattle::sprite::Sprite;
use rattle::tiles::{self, Address, Fetch};
use std::cell::RefCell;

/// A row: its colours, what the two bytes at its source say, and its colours once these are turned round.
#[derive(PartialEq, Debug)]
struct Row {
    colors: [u8; 8],
    by_its_bytes: [u8; 8],
    turned_round: [u8; 8],
}

/// A machine of its own, in whose VRAM two bytes are decoded.
struct Decoder(RefCell<Machine>);

impl Decoder {
    fn new() -> Self {
        Decoder(RefCell::new(Machine::new()))
    }

    /// The row of the two bytes at a source, which stand side by side in VRAM; eight 0s where nothing was read.
    fn row(&self, vram: &[u8], source: Option<Address>) -> [u8; 8] {
        match source {
            Some(address) => {
                let at = place(address);
                self.0
                    .borrow_mut()
                    .ppu
                    .part_decode([vram[at], vram[at + 1]])
            }
            None => [0; 8],
        }
    }
}

fn place(address: Address) -> usize {
    8192 * address.bank as usize + address.offset as usize
}

/// What the given text gives once the bytes that a source names are turned round, all of VRAM where it names none.
fn turned<T>(ppu: &mut Ppu, source: Option<Address>, given: impl Fn(&mut Ppu) -> T) -> T {
    let bytes = match source {
        Some(address) => place(address)..place(address) + 2,
        None => 0..16384,
    };
    let turn = |ppu: &mut Ppu| {
        let bytes = ppu.part_vram().get_mut(bytes.clone());
        bytes.into_iter().flatten().for_each(|byte| *byte = !*byte)
    };
    turn(ppu);
    let answer = given(ppu);
    turn(ppu);
    answer
}

/// Colours whose bytes are turned round, where they were read.
fn opposite(colors: [u8; 8], source: Option<Address>) -> [u8; 8] {
    match source {
        Some(_) => colors.map(|color| 3 - color),
        None => colors,
    }
}

/// Whether the place of the map that a fetch looks at has a byte of the row.
fn is_own_map(f: Fetch, source: Option<Address>) -> bool {
    let base = if f.lcdc & 0x40 != 0 { 0x9C00 } else { 0x9800 };
    let map = base + f.wrow as u16 / 8 * 32 + f.column as u16;
    match source {
        Some(address) => f.window && map % 8192 / 2 == address.offset / 2,
        None => false,
    }
}

fn flipped(flags: u8, mut row: [u8; 8]) -> [u8; 8] {
    if flags & 0x20 != 0 {
        row.reverse();
    }
    row
}

/// Every row of VRAM, in both banks, at odd offsets too and around the end of a bank.
pub fn rows(bench: &mut Bench) -> Result<(), String> {
    for _ in 0..8 {
        bench.shuffle_vram();
        for at in 0..16384u16 {
            let [low, high] = (at % 8192).to_le_bytes();
            let address = |b: [u8; 3]| Address {
                bank: b[0],
                offset: u16::from_le_bytes([b[1], b[2]]),
            };
            bench.compare_bytes(
                [(at / 8192) as u8, low, high],
                |b| format!("{:?}", address(b)),
                |ppu, b| {
                    let address = address(b);
                    let colors = ppu.part_row(address.bank, address.offset);
                    (colors, Some(address))
                },
                |vram, b| {
                    let row = tiles::tile_row(vram, address(b));
                    (row.colors, row.source)
                },
            )?;
        }
    }
    Ok(())
}

fn fetch(bench: &mut Bench, decoder: &Decoder, f: Fetch) -> Result<(), String> {
    let flags = f.cgb as u8 | (f.window as u8) << 1;
    let fetch = |[flags, lcdc, scx, scy, line, wrow, column]: [u8; 7]| Fetch {
        cgb: flags & 1 != 0,
        lcdc,
        window: flags & 2 != 0,
        scx,
        scy,
        line,
        wrow,
        column,
    };
    bench.compare_bytes(
        [flags, f.lcdc, f.scx, f.scy, f.line, f.wrow, f.column],
        |bytes| format!("{:?}", fetch(bytes)),
        |ppu, bytes| {
            let f = fetch(bytes);
            let (colors, attribute) = ppu.part_fetch_bg(&f);
            let turned_round = match caught(|| tiles::fetch_bg(ppu.part_vram(), f).source) {
                Ok(source) if !is_own_map(f, source) => {
                    turned(ppu, source, |ppu| ppu.part_fetch_bg(&f).0)
                }
                _ => colors,
            };
            let row = Row {
                colors,
                by_its_bytes: colors,
                turned_round,
            };
            (row, attribute)
        },
        |vram, bytes| {
            let f = fetch(bytes);
            let fetched = tiles::fetch_bg(vram, f);
            let (colors, attribute) = (fetched.tile.row, fetched.tile.attribute.bits);
            let row = Row {
                colors,
                by_its_bytes: flipped(attribute, decoder.row(vram, fetched.source)),
                turned_round: if is_own_map(f, fetched.source) {
                    colors
                } else {
                    opposite(colors, fetched.source)
                },
            };
            (row, attribute)
        },
    )
}

fn random_fetch(bench: &mut Bench) -> Fetch {
    let [lcdc, scx, scy, line, wrow, column, flags, _] = bench.random.next().to_le_bytes();
    Fetch {
        cgb: flags & 1 != 0,
        lcdc: if flags & 6 == 0 { lcdc } else { lcdc | 1 },
        window: flags & 8 != 0,
        scx,
        scy,
        line,
        wrow,
        column,
    }
}

/// Every attribute byte, every place of both maps, every line and scroll, and mixes of all.
pub fn fetches(bench: &mut Bench) -> Result<(), String> {
    let decoder = Decoder::new();
    for attribute in 0..=255u8 {
        bench.shuffle_vram();
        for vram in [&mut bench.memory.vram[..], bench.given.ppu.part_vram()] {
            vram[0x3800..].fill(attribute);
        }
        for bits in 0..=255u8 {
            // LCDC bits 0, 3, 4, 6, in the window or not, and the row of the tile
            for row in 0..8 {
                let mut f = random_fetch(bench);
                f.lcdc = f.lcdc & 0xA6 | bits & 0x59;
                f.cgb = bits & 2 != 0;
                f.window = bits & 4 != 0;
                f.wrow = f.wrow & 0xF8 | row;
                f.line = f.line & 0xF8 | row;
                f.scy &= 0xF8;
                fetch(bench, &decoder, f)?;
            }
        }
    }
    for kind in 0..8u8 {
        bench.shuffle_vram();
        for row in 0..=255u8 {
            for column in 0..=255u8 {
                let mut f = random_fetch(bench);
                f.lcdc = f.lcdc & 0xAF | (kind & 1) << 6 | (kind & 2) << 3 | 1;
                f.cgb = kind & 4 != 0;
                f.window = true;
                f.wrow = row;
                f.column = column;
                fetch(bench, &decoder, f)?;
            }
        }
    }
    for kind in 0..4u8 {
        bench.shuffle_vram();
        for one in 0..=255u8 {
            for other in 0..=255u8 {
                let mut f = random_fetch(bench);
                f.lcdc = f.lcdc & 0xE7 | (kind & 1) << 3 | (kind & 2) << 3 | 1;
                f.window = false;
                fetch(
                    bench,
                    &decoder,
                    Fetch {
                        line: one,
                        scy: other,
                        ..f
                    },
                )?;
                fetch(
                    bench,
                    &decoder,
                    Fetch {
                        scx: one,
                        column: other,
                        ..f
                    },
                )?;
            }
        }
    }
    for i in 0..3_000_000 {
        if i % 50_000 == 0 {
            bench.shuffle_vram();
        }
        let f = random_fetch(bench);
        fetch(bench, &decoder, f)?;
    }
    Ok(())
}

/// The columns of a sprite that are gone where it starts at a place.
fn gone(s: Sprite, x: u8) -> usize {
    match s.x {
        left if x == 0 && left < 8 => 8 - left as usize,
        _ => 0,
    }
}

/// A row moved left by so many columns.
fn moved(gone: usize, row: [u8; 8]) -> [u8; 8] {
    std::array::from_fn(|k| row.get(k + gone).copied().unwrap_or(0))
}

/// Whether a sprite starts at a place, and its row there; stale selections among them.
pub fn sprites(bench: &mut Bench) -> Result<(), String> {
    let decoder = Decoder::new();
    let mut started = 0;
    for i in 0..2_000_000 {
        if i % 50_000 == 0 {
            bench.shuffle_vram();
        }
        let (line, double) = (bench.random.byte(), bench.random.of(&[0, 1]));
        let x = if bench.random.once_in(3) {
            0
        } else {
            bench.random.byte()
        };
        let s = states::sprite(&mut bench.random, line, x);
        started += tiles::starts_at(s, x) as u64;
        let sprite = |b: [u8; 7]| Sprite {
            y: b[3],
            x: b[4],
            tile: b[5],
            flags: b[6],
        };
        let tall = |b: [u8; 7]| if b[2] == 0 { 8 } else { 16 };
        bench.compare_bytes(
            [line, x, double, s.y, s.x, s.tile, s.flags],
            |b| {
                format!(
                    "{:?}, line {}, {} tall, at x {}",
                    sprite(b),
                    b[0],
                    tall(b),
                    b[1]
                )
            },
            |ppu, b| {
                let (line, x, s) = (b[0], b[1], sprite(b));
                let given = |ppu: &mut Ppu| ppu.part_sprite_colors(&s, line, tall(b), x);
                let colors = given(ppu)?;
                let ours = caught(|| tiles::sprite_colors(ppu.part_vram(), s, line, tall(b), x));
                Some(Row {
                    colors,
                    by_its_bytes: colors,
                    turned_round: match ours {
                        Ok(row) => turned(ppu, row.source, given)?,
                        Err(_) => colors,
                    },
                })
            },
            |vram, b| {
                let (line, x, s) = (b[0], b[1], sprite(b));
                tiles::starts_at(s, x).then(|| {
                    let row = tiles::sprite_colors(vram, s, line, tall(b), x);
                    let whole = flipped(s.flags, decoder.row(vram, row.source));
                    Row {
                        colors: row.colors,
                        by_its_bytes: moved(gone(s, x), whole),
                        turned_round: moved(gone(s, x), opposite(whole, row.source)),
                    }
                })
            },
        )?;
    }
    bench.note = format!("{} start", given::list::spaced(started));
    Ok(())
}
