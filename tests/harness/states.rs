//! Random states in order, their plain form, and what differs between two.

use crate::bench::{fill, Bench};
use given::list::Random;
use rattle::bg_attribs::BgAttribute;
use rattle::colors::{ColorPalette, PaletteSet};
use rattle::fifo::{BgFifo, BgFifoPixel, SpriteFifo, SpriteFifoPixel};
use rattle::hardware::Machine;
use rattle::sprite::{SelectedSprite, Selection, Sprite};
use rattle::state::{Beam, Fetcher, Palettes, Pipe, Registers, State};

/// A machine in colour mode.
pub const COLOUR: Machine = Machine {
    dmg: false,
    cgb: true,
};

fn flag(random: &mut Random) -> bool {
    random.next() >> 63 == 1
}

pub fn palette(random: &mut Random) -> ColorPalette {
    let w = random.next();
    ColorPalette {
        c0: w as u16,
        c1: (w >> 16) as u16,
        c2: (w >> 32) as u16,
        c3: (w >> 48) as u16,
    }
}

fn palette_set(random: &mut Random) -> PaletteSet {
    let mut bytes = [0; 64];
    fill(random, &mut bytes);
    PaletteSet {
        bytes,
        index: if random.once_in(4) {
            random.of(&[0, 7, 8, 63])
        } else {
            random_below(random, 64)
        },
        auto: flag(random),
    }
}

fn random_below(random: &mut Random, limit: u32) -> u8 {
    random.below(limit) as u8
}

/// A pixel of a live slot, or of one past the length, where anything may stand.
pub fn bg_pixel(random: &mut Random, live: bool) -> BgFifoPixel {
    let color = random.byte();
    BgFifoPixel {
        color: if live { color % 4 } else { color },
        palette: palette(random),
        priority: flag(random),
    }
}

pub fn sprite_pixel(random: &mut Random, live: bool) -> SpriteFifoPixel {
    let [color, obp, index, priority] = (random.next() as u32).to_be_bytes();
    SpriteFifoPixel {
        color: if live { color % 4 } else { color },
        palette: palette(random),
        obp: if live { obp % 2 } else { obp },
        index: if live { index % 40 } else { index },
        priority: priority % 2 == 1,
    }
}

/// Where a ring begins: a slot, or now and then any byte.
fn head(random: &mut Random, size: u32) -> u8 {
    if random.once_in(4) {
        random.byte()
    } else {
        random_below(random, size)
    }
}

pub fn bg_queue(random: &mut Random, len: u8) -> BgFifo {
    let head = head(random, 16);
    let mut q = BgFifo {
        head,
        len,
        ..BgFifo::fresh()
    };
    for k in 0..16 {
        q.pixels[(head as usize + k) % 16] = bg_pixel(random, k < len as usize);
    }
    q
}

pub fn sprite_queue(random: &mut Random, len: u8) -> SpriteFifo {
    let head = head(random, 8);
    let mut q = SpriteFifo {
        head,
        len,
        ..SpriteFifo::fresh()
    };
    for k in 0..8 {
        q.pixels[(head as usize + k) % 8] = sprite_pixel(random, k < len as usize);
    }
    q
}

/// A sprite that often meets the line and starts at the place, and as often is a stale one.
pub fn sprite(random: &mut Random, line: u8, x: u8) -> Sprite {
    let [y, place, tile, flags] = (random.next() as u32).to_be_bytes();
    Sprite {
        y: if flag(random) {
            line.wrapping_add(16).wrapping_sub(y % 16)
        } else {
            y
        },
        x: match random.below(4) {
            0 | 1 => x.wrapping_add(8),
            2 => place % 9,
            _ => place,
        },
        tile,
        flags,
    }
}

fn selection(random: &mut Random, line: u8, x: u8) -> Selection {
    let count = random_below(random, 11);
    let slots = std::array::from_fn(|k| SelectedSprite {
        sprite: sprite(random, line, x),
        index: if k < count as usize {
            random_below(random, 40)
        } else {
            random.byte()
        },
    });
    Selection { count, slots }
}

fn beam(random: &mut Random) -> Beam {
    let cycle = match random.below(4) {
        0 => [0, 2, 4, 78, 80, 82, 84, 450, 452, 454][random.below(10) as usize],
        _ => 2 * random.below(228) as u16,
    };
    let line = match random.below(8) {
        0 => random.of(&[0, 1, 142, 143, 144, 145, 152, 153]),
        1 => random_below(random, 154),
        _ => random_below(random, 144),
    };
    Beam {
        line,
        cycle,
        x: match random.below(8) {
            0 => 0,
            1 => random.of(&[1, 7, 8, 158, 159]),
            _ => random_below(random, 160),
        },
        shown: random_below(random, 2),
        count: match random.below(4) {
            0 => [0, 1, 23039, 23040, 65534, 65535][random.below(6) as usize],
            _ => random.next() as u16,
        },
        end: if flag(random) {
            cycle
        } else {
            random.next() as u16
        },
        level: flag(random),
        turned: flag(random),
        blanked: flag(random),
    }
}

fn registers(random: &mut Random, b: &Beam) -> Registers {
    let ly = if flag(random) {
        b.line
    } else {
        random_below(random, 154)
    };
    let stat = random_below(random, 128);
    Registers {
        lcdc: random.byte(),
        stat: if b.line > 143 && stat % 4 == 3 {
            stat - 1
        } else {
            stat
        },
        scy: random.byte(),
        scx: random.byte(),
        ly,
        lyc: if flag(random) { ly } else { random.byte() },
        bgp: random.byte(),
        obp0: random.byte(),
        obp1: random.byte(),
        wy: match random.below(4) {
            0 => b.line,
            1 => random.byte(),
            _ => random_below(random, b.line as u32 + 1),
        },
        wx: match random.below(4) {
            0 | 1 => b.x.wrapping_add(7),
            2 => random_below(random, 9),
            _ => random.byte(),
        },
        vbk: random_below(random, 2),
        coord: flag(random),
        cgb: flag(random),
    }
}

fn pipe(random: &mut Random) -> Pipe {
    let mut row = [0; 8];
    fill(random, &mut row);
    let waiting = if flag(random) {
        row = row.map(|color| color % 4);
        Some(BgAttribute {
            bits: random.byte(),
        })
    } else {
        None
    };
    let (bg, obj) = (random_below(random, 17), random_below(random, 9));
    Pipe {
        fetcher: Fetcher {
            delay: random_below(random, 9),
            column: random.byte(),
            row,
            waiting,
        },
        bg: bg_queue(random, bg),
        obj: sprite_queue(random, obj),
        window: flag(random),
        wrow: random.byte(),
        discard: match random.below(4) {
            0 | 1 => 0,
            2 => random_below(random, 8),
            _ => random.byte(),
        },
    }
}

/// A state in order, reachable from a start or not.
pub fn in_order(random: &mut Random) -> State {
    let beam = beam(random);
    State {
        machine: Machine {
            dmg: flag(random),
            cgb: flag(random),
        },
        regs: registers(random, &beam),
        palettes: Palettes {
            bg: palette_set(random),
            obj: palette_set(random),
        },
        selection: selection(random, beam.line, beam.x),
        pipe: pipe(random),
        beam,
    }
}

/// A state in order in mode 3, as a draw meets it.
pub fn drawing(random: &mut Random) -> State {
    let mut s = in_order(random);
    s.beam.line %= 144;
    s.regs.stat |= 3;
    s.regs.lcdc |= 0x80;
    s
}

pub fn plain_bg(q: &BgFifo) -> BgFifo {
    let mut out = BgFifo {
        len: q.len,
        ..BgFifo::fresh()
    };
    for k in 0..q.len.min(16) as usize {
        out.pixels[k] = q.pixels[(q.head as usize + k) % 16];
    }
    out
}

pub fn plain_sprites(q: &SpriteFifo) -> SpriteFifo {
    let mut out = SpriteFifo {
        len: q.len,
        ..SpriteFifo::fresh()
    };
    for k in 0..q.len.min(8) as usize {
        out.pixels[k] = q.pixels[(q.head as usize + k) % 8];
    }
    out
}

/// The plain form: queues from slot 0 on, 0s where nothing stands.
pub fn plain(s: &State) -> State {
    let mut out = *s;
    out.pipe.bg = plain_bg(&s.pipe.bg);
    out.pipe.obj = plain_sprites(&s.pipe.obj);
    if s.pipe.fetcher.waiting.is_none() {
        out.pipe.fetcher.row = [0; 8];
    }
    out
}

/// A field as a number, 0 at its plainest.
pub trait Cell {
    fn get(&self) -> u64;
    fn put(&mut self, value: u64);
}

macro_rules! numbers {
    ($($number:ty),*) => {
        $(impl Cell for $number {
            fn get(&self) -> u64 {
                *self as u64
            }

            fn put(&mut self, value: u64) {
                *self = value as $number;
            }
        })*
    };
}
numbers!(u8, u16);

impl Cell for bool {
    fn get(&self) -> u64 {
        *self as u64
    }

    fn put(&mut self, value: u64) {
        *self = value != 0;
    }
}

/// A row that waits is 256 and its attribute.
impl Cell for Option<BgAttribute> {
    fn get(&self) -> u64 {
        match self {
            Some(t) => 256 + t.bits as u64,
            None => 0,
        }
    }

    fn put(&mut self, value: u64) {
        *self = if value < 256 {
            None
        } else {
            Some(BgAttribute { bits: value as u8 })
        };
    }
}

macro_rules! cells {
    ($f:ident, $prefix:expr, $of:expr; $($head:ident $(. $tail:ident)*),* $(,)?) => {
        $($f(
            format!("{}{}", $prefix, concat!(stringify!($head) $(, ".", stringify!($tail))*)),
            &mut $of.$head $(.$tail)*,
        );)*
    };
}

fn each_palette(f: &mut dyn FnMut(String, &mut dyn Cell), prefix: &str, p: &mut ColorPalette) {
    cells!(f, prefix, p; c0, c1, c2, c3);
}

/// Every field of a state under its name.
pub fn each(s: &mut State, f: &mut dyn FnMut(String, &mut dyn Cell)) {
    cells!(f, "", s; machine.dmg, machine.cgb);
    cells!(f, "", s.regs; lcdc, stat, scy, scx, ly, lyc, bgp, obp0, obp1, wy, wx, vbk, coord, cgb);
    cells!(f, "", s.beam; line, cycle, x, shown, count, end, level, turned, blanked);
    cells!(f, "", s.pipe; window, wrow, discard, fetcher.delay, fetcher.column, fetcher.waiting);
    for (k, color) in s.pipe.fetcher.row.iter_mut().enumerate() {
        f(format!("fetcher.row[{}]", k), color);
    }
    for (name, set) in [
        ("bg palettes", &mut s.palettes.bg),
        ("sprite palettes", &mut s.palettes.obj),
    ] {
        cells!(f, format!("{} ", name), set; index, auto);
        for (k, byte) in set.bytes.iter_mut().enumerate() {
            f(format!("{} byte {}", name, k), byte);
        }
    }
    cells!(f, "bg queue ", s.pipe.bg; len, head);
    for (k, pixel) in s.pipe.bg.pixels.iter_mut().enumerate() {
        let prefix = format!("bg queue slot {} ", k);
        cells!(f, prefix, pixel; color, priority);
        each_palette(f, &prefix, &mut pixel.palette);
    }
    cells!(f, "sprite queue ", s.pipe.obj; len, head);
    for (k, pixel) in s.pipe.obj.pixels.iter_mut().enumerate() {
        let prefix = format!("sprite queue slot {} ", k);
        cells!(f, prefix, pixel; color, obp, index, priority);
        each_palette(f, &prefix, &mut pixel.palette);
    }
    cells!(f, "selection ", s.selection; count);
    for (k, slot) in s.selection.slots.iter_mut().enumerate() {
        let prefix = format!("selection slot {} ", k);
        cells!(f, prefix, slot; sprite.y, sprite.x, sprite.tile, sprite.flags, index);
    }
}

fn listed(s: &State) -> Vec<(String, u64)> {
    let mut out = Vec::new();
    each(&mut s.clone(), &mut |name, cell| {
        out.push((name, cell.get()))
    });
    out
}

/// The fields of two plain states that differ, a line each, up to twelve; queued pixels count from the front.
pub fn differences(wanted: &State, got: &State) -> Vec<String> {
    listed(wanted)
        .iter()
        .zip(listed(got))
        .filter(|(w, g)| w.1 != g.1)
        .take(12)
        .map(|(w, g)| {
            let name = w.0.replace("queue slot", "queue pixel");
            format!("  {}: wanted {}, got {}", name, w.1, g.1)
        })
        .collect()
}

/// The fields that are not 0.
pub fn shown(s: &State) -> Vec<String> {
    let set: Vec<String> = listed(s)
        .iter()
        .filter(|(_, value)| *value != 0)
        .map(|(name, value)| format!("{} {}", name, value))
        .collect();
    vec![match set.len() {
        0 => "  from a state of 0s".to_string(),
        _ => format!("  from the state with {}, the rest 0", set.join(", ")),
    }]
}

/// Clears field after field, and then bit after bit of what is left, while the difference is still there.
pub fn smaller(s: &mut State, mut still: impl FnMut(&State) -> bool) {
    let fields = listed(s).len();
    for i in 0..fields {
        let mut masks = vec![0];
        masks.extend((0..16).rev().map(|bit| !(1 << bit)));
        for mask in masks {
            let mut trial = *s;
            let mut k = 0;
            let mut moved = false;
            each(&mut trial, &mut |_, cell| {
                if k == i {
                    let value = cell.get();
                    cell.put(value & mask);
                    moved = cell.get() != value;
                }
                k += 1;
            });
            if moved && still(&trial) {
                *s = trial;
            }
        }
    }
}

/// A state set into the given machine and read back is its plain form; and the random states are in order.
pub fn round(bench: &mut Bench) -> Result<(), String> {
    for _ in 0..100_000 {
        let s = in_order(&mut bench.random);
        bench.compare_after(&s, |g| g.ppu.look_disorder(), |_, _| None)?;
    }
    bench.compare_memory()
}
