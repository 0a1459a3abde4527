//! The program `sprite_lists`: its answer by the given text, and the maker of its inputs. NOTES.md has the format.

use crate::list::Random;
use crate::ppu::parts::LCD_HEIGHT;
use crate::ppu::Ppu;
use std::io::{self, Read, Write};

const OAM_BYTES: usize = 160;
/// The most bytes of an input.
const MOST: usize = 65_536;

fn no_answer(why: &str) -> io::Error {
    let words = format!("{}: there is no answer", why);
    io::Error::new(io::ErrorKind::InvalidData, words)
}

fn refused(out: &mut dyn Write, number: u8) -> io::Result<()> {
    writeln!(out, "refused {}", number)?;
    out.flush()
}

/// How many entries touch a line, by the given selection alone: what it takes is moved to y 0, which is on no line of the
/// picture at either height, until it takes none. Then every entry is put back.
fn count(holder: &mut Ppu, line: u8, tall: u8) -> usize {
    let mut moved = Vec::new();
    loop {
        let (taken, slots) = holder.look_pick(line, tall);
        if taken == 0 {
            break;
        }
        for slot in &slots[..taken as usize] {
            let address = 4 * slot[0] as u16;
            holder.write_oam_no_lock(address, 0);
            moved.push((address, slot[1]));
        }
    }
    for &(address, y) in &moved {
        holder.write_oam_no_lock(address, y);
    }
    moved.len()
}

/// One line of the answer.
fn print_line(out: &mut dyn Write, holder: &mut Ppu, line: u8, tall: u8) -> io::Result<()> {
    let (taken, slots) = holder.look_pick(line, tall);
    write!(out, "{} {}", line, count(holder, line, tall))?;
    if taken > 0 {
        write!(out, " {}:", slots[0][0])?;
    }
    for slot in &slots[..taken as usize] {
        write!(out, " {}", slot[0])?;
    }
    writeln!(out)
}

pub fn answer(input: impl Read, out: &mut dyn Write) -> io::Result<()> {
    let mut bytes = Vec::new();
    input.take(MOST as u64 + 1).read_to_end(&mut bytes)?;
    if bytes.len() > MOST {
        return Err(no_answer("the input is longer than 65536 bytes"));
    }
    if bytes.len() <= OAM_BYTES {
        return refused(out, 1);
    }
    let (oam, rest) = bytes.split_at(OAM_BYTES);
    let (tall, edits) = (rest[0], &rest[1..]);
    if tall != 8 && tall != 16 {
        return refused(out, 4);
    }
    if edits.len() % 2 != 0 {
        return Err(no_answer("the input ends within an edit"));
    }

    let mut holder = Ppu::look_fresh(false, true);
    for (address, &value) in oam.iter().enumerate() {
        holder.write_oam_no_lock(address as u16, value);
    }
    for (k, edit) in edits.chunks_exact(2).enumerate() {
        if (edit[0] as usize) < OAM_BYTES {
            holder.write_oam_no_lock(edit[0] as u16, edit[1]);
        } else {
            writeln!(out, "edit {} refused 4", k)?;
        }
    }
    for line in 0..LCD_HEIGHT as u8 {
        print_line(out, &mut holder, line, tall)?;
    }
    out.flush()
}

/// Where a sprite of either height comes onto the picture or leaves it, wholly or with its last row, and their neighbours.
const EDGES: [u8; 20] = [
    0, 1, 2, 7, 8, 9, 15, 16, 17, 143, 144, 145, 151, 152, 153, 158, 159, 160, 161, 255,
];

/// Six y close together, and how many of eight new y are among them: so a line has none, some, ten, or nearly all entries.
struct Crowd {
    top: u8,
    share: u32,
}

/// A new y for an entry whose y is `old`.
fn new_y(random: &mut Random, crowd: &Crowd, old: u8) -> u8 {
    if random.below(8) < crowd.share {
        return crowd.top + random.below(6) as u8;
    }
    match random.below(8) {
        0..=2 => random.of(&EDGES),
        3 => 160 + random.below(96) as u8,
        4 => old.wrapping_add(random.of(&[255, 0, 1])),
        _ => random.byte(),
    }
}

/// One input with `count` edits. Sprites are 8 tall for an even seed, 16 for an odd one.
pub fn random(out: &mut dyn Write, seed: u64, count: u64) -> io::Result<()> {
    let random = &mut Random::new(seed);
    let crowd = Crowd {
        top: random.below(155) as u8,
        share: random.below(8),
    };
    let mut oam = [0; OAM_BYTES];
    for (address, byte) in oam.iter_mut().enumerate() {
        *byte = match address % 4 {
            0 => new_y(random, &crowd, 0),
            _ => random.byte(),
        };
    }
    out.write_all(&oam)?;
    out.write_all(&[if seed % 2 == 0 { 8 } else { 16 }])?;

    for _ in 0..count {
        let address = match random.below(50) {
            0 => 160 + random.below(96),
            1..=12 => random.below(160),
            _ => 4 * random.below(40),
        };
        let value = match oam.get(address as usize) {
            Some(&old) if address % 4 == 0 => new_y(random, &crowd, old),
            _ => random.byte(),
        };
        if let Some(byte) = oam.get_mut(address as usize) {
            *byte = value;
        }
        out.write_all(&[address as u8, value])?;
    }
    out.flush()
}

/// The stored input.
pub fn sample(out: &mut dyn Write) -> io::Result<()> {
    random(out, 7, 600)
}
