//! The sets of the lines: beside the given text's selections after every edit; on sets that are not OAM's; and their refusals.

use crate::bench::{self, caught, fill, first_byte, same, Bench};
use crate::bytes::{set_bytes, shrink};
use crate::refusals::Tally;
use given::list::{spaced, Random};
use given::machine::corrupt;
use given::ppu::Ppu;
use rattle::line_sets;
use rattle::refusals::Refusal;
use rattle::sprite::{self, SelectedSprite, Selection, Sprite};
use rattle::{oam_bug, ports};

const LINES: usize = 144;
const HEIGHTS: [u8; 2] = [8, 16];

/// The ys where a sprite of either height comes into the picture or leaves it, those beside them, and the ends.
const EDGES: [u8; 24] = [
    0, 1, 2, 7, 8, 9, 10, 15, 16, 17, 23, 24, 31, 32, 143, 144, 151, 152, 158, 159, 160, 161, 254,
    255,
];

/// The lent memory of the calls.
#[derive(Clone, PartialEq)]
struct Lent {
    oam: Vec<u8>,
    sets: Vec<u64>,
}

/// The answers to the three questions about a line.
type Counted = Result<u8, Refusal>;
type Found = Result<Option<u8>, Refusal>;
type Picked = Result<Selection, Refusal>;
type Answers = (Counted, Found, Picked);

/// Whether a sprite at y has a row on a line of the picture: it begins on line 0 where y is 16.
fn touches(y: u8, line: usize, tall: u8) -> bool {
    let (top, at) = (y as usize, line + 16);
    top <= at && at < top + tall as usize
}

/// The entries that touch a line, by the bytes of OAM.
fn touching(oam: &[u8], line: usize, tall: u8) -> Vec<u8> {
    let y = |i: u8| oam[4 * i as usize];
    (0..40).filter(|&i| touches(y(i), line, tall)).collect()
}

/// The entries of a set, bit by bit.
fn members(set: u64) -> Vec<u8> {
    (0..40).filter(|i| set >> i & 1 == 1).collect()
}

/// The sets of OAM, by its bytes.
fn sets_of(oam: &[u8], tall: u8) -> Vec<u64> {
    let set = |line| touching(oam, line, tall).iter().map(|i| 1 << i).sum();
    (0..LINES).map(set).collect()
}

/// An answer by its number in the table of refusals.
fn answered<T>(number: u8, answer: T) -> Result<T, Refusal> {
    match number {
        0 => Ok(answer),
        1 => Err(Refusal::Length),
        _ => Err(Refusal::Argument),
    }
}

/// How many entries there are, and which is the first.
fn counted(number: u8, entries: &[u8]) -> (Counted, Found) {
    let count = answered(number, entries.len() as u8);
    (count, answered(number, entries.first().copied()))
}

/// The ten lowest of the entries, copied from OAM.
fn picked(number: u8, oam: &[u8], entries: &[u8]) -> Picked {
    let mut slots = sprite::blank();
    for (slot, &index) in slots.iter_mut().zip(entries) {
        let at = 4 * index as usize;
        let (y, x, tile, flags) = (oam[at], oam[at + 1], oam[at + 2], oam[at + 3]);
        let sprite = Sprite { y, x, tile, flags };
        *slot = SelectedSprite { sprite, index };
    }
    let count = entries.len().min(10) as u8;
    let selection = Selection { count, slots };
    answered(number, selection)
}

fn ask(m: &Lent, line: u8) -> Answers {
    (
        line_sets::count(&m.sets, line),
        line_sets::first(&m.sets, line),
        line_sets::pick(&m.oam, &m.sets, line),
    )
}

/// A line of the picture.
fn any_line(random: &mut Random) -> u8 {
    random.below(LINES as u32) as u8
}

/// A y at a line or beside it, at an edge, or anywhere.
fn any_y(random: &mut Random, line: u8) -> u8 {
    match random.below(4) {
        0 => random.of(&EDGES),
        1 => random.byte(),
        _ => line + 17 - random.below(18) as u8,
    }
}

/// OAM with none of its entries in the picture (0), all on a line (1), or one in so many there and the others anywhere.
fn any_oam(random: &mut Random, often: u32, line: u8) -> Vec<u8> {
    let mut oam = vec![0; 160];
    fill(random, &mut oam);
    for entry in oam.chunks_exact_mut(4) {
        entry[0] = match often {
            0 => random.of(&[0, 160, 161, 176, 254, 255]),
            _ if random.once_in(often) => line + 9 + random.below(8) as u8,
            _ => any_y(random, line),
        };
    }
    oam
}

/// An address of OAM and a value for it: every second is a y, one in eight is what stands there.
fn any_edit(random: &mut Random, oam: &[u8], line: u8) -> (u16, u8) {
    let offset = [0, 0, 0, 1, 2, 3][random.below(6) as usize];
    let at = 4 * random.below(40) as u16 + offset;
    let value = match offset {
        _ if random.once_in(8) => oam[at as usize],
        0 => any_y(random, line),
        _ => random.byte(),
    };
    ((random.byte() as u16) << 8 | at, value)
}

/// A number below 2^40 for each line: any, of few bits, of many, 0, all forty; or OAM's sets, some with a bit changed.
fn any_sets(random: &mut Random, oam: &[u8]) -> Vec<u64> {
    let kind = random.below(6);
    let mut sets = match kind {
        5 => sets_of(oam, random.of(&HEIGHTS)),
        _ => vec![0; LINES],
    };
    for set in &mut sets {
        let (a, b) = (random.next() >> 24, random.next() >> 24);
        *set = match kind {
            0 => a,
            1 => a & b & random.next(),
            2 => a | b,
            3 => 0,
            4 => (1 << 40) - 1,
            _ if random.once_in(4) => *set ^ 1 << random.below(40),
            _ => *set,
        };
    }
    sets
}

/// OAM of any kind around a line, and sets that are not its own.
fn any_lent(random: &mut Random, line: u8) -> Lent {
    let often = random.below(10);
    let oam = any_oam(random, often, line);
    let sets = any_sets(random, &oam);
    Lent { oam, sets }
}

/// What is done to OAM: nothing, a write through the sets, a write or a corruption behind them. But for the write through the
/// sets, a build follows.
#[derive(Clone, Copy, Debug)]
enum Deed {
    Build,
    Write(u16, u8),
    WriteBehind(u16, u8),
    Corrupt(u8, u8),
}

/// OAM as the given text leaves it.
fn given_oam(ppu: &mut Ppu, deed: Deed, oam: &[u8]) -> [u8; 160] {
    ppu.part_set_oam(oam);
    match deed {
        Deed::Build => {}
        Deed::Write(address, value) | Deed::WriteBehind(address, value) => {
            ppu.write_oam_no_lock(address, value)
        }
        Deed::Corrupt(kind, row) => {
            ppu.part_set_cycle(2, 4 + 4 * row as u16);
            corrupt(ppu, kind)
        }
    }
    ppu.look_oam()
}

/// The number of the write behind the sets, and that of the write through them or of the build.
fn numbers(deed: Deed, m: &mut Lent, tall: u8) -> [u8; 2] {
    let Lent { oam, sets } = m;
    let mut behind = 0;
    match deed {
        Deed::Build => {}
        Deed::Write(address, value) => {
            return [0, bench::number(&line_sets::write_oam(oam, sets, tall, address, value))];
        }
        Deed::WriteBehind(address, value) => {
            behind = bench::number(&ports::write_oam(oam, address, value))
        }
        Deed::Corrupt(kind, row) => {
            oam_bug::corrupt(oam, row, kind.try_into().unwrap())
        }
    }
    [behind, bench::number(&line_sets::build(oam, sets, tall))]
}

/// The first set that is not as wanted.
fn same_sets(what: &str, wanted: &[u64], got: &[u64]) -> Result<(), String> {
    match (0..LINES).find(|&line| wanted[line] != got[line]) {
        None => Ok(()),
        Some(line) => Err(format!(
            "  {}, line {}: wanted {:010X}, got {:010X}",
            what, line, wanted[line], got[line]
        )),
    }
}

/// A deed on both sides. OAM is as the given text leaves it; the sets are those of its bytes and those of a build; and on every
/// line the pick is the selection of the given text and that of the search, and count and first are those of a scan.
fn hold(ppu: &mut Ppu, deed: Deed, tall: u8, m: &mut Lent) -> Result<(), String> {
    let oam = given_oam(ppu, deed, &m.oam);
    same([0, 0], || numbers(deed, m, tall), || "numbers".to_string())?;
    if let Some(found) = first_byte("OAM", 0, &oam, &m.oam) {
        return Err(found);
    }
    same_sets("sets", &sets_of(&oam, tall), &m.sets)?;
    let mut fresh = vec![u64::MAX; LINES];
    let build = || bench::number(&line_sets::build(&oam, &mut fresh, tall));
    same(0, build, || "build".to_string())?;
    same_sets("sets built afresh", &m.sets, &fresh)?;
    for line in 0..LINES as u8 {
        let (count, first) = counted(0, &touching(&oam, line as usize, tall));
        let pick = Ok(ppu.part_pick(line, tall));
        same(
            ((count, first, pick), pick),
            || (ask(m, line), sprite::pick(&m.oam, line, tall)),
            || format!("line {}: count, first, pick, and the search", line),
        )?;
    }
    Ok(())
}

/// A difference of the edits, from the smallest OAM whose sets show one.
fn smallest(ppu: &mut Ppu, deed: Deed, tall: u8, mut oam: Vec<u8>, found: String) -> String {
    let mut tried = |oam: &[u8]| {
        let (oam, sets) = (oam.to_vec(), sets_of(oam, tall));
        hold(ppu, deed, tall, &mut Lent { oam, sets }).err()
    };
    let head = format!("  {:?}, height {}", deed, tall);
    if tried(&oam).is_none() {
        return format!("{}, only after the edits before it\n{}", head, found);
    }
    shrink(&mut oam, |oam| tried(oam).is_some());
    let bytes = set_bytes("OAM", &oam).unwrap_or("  OAM: all 0".to_string());
    [head, bytes, tried(&oam).unwrap_or(found)].join("\n")
}

/// Series of edits from a build on, at both heights, each with OAM and sets of its own.
pub fn edits(bench: &mut Bench) -> Result<(), String> {
    let mut moves = 0;
    for series in 0..600 {
        let random = &mut bench.random;
        let line = any_line(random);
        let oam = any_oam(random, series % 10, line);
        let mut sides = HEIGHTS.map(|_| Lent {
            oam: oam.clone(),
            sets: (0..LINES).map(|_| random.next()).collect(),
        });
        for k in 0..32 {
            let (random, oam) = (&mut bench.random, &sides[0].oam);
            let (address, value) = any_edit(random, oam, line);
            let deed = match random.below(16) {
                _ if k == 0 => Deed::Build,
                0 => Deed::WriteBehind(address, value),
                1 => Deed::Corrupt(random.below(3) as u8, random.below(20) as u8),
                _ => Deed::Write(address, value),
            };
            if let Deed::Write(..) = deed {
                moves += (address % 4 == 0 && value != oam[address as usize % 256]) as u64;
            }
            for (m, tall) in sides.iter_mut().zip(HEIGHTS) {
                let (ppu, before) = (&mut bench.given.ppu, m.oam.clone());
                hold(ppu, deed, tall, m)
                    .map_err(|found| smallest(ppu, deed, tall, before, found))?;
                bench.cases += 1;
            }
        }
    }
    bench.note = format!("144 lines each, {} writes move an entry", spaced(moves));
    Ok(())
}

/// A build for a height; a write of a value to an address, for a height; the three questions about a line.
#[derive(Clone, Copy, Debug)]
enum Call {
    Build(u8),
    Write(u8, u16, u8),
    Ask(u8),
}

use Call::*;

#[derive(Debug, PartialEq)]
enum Answer {
    Number(u8),
    Asked(Answers),
}

fn make(call: Call, m: &mut Lent) -> Answer {
    let Lent { oam, sets } = m;
    match call {
        Build(tall) => Answer::Number(bench::number(&line_sets::build(oam, sets, tall))),
        Write(tall, address, value) => {
            Answer::Number(bench::number(&line_sets::write_oam(oam, sets, tall, address, value)))
        }
        Ask(line) => Answer::Asked(ask(m, line)),
    }
}

fn is_tall(tall: u8) -> bool {
    tall == 8 || tall == 16
}

/// No bit above 39.
fn is_set(number: u64) -> bool {
    number >> 40 == 0
}

/// The y of the entry of an address, before and after a write there.
fn ys(oam: &[u8], address: u16, value: u8) -> (u8, u8) {
    let at = address as usize % 256;
    let old = oam[at - at % 4];
    (old, if at % 4 == 0 { value } else { old })
}

/// The number of the table: 1 for another length, 4 where the call's own test fails.
fn number(sized: bool, passed: impl FnOnce() -> bool) -> u8 {
    match sized {
        false => 1,
        true if passed() => 0,
        true => 4,
    }
}

/// The call in plain words: its answer, and OAM and the sets after it.
fn plain(call: Call, m: &mut Lent) -> Answer {
    let Lent { oam, sets } = m;
    let sets_fit = sets.len() == LINES;
    let both_fit = sets_fit && oam.len() == 160;
    match call {
        Build(tall) => {
            let number = number(both_fit, || is_tall(tall));
            if number == 0 {
                *sets = sets_of(oam, tall);
            }
            Answer::Number(number)
        }
        Write(tall, address, value) => {
            let at = address as usize % 256;
            let number = number(both_fit, || {
                is_tall(tall) && at < 160 && {
                    let (old, new) = ys(oam, address, value);
                    (0..LINES)
                        .filter(|&line| touches(old, line, tall) || touches(new, line, tall))
                        .all(|line| is_set(sets[line]))
                }
            });
            if number == 0 {
                let (old, new) = ys(oam, address, value);
                let own = 1 << (at / 4);
                for (line, set) in sets.iter_mut().enumerate() {
                    if old == new {
                        break;
                    }
                    if touches(new, line, tall) {
                        *set |= own;
                    } else if touches(old, line, tall) {
                        *set &= !own;
                    }
                }
                oam[at] = value;
            }
            Answer::Number(number)
        }
        Ask(line) => {
            let at = line as usize;
            let passed = || at < LINES && is_set(sets[at]);
            let entries = |number| match number {
                0 => members(sets[at]),
                _ => Vec::new(),
            };
            let [asked, pick] = [sets_fit, both_fit].map(|sized| number(sized, passed));
            let (count, first) = counted(asked, &entries(asked));
            Answer::Asked((count, first, picked(pick, oam, &entries(pick))))
        }
    }
}

/// What is not as the plain words have it, a line each, and the number of the call. The memory is that after it.
fn differs(call: Call, m: &mut Lent) -> (Vec<String>, u8) {
    let mut after = m.clone();
    let wanted = plain(call, &mut after);
    let number = match &wanted {
        Answer::Number(number) => *number,
        Answer::Asked((.., pick)) => bench::number(pick),
    };
    let got = caught(|| make(call, m));
    if got.as_ref() == Ok(&wanted) && *m == after {
        return (Vec::new(), number);
    }
    let mut lines = vec![
        format!("  wanted: {:?}", wanted),
        match got {
            Ok(got) => format!("  got:    {:?}", got),
            Err(stop) => format!("  got:    {}", stop),
        },
    ];
    lines.extend(first_byte("OAM", 0, &after.oam, &m.oam));
    lines.extend((0..m.sets.len()).filter_map(|line| {
        let (wanted, got) = (after.sets[line], m.sets[line]);
        let told = || {
            format!(
                "  set of line {}: wanted {:010X}, got {:010X}",
                line, wanted, got
            )
        };
        (wanted != got).then(told)
    }));
    (lines, number)
}

/// A call beside the plain words. Gives its number; a difference is told from the smallest OAM and sets that show it.
fn compare(bench: &mut Bench, call: Call, m: &mut Lent) -> Result<u8, String> {
    let mut before = m.clone();
    let (found, number) = differs(call, m);
    if found.is_empty() {
        bench.cases += 1;
        return Ok(number);
    }
    let tried = |oam: &[u8], sets: &[u8]| {
        let words = sets.chunks_exact(8);
        let sets = words.map(|word| u64::from_le_bytes(word.try_into().unwrap()));
        let (oam, sets) = (oam.to_vec(), sets.collect());
        differs(call, &mut Lent { oam, sets }).0
    };
    let words = before.sets.iter().map(|set| set.to_le_bytes());
    let mut sets: Vec<u8> = words.flatten().collect();
    shrink(&mut before.oam, |oam| !tried(oam, &sets).is_empty());
    shrink(&mut sets, |sets| !tried(&before.oam, sets).is_empty());
    let lengths = format!(
        "  {:?}, {} bytes of OAM, {} sets",
        call,
        before.oam.len(),
        m.sets.len()
    );
    let memory = [
        set_bytes("OAM", &before.oam),
        set_bytes("sets, 8 bytes each", &sets),
    ];
    let memory = memory.into_iter().flatten().collect();
    Err([vec![lengths], memory, tried(&before.oam, &sets)]
        .concat()
        .join("\n"))
}

/// Writes and questions on sets that are not OAM's.
pub fn untrue(bench: &mut Bench) -> Result<(), String> {
    let mut changed = 0;
    for _ in 0..1_500 {
        let line = any_line(&mut bench.random);
        let mut m = any_lent(&mut bench.random, line);
        for _ in 0..8 {
            let tall = bench.random.of(&HEIGHTS);
            let (address, value) = any_edit(&mut bench.random, &m.oam, line);
            let before = m.clone();
            let number = compare(bench, Write(tall, address, value), &mut m)?;
            let inputs = || format!("height {}, address {}, value {}", tall, address, value);
            let oam = given_oam(
                &mut bench.given.ppu,
                Deed::Write(address, value),
                &before.oam,
            );
            same((0, &oam[..]), || (number, &m.oam[..]), inputs)?;
            // no other bit than the entry's, on no more lines than two sprites have, and nowhere where y stays
            let (old, new) = ys(&before.oam, address, value);
            let most = if old == new { 0 } else { 2 * tall as usize };
            let both = before.sets.iter().zip(&m.sets);
            let bits: Vec<u64> = both.map(|(a, b)| a ^ b).filter(|&bits| bits != 0).collect();
            let own = 1 << (address as usize % 256 / 4);
            let kept = bits.len() <= most && bits.iter().all(|&bits| bits == own);
            same(true, || kept, || format!("sets changed, {}", inputs()))?;
            changed += bits.len() as u64;
            for line in 0..LINES as u8 {
                compare(bench, Ask(line), &mut m)?;
            }
        }
    }
    bench.note = format!("{} sets changed", spaced(changed));
    Ok(())
}

/// Lengths around those of OAM and of the sets.
const LENGTHS: [usize; 13] = [0, 1, 39, 40, 143, 144, 145, 159, 160, 161, 255, 256, 320];

/// What refuses a call besides its arguments: nothing, a bit above 39 on a line, another length of OAM, of the sets, of both.
#[derive(Clone, Copy)]
enum Fault {
    None,
    Bit,
    Oam,
    Sets,
    Both,
}

const FAULTS: [Fault; 5] = [
    Fault::None,
    Fault::Bit,
    Fault::Oam,
    Fault::Sets,
    Fault::Both,
];

/// A number with a bit from 40 on, which is no set.
fn spoil(random: &mut Random, set: &mut u64) {
    *set |= 1 << (40 + random.below(24));
}

/// Any OAM and sets, with a fault.
fn faulty(random: &mut Random, fault: Fault) -> Lent {
    let line = any_line(random);
    let mut m = any_lent(random, line);
    let [oam, sets] = [(); 2].map(|_| LENGTHS[random.below(13) as usize]);
    if let Fault::Bit = fault {
        let line = any_line(random) as usize;
        spoil(random, &mut m.sets[line]);
    }
    if let Fault::Oam | Fault::Both = fault {
        m.oam.resize(oam, 9);
    }
    if let Fault::Sets | Fault::Both = fault {
        m.sets.resize(sets, 9);
    }
    m
}

/// Every height with every fault, at an address of OAM and at one past it.
fn heights(bench: &mut Bench, tally: &mut Tally) -> Result<(), String> {
    for tall in 0..=255 {
        for fault in FAULTS {
            let m = &mut faulty(&mut bench.random, fault);
            let [low, past] = [160, 96].map(|limit| bench.random.below(limit) as u16);
            let value = bench.random.byte();
            for call in [
                Write(tall, low, value),
                Write(tall, 160 + past, value),
                Build(tall),
            ] {
                tally.add(compare(bench, call, m)?);
            }
        }
    }
    Ok(())
}

/// Every line with every fault, and with each bit above 39 on it and on the others.
fn lines(bench: &mut Bench, tally: &mut Tally) -> Result<(), String> {
    for line in 0..=255 {
        for fault in FAULTS {
            let m = &mut faulty(&mut bench.random, fault);
            tally.add(compare(bench, Ask(line), m)?);
        }
        for bit in 40..64 {
            for own in [true, false] {
                let m = &mut faulty(&mut bench.random, Fault::None);
                for (at, set) in m.sets.iter_mut().enumerate() {
                    if own == (at == line as usize) {
                        *set |= 1 << bit;
                    }
                }
                tally.add(compare(bench, Ask(line), m)?);
            }
        }
    }
    Ok(())
}

/// Every address, at both heights, and with every fault.
fn addresses(bench: &mut Bench, tally: &mut Tally) -> Result<(), String> {
    for page in 0..=255 {
        let mut all = FAULTS.map(|fault| faulty(&mut bench.random, fault));
        for low in 0..=255 {
            let address = page << 8 | low;
            for tall in HEIGHTS {
                let call = Write(tall, address, bench.random.byte());
                tally.add(compare(bench, call, &mut all[0])?);
            }
            for m in &mut all[1..] {
                let tall = bench.random.of(&[8, 8, 16, 16, 0, 15]);
                let call = Write(tall, address, bench.random.byte());
                tally.add(compare(bench, call, m)?);
            }
        }
    }
    Ok(())
}

/// Every length of OAM with every length of the sets, and arguments of every kind.
fn lengths(bench: &mut Bench, tally: &mut Tally) -> Result<(), String> {
    for oam in LENGTHS {
        for sets in LENGTHS {
            let m = &mut faulty(&mut bench.random, Fault::Bit);
            m.oam.resize(oam, 9);
            m.sets.resize(sets, 9);
            let value = bench.random.byte();
            for tall in [8, 16, 0, 7, 9, 255] {
                for address in [0xFE00, 0xFE03, 0xFE9C, 0xFE9F, 0xFEA0, 0xFEFF] {
                    tally.add(compare(bench, Write(tall, address, value), m)?);
                }
            }
            for line in [0, 71, 143, 144, 255] {
                tally.add(compare(bench, Ask(line), m)?);
            }
            for tall in [0, 7, 9, 255, 8, 16] {
                tally.add(compare(bench, Build(tall), m)?);
            }
        }
    }
    Ok(())
}

/// A bit above 39 on a line that the old y touches, the new one, both or neither; every fourth time with another reason.
fn bits(bench: &mut Bench, tally: &mut Tally) -> Result<(), String> {
    for k in 0..100_000 {
        let random = &mut bench.random;
        let line = any_line(random);
        let mut m = any_lent(random, line);
        let (mut address, value) = any_edit(random, &m.oam, line);
        let mut tall = random.of(&HEIGHTS);
        let (old, new) = ys(&m.oam, address, value);
        let places: Vec<usize> = (0..LINES)
            .filter(|&line| touches(old, line, tall) == (k & 1 == 1))
            .filter(|&line| touches(new, line, tall) == (k & 2 == 2))
            .collect();
        if !places.is_empty() {
            let place = places[random.below(places.len() as u32) as usize];
            spoil(random, &mut m.sets[place]);
        }
        match random.below(16) {
            0 => tall = random.byte(),
            1 => address |= 0xA0,
            2 => m.oam.truncate(159),
            3 => m.sets.push(0),
            _ => {}
        }
        tally.add(compare(bench, Write(tall, address, value), &mut m)?);
        tally.add(compare(bench, Ask(line), &mut m)?);
        tally.add(compare(bench, Build(tall), &mut m)?);
    }
    Ok(())
}

/// Refused calls, and beside them those that are not.
pub fn refused(bench: &mut Bench) -> Result<(), String> {
    let mut tally = Tally::default();
    for part in [heights, lines, addresses, lengths, bits] {
        part(bench, &mut tally)?;
    }
    bench.note = tally.note();
    Ok(())
}
