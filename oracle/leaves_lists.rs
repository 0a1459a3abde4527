//! The makers of lists for the protocol `leaves`.

use crate::list::{request, List, Random};
use std::io::{self, Write};

/// Forty y bytes, one way of filling the OAM.
type Ys = [u8; 40];

fn ys<F: Fn(u8) -> u8>(y: F) -> Ys {
    let mut all = [0; 40];
    for (i, place) in all.iter_mut().enumerate() {
        *place = y(i as u8);
    }
    all
}

/// OAMs on which a wrong pick shows.
fn telling_oams() -> Vec<Ys> {
    vec![
        ys(|_| 0),
        ys(|_| 60),
        ys(|i| if i % 4 == 1 { 60 } else { 0 }),
        ys(|i| if i % 4 == 1 || i == 39 { 60 } else { 0 }),
        ys(|i| if i < 9 || i == 38 { 60 } else { 200 }),
        ys(|i| 16 + 4 * i),
        ys(|i| i.wrapping_mul(67).wrapping_add(5)),
        ys(|i| 250u8.wrapping_add(i)),
        ys(|i| if i >= 30 { 16 } else { 160 }),
    ]
}

fn fill_oam(list: &mut List, ys: &Ys, salt: u8) {
    for i in 0..40u8 {
        let bytes = [
            ys[i as usize],
            i.wrapping_mul(11).wrapping_add(salt),
            i.wrapping_mul(7) ^ salt,
            i.wrapping_mul(37).wrapping_add(salt),
        ];
        for (k, &byte) in bytes.iter().enumerate() {
            list.put(request(&[5, 4 * i + k as u8, byte]));
        }
    }
}

fn pick(list: &mut List, line: u8, height: u8) {
    list.put(request(&[6, line, height]));
    for k in 0..10 {
        list.put(request(&[7, k]));
    }
}

/// The colour stored at a place in the exhaustive list.
fn colour_of(x: u8, y: u8) -> [u8; 3] {
    [
        x.wrapping_mul(5) ^ y,
        y.wrapping_mul(3).wrapping_add(x) & 31,
        (x ^ y.wrapping_mul(7)) & 31,
    ]
}

pub fn exhaustive(out: &mut dyn Write) -> io::Result<()> {
    let mut all = List::new(out, u64::MAX);
    let list = &mut all;
    let bytes = || 0..=255u8;

    for b in bytes() {
        list.put(request(&[1, b]));
    }
    for i in bytes() {
        list.put(request(&[2, i, 0, 0, 0]));
        list.put(request(&[2, 0, i, 0, 0]));
        list.put(request(&[2, 0, 0, i, 0]));
        list.put(request(&[2, 0, 0, 0, i]));
        list.put(request(&[2, i, !i, i ^ 0x55, i]));
    }
    for y in bytes() {
        for line in bytes() {
            list.put(request(&[3, y, line, 8]));
            list.put(request(&[3, y, line, 16]));
        }
    }
    for sprite in [
        [0, 0, 0, 0],
        [255, 255, 255, 255],
        [16, 8, 1, 128],
        [1, 2, 4, 8],
        [0x5A, 0xA5, 0x3C, 0xC3],
    ] {
        for offset in 0..4 {
            for data in bytes() {
                list.put(request(&[
                    4, sprite[0], sprite[1], sprite[2], sprite[3], offset, data,
                ]));
            }
        }
    }

    for address in bytes() {
        list.put(request(&[5, address, !address]));
    }
    for (salt, oam) in telling_oams().iter().enumerate() {
        fill_oam(list, oam, salt as u8);
        for line in bytes() {
            for height in [8, 16, 0, 7, 255] {
                pick(list, line, height);
            }
        }
    }

    for raw in 0..=65535u16 {
        let raw = raw.to_le_bytes();
        list.put(request(&[8, raw[0], raw[1]]));
    }
    for op in [9, 10] {
        for r in 0..32 {
            for g in 0..32 {
                for b in 0..32 {
                    list.put(request(&[op, r, g, b]));
                }
            }
        }
        let larger = [0, 1, 31, 32, 33, 36, 37, 40, 41, 63, 64, 128, 160, 240, 255];
        for r in larger {
            for g in larger {
                for b in larger {
                    list.put(request(&[op, r, g, b]));
                }
            }
        }
    }

    list.put(request(&[11]));
    list.put(request(&[14]));
    for v in bytes() {
        list.put(request(&[12, v]));
        list.put(request(&[14]));
    }
    // Each of the 64 bytes, with and without the automatic step, then every palette.
    for auto in [0x80, 0] {
        for index in 0..64 {
            list.put(request(&[12, auto | index]));
            for k in 0..3u8 {
                list.put(request(&[13, (index * 3 + k).wrapping_mul(29) ^ auto]));
            }
            list.put(request(&[14]));
        }
        every_colour(list);
    }
    list.put(request(&[12, 0x80]));
    for data in bytes() {
        list.put(request(&[13, data]));
    }
    for p in 0..16 {
        list.put(request(&[16, p]));
        every_colour(list);
    }
    for p in bytes() {
        list.put(request(&[15, p, p ^ 2]));
        for colour in 0..4 {
            list.put(request(&[17, p, colour]));
        }
    }

    list.put(request(&[11]));
    list.put(request(&[18]));
    digests(list);
    for turn in 0..2 {
        for y in 0..144 {
            for x in 0..160 {
                let [r, g, b] = colour_of(x, y ^ turn);
                list.put(request(&[19, x, y, r, g, b]));
            }
        }
        digests(list);
        list.put(request(&[21]));
        digests(list);
    }
    for which in 0..2 {
        for y in 0..144 {
            for x in 0..160 {
                list.put(request(&[20, which, x, y]));
            }
        }
    }
    list.put(request(&[18]));
    digests(list);
    unknown_into(list);
    all.finish()
}

/// Every op that is none, and places off the screen.
pub fn unknown(out: &mut dyn Write) -> io::Result<()> {
    let mut list = List::new(out, u64::MAX);
    unknown_into(&mut list);
    list.finish()
}

/// Between the requests stand the digests of both pictures, the palette port and the slots of the last pick, and requests
/// that are answered.
fn unknown_into(list: &mut List) {
    fill_oam(list, &telling_oams()[3], 77);
    pick(list, 50, 16);
    list.put(request(&[12, 0x8A]));
    for x in 0..160 {
        let y = x % 144;
        let [r, g, b] = colour_of(x, y);
        list.put(request(&[19, x, y, r, g, b]));
        list.put(request(&[13, r ^ y]));
        if x == 79 {
            list.put(request(&[21]));
        }
    }
    nothing_changed(list);
    for op in 0..=255u8 {
        if (1..=22).contains(&op) {
            continue;
        }
        list.put(meaningful(op));
        list.put(request(&[14]));
        if op % 32 == 31 {
            nothing_changed(list);
            list.put(request(&[13, op]));
            list.put(request(&[19, op - 31, 9, op & 31, 31, 0]));
        }
    }

    // Behind the edges, where a place counted on would be that of another line, and further.
    let beside = (160..=255).flat_map(|x| [(x, 0), (x, 142), (x, 143)]);
    let below = (144..=255).flat_map(|y| [(0, y), (1, y), (159, y)]);
    let corners = [(160, 144), (160, 255), (255, 144), (255, 255)];
    for (turn, (x, y)) in beside.chain(below).chain(corners).enumerate() {
        list.put(request(&[19, x, y, 31, 7, 19]));
        list.put(request(&[20, 0, x, y]));
        list.put(request(&[20, 1, x, y]));
        if turn % 64 == 63 {
            nothing_changed(list);
            list.put(request(&[19, x % 160, y % 144, 5, 6, 7]));
            list.put(request(&[20, 1, x % 160, y % 144]));
        }
    }
    nothing_changed(list);
    list.put(request(&[21]));
    digests(list);
}

fn nothing_changed(list: &mut List) {
    digests(list);
    list.put(request(&[14]));
    for k in 0..10 {
        list.put(request(&[7, k]));
    }
}

/// A request with an op and the arguments of the op with the same lower five bits, to show a program that looks at no more
/// of it.
fn meaningful(op: u8) -> [u8; 8] {
    match op % 32 {
        5 => request(&[op, 5, 0xAA]),
        6 => request(&[op, 4, 8]),
        19 => request(&[op, 8, 8, 31, 0, 9]),
        20 => request(&[op, 1, 8, 8]),
        _ => [op, 1, 2, 3, 4, 5, 6, 7],
    }
}

fn every_colour(list: &mut List) {
    for p in 0..8 {
        for c in 0..4 {
            list.put(request(&[15, p, c]));
        }
    }
}

fn digests(list: &mut List) {
    list.put(request(&[22, 0]));
    list.put(request(&[22, 1]));
}

pub fn random(out: &mut dyn Write, seed: u64, count: u64) -> io::Result<()> {
    let mut list = List::new(out, count);
    random_into(&mut list, seed);
    list.finish()
}

fn random_into(list: &mut List, seed: u64) {
    let mut random = Random::new(seed);
    let mut last = (0, 0);
    // Each turn takes a request at least.
    while list.left > 0 {
        let (a, b, c, d) = (random.byte(), random.byte(), random.byte(), random.byte());
        match random.below(100) {
            0..=13 => {
                let address = if random.once_in(12) { a } else { a % 160 };
                list.put(request(&[5, address, b]));
            }
            14 => {
                // Forty sprites near one line.
                if !random.once_in(3) {
                    off_the_table(list, &mut random);
                    continue;
                }
                let line = a % 144;
                let spread = 1 + random.below(60);
                for i in 0..40 {
                    let y = (line as u32 + 1 + random.below(spread)) as u8;
                    list.put(request(&[5, 4 * i, y]));
                }
                pick(list, line, random.of(&[8, 16]));
            }
            15..=19 => {
                let line = if random.once_in(8) { a } else { a % 144 };
                let height = if random.once_in(8) {
                    random.of(&[0, 7, 9, 15, 17, 24, 32, 128, b])
                } else {
                    random.of(&[8, 16])
                };
                pick(list, line, height);
            }
            20..=26 => {
                list.put(request(&[2, a, b, c, d]));
            }
            27..=32 => {
                let y = if random.once_in(3) {
                    a
                } else {
                    b.wrapping_add(random.below(20) as u8)
                };
                let height = if random.once_in(8) { c } else { random.of(&[8, 16]) };
                list.put(request(&[3, y, b, height]));
            }
            33..=36 => {
                let (offset, data) = (random.below(4) as u8, random.byte());
                list.put(request(&[4, a, b, c, d, offset, data]));
            }
            37..=39 => {
                list.put(request(&[1, a]));
            }
            40..=43 => {
                list.put(request(&[8, a, b]));
            }
            44..=46 => {
                list.put(request(&[9, a, b, c]));
            }
            47..=52 => {
                let limit = random.of(&[31, 63, 255]);
                list.put(request(&[10, a & limit, b & limit, c & limit]));
            }
            53..=57 => {
                list.put(request(&[12, a]));
            }
            58..=68 => {
                for _ in 0..1 + random.below(4) {
                    let data = random.byte();
                    list.put(request(&[13, data]));
                }
            }
            69..=71 => {
                list.put(request(&[14]));
            }
            72..=76 => {
                let p = if random.once_in(4) { a } else { a & 7 };
                let c = if random.once_in(4) { b } else { b & 3 };
                list.put(request(&[15, p, c]));
            }
            77 => {
                if random.once_in(10) {
                    list.put(request(&[11]));
                } else {
                    list.put(request(&[16, a & 7]));
                }
            }
            78..=79 => {
                list.put(request(&[17, a, b & 3]));
            }
            80..=91 => {
                let limit = random.of(&[31, 31, 255]);
                last = (a % 160, b % 144);
                let blue = random.byte();
                list.put(request(&[
                    19,
                    last.0,
                    last.1,
                    c & limit,
                    d & limit,
                    blue & limit,
                ]));
            }
            92..=97 => {
                let (x, y) = if random.once_in(2) {
                    last
                } else {
                    (a % 160, b % 144)
                };
                list.put(request(&[20, c & 1, x, y]));
            }
            98 => {
                if random.once_in(3) {
                    list.put(request(&[21]));
                } else {
                    list.put(request(&[20, c, last.0, last.1]));
                }
            }
            _ => {
                if random.once_in(60) {
                    list.put(request(&[18]));
                } else if random.once_in(20) {
                    list.put(request(&[22, a & 1]));
                } else {
                    list.put(request(&[7, a]));
                }
            }
        }
    }
}

/// An unknown op, or a place off the screen.
fn off_the_table(list: &mut List, random: &mut Random) {
    let (a, b, c) = (random.byte(), random.byte(), random.byte());
    let (x, y) = match random.below(3) {
        0 => (160 + a % 96, b),
        1 => (a, 144 + b % 112),
        _ => (160 + a % 96, 144 + b % 112),
    };
    list.put(match random.below(3) {
        // 23 to 255, and 0.
        0 => [(23 + a as u16 % 234) as u8, b, c, a, b, c, a, b],
        1 => request(&[19, x, y, a & 31, b & 31, c & 31]),
        _ => request(&[20, c & 1, x, y]),
    });
}

pub fn sample(out: &mut dyn Write) -> io::Result<()> {
    let mut all = List::new(out, u64::MAX);
    let list = &mut all;
    let corners = [
        0, 1, 2, 4, 7, 8, 9, 15, 16, 17, 31, 32, 63, 64, 127, 128, 143, 144, 151, 152, 159, 160,
        167, 168, 191, 192, 239, 240, 247, 248, 254, 255,
    ];

    for b in corners {
        list.put(request(&[1, b]));
        list.put(request(&[2, b, 0, 0, 0]));
        list.put(request(&[2, 0, b, 0, 0]));
        list.put(request(&[2, 255, 255, b, b]));
    }
    for y in [0, 1, 8, 9, 15, 16, 17, 23, 24, 151, 152, 159, 160, 255u8] {
        for past in [0, 7, 8, 15, 16, 255u8] {
            let line = y.wrapping_sub(16).wrapping_add(past);
            list.put(request(&[3, y, line, 8]));
            list.put(request(&[3, y, line, 16]));
        }
        list.put(request(&[3, y, 0, 8]));
        list.put(request(&[3, y, 0, 16]));
    }
    for offset in 0..4 {
        for data in [0, 1, 127, 128, 255] {
            list.put(request(&[4, 10, 20, 30, 40, offset, data]));
        }
    }

    // The two sprites of the example, then refusals, then OAMs that tell.
    for (address, byte) in [
        (8, 20),
        (9, 8),
        (10, 5),
        (11, 0),
        (156, 13),
        (157, 0),
        (158, 1),
        (159, 128),
        (160, 9),
        (161, 9),
        (255, 9),
    ] {
        list.put(request(&[5, address, byte]));
    }
    for (line, height) in [
        (4, 8),
        (4, 16),
        (144, 8),
        (4, 8),
        (4, 0),
        (3, 8),
        (4, 7),
        (12, 8),
        (255, 16),
        (143, 16),
        (4, 255),
    ] {
        pick(list, line, height);
    }
    for (salt, oam) in telling_oams().iter().take(5).enumerate() {
        fill_oam(list, oam, salt as u8);
        for (line, height) in [(44, 8), (51, 8), (52, 16), (60, 16), (0, 16)] {
            pick(list, line, height);
        }
    }

    for raw in [0, 1, 31, 32, 0x3E0, 0x400, 0x7C00, 0x7FFF, 0x8000, 0xFFFF, 0x1234u16] {
        let raw = raw.to_le_bytes();
        list.put(request(&[8, raw[0], raw[1]]));
    }
    for r in [0, 10, 21, 31, 32, 255] {
        for g in [0, 10, 21, 31, 32, 255] {
            for b in [0, 10, 21, 31, 32, 255] {
                if r == g || g == b || r == b {
                    list.put(request(&[9, r, g, b]));
                }
                list.put(request(&[10, r, g, b]));
            }
        }
    }

    list.put(request(&[14]));
    for v in [0xBF, 0x3F, 0x80, 0, 0x7F, 0xC0, 0x40, 0xFF, 0x87] {
        list.put(request(&[12, v]));
        for data in [0xFF, 0x12, 0x80] {
            list.put(request(&[13, data]));
        }
        list.put(request(&[14]));
    }
    every_colour(list);
    for p in [0, 1, 7, 8, 255] {
        list.put(request(&[16, p]));
        list.put(request(&[15, p, 0]));
        list.put(request(&[15, p, 1]));
        list.put(request(&[15, p, 254]));
        list.put(request(&[15, p, 255]));
    }
    list.put(request(&[11]));
    every_colour(list);
    for p in [0xFC, 0xFF, 0, 0x1B, 0xE4, 0x93] {
        for colour in 0..4 {
            list.put(request(&[17, p, colour]));
        }
    }

    for turn in 0..2 {
        for x in [0, 1, 79, 158, 159] {
            for y in [0, 1, 71, 142, 143] {
                let [r, g, b] = colour_of(x, y ^ turn);
                list.put(request(&[19, x, y, r, g, b]));
                list.put(request(&[20, 0, x, y]));
                list.put(request(&[20, 1, x, y]));
            }
        }
        digests(list);
        list.put(request(&[21]));
        digests(list);
    }
    list.put(request(&[18]));
    digests(list);
    list.put(request(&[21]));
    list.put(request(&[19, 159, 143, 31, 0, 0]));
    digests(list);

    // Unknown ops and the edges of the screen, with what they must not change.
    for op in [0, 23, 24, 31, 32, 51, 64, 127, 128, 147, 254, 255] {
        list.put(meaningful(op));
    }
    for (x, y) in [(160, 0), (160, 142), (255, 143), (0, 144), (159, 144), (159, 255), (160, 144), (255, 255)] {
        list.put(request(&[19, x, y, 31, 7, 19]));
        list.put(request(&[20, 0, x, y]));
        list.put(request(&[20, 1, x, y]));
    }
    nothing_changed(list);

    list.left = 700;
    random_into(list, 1);
    all.finish()
}
