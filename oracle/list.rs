//! What both protocols share: the digest, the random numbers, the list being made, and a number in print.

use std::io::{self, Write};

/// FNV-1a, 64 bits.
pub struct Digest(pub u64);

impl Digest {
    pub fn new() -> Self {
        Digest(0xcbf2_9ce4_8422_2325)
    }

    pub fn take(&mut self, bytes: &[u8]) {
        for &byte in bytes {
            self.0 = (self.0 ^ byte as u64).wrapping_mul(0x0000_0100_0000_01b3);
        }
    }
}

/// xorshift64*, started from a scrambled seed so that every seed serves.
pub struct Random(u64);

impl Random {
    pub fn new(seed: u64) -> Self {
        let mut z = seed.wrapping_add(0x9e37_79b9_7f4a_7c15);
        z = (z ^ (z >> 30)).wrapping_mul(0xbf58_476d_1ce4_e5b9);
        z = (z ^ (z >> 27)).wrapping_mul(0x94d0_49bb_1331_11eb);
        z ^= z >> 31;
        Random(if z == 0 { 1 } else { z })
    }

    pub fn next(&mut self) -> u64 {
        self.0 ^= self.0 >> 12;
        self.0 ^= self.0 << 25;
        self.0 ^= self.0 >> 27;
        self.0.wrapping_mul(0x2545_f491_4f6c_dd1d)
    }

    /// A number below `limit`.
    pub fn below(&mut self, limit: u32) -> u32 {
        (((self.next() >> 32) * limit as u64) >> 32) as u32
    }

    pub fn byte(&mut self) -> u8 {
        (self.next() >> 56) as u8
    }

    /// Yes once in `times`.
    pub fn once_in(&mut self, times: u32) -> bool {
        self.below(times) == 0
    }

    pub fn of(&mut self, choices: &[u8]) -> u8 {
        choices[self.below(choices.len() as u32) as usize]
    }
}

/// A number with its thousands apart.
pub fn spaced(number: u64) -> String {
    match number / 1000 {
        0 => number.to_string(),
        more => format!("{},{:03}", spaced(more), number % 1000),
    }
}

/// Up to eight bytes of a request, the rest 0.
pub fn request(bytes: &[u8]) -> [u8; 8] {
    let mut whole = [0; 8];
    whole[..bytes.len()].copy_from_slice(bytes);
    whole
}

/// A list of requests that takes no more than its limit, and none after one that could not be written. (The oracle itself
/// ends there: `Output` in main.rs.)
pub struct List<'a> {
    out: &'a mut dyn Write,
    pub left: u64,
    error: Option<io::Error>,
}

impl<'a> List<'a> {
    pub fn new(out: &'a mut dyn Write, limit: u64) -> Self {
        List {
            out,
            left: limit,
            error: None,
        }
    }

    /// Whether the request still went in.
    pub fn put(&mut self, request: [u8; 8]) -> bool {
        if self.left == 0 {
            return false;
        }
        self.left -= 1;
        if let Err(error) = self.out.write_all(&request) {
            self.error = Some(error);
            self.left = 0;
        }
        true
    }

    pub fn finish(self) -> io::Result<()> {
        match self.error {
            Some(error) => Err(error),
            None => self.out.flush(),
        }
    }
}
