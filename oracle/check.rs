//! Counts over a list of the protocol `machine`, and what a list of a kind must hold.

use crate::list::spaced;
use crate::machine::{place_of, Machine, CALLS, CORRUPTIONS, MARKS};
use crate::machine::{LOCKED_OAM_READ, LOCKED_OAM_WRITE, LOCKED_VRAM_READ, LOCKED_VRAM_WRITE};
use crate::missing::{there, Missing};
use crate::sweep_check::Sweep;
use std::collections::BTreeSet;
use std::io::{self, Write};

/// The kinds of lists; the first demands nothing but calls, and states in order.
pub const KINDS: [&str; 8] = ["", "random", "sweep", "cases", "sample", "writes", "locks", "unknown"];

/// The registers that can be written (FF..), and those that can be read.
const WRITABLE: [u8; 16] = [
    0x40, 0x41, 0x42, 0x43, 0x45, 0x47, 0x48, 0x49, 0x4A, 0x4B, 0x4F, 0x68, 0x69, 0x6A, 0x6B, 0x6C,
];
const READABLE: [u8; 4] = [0x68, 0x69, 0x6A, 0x6B];

/// The ops that can be refused, with the number.
const REFUSALS: [(u8, u8); 9] = [
    (2, 3),
    (3, 4),
    (4, 4),
    (6, 4),
    (8, 4),
    (8, 5),
    (PICK, 4),
    (LOCKED_OAM_WRITE, 4),
    (LOCKED_OAM_READ, 4),
];
const PICK: u8 = 13;
/// The locked calls, and when each can come.
const LOCKED: [u8; 4] = [LOCKED_VRAM_WRITE, LOCKED_VRAM_READ, LOCKED_OAM_WRITE, LOCKED_OAM_READ];
const MOMENTS: [&str; 5] = ["in mode 0", "in mode 1", "in mode 2", "in mode 3", "with the display off"];
/// The digests of pictures and memory, and of the state.
const DIGESTS: [u8; 2] = [11, 12];

fn name_of(op: u8) -> &'static str {
    place_of(op).map_or("unknown op", |k| CALLS[k].1)
}

/// The byte of VRAM that a request is about, by its address in a bank.
fn byte_of(bank: usize, request: [u8; 8]) -> usize {
    0x2000 * bank + u16::from_le_bytes([request[1], request[2]]) as usize % 0x2000
}

/// Counts over a list of calls, and the rule that every state is in order.
#[derive(Default)]
pub struct Check {
    machine: Machine,
    calls: u64,
    /// By the place in `CALLS`.
    ops: [u64; CALLS.len()],
    answers: [u64; 6],
    /// By the place in `REFUSALS`.
    refused: [u64; REFUSALS.len()],
    /// The corruptions of each kind, accepted and refused by 5; the kinds that came.
    corrupted: [u64; CORRUPTIONS.len()],
    untimely: [u64; CORRUPTIONS.len()],
    kinds: BTreeSet<u8>,
    unknown_ops: BTreeSet<u8>,
    unknown_slots: BTreeSet<u8>,
    written: [u64; WRITABLE.len()],
    read: [u64; READABLE.len()],
    /// By DMG, then colour: no no, no yes, yes no, yes yes.
    starts: [u64; 4],
    flags: [u64; 2],
    twos: u64,
    fours: u64,
    requests: [u64; 4],
    /// The swaps by their mark.
    marks: [u64; MARKS.len()],
    blankings: u64,
    banks: [u64; 2],
    /// The bytes of VRAM written, the first bank first; the OAM addresses by their low byte, accepted or not; the values of
    /// each register.
    vram: BTreeSet<usize>,
    oam: BTreeSet<u8>,
    values: BTreeSet<(u8, u8)>,
    /// Accepted locked calls by their place in `LOCKED` and in `MOMENTS`; where each came: the bytes of VRAM, the first bank first,
    /// and the OAM addresses by their low byte, accepted or not.
    locked: [[u64; MOMENTS.len()]; LOCKED.len()],
    /// The same by whether the memory was open or closed.
    shut: [[u64; 2]; LOCKED.len()],
    locked_at: [BTreeSet<usize>; LOCKED.len()],
    /// Accepted picks of height 8 and of 16.
    picks: [u64; 2],
    largest_count: u16,
    unended_lines: u64,
    window_entries: u64,
    waiting: u64,
    background_lengths: [u64; 17],
    sprite_lengths: [u64; 9],
    disorder: Option<(u64, &'static str)>,
    /// The ops of the last two calls.
    last: [u8; 2],
    /// Stretches from a start to the next that do not end with both digests.
    undigested: u64,
    sweep: Sweep,
}

impl Check {
    pub fn take(&mut self, request: [u8; 8]) {
        let ppu = &self.machine.ppu;
        let was_on = ppu.read_lcd_control() & 0x80 != 0;
        let was_in_window = ppu.look_in_window();
        let (line, cycle, x) = (ppu.look_line(), ppu.look_cycle(), ppu.look_lcd().x());
        let bank = ppu.read_vram_bank() as usize & 1;
        let moment = if was_on { ppu.get_current_mode() as usize } else { 4 };
        let closed = [self.machine.vram_closed(), self.machine.oam_closed()];
        let answer = self.machine.answer(request);
        let op = request[0];

        self.calls += 1;
        if let Some(k) = place_of(op) {
            self.ops[k] += 1;
        }
        match answer[0] {
            0 => {
                self.answers[0] += 1;
                self.take_accepted(request, bank);
            }
            number @ 1..=5 => {
                self.answers[number as usize] += 1;
                let by = REFUSALS.iter().position(|&known| known == (op, number));
                if let Some(by) = by {
                    self.refused[by] += 1;
                }
                if (op, number) == (8, 5) {
                    self.untimely[request[1] as usize] += 1;
                }
            }
            _ if op == 14 => {
                self.unknown_slots.insert(request[1]);
            }
            _ => {
                self.unknown_ops.insert(op);
            }
        }
        if op == 3 && answer[0] == 0 {
            self.sweep.write(request, line, cycle, x);
        }
        if op == 6 {
            self.oam.insert(request[1]);
        }
        if op == 8 {
            self.kinds.insert(request[1]);
        }
        if let Some(k) = LOCKED.iter().position(|&known| known == op) {
            self.locked[k][moment] += (answer[0] == 0) as u64;
            self.shut[k][closed[k / 2] as usize] += (answer[0] == 0) as u64;
            let low = request[1] as usize;
            self.locked_at[k].insert(if k < 2 { byte_of(bank, request) } else { low });
        }
        if op == 1 && self.calls > 1 {
            self.undigested += (self.last != [12, 11]) as u64;
        }
        self.last = [self.last[1], op];

        let ppu = &self.machine.ppu;
        if op == 2 && answer[0] == 0 {
            self.requests[answer[1] as usize & 3] += 1;
            if answer[5] != 0 {
                self.marks[answer[6] as usize] += 1;
                self.sweep.swap();
            }
            let count = u16::from_le_bytes([answer[8], answer[9]]);
            self.largest_count = self.largest_count.max(count);
            self.window_entries += (!was_in_window && ppu.look_in_window()) as u64;
            let left_line = ppu.look_line() != line;
            self.unended_lines += (left_line && ppu.get_current_mode() == 3) as u64;
        }
        let is_on = ppu.read_lcd_control() & 0x80 != 0;
        self.blankings += (op == 3 && was_on && !is_on) as u64;
        let (waiting, background, sprite) = ppu.look_queues();
        self.waiting += waiting as u64;
        self.background_lengths[background] += 1;
        self.sprite_lengths[sprite] += 1;
        if self.disorder.is_none() {
            let calls = self.calls;
            self.disorder = ppu.look_disorder().map(|rule| (calls, rule));
        }
    }

    /// What an accepted call is about; `bank` is the VRAM bank before it.
    fn take_accepted(&mut self, request: [u8; 8], bank: usize) {
        let [op, a, b, ..] = request;
        match op {
            1 => {
                let (dmg, colour) = (a != 0, b != 0);
                self.starts[2 * dmg as usize + colour as usize] += 1;
                self.sweep.start(dmg, colour);
            }
            2 => {
                self.twos += (a == 2) as u64;
                self.fours += (a == 4) as u64;
            }
            3 => {
                self.written[WRITABLE.iter().position(|&low| low == a).expect("a register")] += 1;
                self.values.insert((a, request[3]));
            }
            4 => self.read[READABLE.iter().position(|&low| low == a).expect("a register")] += 1,
            5 => {
                self.banks[bank] += 1;
                self.vram.insert(byte_of(bank, request));
            }
            7 => self.flags[(a != 0) as usize] += 1,
            8 => self.corrupted[a as usize] += 1,
            13 => self.picks[(b == 16) as usize] += 1,
            _ => {}
        }
    }

    /// How often an op of `CALLS` came.
    fn times(&self, op: u8) -> u64 {
        place_of(op).map_or(0, |k| self.ops[k])
    }

    fn refusals_by(&self, number: u8) -> u64 {
        self.answers[number as usize]
    }

    fn unknown(&self) -> u64 {
        self.calls - self.answers.iter().sum::<u64>()
    }

    pub fn print(&self, kind: &str, out: &mut dyn Write) -> io::Result<i32> {
        writeln!(out, "calls {}", self.calls)?;
        let ops: Vec<String> = CALLS.iter().zip(self.ops).map(|((op, _), times)| format!("{}: {}", op, times)).collect();
        let unknown = self.calls - self.ops.iter().sum::<u64>();
        writeln!(out, "calls by op {}; unknown ops {}", ops.join(", "), unknown)?;
        writeln!(
            out,
            "answers by number 0 to 5 {:?}, by 255 {}",
            self.answers,
            self.unknown()
        )?;
        writeln!(
            out,
            "steps by request: none {}, VBlank {}, STAT {}, both {}",
            self.requests[0], self.requests[1], self.requests[2], self.requests[3]
        )?;
        writeln!(
            out,
            "swaps {}, blankings {}, largest count {}",
            self.swaps(), self.blankings, self.largest_count
        )?;
        writeln!(
            out,
            "window entries {}, lines left in mode 3 {}",
            self.window_entries, self.unended_lines
        )?;
        writeln!(
            out,
            "after a call: a fetched row waits {}; by background queue length {:?}; by sprite queue length {:?}",
            self.waiting, self.background_lengths, self.sprite_lengths
        )?;
        match self.disorder {
            None => writeln!(out, "every state in order")?,
            Some((call, rule)) => writeln!(out, "after call {} not in order: {}", call, rule)?,
        }
        let mut missing = Missing::default();
        missing.want(self.calls > 0, "calls");
        match kind {
            "random" => self.random(&mut missing, out)?,
            "sweep" => {
                self.sweep.print(&mut missing, out)?;
                missing.want(self.blankings > 0, "a switch-off");
                // a switch-off of the sweep stays one, so no picture of it is unseen
                self.want_marks(&mut missing, &MARKS[..2]);
            }
            "cases" => self.cases(&mut missing, out)?,
            "sample" => self.sample(&mut missing, out)?,
            "writes" => self.writes(&mut missing, out)?,
            "locks" => self.every_lock(&mut missing, out)?,
            "unknown" => self.unknowns(&mut missing, out)?,
            _ => {}
        }
        missing.print(out)?;
        out.flush()?;
        Ok((self.disorder.is_some() || !missing.0.is_empty()) as i32)
    }

    /// The swaps, by their marks.
    fn swaps(&self) -> String {
        let by: Vec<String> = MARKS.iter().zip(self.marks).map(|(mark, times)| format!("{} {}", mark, times)).collect();
        format!("{} ({})", self.marks.iter().sum::<u64>(), by.join(", "))
    }

    fn want_marks(&self, missing: &mut Missing, marks: &[&str]) {
        missing.want_all(&self.marks[..marks.len()], |k| format!("a swap with the mark {}", marks[k]));
    }

    fn digests(&self, missing: &mut Missing) {
        for op in DIGESTS {
            missing.want(self.times(op) > 0, name_of(op));
        }
    }

    /// Every call, and every kind of corruption.
    fn every_call(&self, missing: &mut Missing) {
        missing.want_all(&self.ops, |k| CALLS[k].1.to_string());
        self.corruptions(missing);
    }

    fn corruptions(&self, missing: &mut Missing) {
        missing.want_all(&self.corrupted, |k| format!("corruption by a {}", CORRUPTIONS[k]));
    }

    /// Every refusal by the ops asked for.
    fn refusals_of(&self, missing: &mut Missing, asked: impl Fn(u8) -> bool) {
        for (&(op, number), &times) in REFUSALS.iter().zip(&self.refused) {
            missing.want(times > 0 || !asked(op), format!("{} refused by {}", name_of(op), number));
        }
    }

    /// The same, and by 5 of each kind of corruption.
    fn refusals(&self, missing: &mut Missing, asked: impl Fn(u8) -> bool) {
        self.refusals_of(missing, asked);
        missing.want_all(&self.untimely, |k| format!("corruption by a {} refused by 5", CORRUPTIONS[k]));
    }

    fn random(&self, missing: &mut Missing, out: &mut dyn Write) -> io::Result<()> {
        self.every_call(missing);
        self.refusals(missing, |_| true);
        missing.want(!self.unknown_ops.is_empty(), "an unknown op");
        missing.want(!self.unknown_slots.is_empty(), "a slot over 9");
        missing.want_all(&self.written, |k| format!("FF{:02X} written", WRITABLE[k]));
        missing.want_all(&self.read, |k| format!("FF{:02X} read", READABLE[k]));
        let device = ["not DMG, outside colour mode", "not DMG, colour", "DMG", "DMG, colour"];
        missing.want_all(&self.starts, |k| format!("start: {}", device[k]));
        missing.want_all(&self.flags, |k| format!("colour flag {}", ["off", "on"][k]));
        self.want_marks(missing, &MARKS);
        missing.want(self.blankings > 0, "a blanking");
        missing.want(self.twos > 0, "a step of 2");
        missing.want(self.fours > 0, "a step of 4");
        missing.want_all(&self.requests, |k| format!("a step with request bits {}", k));
        missing.want(self.window_entries > 0, "a window entry");
        missing.want_all(&self.banks, |k| format!("a VRAM write in bank {}", k));
        missing.want_all(&self.picks, |k| format!("a pick of height {}", 8 + 8 * k));
        for (op, shut) in LOCKED.iter().zip(&self.shut) {
            missing.want_all(shut, |k| format!("a {} while {}", name_of(*op), ["open", "closed"][k]));
        }
        writeln!(
            out,
            "random: {} of {} calls, refusals 3 ({}) 4 ({}) 5 ({}), unknown ({}), {} of {} by call, {} of 16 registers written, {} of 4 read",
            there(&self.ops),
            CALLS.len(),
            self.refusals_by(3),
            self.refusals_by(4),
            self.refusals_by(5),
            self.unknown(),
            there(&self.refused),
            REFUSALS.len(),
            there(&self.written),
            there(&self.read)
        )?;
        writeln!(
            out,
            "random: starts {} ({} of 4 kinds), swaps {}, blankings {}, {} of 4 request bits, window \
             entries {}, VRAM writes by bank {:?}, picks of 8 and 16 {:?}, colour flag off and on {:?}, steps of 2 {} of 4 {}",
            self.times(1),
            there(&self.starts),
            self.swaps(),
            self.blankings,
            there(&self.requests),
            self.window_entries,
            self.banks,
            self.picks,
            self.flags,
            self.twos,
            self.fours
        )
    }

    /// Every stretch from a start to the next ends with both digests.
    fn cases(&self, missing: &mut Missing, out: &mut dyn Write) -> io::Result<()> {
        let undigested = self.undigested + (self.last != [12, 11]) as u64;
        missing.want(undigested == 0, "both digests behind the last call before a start");
        self.refusals(missing, |op| op != PICK);
        missing.want_all(&self.starts[..3], |k| {
            format!("start: {}", ["not DMG, outside colour mode", "not DMG, colour", "DMG"][k])
        });
        missing.want(self.blankings > 0, "a blanking");
        missing.want(self.window_entries > 0, "a window entry");
        missing.want(self.unended_lines > 0, "a line that does not end");
        self.want_marks(missing, &MARKS);
        self.digests(missing);
        self.print_few("cases", out)?;
        writeln!(
            out,
            "cases: {} of {} stretches from a start end with both digests",
            self.times(1).saturating_sub(undigested),
            self.times(1)
        )
    }

    fn sample(&self, missing: &mut Missing, out: &mut dyn Write) -> io::Result<()> {
        missing.want(self.calls <= 42_000, "room: the sample has over 42,000 calls");
        self.every_call(missing);
        for number in [3, 4, 5] {
            missing.want(self.refusals_by(number) > 0, format!("a refusal by {}", number));
        }
        missing.want(self.blankings > 0, "a blanking");
        missing.want_all(&self.requests, |k| format!("a step with request bits {}", k));
        missing.want(self.window_entries > 0, "a window entry");
        missing.want(self.unended_lines > 0, "a line that does not end");
        self.want_marks(missing, &MARKS);
        self.print_few("sample", out)
    }

    fn writes(&self, missing: &mut Missing, out: &mut dyn Write) -> io::Result<()> {
        missing.want(self.vram.len() == 0x4000, "a byte of VRAM");
        missing.want(self.oam.len() == 256, "an OAM address");
        missing.want(self.values.len() == 16 * 256, "a value of a register");
        missing.want(self.kinds.len() == 256, "a kind of corruption");
        self.corruptions(missing);
        self.refusals(missing, |op| op == 8);
        missing.want_all(&self.read, |k| format!("FF{:02X} read", READABLE[k]));
        missing.want_all(&self.starts, |k| format!("start {}", k));
        self.digests(missing);
        writeln!(
            out,
            "writes: {} of 16,384 bytes of VRAM, {} of 256 OAM addresses, {} of 4,096 values of registers on {} of 4 devices, {} of 256 \
             kinds of corruption",
            spaced(self.vram.len() as u64),
            self.oam.len(),
            spaced(self.values.len() as u64),
            there(&self.starts),
            self.kinds.len()
        )
    }

    fn every_lock(&self, missing: &mut Missing, out: &mut dyn Write) -> io::Result<()> {
        for (k, &op) in LOCKED.iter().enumerate() {
            missing.want_all(&self.locked[k], |at| format!("a {} {}", name_of(op), MOMENTS[at]));
            let all = if k < 2 { 0x4000 } else { 256 };
            missing.want(self.locked_at[k].len() == all, format!("an address of a {}", name_of(op)));
        }
        self.refusals_of(missing, |op| LOCKED.contains(&op));
        self.digests(missing);
        let accepted: Vec<u64> = (0..MOMENTS.len()).map(|k| self.locked.iter().map(|moments| moments[k]).sum()).collect();
        writeln!(
            out,
            "locks: {} bytes of VRAM written and {} read, {} OAM addresses written and {} read, of 16,384 and 256; accepted {:?} in modes \
             0 to 3 and with the display off, refused by 4 {}",
            spaced(self.locked_at[0].len() as u64),
            spaced(self.locked_at[1].len() as u64),
            self.locked_at[2].len(),
            self.locked_at[3].len(),
            accepted,
            self.refusals_by(4)
        )
    }

    fn unknowns(&self, missing: &mut Missing, out: &mut dyn Write) -> io::Result<()> {
        missing.want(self.unknown_ops.len() == 256 - CALLS.len(), "an unknown op");
        missing.want(self.unknown_slots.len() == 246, "a slot of 10 to 255");
        missing.want(self.times(2) > 0 && self.times(13) > 0, "accepted calls");
        self.digests(missing);
        writeln!(
            out,
            "unknown: {} of {} ops, {} of 246 slots, digests of the state {}, of pictures and memory {}",
            self.unknown_ops.len(),
            256 - CALLS.len(),
            self.unknown_slots.len(),
            self.times(12),
            self.times(11)
        )
    }

    fn print_few(&self, name: &str, out: &mut dyn Write) -> io::Result<()> {
        writeln!(
            out,
            "{}: {} of {} calls, refusals 3 ({}) 4 ({}) 5 ({}), starts {} ({} of 4 kinds), swaps {}, \
             blankings {}",
            name,
            there(&self.ops),
            CALLS.len(),
            self.refusals_by(3),
            self.refusals_by(4),
            self.refusals_by(5),
            self.times(1),
            there(&self.starts),
            self.swaps(),
            self.blankings
        )
    }
}
