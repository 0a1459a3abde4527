//! Reads the cases of a sweep off a list, to say which of them are in it.

use crate::list::spaced;
use crate::missing::{there, Missing};
use crate::sweep::{self, CASES, CYCLES, KINDS as DEVICES, LINES, WRITES};
use std::io::{self, Write};

/// The cases of a sweep, read off the list: the first register write behind the swap that ends the prologue is the case's,
/// and the next swap ends it.
#[derive(Default)]
pub struct Sweep {
    starts: usize,
    /// Starts before which a case had not ended.
    unended: u64,
    /// The device of a case whose write is still to come.
    device: Option<usize>,
    in_scene: bool,
    open: bool,
    /// The numbers that a case can have: two writes of the table can be the same call.
    cases: Vec<Vec<usize>>,
}

impl Sweep {
    pub fn start(&mut self, dmg: bool, colour: bool) {
        self.unended += self.open as u64;
        self.device = DEVICES.iter().position(|&kind| kind == (dmg as u8, colour as u8));
        self.in_scene = false;
        self.open = true;
        self.starts += 1;
    }

    pub fn swap(&mut self) {
        if self.device.is_some() {
            self.in_scene = true;
        } else {
            self.open = false;
        }
    }

    /// A register write at a line, a cycle and an LCD x.
    pub fn write(&mut self, request: [u8; 8], line: u8, cycle: u16, x: u8) {
        let device = match self.device {
            Some(device) if self.in_scene => device,
            _ => return,
        };
        self.device = None;
        if let Some(place) = LINES.iter().position(|&known| known == line) {
            let first = ((device * LINES.len() + place) * CYCLES + cycle as usize / 2) * WRITES.len();
            let same = |&write: &usize| sweep::write_calls(write, line, x)[0] == request;
            self.cases.push((0..WRITES.len()).filter(same).map(|write| first + write).collect());
        }
    }

    /// The first number and the stride, if the list has every case that they give.
    fn first_and_stride(&self) -> Option<(usize, usize)> {
        let (first, second) = (self.cases.get(0)?, self.cases.get(1)?);
        let pairs = first.iter().flat_map(|&a| second.iter().map(move |&b| (a, b)));
        for (a, b) in pairs.filter(|(a, b)| a < b) {
            let stride = b - a;
            let fits = |(k, numbers): (usize, &Vec<usize>)| numbers.contains(&(a + k * stride));
            let whole = a < stride && a + self.cases.len() * stride >= CASES;
            if whole && self.cases.iter().enumerate().all(fits) {
                return Some((a, stride));
            }
        }
        None
    }

    pub fn print(&self, missing: &mut Missing, out: &mut dyn Write) -> io::Result<()> {
        let mut writes = [0; WRITES.len()];
        let mut lines = [0; LINES.len()];
        let mut devices = [0; DEVICES.len()];
        let mut cycles = [0; CYCLES];
        let mut course = "no stride".to_string();
        if let Some((first, stride)) = self.first_and_stride() {
            course = format!("from number {}, stride {}", spaced(first as u64), spaced(stride as u64));
            for number in (first..CASES).step_by(stride) {
                let case = sweep::case(number);
                writes[case.write] += 1;
                lines[case.line] += 1;
                devices[case.kind] += 1;
                cycles[case.cycle as usize / 2] += 1;
            }
        }
        missing.want(there(&lines) > 0, "a first number and a stride that give the cases");
        missing.want(self.cases.len() == self.starts, "the write of a case");
        missing.want(self.unended == 0 && !self.open, "the end of a case");
        missing.want_all(&writes, |k| {
            let [_, low, _, value, ..] = sweep::write_calls(k, 0, 0)[0];
            format!("write {} (FF{:02X}, {:02X} on line 0)", k, low, value)
        });
        missing.want_all(&lines, |k| format!("line {}", LINES[k]));
        missing.want_all(&devices, |k| format!("device {:?}", DEVICES[k]));
        writeln!(
            out,
            "sweep: {} of {} cases ({}), {} of {} writes, {} of {} lines, {} of {} devices, {} of {} cycles",
            self.cases.len(),
            spaced(CASES as u64),
            course,
            there(&writes),
            WRITES.len(),
            there(&lines),
            LINES.len(),
            there(&devices),
            DEVICES.len(),
            there(&cycles),
            CYCLES
        )
    }
}
