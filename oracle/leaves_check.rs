//! Counts over a list of the protocol `leaves`, and what a list of a kind must hold.

use crate::leaves::Leaves;
use crate::missing::{there, Missing};
use std::collections::BTreeSet;
use std::io::{self, Write};

/// The kinds of lists; all but the last two are lists of all ops.
pub const KINDS: [&str; 6] = ["", "exhaustive", "random", "sample", "cases", "unknown"];
/// The place of all unknown ops among the counts.
const UNKNOWN: usize = 0;

/// Counts over a list of the protocol `leaves`.
pub struct LeavesCheck {
    leaves: Leaves,
    requests: u64,
    ops: [u64; 23],
    unknown_ops: BTreeSet<u8>,
    /// Stores and places off the screen.
    off_screen: [u64; 2],
    /// OAM writes and picks that are refused, and picks that are not.
    refused: [u64; 2],
    picks: u64,
}

impl LeavesCheck {
    pub fn new() -> Self {
        LeavesCheck {
            leaves: Leaves::new(),
            requests: 0,
            ops: [0; 23],
            unknown_ops: BTreeSet::new(),
            off_screen: [0; 2],
            refused: [0; 2],
            picks: 0,
        }
    }

    pub fn take(&mut self, request: [u8; 8]) {
        let op = request[0];
        self.requests += 1;
        if !(1..=22).contains(&op) {
            self.ops[UNKNOWN] += 1;
            self.unknown_ops.insert(op);
            return;
        }
        self.ops[op as usize] += 1;
        match op {
            5 => self.refused[0] += (self.leaves.answer(request)[0] == 4) as u64,
            6 => {
                let refused = self.leaves.answer(request)[0] == 4;
                self.refused[1] += refused as u64;
                self.picks += !refused as u64;
            }
            19 => self.off_screen[0] += (request[1] >= 160 || request[2] >= 144) as u64,
            20 => self.off_screen[1] += (request[2] >= 160 || request[3] >= 144) as u64,
            _ => {}
        }
    }

    pub fn print(&self, kind: &str, out: &mut dyn Write) -> io::Result<i32> {
        let mut missing = Missing::default();
        let needed: Vec<usize> = match kind {
            "cases" => vec![3, 5, 6, 7, 10, 12, 13, 14, 15, 17],
            "unknown" => vec![5, 6, 7, 12, 13, 14, 19, 20, 21, 22],
            _ => (1..=22).collect(),
        };
        missing.want(self.requests > 0, "requests");
        for op in needed {
            missing.want(self.ops[op] > 0, format!("op {}", op));
        }
        missing.want(self.picks > 0, "a pick that is not refused");
        if kind != "cases" {
            missing.want(self.ops[UNKNOWN] > 0, "an unknown op");
            missing.want(self.off_screen[0] > 0, "a store off the screen");
            missing.want(self.off_screen[1] > 0, "a place off the screen");
        }
        match kind {
            "cases" => {}
            "unknown" => missing.want(self.unknown_ops.len() == 234, "an op of 0 and 23 to 255"),
            _ => {
                missing.want(self.refused[0] > 0, "a refused OAM write");
                missing.want(self.refused[1] > 0, "a refused pick");
            }
        }
        writeln!(
            out,
            "leaves: {} requests, {} of 22 ops, unknown ops {} ({} of 234 kinds), off the screen {} stores and {} places, \
             picks {}, refused {} and {} OAM writes",
            self.requests,
            there(&self.ops[1..]),
            self.ops[UNKNOWN],
            self.unknown_ops.len(),
            self.off_screen[0],
            self.off_screen[1],
            self.picks,
            self.refused[1],
            self.refused[0]
        )?;
        missing.print(out)?;
        out.flush()?;
        Ok(!missing.0.is_empty() as i32)
    }
}
