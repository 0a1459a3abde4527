//! What a list is found to lack.

use std::io::{self, Write};

/// What is not there.
#[derive(Default)]
pub struct Missing(pub Vec<String>);

impl Missing {
    pub fn want(&mut self, there: bool, name: impl ToString) {
        if !there {
            self.0.push(name.to_string());
        }
    }

    /// Every entry of a table of counts.
    pub fn want_all(&mut self, counts: &[u64], name: impl Fn(usize) -> String) {
        for (k, &count) in counts.iter().enumerate() {
            self.want(count > 0, name(k));
        }
    }

    pub fn print(&self, out: &mut dyn Write) -> io::Result<()> {
        if self.0.is_empty() {
            return Ok(());
        }
        writeln!(out, "missing: {}", self.0.join("; "))
    }
}

/// How many of a table of counts are not 0.
pub fn there(counts: &[u64]) -> usize {
    counts.iter().filter(|&&count| count > 0).count()
}
