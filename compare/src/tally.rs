//! What was compared, in numbers.

use std::fmt;

/// Refusals go from 1 to 14.
const REFUSALS: usize = 14;

#[derive(Default)]
pub struct Tally {
    pub files: u64,
    pub orders: u64,
    /// Runs of files: by the program, and by the library on records and on words.
    pub runs: u64,
    pub boards: u64,
    pub calls: u64,
    pub adds: u64,
    pub longest_chain: u32,
    refusals: [u64; REFUSALS + 1],
}

impl Tally {
    pub fn note_refusal(&mut self, refusal: u32) {
        if let Some(count) = self.refusals.get_mut(refusal as usize) {
            *count += 1;
        }
    }
}

impl fmt::Display for Tally {
    fn fmt(&self, formatter: &mut fmt::Formatter<'_>) -> fmt::Result {
        writeln!(formatter, "files    {:>10}", self.files)?;
        writeln!(formatter, "orders   {:>10}", self.orders)?;
        writeln!(formatter, "runs     {:>10}", self.runs)?;
        writeln!(formatter, "boards   {:>10}", self.boards)?;
        writeln!(formatter, "calls    {:>10}", self.calls)?;
        writeln!(
            formatter,
            "adds     {:>10}   longest chain {}",
            self.adds, self.longest_chain
        )?;
        write!(formatter, "refusals of calls")?;
        for (refusal, count) in self.refusals.iter().enumerate().skip(1) {
            if *count > 0 {
                write!(formatter, "  {refusal}: {count}")?;
            }
        }
        writeln!(formatter)
    }
}
