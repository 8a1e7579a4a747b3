//! What a slot device does.

use crate::kind::Kind;
use crate::refusal::Refusal;
use crate::rule::Rule;

/// The most slots that a device has.
pub const MOST_SLOTS: usize = 65_535;

/// A list of slots, each empty or taken by a rule.
///
/// A device refuses only what is said here; it writes a rule that is not well formed. No refusal
/// changes anything.
pub trait SlotDevice {
    /// The one kind of rule that the device holds.
    type Kind: Kind;

    fn count(&self) -> usize;

    /// The slot's rule, or empty. Refuses a slot off the table.
    fn read(&self, slot: usize) -> Result<Option<Rule>, Refusal>;

    /// Refuses number 0, then a slot off the table.
    fn write(&mut self, slot: usize, rule: Rule) -> Result<(), Refusal>;

    /// Refuses a slot off the table.
    fn erase(&mut self, slot: usize) -> Result<(), Refusal>;

    /// The lowest slot whose rule matches.
    fn first_match(&self, subject: u64) -> Option<usize> {
        (0..self.count()).find(|&slot| {
            matches!(self.read(slot), Ok(Some(rule)) if Self::Kind::matches(rule.words, subject))
        })
    }
}

/// The check that every device makes before it touches a slot.
pub fn on_the_table(slot: usize, count: usize) -> Result<(), Refusal> {
    if slot < count {
        Ok(())
    } else {
        Err(Refusal::OffTheTable)
    }
}

/// The check that every device makes first of all on a write.
pub fn has_a_number(rule: Rule) -> Result<(), Refusal> {
    if rule.number != 0 {
        Ok(())
    } else {
        Err(Refusal::Mangled)
    }
}
