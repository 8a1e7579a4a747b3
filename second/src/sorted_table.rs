//! The table that a board is measured against: rules sorted by priority, without gaps.
//!
//! An add shifts everything below it down by one slot, and a drop shifts everything below it up.

use crate::board::Answer;
use crate::device::SlotDevice;
use crate::kind::Kind;
use crate::refusal::Refusal;
use crate::rule::Rule;

/// Said of a slot below the table's length.
const ON_THE_TABLE: &str = "the table keeps to the slots of its device";

/// Rules in slots 0 to length - 1, higher priority first.
pub struct SortedTable<Device> {
    device: Device,
    length: usize,
    writes: u64,
    erases: u64,
}

impl<Device: SlotDevice> SortedTable<Device> {
    /// Erases every slot. These erases are not counted.
    pub fn open(mut device: Device) -> Self {
        for slot in 0..device.count() {
            device.erase(slot).expect(ON_THE_TABLE);
        }
        SortedTable {
            device,
            length: 0,
            writes: 0,
            erases: 0,
        }
    }

    pub fn give_up(self) -> Device {
        self.device
    }

    pub fn device(&self) -> &Device {
        &self.device
    }

    pub fn length(&self) -> usize {
        self.length
    }

    /// All writes since the opening.
    pub fn writes(&self) -> u64 {
        self.writes
    }

    /// All erases since the opening.
    pub fn erases(&self) -> u64 {
        self.erases
    }

    /// Puts the rule after all rules of higher or equal priority. Answers the number of writes, which
    /// is length - position + 1, of the length before the add.
    pub fn add(&mut self, rule: Rule) -> Result<usize, Refusal> {
        if rule.number == 0 || !Device::Kind::rule_is_well_formed(rule.words) {
            return Err(Refusal::Mangled);
        }
        if self.position_of(rule.number).is_some() {
            return Err(Refusal::Known);
        }
        if self.length == self.device.count() {
            return Err(Refusal::NoSlot);
        }
        let position = (0..self.length)
            .find(|&slot| self.rule_at(slot).priority < rule.priority)
            .unwrap_or(self.length);
        let before = self.writes;
        // From the end, so that no rule is lost on the way.
        for slot in (position..self.length).rev() {
            self.write(slot + 1, self.rule_at(slot));
        }
        self.write(position, rule);
        self.length += 1;
        Ok((self.writes - before) as usize)
    }

    /// Takes the rule out. Answers the number of writes, which is length - position - 1, of the
    /// length before the drop; one erase comes after them.
    pub fn drop(&mut self, number: u16) -> Result<usize, Refusal> {
        let position = self.position_of(number).ok_or(Refusal::Unknown)?;
        let before = self.writes;
        for slot in position + 1..self.length {
            self.write(slot - 1, self.rule_at(slot));
        }
        self.length -= 1;
        self.device.erase(self.length).expect(ON_THE_TABLE);
        self.erases += 1;
        Ok((self.writes - before) as usize)
    }

    /// Number and action of the first rule that matches.
    pub fn look_up(&self, subject: u64) -> Result<Option<Answer>, Refusal> {
        if !Device::Kind::subject_is_well_formed(subject) {
            return Err(Refusal::Misdialled);
        }
        Ok(self.device.first_match(subject).map(|slot| {
            let rule = self.rule_at(slot);
            Answer {
                number: rule.number,
                action: rule.action,
            }
        }))
    }

    fn rule_at(&self, slot: usize) -> Rule {
        self.device
            .read(slot)
            .expect(ON_THE_TABLE)
            .expect("the table has no gaps")
    }

    fn position_of(&self, number: u16) -> Option<usize> {
        (0..self.length).find(|&slot| self.rule_at(slot).number == number)
    }

    fn write(&mut self, slot: usize, rule: Rule) {
        self.device.write(slot, rule).expect(ON_THE_TABLE);
        self.writes += 1;
    }
}

#[cfg(test)]
mod tests {
    use super::*;
    use crate::dial::Dial;
    use crate::record_bank::RecordBank;

    fn rule(number: u16, signs: &str, priority: u16) -> Rule {
        Rule {
            number,
            priority,
            action: u32::from(number) * 100,
            words: Dial::pattern(signs).unwrap(),
        }
    }

    #[test]
    fn an_add_writes_everything_below_it() {
        let mut records = [Rule::ZERO; 4];
        let mut table = SortedTable::open(RecordBank::new(&mut records));
        assert_eq!(table.add(rule(1, "1", 10)), Ok(1));
        assert_eq!(table.add(rule(2, "2", 20)), Ok(2));
        assert_eq!(table.add(rule(3, "3", 15)), Ok(2));
        assert_eq!(table.add(rule(4, "!", 15)), Ok(2), "after its equals");
        assert_eq!(table.add(rule(5, "5", 1)), Err(Refusal::NoSlot));
        assert_eq!(table.add(rule(4, "5", 1)), Err(Refusal::Known));
        assert_eq!(table.add(rule(0, "5", 1)), Err(Refusal::Mangled));
        assert_eq!(table.writes(), 7);
        let found = table.look_up(Dial::word("3").unwrap()).unwrap().unwrap();
        assert_eq!(found.number, 3);
        assert_eq!(table.drop(2), Ok(3));
        assert_eq!(table.drop(1), Ok(0));
        assert_eq!(table.drop(1), Err(Refusal::Unknown));
        assert_eq!((table.length(), table.writes(), table.erases()), (2, 10, 2));
        assert_eq!(records.map(|record| record.number), [3, 4, 0, 0]);
    }
}
