//! The record bank: dial rules in records that the caller lends.

use crate::device::{has_a_number, on_the_table, SlotDevice};
use crate::dial::Dial;
use crate::refusal::Refusal;
use crate::rule::Rule;

/// Records past these are no slots.
pub const MOST_RECORDS: usize = 480;

/// Slot i is record i. A record with number 0 is an empty slot, whatever else it holds.
pub struct RecordBank<'records> {
    records: &'records mut [Rule],
}

impl<'records> RecordBank<'records> {
    pub fn new(records: &'records mut [Rule]) -> Self {
        RecordBank { records }
    }

    pub fn records(&self) -> &[Rule] {
        self.records
    }
}

impl SlotDevice for RecordBank<'_> {
    type Kind = Dial;

    fn count(&self) -> usize {
        self.records.len().min(MOST_RECORDS)
    }

    fn read(&self, slot: usize) -> Result<Option<Rule>, Refusal> {
        on_the_table(slot, self.count())?;
        let record = self.records[slot];
        Ok((record.number != 0).then_some(record))
    }

    fn write(&mut self, slot: usize, rule: Rule) -> Result<(), Refusal> {
        has_a_number(rule)?;
        on_the_table(slot, self.count())?;
        self.records[slot] = rule;
        Ok(())
    }

    fn erase(&mut self, slot: usize) -> Result<(), Refusal> {
        on_the_table(slot, self.count())?;
        self.records[slot] = Rule::ZERO;
        Ok(())
    }
}

#[cfg(test)]
mod tests {
    use super::*;

    fn rule(number: u16, signs: &str) -> Rule {
        Rule {
            number,
            words: Dial::pattern(signs).unwrap(),
            ..Rule::ZERO
        }
    }

    #[test]
    fn slot_i_is_record_i() {
        let mut records = [Rule::ZERO; 3];
        let mut bank = RecordBank::new(&mut records);
        assert_eq!(bank.write(1, rule(7, "9!")), Ok(()));
        assert_eq!(bank.read(0), Ok(None));
        assert_eq!(bank.read(1), Ok(Some(rule(7, "9!"))));
        assert_eq!(bank.first_match(Dial::word("90").unwrap()), Some(1));
        assert_eq!(bank.first_match(Dial::word("8").unwrap()), None);
        assert_eq!(bank.erase(1), Ok(()));
        assert_eq!(records, [Rule::ZERO; 3]);
    }

    #[test]
    fn only_the_first_480_records_are_slots() {
        let mut records = vec![rule(9, "9"); 481];
        let mut bank = RecordBank::new(&mut records);
        assert_eq!(bank.count(), 480);
        assert_eq!(bank.erase(480), Err(Refusal::OffTheTable));
        assert_eq!(bank.erase(479), Ok(()));
        assert_eq!(records[480], rule(9, "9"));
        assert_eq!(records[479], Rule::ZERO);
        assert_eq!(RecordBank::new(&mut []).count(), 0);
    }

    #[test]
    fn the_lowest_matching_slot_wins() {
        let mut records = [rule(1, "8"), rule(2, "9X"), rule(3, "9!")];
        let bank = RecordBank::new(&mut records);
        assert_eq!(bank.first_match(Dial::word("90").unwrap()), Some(1));
        assert_eq!(bank.first_match(Dial::word("9").unwrap()), Some(2));
        assert_eq!(bank.first_match(Dial::word("X").unwrap()), None);
    }

    #[test]
    fn a_record_with_number_0_is_empty_and_a_refusal_leaves_it() {
        let leftover = Rule {
            action: 5,
            ..rule(0, "!")
        };
        let mut records = [leftover];
        let mut bank = RecordBank::new(&mut records);
        assert_eq!(bank.read(0), Ok(None));
        assert_eq!(bank.first_match(Dial::word("1").unwrap()), None);
        assert_eq!(bank.write(0, rule(0, "1")), Err(Refusal::Mangled));
        assert_eq!(bank.write(1, rule(0, "1")), Err(Refusal::Mangled));
        assert_eq!(bank.write(1, rule(1, "1")), Err(Refusal::OffTheTable));
        assert_eq!(bank.read(1), Err(Refusal::OffTheTable));
        assert_eq!(bank.erase(1), Err(Refusal::OffTheTable));
        assert_eq!(records, [leftover]);
    }

    #[test]
    fn a_rule_that_is_not_well_formed_is_written_and_matches_nothing() {
        let mut records = [Rule::ZERO];
        let mut bank = RecordBank::new(&mut records);
        assert_eq!(bank.write(0, rule(1, "!!")), Ok(()));
        assert_eq!(bank.read(0), Ok(Some(rule(1, "!!"))));
        assert_eq!(bank.first_match(Dial::word("1").unwrap()), None);
    }
}
