//! The pair: two devices of one kind as one.

use crate::device::{has_a_number, on_the_table, SlotDevice, MOST_SLOTS};
use crate::refusal::Refusal;
use crate::rule::Rule;

/// The first's slots, then the second's. If that were more slots than a device has, the second is
/// left alone.
pub struct Pair<First, Second> {
    first: First,
    second: Second,
}

impl<First, Second> Pair<First, Second>
where
    First: SlotDevice,
    Second: SlotDevice<Kind = First::Kind>,
{
    pub fn new(first: First, second: Second) -> Self {
        Pair { first, second }
    }

    pub fn give_up(self) -> (First, Second) {
        (self.first, self.second)
    }
}

impl<First, Second> SlotDevice for Pair<First, Second>
where
    First: SlotDevice,
    Second: SlotDevice<Kind = First::Kind>,
{
    type Kind = First::Kind;

    fn count(&self) -> usize {
        let both = self.first.count() + self.second.count();
        if both > MOST_SLOTS {
            self.first.count()
        } else {
            both
        }
    }

    fn read(&self, slot: usize) -> Result<Option<Rule>, Refusal> {
        on_the_table(slot, self.count())?;
        match slot.checked_sub(self.first.count()) {
            None => self.first.read(slot),
            Some(slot) => self.second.read(slot),
        }
    }

    fn write(&mut self, slot: usize, rule: Rule) -> Result<(), Refusal> {
        has_a_number(rule)?;
        on_the_table(slot, self.count())?;
        match slot.checked_sub(self.first.count()) {
            None => self.first.write(slot, rule),
            Some(slot) => self.second.write(slot, rule),
        }
    }

    fn erase(&mut self, slot: usize) -> Result<(), Refusal> {
        on_the_table(slot, self.count())?;
        match slot.checked_sub(self.first.count()) {
            None => self.first.erase(slot),
            Some(slot) => self.second.erase(slot),
        }
    }
}

#[cfg(test)]
mod tests {
    use super::*;
    use crate::dial::Dial;
    use crate::record_bank::RecordBank;

    fn rule(number: u16, signs: &str) -> Rule {
        Rule {
            number,
            words: Dial::pattern(signs).unwrap(),
            ..Rule::ZERO
        }
    }

    /// A device that is only large.
    struct Large(usize);

    impl SlotDevice for Large {
        type Kind = Dial;
        fn count(&self) -> usize {
            self.0
        }
        fn read(&self, slot: usize) -> Result<Option<Rule>, Refusal> {
            on_the_table(slot, self.0).map(|()| None)
        }
        fn write(&mut self, slot: usize, rule: Rule) -> Result<(), Refusal> {
            has_a_number(rule)?;
            on_the_table(slot, self.0)
        }
        fn erase(&mut self, slot: usize) -> Result<(), Refusal> {
            on_the_table(slot, self.0)
        }
    }

    #[test]
    fn the_first_slots_then_the_second() {
        let (mut one, mut other) = ([Rule::ZERO; 2], [Rule::ZERO; 3]);
        let mut pair = Pair::new(RecordBank::new(&mut one), RecordBank::new(&mut other));
        assert_eq!(pair.count(), 5);
        pair.write(1, rule(1, "1")).unwrap();
        pair.write(2, rule(2, "X")).unwrap();
        pair.write(4, rule(4, "!")).unwrap();
        assert_eq!(pair.read(2), Ok(Some(rule(2, "X"))));
        assert_eq!(pair.first_match(Dial::word("1").unwrap()), Some(1));
        assert_eq!(pair.first_match(Dial::word("5").unwrap()), Some(2));
        assert_eq!(pair.first_match(Dial::word("55").unwrap()), Some(4));
        pair.erase(4).unwrap();
        assert_eq!(pair.erase(5), Err(Refusal::OffTheTable));
        assert_eq!(one, [Rule::ZERO, rule(1, "1")]);
        assert_eq!(other, [rule(2, "X"), Rule::ZERO, Rule::ZERO]);
    }

    #[test]
    fn too_many_slots_leave_the_second_alone() {
        let mut records = [rule(1, "!")];
        let mut pair = Pair::new(Large(65_535), RecordBank::new(&mut records));
        assert_eq!(pair.count(), 65_535);
        assert_eq!(pair.first_match(Dial::word("1").unwrap()), None);
        assert_eq!(pair.erase(65_535), Err(Refusal::OffTheTable));
        assert_eq!(pair.read(65_535), Err(Refusal::OffTheTable));
        assert_eq!(records, [rule(1, "!")]);
        assert_eq!(
            Pair::new(Large(65_534), RecordBank::new(&mut records)).count(),
            65_535
        );
    }
}
