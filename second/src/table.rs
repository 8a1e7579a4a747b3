//! Where a new rule may go: span, crossed, reach and the chain by the jump rule.
//!
//! Everything here looks at a table and changes nothing. A table is what the slots of a board hold,
//! slot 0 first; N is its length.

use std::ops::Range;

use crate::kind::Kind;
use crate::rule::Rule;

pub type Slots = [Option<Rule>];

/// The taken slots whose rules meet the given one, in order.
fn meeting<'table, K: Kind>(
    table: &'table Slots,
    rule: &'table Rule,
) -> impl Iterator<Item = (usize, &'table Rule)> {
    table
        .iter()
        .enumerate()
        .filter_map(|(slot, taken)| taken.as_ref().map(|other| (slot, other)))
        .filter(|(_, other)| K::meet(other.words, rule.words))
}

/// The last slot whose rule meets the new one with higher priority.
fn last_higher<K: Kind>(table: &Slots, rule: &Rule) -> Option<usize> {
    meeting::<K>(table, rule)
        .filter(|(_, other)| other.priority > rule.priority)
        .map(|(slot, _)| slot)
        .last()
}

/// The first slot whose rule meets the new one with lower priority.
fn first_lower<K: Kind>(table: &Slots, rule: &Rule) -> Option<usize> {
    meeting::<K>(table, rule)
        .find(|(_, other)| other.priority < rule.priority)
        .map(|(slot, _)| slot)
}

/// Whether a meeting rule has equal priority.
pub fn tied<K: Kind>(table: &Slots, rule: &Rule) -> bool {
    meeting::<K>(table, rule).any(|(_, other)| other.priority == rule.priority)
}

/// One past the last slot whose rule meets the new one with higher priority, or 0. It can be N.
pub fn low<K: Kind>(table: &Slots, rule: &Rule) -> usize {
    last_higher::<K>(table, rule).map_or(0, |slot| slot + 1)
}

/// The slots of the span, from low up to and with high. The range starts at low and ends one past
/// high, because with no slots there is no N - 1 for high to be.
pub fn span<K: Kind>(table: &Slots, rule: &Rule) -> Range<usize> {
    let end = first_lower::<K>(table, rule).map_or(table.len(), |slot| slot + 1);
    low::<K>(table, rule)..end
}

/// Whether a meeting rule of higher priority stands after a meeting rule of lower priority. It is
/// enough to look at the last of the ones and the first of the others.
pub fn crossed<K: Kind>(table: &Slots, rule: &Rule) -> bool {
    match (last_higher::<K>(table, rule), first_lower::<K>(table, rule)) {
        (Some(higher), Some(lower)) => higher > lower,
        _ => false,
    }
}

/// Whether there is an empty slot from low to N - 1.
pub fn has_an_empty_slot_from_low<K: Kind>(table: &Slots, rule: &Rule) -> bool {
    table[low::<K>(table, rule)..].iter().any(Option::is_none)
}

/// How far down the rule of a taken slot may be copied: the first later slot whose rule has another
/// number and meets it, or N - 1. None for an empty slot, which has no reach.
pub fn reach<K: Kind>(table: &Slots, slot: usize) -> Option<usize> {
    let rule = table[slot]?;
    let reach = meeting::<K>(table, &rule)
        .find(|&(later, other)| later > slot && other.number != rule.number)
        .map_or(table.len() - 1, |(later, _)| later);
    Some(reach)
}

/// The downward chain of a new rule by the jump rule, or none if no chain leads to an empty slot.
pub fn chain<K: Kind>(table: &Slots, rule: &Rule) -> Option<Vec<usize>> {
    let mut chain = Vec::new();
    let mut window = span::<K>(table, rule);
    loop {
        if let Some(empty) = window.clone().find(|&slot| table[slot].is_none()) {
            chain.push(empty);
            return Some(chain);
        }
        // Of equal reaches the lowest slot is wanted. `max_by_key` keeps the last that it meets, so
        // the window is gone through from its end. An empty window has no slot, and there is no chain.
        let (slot, reach) = window
            .rev()
            .filter_map(|slot| reach::<K>(table, slot).map(|reach| (slot, reach)))
            .max_by_key(|&(_, reach)| reach)?;
        chain.push(slot);
        window = slot + 1..reach + 1;
    }
}

#[cfg(test)]
mod tests {
    use super::*;
    use crate::dial::Dial;

    fn rule(number: u16, signs: &str, priority: u16) -> Rule {
        Rule {
            number,
            priority,
            action: 0,
            words: Dial::pattern(signs).unwrap(),
        }
    }

    #[test]
    fn worked_case_8() {
        let table = [
            Some(rule(1, "1X", 40)),
            Some(rule(2, "2X", 30)),
            Some(rule(3, "10", 20)),
            None,
        ];
        let new = rule(4, "!", 50);
        let reaches: Vec<_> = (0..4).map(|slot| reach::<Dial>(&table, slot)).collect();
        assert_eq!(reaches, [Some(2), Some(3), Some(3), None]);
        assert_eq!(span::<Dial>(&table, &new), 0..1, "low is 0, high is 0");
        assert!(!crossed::<Dial>(&table, &new));
        assert_eq!(chain::<Dial>(&table, &new), Some(vec![0, 1, 3]));
    }

    #[test]
    fn low_can_be_the_number_of_slots() {
        let table = [Some(rule(1, "!", 10))];
        let new = rule(2, "9", 5);
        assert_eq!(span::<Dial>(&table, &new), 1..1);
        assert!(!crossed::<Dial>(&table, &new));
        assert!(!has_an_empty_slot_from_low::<Dial>(&table, &new));
        assert_eq!(chain::<Dial>(&table, &new), None);
    }

    #[test]
    fn a_copy_of_the_rule_itself_does_not_end_its_reach() {
        let table = [
            Some(rule(1, "1!", 9)),
            Some(rule(1, "1!", 9)),
            Some(rule(2, "11", 5)),
            None,
        ];
        assert_eq!(reach::<Dial>(&table, 0), Some(2));
        assert_eq!(reach::<Dial>(&table, 1), Some(2));
        assert_eq!(reach::<Dial>(&table, 2), Some(3));
    }

    #[test]
    fn only_meeting_rules_bound_the_span() {
        let table = [None, Some(rule(1, "1", 9)), Some(rule(2, "2", 1))];
        assert_eq!(span::<Dial>(&table, &rule(3, "3", 5)), 0..3);
        assert_eq!(span::<Dial>(&table, &rule(3, "1!", 5)), 2..3);
        assert_eq!(span::<Dial>(&table, &rule(3, "X", 5)), 2..3);
    }

    #[test]
    fn no_slots() {
        let new = rule(1, "1", 1);
        assert_eq!(span::<Dial>(&[], &new), 0..0);
        assert!(!crossed::<Dial>(&[], &new));
        assert!(!has_an_empty_slot_from_low::<Dial>(&[], &new));
        assert_eq!(chain::<Dial>(&[], &new), None);
    }
}
