//! The packet kind: word A is a value, word B a mask.

use crate::kind::Kind;
use crate::rule::Words;

pub struct Packet;

impl Kind for Packet {
    /// Every 1 bit of the value is a 1 bit of the mask.
    fn rule_is_well_formed(words: Words) -> bool {
        words.a & !words.b == 0
    }

    fn subject_is_well_formed(_subject: u64) -> bool {
        true
    }

    fn matches(words: Words, subject: u64) -> bool {
        Packet::rule_is_well_formed(words) && subject & words.b == words.a
    }

    /// The values agree on the bits that both masks have.
    fn meet(first: Words, second: Words) -> bool {
        let both_masks = first.b & second.b;
        Packet::rule_is_well_formed(first)
            && Packet::rule_is_well_formed(second)
            && first.a & both_masks == second.a & both_masks
    }
}

#[cfg(test)]
mod tests {
    use super::*;

    fn words(value: u64, mask: u64) -> Words {
        Words { a: value, b: mask }
    }

    #[test]
    fn worked_case_5() {
        assert!(Packet::meet(words(0x10, 0xF0), words(0x01, 0x0F)));
        assert!(!Packet::meet(words(0x10, 0xF0), words(0x20, 0x30)));
    }

    #[test]
    fn worked_case_6() {
        assert!(!Packet::rule_is_well_formed(words(0x11, 0x10)));
        assert!(Packet::rule_is_well_formed(words(0x10, 0x11)));
    }

    #[test]
    fn what_is_not_well_formed_matches_nothing_and_meets_nothing() {
        let broken = words(0x11, 0x10);
        let everything = words(0, 0);
        assert!(!Packet::matches(broken, 0x11));
        assert!(!Packet::meet(broken, everything));
        assert!(!Packet::meet(everything, broken));
        assert!(!Packet::meet(broken, broken));
    }

    #[test]
    fn every_subject_is_well_formed_and_an_empty_mask_matches_it() {
        for subject in [0, 1, u64::MAX, 0x8000_0000_0000_0000] {
            assert!(Packet::subject_is_well_formed(subject));
            assert!(Packet::matches(words(0, 0), subject));
        }
    }

    /// All well-formed pairs of words on four bits, against every subject of four bits. Bits outside
    /// both masks decide nothing, so four bits of subject are enough for four bits of mask.
    #[test]
    fn two_rules_meet_exactly_when_some_subject_is_matched_by_both() {
        let rules: Vec<Words> = (0..16u64)
            .flat_map(|value| (0..16u64).map(move |mask| words(value, mask)))
            .collect();
        for &first in &rules {
            for &second in &rules {
                let witness = (0..16).any(|subject| {
                    Packet::matches(first, subject) && Packet::matches(second, subject)
                });
                assert_eq!(Packet::meet(first, second), witness, "{first:?} {second:?}");
            }
        }
    }
}
