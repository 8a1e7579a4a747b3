//! The chip image: packet rules in words that the caller lends.

use crate::device::{has_a_number, on_the_table, SlotDevice};
use crate::packet::Packet;
use crate::refusal::Refusal;
use crate::rule::{Rule, Words};

/// Rows of a block.
pub const ROWS: usize = 48;

/// A block has its headers, then its words A, then its words B.
pub const WORDS_PER_BLOCK: usize = 3 * ROWS;

/// Blocks past these are not used.
pub const MOST_BLOCKS: usize = 10;

pub struct ChipImage<'words> {
    words: &'words mut [u64],
}

impl<'words> ChipImage<'words> {
    pub fn new(words: &'words mut [u64]) -> Self {
        ChipImage { words }
    }

    pub fn words(&self) -> &[u64] {
        self.words
    }

    /// Where the slot's header stands. Its word A and word B stand 48 and 96 words after that. The
    /// chip counts its addresses from the other end: the last slot has address 0.
    fn header_place(&self, slot: usize) -> usize {
        let address = self.count() - 1 - slot;
        WORDS_PER_BLOCK * (address / ROWS) + address % ROWS
    }
}

fn header(rule: Rule) -> u64 {
    u64::from(rule.number) << 48 | u64::from(rule.priority) << 32 | u64::from(rule.action)
}

impl SlotDevice for ChipImage<'_> {
    type Kind = Packet;

    fn count(&self) -> usize {
        ROWS * (self.words.len() / WORDS_PER_BLOCK).min(MOST_BLOCKS)
    }

    fn read(&self, slot: usize) -> Result<Option<Rule>, Refusal> {
        on_the_table(slot, self.count())?;
        let place = self.header_place(slot);
        let header = self.words[place];
        let rule = Rule {
            number: (header >> 48) as u16,
            priority: (header >> 32) as u16,
            action: header as u32,
            words: Words {
                a: self.words[place + ROWS],
                b: self.words[place + 2 * ROWS],
            },
        };
        Ok((rule.number != 0).then_some(rule))
    }

    fn write(&mut self, slot: usize, rule: Rule) -> Result<(), Refusal> {
        has_a_number(rule)?;
        on_the_table(slot, self.count())?;
        let place = self.header_place(slot);
        self.words[place] = header(rule);
        self.words[place + ROWS] = rule.words.a;
        self.words[place + 2 * ROWS] = rule.words.b;
        Ok(())
    }

    fn erase(&mut self, slot: usize) -> Result<(), Refusal> {
        on_the_table(slot, self.count())?;
        let place = self.header_place(slot);
        self.words[place] = 0;
        self.words[place + ROWS] = 0;
        self.words[place + 2 * ROWS] = 0;
        Ok(())
    }
}

#[cfg(test)]
mod tests {
    use super::*;

    fn rule() -> Rule {
        Rule {
            number: 0x1234,
            priority: 0x5678,
            action: 0x9ABC_DEF0,
            words: Words { a: 0xA, b: 0xB },
        }
    }

    #[test]
    fn worked_case_9() {
        assert_eq!(ChipImage::new(&mut [0; 143]).count(), 0);
        assert_eq!(ChipImage::new(&mut [0; 144]).count(), 48);
    }

    #[test]
    fn every_whole_block_counts_up_to_ten() {
        for (words, slots) in [(0, 0), (287, 48), (288, 96), (1440, 480), (1584, 480)] {
            assert_eq!(ChipImage::new(&mut vec![0; words]).count(), slots);
        }
    }

    #[test]
    fn slots_run_against_the_addresses() {
        let mut words = vec![0; 288];
        let mut chip = ChipImage::new(&mut words);
        // Of 96 addresses, slot 0 has address 95: row 47 of block 1.
        chip.write(0, rule()).unwrap();
        // Slot 95 has address 0: row 0 of block 0.
        chip.write(95, rule()).unwrap();
        // Slot 47 has address 48: row 0 of block 1.
        chip.write(47, rule()).unwrap();
        assert_eq!(chip.read(0), Ok(Some(rule())));
        for place in [144 + 47, 0, 144] {
            assert_eq!(words[place], 0x1234_5678_9ABC_DEF0);
            assert_eq!(words[place + 48], 0xA);
            assert_eq!(words[place + 96], 0xB);
        }
        assert_eq!(words.iter().filter(|&&word| word != 0).count(), 9);
    }

    #[test]
    fn words_outside_the_used_blocks_are_never_touched() {
        let mut words = vec![7; 150];
        let mut chip = ChipImage::new(&mut words);
        for slot in 0..48 {
            chip.erase(slot).unwrap();
        }
        assert_eq!(chip.erase(48), Err(Refusal::OffTheTable));
        assert_eq!(words[..144], [0; 144]);
        assert_eq!(words[144..], [7; 6]);
    }

    #[test]
    fn a_header_with_number_0_is_an_empty_slot() {
        let mut words = vec![0xFFFF_FFFF_FFFF; 144];
        let before = words.clone();
        let mut chip = ChipImage::new(&mut words);
        assert_eq!(chip.read(0), Ok(None));
        assert_eq!(chip.first_match(0), None);
        let nameless = Rule {
            number: 0,
            ..rule()
        };
        assert_eq!(chip.write(0, nameless), Err(Refusal::Mangled));
        assert_eq!(chip.write(48, nameless), Err(Refusal::Mangled));
        assert_eq!(chip.write(48, rule()), Err(Refusal::OffTheTable));
        assert_eq!(chip.read(48), Err(Refusal::OffTheTable));
        assert_eq!(words, before);
    }
}
