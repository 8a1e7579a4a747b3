//! The reader of order files.

use crate::order::{body_length, Order, MARK};
use crate::refusal::Refusal;

/// Mark and letter: what every order has.
const HEAD: usize = 3;

/// An order with its own bytes and the place of the first of them in the file.
#[derive(Clone, Copy, Debug, PartialEq, Eq)]
pub struct PlacedOrder<'file> {
    pub order: Order,
    pub place: usize,
    pub bytes: &'file [u8],
}

pub struct OrderReader<'file> {
    file: &'file [u8],
    offset: usize,
}

impl<'file> OrderReader<'file> {
    pub fn new(file: &'file [u8]) -> Self {
        OrderReader { file, offset: 0 }
    }

    pub fn offset(&self) -> usize {
        self.offset
    }

    /// The next order, or none at the end of the file. A refusal leaves the offset before the
    /// damaged order, so that asking again gives the same refusal.
    pub fn next_order(&mut self) -> Result<Option<PlacedOrder<'file>>, Refusal> {
        let place = self.offset;
        let left = &self.file[place..];
        if left.is_empty() {
            return Ok(None);
        }
        // Of so few bytes it is not asked what they are.
        if left.len() < HEAD {
            return Err(Refusal::CutShort);
        }
        if left[..2] != MARK {
            return Err(Refusal::Unmarked);
        }
        let letter = left[2];
        let length = HEAD + body_length(letter).ok_or(Refusal::StrangeLetter)?;
        let bytes = left.get(..length).ok_or(Refusal::CutShort)?;
        let order = Order::from_body(letter, &bytes[HEAD..]).ok_or(Refusal::StrangeLetter)?;
        self.offset = place + length;
        Ok(Some(PlacedOrder {
            order,
            place,
            bytes,
        }))
    }
}

#[cfg(test)]
mod tests {
    use super::*;
    use crate::order::LETTERS;
    use crate::rule::{Rule, Words};

    /// The refusal of the first order, asked twice.
    fn refusal(file: &[u8]) -> Option<Refusal> {
        let mut reader = OrderReader::new(file);
        let first = reader.next_order().err();
        if first.is_some() {
            assert_eq!(reader.offset(), 0);
            assert_eq!(reader.next_order().err(), first);
        }
        first
    }

    #[test]
    fn every_order_from_its_bytes() {
        let file = [
            b"KTA".as_slice(),
            &[0x12, 0x34, 0x56, 0x78, 0x9A, 0xBC, 0xDE, 0xF0],
            &[1, 2, 3, 4, 5, 6, 7, 8, 9, 10, 11, 12, 13, 14, 15, 16],
            b"KTD\x00\x07KTC\x00\x08\x00\x00\x01\x00KTL\x90\xFF\xFF\xFF\xFF\xFF\xFF\xFFKTSKTEKTW",
        ]
        .concat();
        let expected = [
            (
                0,
                27,
                Order::Add(Rule {
                    number: 0x1234,
                    priority: 0x5678,
                    action: 0x9ABC_DEF0,
                    words: Words {
                        a: 0x0102_0304_0506_0708,
                        b: 0x090A_0B0C_0D0E_0F10,
                    },
                }),
            ),
            (27, 5, Order::Drop { number: 7 }),
            (
                32,
                9,
                Order::Change {
                    number: 8,
                    action: 256,
                },
            ),
            (
                41,
                11,
                Order::LookUp {
                    subject: 0x90FF_FFFF_FFFF_FFFF,
                },
            ),
            (52, 3, Order::Step),
            (55, 3, Order::Complete),
            (58, 3, Order::Withdraw),
        ];
        let mut reader = OrderReader::new(&file);
        for (place, length, order) in expected {
            let bytes = &file[place..place + length];
            assert_eq!(
                reader.next_order(),
                Ok(Some(PlacedOrder {
                    order,
                    place,
                    bytes
                }))
            );
            assert_eq!(order.bytes(), bytes);
        }
        assert_eq!(reader.next_order(), Ok(None));
        assert_eq!(reader.next_order(), Ok(None));
        assert_eq!(reader.offset(), file.len());
    }

    #[test]
    fn one_or_two_bytes_are_cut_short_whatever_they_are() {
        for file in [b"K".as_slice(), b"X", b"KT", b"XY", &[0], &[0, 0]] {
            assert_eq!(refusal(file), Some(Refusal::CutShort));
        }
    }

    #[test]
    fn mark_before_letter_before_length() {
        assert_eq!(refusal(b"XTS"), Some(Refusal::Unmarked));
        assert_eq!(refusal(b"KXS"), Some(Refusal::Unmarked));
        assert_eq!(refusal(b"TKS"), Some(Refusal::Unmarked));
        assert_eq!(refusal(b"KT?"), Some(Refusal::StrangeLetter));
        assert_eq!(refusal(b"KTs"), Some(Refusal::StrangeLetter));
        assert_eq!(refusal(b"KTA"), Some(Refusal::CutShort));
        assert_eq!(refusal(b"KTS"), None);
    }

    #[test]
    fn every_letter_with_every_length() {
        for letter in 0..=255u8 {
            for length in 0..=24 {
                let file = [b"KT".as_slice(), &[letter], &vec![0; length]].concat();
                let expected = match body_length(letter) {
                    None => Some(Refusal::StrangeLetter),
                    Some(body) if length < body => Some(Refusal::CutShort),
                    Some(_) => None,
                };
                assert_eq!(refusal(&file), expected);
                assert_eq!(body_length(letter).is_some(), LETTERS.contains(&letter));
            }
        }
    }

    #[test]
    fn a_refused_order_leaves_the_offset_before_it() {
        let mut reader = OrderReader::new(b"KTSKTEKT");
        assert!(reader.next_order().is_ok());
        assert!(reader.next_order().is_ok());
        for _ in 0..3 {
            assert_eq!(reader.next_order(), Err(Refusal::CutShort));
            assert_eq!(reader.offset(), 6);
        }
    }
}
