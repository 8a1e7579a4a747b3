//! The orders and their bytes.

use crate::rule::{Rule, Words};

/// Every order begins with these two bytes.
pub const MARK: [u8; 2] = *b"KT";

#[derive(Clone, Copy, Debug, PartialEq, Eq)]
pub enum Order {
    Add(Rule),
    Drop { number: u16 },
    Change { number: u16, action: u32 },
    LookUp { subject: u64 },
    Step,
    Complete,
    Withdraw,
}

/// All the letters, in the order of the table of orders.
pub const LETTERS: [u8; 7] = *b"ADCLSEW";

/// The bytes of the body that follows a letter, or none for an unknown letter.
pub fn body_length(letter: u8) -> Option<usize> {
    match letter {
        b'A' => Some(24),
        b'D' => Some(2),
        b'C' => Some(6),
        b'L' => Some(8),
        b'S' | b'E' | b'W' => Some(0),
        _ => None,
    }
}

impl Order {
    pub fn letter(&self) -> u8 {
        match self {
            Order::Add(_) => b'A',
            Order::Drop { .. } => b'D',
            Order::Change { .. } => b'C',
            Order::LookUp { .. } => b'L',
            Order::Step => b'S',
            Order::Complete => b'E',
            Order::Withdraw => b'W',
        }
    }

    /// The order with this letter and this body. None for an unknown letter or a body of another
    /// length.
    pub fn from_body(letter: u8, body: &[u8]) -> Option<Order> {
        if body_length(letter)? != body.len() {
            return None;
        }
        let order = match letter {
            b'A' => Order::Add(Rule {
                number: number_at(body, 0, 2) as u16,
                priority: number_at(body, 2, 2) as u16,
                action: number_at(body, 4, 4) as u32,
                words: Words {
                    a: number_at(body, 8, 8),
                    b: number_at(body, 16, 8),
                },
            }),
            b'D' => Order::Drop {
                number: number_at(body, 0, 2) as u16,
            },
            b'C' => Order::Change {
                number: number_at(body, 0, 2) as u16,
                action: number_at(body, 2, 4) as u32,
            },
            b'L' => Order::LookUp {
                subject: number_at(body, 0, 8),
            },
            b'S' => Order::Step,
            b'E' => Order::Complete,
            b'W' => Order::Withdraw,
            _ => return None,
        };
        Some(order)
    }

    /// The whole order: mark, letter and body.
    pub fn bytes(&self) -> Vec<u8> {
        let mut bytes = MARK.to_vec();
        bytes.push(self.letter());
        match *self {
            Order::Add(rule) => {
                bytes.extend(rule.number.to_be_bytes());
                bytes.extend(rule.priority.to_be_bytes());
                bytes.extend(rule.action.to_be_bytes());
                bytes.extend(rule.words.a.to_be_bytes());
                bytes.extend(rule.words.b.to_be_bytes());
            }
            Order::Drop { number } => bytes.extend(number.to_be_bytes()),
            Order::Change { number, action } => {
                bytes.extend(number.to_be_bytes());
                bytes.extend(action.to_be_bytes());
            }
            Order::LookUp { subject } => bytes.extend(subject.to_be_bytes()),
            Order::Step | Order::Complete | Order::Withdraw => {}
        }
        bytes
    }
}

/// The number in `length` bytes from `start` on, high byte first.
fn number_at(bytes: &[u8], start: usize, length: usize) -> u64 {
    bytes[start..start + length]
        .iter()
        .fold(0, |number, &byte| number << 8 | u64::from(byte))
}
