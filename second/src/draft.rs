//! An order file under construction, with a board that follows it.
//!
//! The board lets the generator know the phase, and so aim its orders.

use crate::board::{Board, Phase};
use crate::device::SlotDevice;
use crate::dial::Dial;
use crate::order::Order;
use crate::record_bank::RecordBank;
use crate::refusal::Refusal;
use crate::rule::Rule;
use crate::session::{Session, Value};

pub struct Draft<Device> {
    bytes: Vec<u8>,
    session: Session<Device>,
}

/// A draft on the dial board of the program.
pub type DialDraft<'records> = Draft<RecordBank<'records>>;

/// Patterns that all meet each other: each of them matches `90`.
pub const NEST: [&str; 6] = ["90", "9X", "9!", "X0!", "Z!", "!"];

impl<Device: SlotDevice> Draft<Device> {
    pub fn new(device: Device) -> Self {
        Draft {
            bytes: Vec::new(),
            session: Session::new(Board::open(device, 0)),
        }
    }

    pub fn board(&self) -> &Board<Device> {
        self.session.board()
    }

    pub fn length(&self) -> usize {
        self.bytes.len()
    }

    pub fn into_bytes(self) -> Vec<u8> {
        self.bytes
    }

    pub fn order(&mut self, order: Order) -> Result<Value, Refusal> {
        self.bytes.extend(order.bytes());
        self.session.carry_out(order)
    }

    /// An order whose refusal, if it has one, is part of what the file is to show.
    pub fn tell(&mut self, order: Order) {
        let _ = self.order(order);
    }

    /// Bytes that are no order. The board does not see them.
    pub fn damage(&mut self, bytes: &[u8]) {
        self.bytes.extend(bytes);
    }

    /// The length of the chain that the rule would have now, if it can be added. An add that is
    /// withdrawn at once leaves everything as it was.
    pub fn chain_length(&mut self, rule: Rule) -> Option<u64> {
        let length = match self.session.carry_out(Order::Add(rule)) {
            Ok(Value::Number(length)) => length,
            _ => return None,
        };
        self.session
            .carry_out(Order::Withdraw)
            .expect("the add just made is open");
        Some(length)
    }

    fn must(&mut self, order: Order) {
        self.order(order)
            .expect("the order was made so as not to be refused");
    }

    /// Orders that end the open add and drop every rule.
    pub fn clear(&mut self) {
        if self.board().phase() != Phase::Idle {
            self.must(Order::Withdraw);
        }
        let numbers: Vec<u16> = self
            .board()
            .rules_in_force()
            .iter()
            .map(|rule| rule.number)
            .collect();
        for number in numbers {
            self.must(Order::Drop { number });
        }
    }
}

impl DialDraft<'_> {
    /// A new rule, added and completed.
    pub fn have(&mut self, rule: Rule) {
        self.must(Order::Add(rule));
        self.must(Order::Complete);
    }

    /// On a cleared board: an open add whose chain has the length. The rules below it all meet each
    /// other and stand without gaps, so that each can move only to the next slot.
    pub fn open_chain(&mut self, length: usize) {
        let (new, below) = NEST[..length].split_last().expect("a chain has a slot");
        for (number, signs) in (1..).zip(below) {
            self.have(nest_rule(number, 61 - number, signs));
        }
        self.must(Order::Add(nest_rule(9, 70, new)));
    }

    /// Clears the board and brings it into the phase. Shifting is with a write made and a write left.
    pub fn bring_to(&mut self, phase: Phase) {
        self.clear();
        match phase {
            Phase::Idle => self.have(nest_rule(1, 60, NEST[0])),
            Phase::Shifting => {
                self.open_chain(3);
                self.must(Order::Step);
            }
            Phase::Written => {
                self.open_chain(2);
                self.must(Order::Step);
                self.must(Order::Step);
            }
        }
    }
}

/// A rule whose action tells its number.
pub fn nest_rule(number: u16, priority: u16, signs: &str) -> Rule {
    Rule {
        number,
        priority,
        action: 100 * u32::from(number),
        words: Dial::pattern(signs).expect("the generator writes signs"),
    }
}
