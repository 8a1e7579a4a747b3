//! Orders carried out on a board, with the ticket kept between them.

use std::fmt;

use crate::board::{Board, Ticket};
use crate::device::SlotDevice;
use crate::order::Order;
use crate::refusal::Refusal;

/// The value at the end of a line.
#[derive(Clone, Copy, Debug, PartialEq, Eq)]
pub enum Value {
    Number(u64),
    /// A look-up that no rule matches.
    Nothing,
}

impl fmt::Display for Value {
    fn fmt(&self, formatter: &mut fmt::Formatter<'_>) -> fmt::Result {
        match self {
            Value::Number(number) => write!(formatter, "{number}"),
            Value::Nothing => write!(formatter, "-"),
        }
    }
}

pub struct Session<Device> {
    board: Board<Device>,
    ticket: Option<Ticket>,
}

impl<Device: SlotDevice> Session<Device> {
    pub fn new(board: Board<Device>) -> Self {
        Session {
            board,
            ticket: None,
        }
    }

    pub fn board(&self) -> &Board<Device> {
        &self.board
    }

    pub fn carry_out(&mut self, order: Order) -> Result<Value, Refusal> {
        let number = match order {
            Order::Add(rule) => {
                let ticket = self.board.add(rule)?;
                self.ticket = Some(ticket);
                ticket.length as u64
            }
            Order::Drop { number } => {
                self.board.drop(number)?;
                0
            }
            Order::Change { number, action } => {
                self.board.change(number, action)?;
                0
            }
            Order::LookUp { subject } => match self.board.look_up(subject)? {
                Some(answer) => u64::from(answer.action),
                None => return Ok(Value::Nothing),
            },
            Order::Step => {
                let ticket = self.ticket.ok_or(Refusal::Foreign)?;
                self.board.step(ticket)? as u64
            }
            Order::Complete => {
                let ticket = self.ticket.ok_or(Refusal::Foreign)?;
                let announced = self.board.complete(ticket)?;
                self.ticket = None;
                announced as u64
            }
            Order::Withdraw => {
                let ticket = self.ticket.ok_or(Refusal::Foreign)?;
                let in_force = self.board.withdraw(ticket)?;
                self.ticket = None;
                u64::from(in_force)
            }
        };
        Ok(Value::Number(number))
    }

    /// Withdraws the ticket, if one is open.
    pub fn finish(&mut self) {
        if let Some(ticket) = self.ticket.take() {
            self.board
                .withdraw(ticket)
                .expect("the ticket kept is that of the open add");
        }
    }
}
