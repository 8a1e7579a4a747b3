//! Those that are measured. Each times its own calls, and nothing else than these.

use std::hint::black_box;
use std::time::Instant;

use second::{Board, Rule, SlotDevice, SortedTable};

use crate::interface::{Call, ProductBoard, Record, Ticket};

/// Said of calls that the workload has tried out before.
const NOT_REFUSED: &str = "the workload makes no call that is refused";

pub type Nanoseconds = f64;

/// The time that one action takes, with what it gives.
fn timed<Outcome>(action: impl FnOnce() -> Outcome) -> (Nanoseconds, Outcome) {
    let start = Instant::now();
    let outcome = black_box(action());
    (start.elapsed().as_nanos() as Nanoseconds, outcome)
}

/// What the clock itself takes.
pub fn time_of_the_clock() -> Nanoseconds {
    let mut times: Vec<Nanoseconds> = (0..1_001).map(|_| timed(|| ()).0).collect();
    times.sort_by(f64::total_cmp);
    times[times.len() / 2]
}

/// A board, of either implementation.
pub trait Contender {
    /// Opens an add.
    fn add(&mut self, rule: Rule) -> Nanoseconds;

    /// The writes that the open add has announced.
    fn announced(&self) -> u16;

    fn complete(&mut self) -> Nanoseconds;

    /// Takes the ticket back before any write, so that the add can be opened again.
    fn withdraw(&mut self);

    fn drop(&mut self, number: u16) -> Nanoseconds;

    /// The time of all the look-ups together. The numbers found are added to `found`.
    fn look_up(&mut self, subjects: &[u64], found: &mut Vec<u16>) -> Nanoseconds;
}

pub struct Product<Board> {
    board: Board,
    ticket: Ticket,
}

impl<Board: ProductBoard> Product<Board> {
    pub fn new(board: Board) -> Self {
        Product {
            board,
            ticket: Ticket::default(),
        }
    }

    fn call(&mut self, call: Call) -> (Nanoseconds, crate::interface::Answer) {
        let (time, answer) = timed(|| self.board.call(black_box(&call)));
        assert_eq!(answer.refusal, 0, "{NOT_REFUSED}");
        (time, answer)
    }

    fn with_ticket(&self, letter: u8) -> Call {
        Call {
            letter,
            ticket: self.ticket,
            ..Call::default()
        }
    }
}

impl<Board: ProductBoard> Contender for Product<Board> {
    fn add(&mut self, rule: Rule) -> Nanoseconds {
        let (time, answer) = self.call(Call {
            letter: b'A',
            rule: Record::from(rule),
            ..Call::default()
        });
        self.ticket = answer.ticket;
        time
    }

    fn announced(&self) -> u16 {
        self.ticket.length
    }

    fn complete(&mut self) -> Nanoseconds {
        self.call(self.with_ticket(b'E')).0
    }

    fn withdraw(&mut self) {
        self.call(self.with_ticket(b'W'));
    }

    fn drop(&mut self, number: u16) -> Nanoseconds {
        let rule = Record {
            number,
            ..Record::default()
        };
        self.call(Call {
            letter: b'D',
            rule,
            ..Call::default()
        })
        .0
    }

    fn look_up(&mut self, subjects: &[u64], found: &mut Vec<u16>) -> Nanoseconds {
        let calls: Vec<Call> = subjects
            .iter()
            .map(|&subject| Call {
                letter: b'L',
                subject,
                ..Call::default()
            })
            .collect();
        let before = found.len();
        found.resize(before + calls.len(), 0);
        let places = &mut found[before..];
        let (time, ()) = timed(|| {
            for (call, place) in calls.iter().zip(places) {
                *place = self.board.call(black_box(call)).number;
            }
        });
        time
    }
}

pub struct Second<Device> {
    board: Board<Device>,
    ticket: Option<second::Ticket>,
}

impl<Device: SlotDevice> Second<Device> {
    pub fn new(board: Board<Device>) -> Self {
        Second {
            board,
            ticket: None,
        }
    }

    /// Whether the board would take the rule now.
    pub fn would_take(&mut self, rule: Rule) -> bool {
        match self.board.add(rule) {
            Ok(ticket) => self.board.withdraw(ticket).is_ok(),
            Err(_) => false,
        }
    }
}

impl<Device: SlotDevice> Contender for Second<Device> {
    fn add(&mut self, rule: Rule) -> Nanoseconds {
        let (time, ticket) = timed(|| self.board.add(black_box(rule)));
        self.ticket = Some(ticket.expect(NOT_REFUSED));
        time
    }

    fn announced(&self) -> u16 {
        self.ticket.map_or(0, |ticket| ticket.length as u16)
    }

    fn complete(&mut self) -> Nanoseconds {
        let ticket = self.ticket.expect("an add is open");
        let (time, answer) = timed(|| self.board.complete(black_box(ticket)));
        answer.expect(NOT_REFUSED);
        time
    }

    fn withdraw(&mut self) {
        let ticket = self.ticket.expect("an add is open");
        self.board.withdraw(ticket).expect(NOT_REFUSED);
    }

    fn drop(&mut self, number: u16) -> Nanoseconds {
        let (time, answer) = timed(|| self.board.drop(black_box(number)));
        answer.expect(NOT_REFUSED);
        time
    }

    fn look_up(&mut self, subjects: &[u64], found: &mut Vec<u16>) -> Nanoseconds {
        let before = found.len();
        found.resize(before + subjects.len(), 0);
        let places = &mut found[before..];
        let (time, ()) = timed(|| {
            for (&subject, place) in subjects.iter().zip(places) {
                let answer = self.board.look_up(black_box(subject));
                *place = answer.ok().flatten().map_or(0, |answer| answer.number);
            }
        });
        time
    }
}

/// The sorted table. It has no tickets: its add makes its writes at once.
pub struct Sorted<Device> {
    table: SortedTable<Device>,
}

impl<Device: SlotDevice> Sorted<Device> {
    pub fn new(table: SortedTable<Device>) -> Self {
        Sorted { table }
    }

    /// The time of an add, and the writes that it made.
    pub fn add(&mut self, rule: Rule) -> (Nanoseconds, usize) {
        let (time, writes) = timed(|| self.table.add(black_box(rule)));
        (time, writes.expect(NOT_REFUSED))
    }

    pub fn drop(&mut self, number: u16) -> Nanoseconds {
        let (time, answer) = timed(|| self.table.drop(black_box(number)));
        answer.expect(NOT_REFUSED);
        time
    }

    pub fn look_up(&mut self, subjects: &[u64]) -> Nanoseconds {
        let (time, ()) = timed(|| {
            for &subject in subjects {
                let _ = black_box(self.table.look_up(black_box(subject)));
            }
        });
        time
    }
}
