//! The product's C interface, as `c/exchange.h` has it, and boards over it that are safe to use.
//!
//! The structs have the header's fields in the header's order. `tests/layout.rs` has a C compiler hold
//! them to it.

use second::random::Random;

/// `exchange_rule`: a rule, and a record of a record bank.
#[repr(C)]
#[derive(Clone, Copy, Debug, Default, PartialEq, Eq)]
pub struct Record {
    pub number: u16,
    pub priority: u16,
    pub action: u32,
    pub word_a: u64,
    pub word_b: u64,
}

/// `exchange_ticket`.
#[repr(C)]
#[derive(Clone, Copy, Debug, Default, PartialEq, Eq)]
pub struct Ticket {
    pub board: u16,
    pub rule: u16,
    pub length: u16,
}

pub const MOST_PLACES: usize = 480;

/// `exchange_chain`.
#[repr(C)]
#[derive(Clone, Copy, Debug, PartialEq, Eq)]
pub struct Chain {
    pub places: [u16; MOST_PLACES],
    pub length: u16,
}

/// `exchange_job`: the board's open add, if one is open.
#[repr(C)]
#[derive(Clone, Copy, Debug, PartialEq, Eq)]
pub struct Job {
    pub busy: bool,
    pub rule: Record,
    pub chain: Chain,
    pub made: u16,
}

/// `exchange_call`. Fields that the letter does not use are not looked at.
#[repr(C)]
#[derive(Clone, Copy, Debug, Default, PartialEq, Eq)]
pub struct Call {
    pub letter: u8,
    pub ticket: Ticket,
    pub rule: Record,
    pub subject: u64,
}

/// `exchange_answer`.
#[repr(C)]
#[derive(Clone, Copy, Debug, Default, PartialEq, Eq)]
pub struct Answer {
    pub refusal: u32,
    pub value: u32,
    pub number: u16,
    pub ticket: Ticket,
}

unsafe extern "C" {
    fn exchange_dial_open(records: *mut Record, records_length: usize, job: *mut Job);
    fn exchange_dial_call(
        records: *mut Record,
        records_length: usize,
        board: u16,
        job: *mut Job,
        call: *const Call,
    ) -> Answer;
    fn exchange_packet_open(words: *mut u64, words_length: usize, job: *mut Job);
    fn exchange_packet_call(
        words: *mut u64,
        words_length: usize,
        board: u16,
        job: *mut Job,
        call: *const Call,
    ) -> Answer;
    fn exchange_room(orders_length: usize) -> usize;
    fn exchange_dial_run(
        records: *mut Record,
        records_length: usize,
        orders: *const u8,
        orders_length: usize,
        lines: *mut u8,
        lines_length: usize,
    ) -> i64;
    fn exchange_packet_run(
        words: *mut u64,
        words_length: usize,
        orders: *const u8,
        orders_length: usize,
        lines: *mut u8,
        lines_length: usize,
    ) -> i64;
}

impl Record {
    /// A record with anything in it.
    pub fn any(random: &mut Random) -> Self {
        Record {
            number: random.word() as u16,
            priority: random.word() as u16,
            action: random.word() as u32,
            word_a: random.word(),
            word_b: random.word(),
        }
    }
}

impl Job {
    /// What a board is opened over: nothing of it may be left after the opening.
    fn leftover() -> Self {
        let rule = Record {
            number: 7,
            priority: 7,
            action: 7,
            word_a: 7,
            word_b: 7,
        };
        Job {
            busy: true,
            rule,
            chain: Chain {
                places: [7; MOST_PLACES],
                length: 7,
            },
            made: 3,
        }
    }
}

/// A board of the product, over cells that the caller lends: the words of a chip, or records.
pub trait ProductBoard {
    type Cell;

    fn call(&mut self, call: &Call) -> Answer;

    fn cells(&self) -> &[Self::Cell];

    fn job(&self) -> &Job;
}

pub struct PacketBoard<'words> {
    words: &'words mut [u64],
    number: u16,
    job: Job,
}

impl<'words> PacketBoard<'words> {
    pub fn open(words: &'words mut [u64], number: u16) -> Self {
        let mut job = Job::leftover();
        // SAFETY: both pointers come from exclusive borrows, and the length is that of the slice.
        unsafe { exchange_packet_open(words.as_mut_ptr(), words.len(), &mut job) };
        PacketBoard { words, number, job }
    }
}

impl ProductBoard for PacketBoard<'_> {
    type Cell = u64;

    #[inline]
    fn call(&mut self, call: &Call) -> Answer {
        // SAFETY: as at the opening; words and job are those that the board was opened with.
        unsafe {
            exchange_packet_call(
                self.words.as_mut_ptr(),
                self.words.len(),
                self.number,
                &mut self.job,
                call,
            )
        }
    }

    fn cells(&self) -> &[u64] {
        self.words
    }

    fn job(&self) -> &Job {
        &self.job
    }
}

pub struct DialBoard<'records> {
    records: &'records mut [Record],
    number: u16,
    job: Job,
}

impl<'records> DialBoard<'records> {
    pub fn open(records: &'records mut [Record], number: u16) -> Self {
        let mut job = Job::leftover();
        // SAFETY: both pointers come from exclusive borrows, and the length is that of the slice.
        unsafe { exchange_dial_open(records.as_mut_ptr(), records.len(), &mut job) };
        DialBoard {
            records,
            number,
            job,
        }
    }
}

impl ProductBoard for DialBoard<'_> {
    type Cell = Record;

    #[inline]
    fn call(&mut self, call: &Call) -> Answer {
        // SAFETY: as at the opening; records and job are those that the board was opened with.
        unsafe {
            exchange_dial_call(
                self.records.as_mut_ptr(),
                self.records.len(),
                self.number,
                &mut self.job,
                call,
            )
        }
    }

    fn cells(&self) -> &[Record] {
        self.records
    }

    fn job(&self) -> &Job {
        &self.job
    }
}

/// A run that was refused: `EXCHANGE_LONG`, `EXCHANGE_SHORT` or `EXCHANGE_MEMORY`.
pub type RunRefusal = i64;

pub const LONG: RunRefusal = -1;
pub const SHORT: RunRefusal = -2;

/// The bytes that hold every line of so many bytes of orders.
pub fn room(orders_length: usize) -> usize {
    // SAFETY: it takes a number and gives a number.
    unsafe { exchange_room(orders_length) }
}

/// Runs an order file on a dial board and answers the bytes written to `lines`.
pub fn dial_run(
    records: &mut [Record],
    orders: &[u8],
    lines: &mut [u8],
) -> Result<usize, RunRefusal> {
    // SAFETY: every pointer comes with the length of the slice that it points to.
    let written = unsafe {
        exchange_dial_run(
            records.as_mut_ptr(),
            records.len(),
            orders.as_ptr(),
            orders.len(),
            lines.as_mut_ptr(),
            lines.len(),
        )
    };
    usize::try_from(written).map_err(|_| written)
}

/// Runs an order file on a packet board and answers the bytes written to `lines`.
pub fn packet_run(words: &mut [u64], orders: &[u8], lines: &mut [u8]) -> Result<usize, RunRefusal> {
    // SAFETY: every pointer comes with the length of the slice that it points to.
    let written = unsafe {
        exchange_packet_run(
            words.as_mut_ptr(),
            words.len(),
            orders.as_ptr(),
            orders.len(),
            lines.as_mut_ptr(),
            lines.len(),
        )
    };
    usize::try_from(written).map_err(|_| written)
}
