//! What a corpus covers, counted by running its files once more.
//!
//! Everything that can be covered is a point with a name in plain words. The corpus must reach every
//! wanted point; the counts go into coverage.txt.

use std::collections::BTreeMap;

use crate::board::{Board, Phase};
use crate::order::{Order, LETTERS};
use crate::order_file::OrderReader;
use crate::program::{DIAL_SLOTS, MOST_BYTES};
use crate::record_bank::RecordBank;
use crate::refusal::Refusal;
use crate::rule::Rule;
use crate::session::{Session, Value};

/// A file with so many orders is long.
const MANY_ORDERS: usize = 2_000;

#[derive(Default)]
pub struct Coverage {
    counts: BTreeMap<String, usize>,
    files: Vec<FileNote>,
}

struct FileNote {
    name: String,
    bytes: usize,
    orders: usize,
    end: &'static str,
}

const PHASES: [Phase; 3] = [Phase::Idle, Phase::Shifting, Phase::Written];

const WHOLE: &str = "whole";
const LONG: &str = "too long";

/// The sorts of damaged end.
const DAMAGES: [&str; 5] = [
    "unmarked",
    "strange letter",
    "cut short with 1 byte",
    "cut short with 2 bytes",
    "cut short in the body",
];

fn phase_word(phase: Phase) -> &'static str {
    match phase {
        Phase::Idle => "idle",
        Phase::Shifting => "shifting",
        Phase::Written => "written",
    }
}

fn refusal_point(number: u8) -> String {
    format!("refusal {number}")
}

fn order_point(letter: u8, phase: Phase) -> String {
    format!(
        "order {} in phase {}",
        char::from(letter),
        phase_word(phase)
    )
}

fn outcome_point(letter: u8, phase: Phase, outcome: &str) -> String {
    format!("{}: {outcome}", order_point(letter, phase))
}

fn chain_point(length: usize) -> String {
    format!("chain of length {length} announced")
}

fn given_back_point(call: &str, made: usize, length: usize) -> String {
    format!("{call} after {made} of {length} writes")
}

fn end_point(end: &str, phase: Phase) -> String {
    format!("end {end} in phase {}", phase_word(phase))
}

fn size_point(size: usize, end: &str) -> String {
    format!("file of {size} bytes, {end}")
}

const EMPTY_FILE: &str = "empty file";
const RANDOM_FILE: &str = "file of random bytes";

fn long_file_point() -> String {
    format!("file of {MANY_ORDERS} orders or more")
}

/// The outcomes that a file can have for an order in a phase: `answered`, or a refusal. This is the
/// table of calls and phases in the rules, less the tickets that no file can bring.
fn outcomes(letter: u8, phase: Phase) -> &'static [&'static str] {
    match (letter, phase) {
        (b'A', Phase::Idle) => &[
            "answered",
            "refused 2",
            "refused 3",
            "refused 4",
            "refused 5",
            "refused 6",
        ],
        (b'D' | b'C', Phase::Idle) => &["answered", "refused 7"],
        (b'A' | b'D' | b'C', _) => &["refused 1"],
        (b'L', _) => &["answered", "answered with no rule", "refused 8"],
        (b'S' | b'E' | b'W', Phase::Idle) => &["refused 9"],
        (b'S', Phase::Written) => &["refused 10"],
        _ => &["answered"],
    }
}

/// Every point that a corpus must reach, in the order of the report.
fn wanted() -> Vec<String> {
    let mut wanted = Vec::new();
    wanted.extend((1..=10).chain(12..=14).map(refusal_point));
    for letter in LETTERS {
        for phase in PHASES {
            wanted.push(order_point(letter, phase));
            let outcomes = outcomes(letter, phase).iter();
            wanted.extend(outcomes.map(|outcome| outcome_point(letter, phase, outcome)));
        }
    }
    wanted.extend((1..=DIAL_SLOTS).map(chain_point));
    for call in ["complete", "withdraw"] {
        for length in 1..=DIAL_SLOTS {
            wanted.extend((0..=length).map(|made| given_back_point(call, made, length)));
        }
    }
    for end in DAMAGES.into_iter().chain([WHOLE]) {
        wanted.extend(PHASES.map(|phase| end_point(end, phase)));
    }
    wanted.push(EMPTY_FILE.to_string());
    wanted.push(RANDOM_FILE.to_string());
    wanted.push(long_file_point());
    wanted.push(size_point(MOST_BYTES, WHOLE));
    wanted.push(size_point(MOST_BYTES, "damaged"));
    wanted.push(size_point(MOST_BYTES + 1, LONG));
    wanted
}

impl Coverage {
    fn note(&mut self, point: String) {
        *self.counts.entry(point).or_default() += 1;
    }

    pub fn count(&self, point: &str) -> usize {
        self.counts.get(point).copied().unwrap_or(0)
    }

    /// The wanted points that no file has reached.
    pub fn missing(&self) -> Vec<String> {
        wanted()
            .into_iter()
            .filter(|point| self.count(point) == 0)
            .collect()
    }

    /// Runs the file over a dial board and counts what happens.
    pub fn note_file(&mut self, name: &str, bytes: &[u8], is_random: bool) {
        let (end, orders) = if bytes.len() > MOST_BYTES {
            (LONG, 0)
        } else {
            self.note_orders(bytes)
        };
        if bytes.is_empty() {
            self.note(EMPTY_FILE.to_string());
        }
        if is_random {
            self.note(RANDOM_FILE.to_string());
        }
        if orders >= MANY_ORDERS {
            self.note(long_file_point());
        }
        if bytes.len() >= MOST_BYTES {
            let end = if DAMAGES.contains(&end) {
                "damaged"
            } else {
                end
            };
            self.note(size_point(bytes.len(), end));
        }
        self.files.push(FileNote {
            name: name.to_string(),
            bytes: bytes.len(),
            orders,
            end,
        });
    }

    /// Counts the orders. Answers how the file ended and the number of whole orders.
    fn note_orders(&mut self, bytes: &[u8]) -> (&'static str, usize) {
        let mut records = [Rule::ZERO; DIAL_SLOTS];
        let mut session = Session::new(Board::open(RecordBank::new(&mut records), 0));
        let mut reader = OrderReader::new(bytes);
        let mut orders = 0;
        let end = loop {
            match reader.next_order() {
                Ok(Some(placed)) => {
                    orders += 1;
                    self.note_order(&mut session, placed.order);
                }
                Ok(None) => break WHOLE,
                Err(refusal) => {
                    self.note(refusal_point(refusal.number()));
                    break damage(refusal, &bytes[reader.offset()..]);
                }
            }
        };
        self.note(end_point(end, session.board().phase()));
        (end, orders)
    }

    fn note_order(&mut self, session: &mut Session<RecordBank<'_>>, order: Order) {
        let letter = order.letter();
        let phase = session.board().phase();
        let before = session
            .board()
            .open_chain()
            .map(<[usize]>::len)
            .zip(session.board().writes_made());
        let result = session.carry_out(order);
        self.note(order_point(letter, phase));
        let outcome = match result {
            Ok(Value::Nothing) => "answered with no rule".to_string(),
            Ok(Value::Number(_)) => "answered".to_string(),
            Err(refusal) => format!("refused {}", refusal.number()),
        };
        self.note(outcome_point(letter, phase, &outcome));
        match (order, result, before) {
            (_, Err(refusal), _) => self.note(refusal_point(refusal.number())),
            (Order::Add(_), Ok(Value::Number(length)), _) => {
                self.note(chain_point(length as usize))
            }
            (Order::Complete, Ok(_), Some((length, made))) => {
                self.note(given_back_point("complete", made, length));
            }
            (Order::Withdraw, Ok(_), Some((length, made))) => {
                self.note(given_back_point("withdraw", made, length));
            }
            _ => {}
        }
    }

    pub fn orders(&self) -> usize {
        self.files.iter().map(|file| file.orders).sum()
    }

    pub fn bytes(&self) -> usize {
        self.files.iter().map(|file| file.bytes).sum()
    }

    /// The text of coverage.txt.
    pub fn report(&self, seed: u64) -> String {
        let mut report = format!(
            "Corpus of seed {seed}: {} files, {} whole orders, {} bytes of orders.\n\n",
            self.files.len(),
            self.orders(),
            self.bytes()
        );
        report += "Files: name, bytes, whole orders, end\n";
        for file in &self.files {
            report += &format!(
                "  {} {} {} {}\n",
                file.name, file.bytes, file.orders, file.end
            );
        }
        report += "\nCounts on the dial board of 6 slots\n";
        for point in wanted() {
            report += &format!("  {point}: {}\n", self.count(&point));
        }
        report
    }
}

/// The sort of damage: the refusal, and for a cut order how much of it is left.
fn damage(refusal: Refusal, left: &[u8]) -> &'static str {
    match (refusal, left.len()) {
        (Refusal::Unmarked, _) => DAMAGES[0],
        (Refusal::StrangeLetter, _) => DAMAGES[1],
        (_, 1) => DAMAGES[2],
        (_, 2) => DAMAGES[3],
        _ => DAMAGES[4],
    }
}
