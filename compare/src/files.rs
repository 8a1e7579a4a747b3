//! Order files, run by the product's program, by its library and by the second implementation.

use std::fmt::Debug;
use std::io::{self, Write};
use std::path::Path;
use std::process::{Command, Stdio};
use std::thread;

use second::corpus;
use second::order_file::OrderReader;
use second::program::{self, MOST_BYTES};
use second::random::Random;
use second::{ChipImage, RecordBank, Rule};

use crate::interface::{self, Record, RunRefusal};
use crate::tally::Tally;

/// The files have few rules, so most of them are run on few slots.
const RECORDS: [usize; 6] = [0, 1, 3, 6, 20, 500];
const WORDS: [usize; 5] = [143, 144, 150, 294, 1_583];

/// A run of the library: cells, orders, buffer for the lines.
type Run<Cell> = fn(&mut [Cell], &[u8], &mut [u8]) -> Result<usize, RunRefusal>;

/// Compares the lines of all files that the generator makes of the seed. An error says what differed.
pub fn compare(program: &Path, seed: u64, tally: &mut Tally) -> Result<(), String> {
    let mut random = Random::new(seed);
    for file in corpus::files(seed) {
        tally.files += 1;
        tally.orders += whole_orders(&file.orders);
        let lines = run(program, &file.orders)
            .map_err(|error| format!("{} cannot be run: {error}", program.display()))?;
        lines_are_alike(&lines, file.lines.as_bytes())
            .map_err(|what| format!("file {}: {what}", file.name))?;
        let records = random.pick(&RECORDS);
        dial_runs_are_alike(&file.orders, records, &mut random)
            .map_err(|what| format!("file {} on {records} records: {what}", file.name))?;
        let words = random.pick(&WORDS);
        packet_runs_are_alike(&file.orders, words, &mut random)
            .map_err(|what| format!("file {} on {words} words: {what}", file.name))?;
        tally.runs += 3;
    }
    Ok(())
}

/// The library's run on records against the second implementation's: lines and all records.
fn dial_runs_are_alike(orders: &[u8], length: usize, random: &mut Random) -> Result<(), String> {
    let before: Vec<Record> = (0..length).map(|_| Record::any(random)).collect();
    let mut seconds: Vec<Rule> = before.iter().copied().map(Rule::from).collect();
    let expected = (orders.len() <= MOST_BYTES)
        .then(|| program::lines(orders, RecordBank::new(&mut seconds), |_| String::new()));
    let seconds: Vec<Record> = seconds.into_iter().map(Record::from).collect();
    library_run_is_alike(orders, &before, &seconds, expected, interface::dial_run)
}

/// The library's run on words against the second implementation's: lines and all words.
fn packet_runs_are_alike(orders: &[u8], length: usize, random: &mut Random) -> Result<(), String> {
    let before: Vec<u64> = (0..length).map(|_| random.word()).collect();
    let mut seconds = before.clone();
    let expected = (orders.len() <= MOST_BYTES)
        .then(|| program::lines(orders, ChipImage::new(&mut seconds), |_| String::new()));
    library_run_is_alike(orders, &before, &seconds, expected, interface::packet_run)
}

/// A run with a buffer one byte too short, which must leave everything as it is, and one with a buffer
/// that is just long enough. Without expected lines the file is too long.
fn library_run_is_alike<Cell: Clone + PartialEq + Debug>(
    orders: &[u8],
    before: &[Cell],
    seconds: &[Cell],
    expected: Option<String>,
    run: Run<Cell>,
) -> Result<(), String> {
    const FILLER: u8 = 0xA5;
    let room = interface::room(orders.len());
    let mut cells = before.to_vec();
    let mut lines = vec![FILLER; room];

    let refusal = if expected.is_some() {
        interface::SHORT
    } else {
        interface::LONG
    };
    let short = run(&mut cells, orders, &mut lines[..room - 1]);
    if short != Err(refusal) || cells != before || lines.iter().any(|&byte| byte != FILLER) {
        return Err(format!(
            "a buffer of one byte less than {room} gives {short:?}, or is touched"
        ));
    }

    let answer = run(&mut cells, orders, &mut lines);
    let written = match (&expected, answer) {
        (None, Err(interface::LONG)) => 0,
        (Some(_), Ok(written)) if written <= room => written,
        _ => return Err(format!("the run answers {answer:?}")),
    };
    let expected = expected.unwrap_or_default();
    lines_are_alike(&lines[..written], expected.as_bytes())?;
    if lines[written..].iter().any(|&byte| byte != FILLER) {
        return Err("the buffer is written past the lines".to_string());
    }
    match (0..cells.len()).find(|&place| cells[place] != seconds[place]) {
        None => Ok(()),
        Some(place) => Err(format!(
            "after the run cell {place} is {:x?} for the product and {:x?} for the second implementation",
            cells[place], seconds[place]
        )),
    }
}

fn whole_orders(file: &[u8]) -> u64 {
    let mut reader = OrderReader::new(file);
    let mut orders = 0;
    while let Ok(Some(_)) = reader.next_order() {
        orders += 1;
    }
    orders
}

/// What the program prints for the file. That it ends with another status than 0 is an error too.
fn run(program: &Path, file: &[u8]) -> io::Result<Vec<u8>> {
    let mut child = Command::new(program)
        .stdin(Stdio::piped())
        .stdout(Stdio::piped())
        .spawn()?;
    let mut input = child.stdin.take().expect("it was asked for");
    let output = thread::scope(|scope| {
        // Beside the reading, so that neither side waits for the other with a full pipe.
        scope.spawn(move || {
            // The program need not read all of a file that is too long: then this write fails.
            let _ = input.write_all(file);
        });
        child.wait_with_output()
    })?;
    if output.status.success() {
        Ok(output.stdout)
    } else {
        Err(io::Error::other(format!("it ended with {}", output.status)))
    }
}

fn lines_are_alike(product: &[u8], second: &[u8]) -> Result<(), String> {
    if product == second {
        return Ok(());
    }
    let product = String::from_utf8_lossy(product);
    let second = String::from_utf8_lossy(second);
    let pairs = product.lines().zip(second.lines()).enumerate();
    let first = pairs
        .map(|(line, pair)| (line + 1, pair))
        .find(|(_, (one, other))| one != other);
    Err(match first {
        Some((line, (one, other))) => format!(
            "line {line} is \"{one}\" of the product and \"{other}\" of the second implementation"
        ),
        None => format!(
            "the product prints {} bytes and the second implementation {}",
            product.len(),
            second.len()
        ),
    })
}

#[cfg(test)]
mod tests {
    use super::*;

    #[test]
    fn the_first_line_that_differs_is_named() {
        assert_eq!(lines_are_alike(b"A 0 0 1\n", b"A 0 0 1\n"), Ok(()));
        let what = lines_are_alike(b"A 0 0 1\nE 27 0 1\n", b"A 0 0 1\nE 27 9 0\n").unwrap_err();
        assert!(what.starts_with("line 2 "), "{what}");
        let what = lines_are_alike(b"A 0 0 1", b"A 0 0 1\n").unwrap_err();
        assert!(what.contains("7 bytes"), "{what}");
    }

    #[test]
    fn orders_up_to_the_damage_are_counted() {
        assert_eq!(whole_orders(b"KTSKTEKT"), 2);
        assert_eq!(whole_orders(b""), 0);
    }
}
