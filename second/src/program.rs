//! The lines that an order file gives.

use std::fmt::Write;

use crate::board::Board;
use crate::chip_image::{ChipImage, MOST_BLOCKS, ROWS, WORDS_PER_BLOCK};
use crate::device::SlotDevice;
use crate::order_file::OrderReader;
use crate::record_bank::RecordBank;
use crate::rule::Rule;
use crate::session::{Session, Value};

/// The longest file that is run.
pub const MOST_BYTES: usize = 32_768;

/// The slots of the record bank that the program runs on.
pub const DIAL_SLOTS: usize = 6;

/// The line for a file that is too long.
pub const LONG: &str = "long\n";

/// The program has one board, so any number will do.
const BOARD_NUMBER: u16 = 1;

/// The lines of a file run over a dial board.
pub fn dial_lines(file: &[u8]) -> String {
    if file.len() > MOST_BYTES {
        return LONG.to_string();
    }
    let mut records = [Rule::ZERO; DIAL_SLOTS];
    lines(file, RecordBank::new(&mut records), |_| String::new())
}

/// Whether a chip image with so many slots can be had.
pub fn is_a_chip_size(slots: usize) -> bool {
    slots != 0 && slots.is_multiple_of(ROWS) && slots / ROWS <= MOST_BLOCKS
}

/// The lines of a file run over a packet board on a chip image, with the chip's words hashed after
/// the opening, after each order and at the very end. None if there is no chip of that size.
pub fn packet_lines(file: &[u8], slots: usize) -> Option<String> {
    if !is_a_chip_size(slots) {
        return None;
    }
    if file.len() > MOST_BYTES {
        return Some(LONG.to_string());
    }
    let mut words = vec![0; slots / ROWS * WORDS_PER_BLOCK];
    Some(lines(file, ChipImage::new(&mut words), |chip| {
        format!("words {:016x}\n", hash(chip.words()))
    }))
}

/// Runs a file of any length over a board on the device. The remark is made after the opening, after
/// each order's line, and at the very end.
pub fn lines<Device: SlotDevice>(
    file: &[u8],
    device: Device,
    remark: impl Fn(&Device) -> String,
) -> String {
    let mut session = Session::new(Board::open(device, BOARD_NUMBER));
    let mut reader = OrderReader::new(file);
    let mut lines = remark(session.board().device());
    loop {
        match reader.next_order() {
            Ok(None) => break,
            Ok(Some(placed)) => {
                let (refusal, value) = match session.carry_out(placed.order) {
                    Ok(value) => (0, value),
                    Err(refusal) => (refusal.number(), Value::Number(0)),
                };
                let letter = char::from(placed.order.letter());
                let place = placed.place;
                writeln!(lines, "{letter} {place} {refusal} {value}").expect("a string takes all");
                lines.push_str(&remark(session.board().device()));
            }
            Err(refusal) => {
                let place = reader.offset();
                let refusal = refusal.number();
                writeln!(lines, "? {place} {refusal} 0").expect("a string takes all");
                break;
            }
        }
    }
    session.finish();
    lines.push_str(&remark(session.board().device()));
    lines
}

/// FNV-1a of 64 bits over the words in order, each word's high byte first.
pub fn hash(words: &[u64]) -> u64 {
    hash_of_bytes(words.iter().flat_map(|word| word.to_be_bytes()))
}

fn hash_of_bytes(bytes: impl Iterator<Item = u8>) -> u64 {
    const OFFSET_BASIS: u64 = 0xcbf2_9ce4_8422_2325;
    const PRIME: u64 = 0x0000_0100_0000_01b3;
    bytes.fold(OFFSET_BASIS, |hash, byte| {
        (hash ^ u64::from(byte)).wrapping_mul(PRIME)
    })
}

#[cfg(test)]
mod tests {
    use super::*;

    /// The values for the empty text, `a` and `foobar` are those that the authors of the hash give.
    #[test]
    fn the_hash_is_fnv_1a() {
        assert_eq!(hash_of_bytes("".bytes()), 0xcbf2_9ce4_8422_2325);
        assert_eq!(hash_of_bytes("a".bytes()), 0xaf63_dc4c_8601_ec8c);
        assert_eq!(hash_of_bytes("foobar".bytes()), 0x8594_4171_f739_67e8);
        let words = [*b"exchange", *b"dialling"].map(u64::from_be_bytes);
        assert_eq!(hash(&words), hash_of_bytes("exchangedialling".bytes()));
    }
}
