//! The program as it is called.

use std::io::Write;
use std::process::{Command, Output, Stdio};

use second::dial::Dial;
use second::order::Order;
use second::program::{dial_lines, hash, packet_lines};
use second::{Rule, Words};

fn second(arguments: &[&str], input: &[u8]) -> Output {
    let mut child = Command::new(env!("CARGO_BIN_EXE_second"))
        .args(arguments)
        .stdin(Stdio::piped())
        .stdout(Stdio::piped())
        .stderr(Stdio::piped())
        .spawn()
        .unwrap();
    // A program that refuses its arguments may end before it reads, and that is no matter here.
    let _ = child.stdin.take().unwrap().write_all(input);
    child.wait_with_output().unwrap()
}

fn printed(arguments: &[&str], input: &[u8]) -> String {
    let output = second(arguments, input);
    assert!(output.status.success());
    assert!(output.stderr.is_empty());
    String::from_utf8(output.stdout).unwrap()
}

/// Orders of 3 and 5 bytes, exactly as many bytes as said.
fn file_of(length: usize) -> Vec<u8> {
    let drops = length % 3 * 2 % 3;
    let steps = (length - 5 * drops) / 3;
    let file = [b"KTS".repeat(steps), b"KTD\x00\x00".repeat(drops)].concat();
    assert_eq!(file.len(), length);
    file
}

#[test]
fn run_prints_a_line_for_each_order() {
    assert_eq!(printed(&["run"], b""), "");
    assert_eq!(
        printed(&["run"], b"KTSKTEKTW"),
        "S 0 9 0\nE 3 9 0\nW 6 9 0\n"
    );
    assert_eq!(printed(&["run"], b"KTD\x00\x00"), "D 0 7 0\n");
}

#[test]
fn every_value_that_a_line_can_have() {
    let rule = Rule {
        number: 1,
        priority: 1,
        action: u32::MAX,
        words: Dial::pattern("9").unwrap(),
    };
    let nine = Order::LookUp {
        subject: Dial::word("9").unwrap(),
    };
    let eight = Order::LookUp {
        subject: Dial::word("8").unwrap(),
    };
    let wild = Order::LookUp {
        subject: Dial::word("X").unwrap(),
    };
    let orders = [
        (Order::Add(rule), "A 0 0 1"),
        (nine, "L 27 0 -"),
        (Order::Drop { number: 1 }, "D 38 1 0"),
        (Order::Step, "S 43 0 0"),
        (Order::Step, "S 46 10 0"),
        (nine, "L 49 0 4294967295"),
        (Order::Withdraw, "W 60 0 1"),
        (Order::Withdraw, "W 63 9 0"),
        (
            Order::Change {
                number: 1,
                action: 0,
            },
            "C 66 0 0",
        ),
        (nine, "L 75 0 0"),
        (eight, "L 86 0 -"),
        (wild, "L 97 8 0"),
        (Order::Drop { number: 1 }, "D 108 0 0"),
        (
            Order::Change {
                number: 1,
                action: 0,
            },
            "C 113 7 0",
        ),
        (Order::Add(Rule { number: 0, ..rule }), "A 122 2 0"),
        (Order::Add(rule), "A 149 0 1"),
        (Order::Complete, "E 176 0 1"),
    ];
    let file: Vec<u8> = orders.iter().flat_map(|(order, _)| order.bytes()).collect();
    let lines: String = orders.iter().map(|(_, line)| format!("{line}\n")).collect();
    assert_eq!(dial_lines(&file), lines);
}

#[test]
fn a_damaged_order_ends_the_run() {
    for (damage, line) in [
        (b"XXXKTS".as_slice(), "? 3 12 0\n"),
        (b"KT?KTS", "? 3 13 0\n"),
        (b"K", "? 3 14 0\n"),
        (b"KT", "? 3 14 0\n"),
        (b"KTL\x00", "? 3 14 0\n"),
    ] {
        let file = [b"KTS", damage].concat();
        assert_eq!(dial_lines(&file), format!("S 0 9 0\n{line}"));
    }
}

#[test]
fn exactly_32768_bytes_are_fine_and_one_more_is_long() {
    let lines = printed(&["run"], &file_of(32_768));
    assert!(lines.starts_with("S 0 9 0\nS 3 9 0\n"));
    assert!(lines.ends_with("D 32763 7 0\n"));
    for length in [32_769, 40_000, 300_000] {
        assert_eq!(printed(&["run"], &file_of(length)), "long\n");
        assert_eq!(printed(&["packet", "48"], &file_of(length)), "long\n");
    }
}

#[test]
fn packet_prints_the_words_after_every_order() {
    let rule = |number: u16, priority, value, mask| Rule {
        number,
        priority,
        action: 100 * u32::from(number),
        words: Words { a: value, b: mask },
    };
    let (one, two) = (rule(1, 10, 0x10, 0xF0), rule(2, 20, 0x01, 0x0F));
    let orders = [
        Order::Add(one),
        Order::Complete,
        Order::Add(two),
        Order::Step,
        Order::LookUp { subject: 0x11 },
    ];
    let file: Vec<u8> = orders.iter().flat_map(Order::bytes).collect();
    // Slot 0 has the highest address, and slot 1 the one below it.
    let empty = [0u64; 144];
    let mut with_one = empty;
    (with_one[47], with_one[95], with_one[143]) = (1 << 48 | 10 << 32 | 100, 0x10, 0xF0);
    let mut with_two_copies = with_one;
    (
        with_two_copies[46],
        with_two_copies[94],
        with_two_copies[142],
    ) = (with_one[47], 0x10, 0xF0);
    let words = |words: &[u64]| format!("words {:016x}\n", hash(words));
    let expected = [
        words(&empty),
        "A 0 0 1\n".to_string(),
        words(&empty),
        "E 27 0 1\n".to_string(),
        words(&with_one),
        "A 30 0 2\n".to_string(),
        words(&with_one),
        "S 57 0 1\n".to_string(),
        words(&with_two_copies),
        "L 60 0 100\n".to_string(),
        words(&with_two_copies),
        // The ticket open at the end is withdrawn.
        words(&with_one),
    ];
    assert_eq!(printed(&["packet", "48"], &file), expected.concat());
    // After a damaged order too, and that order has no words of its own.
    let damaged = [file, b"K".to_vec()].concat();
    let (last, first) = expected.split_last().unwrap();
    let expected = format!("{}? 71 14 0\n{last}", first.concat());
    assert_eq!(packet_lines(&damaged, 48), Some(expected));
}

#[test]
fn wrong_arguments_show_the_usage() {
    for arguments in [
        [].as_slice(),
        &["walk"],
        &["run", "more"],
        &["packet"],
        &["packet", "0"],
        &["packet", "47"],
        &["packet", "49"],
        &["packet", "528"],
        &["packet", "-48"],
        &["packet", "many"],
        &["generate", "1"],
        &["generate", "one", "/nowhere"],
    ] {
        let output = second(arguments, b"");
        assert_eq!(output.status.code(), Some(2), "{arguments:?}");
        assert!(output.stdout.is_empty());
        assert!(String::from_utf8(output.stderr).unwrap().contains("usage:"));
    }
}

#[test]
fn every_chip_size_is_taken() {
    for slots in (48..=480).step_by(48) {
        assert!(printed(&["packet", &slots.to_string()], b"").starts_with("words "));
    }
}

#[test]
fn a_folder_that_cannot_be_written_is_a_refusal() {
    let output = second(&["generate", "1", "/dev/null/corpus"], b"");
    assert_eq!(output.status.code(), Some(1));
    assert!(String::from_utf8(output.stderr)
        .unwrap()
        .contains("/dev/null/corpus"));
}
