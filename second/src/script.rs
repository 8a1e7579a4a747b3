//! The files, and ends of files, that follow a script.

use crate::board::Phase;
use crate::dial::Dial;
use crate::draft::{nest_rule, DialDraft, NEST};
use crate::order::{body_length, Order, LETTERS, MARK};
use crate::program::DIAL_SLOTS;
use crate::random::Random;
use crate::rule::{Rule, Words};

/// The phases with their words.
pub const PHASES: [(&str, Phase); 3] = [
    ("idle", Phase::Idle),
    ("shifting", Phase::Shifting),
    ("written", Phase::Written),
];

fn look_up(signs: &str) -> Order {
    Order::LookUp {
        subject: Dial::word(signs).expect("the generator writes signs"),
    }
}

pub fn worked_case(draft: &mut DialDraft, second_end: Order) {
    let rule = |number, priority, action, signs| Rule {
        action,
        ..nest_rule(number, priority, signs)
    };
    draft.have(rule(1, 10, 100, "9!"));
    draft.tell(Order::Add(rule(2, 20, 200, "90")));
    draft.tell(Order::Step);
    draft.tell(look_up("90"));
    draft.tell(second_end);
    draft.tell(look_up("90"));
}

pub fn every_call_in_every_phase(draft: &mut DialDraft) {
    let fitting = nest_rule(20, 5, "123");
    let orders = [
        Order::Add(fitting),
        Order::Add(Rule {
            number: 0,
            ..fitting
        }),
        Order::Add(Rule {
            words: Words {
                b: 1,
                ..fitting.words
            },
            ..fitting
        }),
        Order::Add(nest_rule(20, 5, "!!")),
        Order::Add(nest_rule(1, 60, NEST[0])),
        Order::Add(nest_rule(21, 60, "!")),
        Order::Drop { number: 1 },
        Order::Drop { number: 0 },
        Order::Drop { number: 65_535 },
        Order::Change {
            number: 1,
            action: 100,
        },
        Order::Change {
            number: 1,
            action: u32::MAX,
        },
        Order::Change {
            number: 0,
            action: 1,
        },
        Order::Change {
            number: 65_535,
            action: 1,
        },
        look_up("90"),
        look_up("8#"),
        look_up("9X"),
        Order::LookUp { subject: 0 },
        Order::LookUp { subject: u64::MAX },
        Order::LookUp {
            subject: 0xF0FF_FFFF_FFFF_FFFF,
        },
        Order::Step,
        Order::Complete,
        Order::Withdraw,
    ];
    for (_, phase) in PHASES {
        for order in orders {
            draft.bring_to(phase);
            draft.tell(order);
            draft.tell(look_up("90"));
        }
    }
}

/// The corners of the refusals, on six slots.
pub fn corners(draft: &mut DialDraft) {
    // Low is N: the last slot holds a meeting rule of higher priority.
    let single = ["1", "2", "3", "4", "5"];
    for (number, signs) in (1..).zip(single) {
        draft.have(nest_rule(number, 20, signs));
    }
    draft.have(nest_rule(6, 10, "!"));
    draft.tell(Order::Add(nest_rule(7, 5, "9")));
    // The same with free slots before it.
    draft.tell(Order::Drop { number: 1 });
    draft.tell(Order::Drop { number: 2 });
    draft.tell(Order::Add(nest_rule(7, 5, "9")));
    // Mangled before tied, known before tied, tied before no slot; then a priority that fits.
    draft.tell(Order::Add(nest_rule(0, 10, "!")));
    draft.tell(Order::Add(nest_rule(6, 10, "!")));
    draft.tell(Order::Add(nest_rule(7, 10, "9")));
    draft.tell(Order::Add(nest_rule(7, 11, "9")));
    draft.tell(Order::Complete);
    // Crossed by two rules that do not meet each other; then crossed and full; then crossed and tied.
    draft.clear();
    draft.have(nest_rule(1, 1, "1"));
    draft.have(nest_rule(2, 9, "2"));
    draft.tell(Order::Add(nest_rule(3, 5, "X")));
    for (number, signs) in (4..).zip(["*", "#", "**", "##"]) {
        draft.have(nest_rule(number, 5, signs));
    }
    draft.tell(Order::Add(nest_rule(3, 5, "X")));
    draft.tell(Order::Add(nest_rule(3, 5, "!")));
    // The example with the chain 0, 1, 3: withdrawn after two writes, then completed.
    draft.clear();
    draft.have(nest_rule(1, 40, "1X"));
    draft.have(nest_rule(2, 30, "2X"));
    draft.have(nest_rule(3, 20, "10"));
    for end in [Order::Withdraw, Order::Complete] {
        draft.tell(Order::Add(nest_rule(4, 50, "!")));
        for _ in 0..2 {
            draft.tell(Order::Step);
            for subject in ["10", "11", "25", "3"] {
                draft.tell(look_up(subject));
            }
        }
        draft.tell(end);
        for subject in ["10", "11", "25", "3"] {
            draft.tell(look_up(subject));
        }
    }
    // The slot that the withdraw left empty is there for the next rule.
    draft.tell(Order::Drop { number: 4 });
    draft.tell(Order::Add(nest_rule(5, 35, "X0")));
    draft.tell(Order::Complete);
    draft.tell(look_up("20"));
    ends_of_the_ranges(draft);
}

/// The largest and smallest fields, and sixteen zeros beside fifteen and none.
fn ends_of_the_ranges(draft: &mut DialDraft) {
    let (sixteen, fifteen) = ("0000000000000000", "000000000000000");
    let fifteen_and_rest = "000000000000000!";
    draft.clear();
    draft.have(Rule {
        action: u32::MAX,
        ..nest_rule(65_535, 65_535, sixteen)
    });
    draft.have(Rule {
        action: 0,
        ..nest_rule(2, 0, fifteen)
    });
    draft.have(nest_rule(3, 0, ""));
    draft.tell(Order::Add(nest_rule(4, 0, fifteen_and_rest)));
    draft.tell(Order::Add(nest_rule(4, 65_535, fifteen_and_rest)));
    draft.tell(Order::Add(nest_rule(4, 1, fifteen_and_rest)));
    draft.tell(Order::Complete);
    for subject in [sixteen, fifteen, "", "000000000000000#", "00000000000000"] {
        draft.tell(look_up(subject));
    }
    draft.tell(Order::Drop { number: 65_535 });
    draft.tell(look_up(sixteen));
}

/// Every chain length, given back by complete and by withdraw after every number of writes.
pub fn chains(draft: &mut DialDraft) {
    for length in 1..=DIAL_SLOTS {
        for made in 0..=length {
            for end in [Order::Complete, Order::Withdraw] {
                draft.clear();
                draft.open_chain(length);
                for _ in 0..made {
                    draft.tell(Order::Step);
                    draft.tell(look_up("90"));
                }
                draft.tell(end);
                draft.tell(look_up("90"));
            }
        }
    }
}

/// Marked orders with known letters and any bytes for a body, so that hardly a rule is well formed.
pub fn marked_noise(draft: &mut DialDraft, random: &mut Random) {
    while draft.length() < 3_000 {
        let letter = random.pick(&LETTERS);
        let length = body_length(letter).expect("a known letter");
        let order = Order::from_body(letter, &random.bytes(length)).expect("a body of its length");
        draft.tell(order);
    }
    draft.damage(&random.bytes(40));
}

/// Orders of three and of five bytes up to exactly the length. Eight bytes or more must be left.
pub fn fill(draft: &mut DialDraft, random: &mut Random, length: usize) {
    while draft.length() < length {
        let order = if (length - draft.length()).is_multiple_of(3) {
            random.pick(&[Order::Step, Order::Complete, Order::Withdraw])
        } else {
            Order::Drop {
                number: random.below(8) as u16,
            }
        };
        draft.tell(order);
    }
}

/// One damaged end of each sort. Whole orders after a damage show that nothing more is read.
pub fn damages(random: &mut Random, phase: Phase) -> Vec<(&'static str, Vec<u8>)> {
    let unmarked: &[u8] = match phase {
        Phase::Idle => b"KXSKTSKTE",
        Phase::Shifting => b"XTSKTSKTE",
        Phase::Written => b"TKSKTSKTE",
    };
    let strange: &[u8] = match phase {
        Phase::Idle => b"KTsKTSKTE",
        Phase::Shifting => b"KT\x00",
        Phase::Written => b"KTKTSKTE",
    };
    let (one, two): (&[u8], &[u8]) = match phase {
        Phase::Idle => (b"K", b"KT"),
        Phase::Shifting => (b"\x00", b"XY"),
        Phase::Written => (b"\n", b"K\x00"),
    };
    // A drop with no body, a change with half of one, and a look-up that lacks only its last byte.
    let (letter, length) = match phase {
        Phase::Idle => (b'D', 0),
        Phase::Shifting => (b'C', 3),
        Phase::Written => (b'L', 7),
    };
    let cut = [&MARK[..], &[letter], &random.bytes(length)].concat();
    vec![
        ("unmarked", unmarked.to_vec()),
        ("strange_letter", strange.to_vec()),
        ("one_byte", one.to_vec()),
        ("two_bytes", two.to_vec()),
        ("cut_body", cut),
    ]
}
