//! The styles in which a player makes up rules and subjects.

use crate::dial::Dial;
use crate::random::Random;
use crate::rule::Words;

pub struct Style {
    matter: Matter,
    /// Numbers go from 0 up to this one; 0 comes seldom.
    pub most_number: u64,
    /// Priorities go from 0 up to one below this.
    pub priorities: u64,
    /// In how many cases of a hundred the rule with the longest chain of several is taken.
    pub reaching_far: u64,
}

/// What words and subjects are made of.
enum Matter {
    /// After the beginning, at most so many of the signs in a pattern and of the symbols in a subject.
    Dial {
        beginning: &'static str,
        signs: &'static [&'static str],
        symbols: &'static [&'static str],
        most_places: u64,
    },
    /// Bits at both ends of the words, so that a half word lost would be seen. Most values are 0, so
    /// that rules meet.
    Packet,
}

/// Patterns of few signs, many of them wild, so that rules meet often.
pub const OVERLAPPING: Style = Style {
    matter: Matter::Dial {
        beginning: "",
        signs: &["1", "2", "0", "X", "X", "Z", "*"],
        symbols: &["1", "2", "0", "9", "*"],
        most_places: 3,
    },
    most_number: 9,
    priorities: 60,
    reaching_far: 60,
};

/// Patterns that nearly all meet, and the longest chains that can be had.
pub const NESTED: Style = Style {
    matter: Matter::Dial {
        beginning: "",
        signs: &["9", "X", "X", "Z"],
        symbols: &["9", "9", "9", "1", "0"],
        most_places: 2,
    },
    most_number: 30,
    priorities: 1_000,
    reaching_far: 90,
};

/// More numbers than slots and few priorities: full boards and ties.
pub const CROWDED: Style = Style {
    matter: Matter::Dial {
        beginning: "",
        signs: &["1", "2", "3", "X", "Z", "#"],
        symbols: &["1", "2", "3", "4", "#"],
        most_places: 2,
    },
    most_number: 14,
    priorities: 12,
    reaching_far: 30,
};

/// Patterns that seldom meet, with priorities of the whole range.
pub const APART: Style = Style {
    matter: Matter::Dial {
        beginning: "",
        signs: &[
            "0", "1", "2", "3", "4", "5", "6", "7", "8", "9", "*", "#", "X",
        ],
        symbols: &["0", "1", "2", "3", "4", "5", "6", "7", "8", "9", "*", "#"],
        most_places: 2,
    },
    most_number: 8,
    priorities: 65_536,
    reaching_far: 0,
};

/// Patterns that differ at the sixteenth place and just before it.
pub const LAST_PLACES: Style = Style {
    matter: Matter::Dial {
        beginning: "0000000000000",
        signs: &["0", "0", "1", "X", "Z"],
        symbols: &["0", "0", "1", "2"],
        most_places: 3,
    },
    most_number: 9,
    priorities: 40,
    reaching_far: 50,
};

/// More packet rules than a chip of two blocks has slots.
pub const PACKETS: Style = Style {
    matter: Matter::Packet,
    most_number: 120,
    priorities: 2_000,
    reaching_far: 40,
};

/// Words that are neither pattern nor subject: a symbol after a rest, a symbol after an end, a rest
/// after a rest, a rest after an end.
const BROKEN_WORDS: [u64; 4] = [
    0x1E1F_FFFF_FFFF_FFFF,
    0xF1FF_FFFF_FFFF_FFFF,
    0xEEFF_FFFF_FFFF_FFFF,
    0xFFFF_FFFF_FFFF_FFFE,
];

impl Style {
    /// The words of a rule. A few in a hundred are not well formed.
    pub fn words(&self, random: &mut Random) -> Words {
        match self.matter {
            Matter::Dial { .. } if random.percent(3) => Words {
                a: random.pick(&BROKEN_WORDS),
                b: 0,
            },
            Matter::Dial {
                beginning,
                signs,
                most_places,
                ..
            } => {
                let mut pattern = row(random, beginning, signs, most_places);
                if random.percent(50) && pattern.len() < 16 {
                    pattern.push('!');
                }
                let words = Dial::pattern(&pattern).expect("at most sixteen signs");
                let b = u64::from(random.percent(2));
                Words { b, ..words }
            }
            // The value has the lowest bit, which the mask has not.
            Matter::Packet if random.percent(3) => Words {
                a: 1,
                b: random.below(128) << 1,
            },
            Matter::Packet => {
                let mask = random.below(16) << 60 | random.below(16);
                let value = random.word() & mask;
                let a = if random.percent(80) { 0 } else { value };
                Words { a, b: mask }
            }
        }
    }

    /// A subject. Of those that guests dial, a few in a hundred are not well formed.
    pub fn subject(&self, random: &mut Random) -> u64 {
        match self.matter {
            Matter::Dial { .. } if random.percent(5) => random.pick(&BROKEN_WORDS),
            Matter::Dial {
                beginning,
                symbols,
                most_places,
                ..
            } => {
                let dialled = row(random, beginning, symbols, most_places);
                Dial::word(&dialled).expect("at most sixteen symbols")
            }
            Matter::Packet => random.below(16) << 60 | random.below(4),
        }
    }
}

/// The beginning, and at most so many of the signs after it.
fn row(random: &mut Random, beginning: &str, from: &[&str], most: u64) -> String {
    let places = random.below(most + 1);
    let rest: String = (0..places).map(|_| random.pick(from)).collect();
    format!("{beginning}{rest}")
}
