//! What is done to the boards while they are measured.
//!
//! A workload first fills a board with so many rules. Then it makes turns: look-ups, an add and a drop,
//! after which as many rules are in force as before.

use second::dial::{ANY_DIGIT, ANY_DIGIT_BUT_ZERO, HASH, REST};
use second::random::Random;
use second::{Dial, Rule, Words};

/// The kind of rules that a workload makes.
pub trait Stock {
    const NAME: &'static str;

    /// As rules come: some overlap, most do not.
    fn random_words(random: &mut Random) -> Words;
    fn random_subject(random: &mut Random) -> u64;

    /// Rules that all meet each other.
    fn nested_words(random: &mut Random) -> Words;
    /// A subject that no nested rule matches, and that shows it as late as can be.
    fn nested_miss() -> u64;

    /// Rules of which no two meet, and that show it as late as can be.
    fn apart_words(which: u64) -> Words;
    fn apart_subject(which: u64) -> u64;
    /// Two rules that meet each other and none of those apart.
    fn bottom_words() -> Words;
    fn over_bottom_words() -> Words;

    /// A rule that matches every subject.
    fn everything() -> Words;
}

pub struct PacketStock;

const KEY: u64 = 0x9D3F_02C6_5A71_E84B;
const TOP_BIT: u64 = 1 << 63;

impl PacketStock {
    /// An address of which every byte is one of four.
    fn address(random: &mut Random) -> u64 {
        (0..4).fold(0, |address, _| address << 8 | random.below(4))
    }

    /// The mask of the leading bytes of an address.
    fn leading(random: &mut Random) -> u64 {
        random.pick(&[
            0,
            0xFF00_0000,
            0xFFFF_0000,
            0xFFFF_FF00,
            0xFFFF_FF00,
            0xFFFF_FFFF,
        ])
    }
}

impl Stock for PacketStock {
    const NAME: &'static str = "packet";

    /// Two addresses, each masked to its leading bytes.
    fn random_words(random: &mut Random) -> Words {
        let mask = PacketStock::leading(random) << 32 | PacketStock::leading(random);
        Words {
            a: PacketStock::random_subject(random) & mask,
            b: mask,
        }
    }

    fn random_subject(random: &mut Random) -> u64 {
        PacketStock::address(random) << 32 | PacketStock::address(random)
    }

    fn nested_words(random: &mut Random) -> Words {
        // A mask without bits would match every subject.
        let mask = random.word() | 1;
        Words {
            a: KEY & mask,
            b: mask,
        }
    }

    fn nested_miss() -> u64 {
        !KEY
    }

    fn apart_words(which: u64) -> Words {
        Words {
            a: which,
            b: TOP_BIT | 0xFFFF,
        }
    }

    fn apart_subject(which: u64) -> u64 {
        which
    }

    fn bottom_words() -> Words {
        Words {
            a: TOP_BIT,
            b: TOP_BIT,
        }
    }

    fn over_bottom_words() -> Words {
        Words {
            a: TOP_BIT | 1,
            b: TOP_BIT | 0xFFFF,
        }
    }

    fn everything() -> Words {
        Words { a: 0, b: 0 }
    }
}

pub struct DialStock;

/// Patterns that differ in their last places alone.
const LONG_BEGINNING: u64 = 0x5555_5555_5555_5000;

impl DialStock {
    fn words(signs: &str) -> Words {
        Dial::pattern(signs).expect("these are signs")
    }

    fn word_of(codes: &[u8]) -> u64 {
        codes
            .iter()
            .chain(std::iter::repeat(&second::dial::END))
            .take(16)
            .fold(0, |word, &code| word << 4 | u64::from(code))
    }

    /// Three decimal digits in the last three places.
    fn long_number(which: u64) -> u64 {
        LONG_BEGINNING | (which / 100 % 10) << 8 | (which / 10 % 10) << 4 | (which % 10)
    }

    fn digits(random: &mut Random) -> Vec<u8> {
        let length = 2 + random.below(5);
        (0..length).map(|_| random.below(10) as u8).collect()
    }
}

impl Stock for DialStock {
    const NAME: &'static str = "dial";

    /// Some digits, wild ones towards the end, and sometimes a rest.
    fn random_words(random: &mut Random) -> Words {
        let mut codes = DialStock::digits(random);
        let fixed = random.below(codes.len() as u64 + 1) as usize;
        for code in &mut codes[fixed..] {
            *code = random.pick(&[*code, ANY_DIGIT, ANY_DIGIT, ANY_DIGIT_BUT_ZERO]);
        }
        if random.percent(30) {
            codes.push(REST);
        }
        Words {
            a: DialStock::word_of(&codes),
            b: 0,
        }
    }

    fn random_subject(random: &mut Random) -> u64 {
        DialStock::word_of(&DialStock::digits(random))
    }

    /// Sixteen places, each the digit 1 or a wild one.
    fn nested_words(random: &mut Random) -> Words {
        let codes = [1; 16].map(|digit| random.pick(&[digit, ANY_DIGIT, ANY_DIGIT_BUT_ZERO]));
        Words {
            a: DialStock::word_of(&codes),
            b: 0,
        }
    }

    fn nested_miss() -> u64 {
        let mut codes = [1; 16];
        codes[15] = HASH;
        DialStock::word_of(&codes)
    }

    fn apart_words(which: u64) -> Words {
        Words {
            a: DialStock::long_number(which),
            b: 0,
        }
    }

    fn apart_subject(which: u64) -> u64 {
        DialStock::long_number(which)
    }

    fn bottom_words() -> Words {
        DialStock::words("4!")
    }

    fn over_bottom_words() -> Words {
        DialStock::words("44")
    }

    fn everything() -> Words {
        DialStock::words("!")
    }
}

/// One turn: the look-ups, then the add, then the drop, then what leads back to such a board.
pub struct Turn {
    pub subjects: Vec<u64>,
    pub add: Rule,
    pub drop: u16,
    /// A rule that is dropped and added again, so that it goes back to the slot that it came from.
    pub put_back: Option<Rule>,
}

#[derive(Clone, Copy, Debug, PartialEq, Eq)]
pub enum Pattern {
    /// Rules as they come, and any of them dropped.
    Random,
    /// All rules meet, and each new one goes on top: every rule is shifted.
    Nested,
    /// No two rules meet, and the new one may go anywhere above the last: every reach is looked for.
    Apart,
    /// The same over a last rule that matches every subject, as a default does.
    Default,
}

impl Pattern {
    pub const ALL: [Pattern; 4] = [
        Pattern::Random,
        Pattern::Nested,
        Pattern::Apart,
        Pattern::Default,
    ];

    pub fn name(self) -> &'static str {
        match self {
            Pattern::Random => "random",
            Pattern::Nested => "nested",
            Pattern::Apart => "apart",
            Pattern::Default => "default",
        }
    }
}

const SUBJECTS: usize = 32;

/// Numbers of rules that stand apart and never leave; the new rule has one past them.
const NEW_NUMBER: u16 = 60_000;

pub struct Workload {
    pattern: Pattern,
    random: Random,
    /// The rules in force, the eldest first.
    in_force: Vec<Rule>,
    next_number: u16,
}

impl Workload {
    pub fn new(pattern: Pattern, seed: u64) -> Self {
        Workload {
            pattern,
            random: Random::new(seed),
            in_force: Vec::new(),
            next_number: 1,
        }
    }

    /// The next rule of the filling. The caller says what the board takes.
    pub fn fill<S: Stock>(&mut self, filling: usize, takes: impl FnMut(Rule) -> bool) -> Rule {
        let place = self.in_force.len();
        let rule = match self.pattern {
            Pattern::Random => self.random_rule::<S>(takes),
            // From the highest priority down, so that each goes after all others.
            Pattern::Nested => self.rule((filling - place) as u16, S::nested_words),
            Pattern::Apart | Pattern::Default if place + 1 < filling => {
                self.rule(2 + 120 * place as u16, |_| S::apart_words(place as u64))
            }
            Pattern::Apart => self.rule(1, |_| S::bottom_words()),
            Pattern::Default => self.rule(1, |_| S::everything()),
        };
        self.in_force.push(rule);
        rule
    }

    /// The next turn. The caller says what the board takes.
    pub fn turn<S: Stock>(&mut self, takes: impl FnMut(Rule) -> bool) -> Turn {
        match self.pattern {
            Pattern::Random => {
                let add = self.random_rule::<S>(takes);
                let place = self.random.below(self.in_force.len() as u64) as usize;
                let dropped = std::mem::replace(&mut self.in_force[place], add);
                self.turn_of(S::random_subject, add, dropped.number)
            }
            Pattern::Nested => {
                let highest = self.in_force.iter().map(|rule| rule.priority).max();
                let add = self.rule(highest.unwrap_or(0) + 1, S::nested_words);
                let lowest = (0..self.in_force.len())
                    .min_by_key(|&place| self.in_force[place].priority)
                    .expect("a board is never measured empty");
                let dropped = std::mem::replace(&mut self.in_force[lowest], add);
                self.turn_of(|_| S::nested_miss(), add, dropped.number)
            }
            Pattern::Apart | Pattern::Default => {
                let add = Rule {
                    number: NEW_NUMBER,
                    priority: 30_001,
                    action: 1,
                    words: S::over_bottom_words(),
                };
                let rules = self.in_force.len() as u64;
                let subject = |random: &mut Random| S::apart_subject(random.below(rules));
                // The rule that has made room for the new one.
                let shifted = match self.pattern {
                    Pattern::Default => self.in_force.last(),
                    _ => self.in_force.first(),
                };
                Turn {
                    put_back: shifted.copied(),
                    ..self.turn_of(subject, add, NEW_NUMBER)
                }
            }
        }
    }

    fn turn_of(&mut self, subject: impl Fn(&mut Random) -> u64, add: Rule, drop: u16) -> Turn {
        Turn {
            subjects: (0..SUBJECTS).map(|_| subject(&mut self.random)).collect(),
            add,
            drop,
            put_back: None,
        }
    }

    fn rule(&mut self, priority: u16, words: impl Fn(&mut Random) -> Words) -> Rule {
        let number = self.next_number;
        self.next_number += 1;
        Rule {
            number,
            priority,
            action: u32::from(number) * 100,
            words: words(&mut self.random),
        }
    }

    fn random_rule<S: Stock>(&mut self, mut takes: impl FnMut(Rule) -> bool) -> Rule {
        loop {
            let number = self.next_number;
            let rule = Rule {
                number,
                priority: self.random.below(65_536) as u16,
                action: u32::from(number) * 100,
                words: S::random_words(&mut self.random),
            };
            if takes(rule) {
                self.next_number += 1;
                return rule;
            }
        }
    }
}

#[cfg(test)]
mod tests {
    use super::*;
    use second::{Kind, Packet};

    fn stock_keeps_its_word<S: Stock, K: Kind>() {
        let mut random = Random::new(1);
        let apart: Vec<Words> = (0..480).map(S::apart_words).collect();
        for (place, &words) in apart.iter().enumerate() {
            assert!(K::matches(words, S::apart_subject(place as u64)));
            assert!(!K::meet(words, S::bottom_words()));
            assert!(!K::meet(words, S::over_bottom_words()));
            assert!(apart[..place].iter().all(|&other| !K::meet(words, other)));
        }
        assert!(K::meet(S::bottom_words(), S::over_bottom_words()));
        assert!(K::matches(S::everything(), S::apart_subject(0)));
        for _ in 0..1_000 {
            assert!(K::rule_is_well_formed(S::random_words(&mut random)));
            assert!(K::subject_is_well_formed(S::random_subject(&mut random)));
            let nested = S::nested_words(&mut random);
            assert!(K::meet(nested, S::nested_words(&mut random)));
            assert!(!K::matches(nested, S::nested_miss()));
        }
    }

    #[test]
    fn the_stocks_are_what_they_say() {
        stock_keeps_its_word::<PacketStock, Packet>();
        stock_keeps_its_word::<DialStock, Dial>();
    }
}
