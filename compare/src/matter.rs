//! What the rules and subjects of the calls are made of.

use second::dial::{ANY_DIGIT, ANY_DIGIT_BUT_ZERO, END, HASH, REST};
use second::random::Random;
use second::Words;

/// A way to make up words and subjects of one kind.
pub struct Matter {
    pub name: &'static str,
    pub words: fn(&mut Random) -> Words,
    pub subject: fn(&mut Random) -> u64,
    /// Words that are not well formed.
    pub mangled: fn(&mut Random) -> Words,
    /// Words that match every subject.
    pub everything: Words,
}

/// All rules of the nested packet matter match this subject.
const KEY: u64 = 0x9D3F_02C6_5A71_E84B;

pub const NESTED_PACKETS: Matter = Matter {
    name: "nested packets",
    words: nested_packet,
    subject: near_the_key,
    mangled: mangled_packet,
    everything: EVERY_PACKET,
};

pub const PACKETS: [Matter; 4] = [
    NESTED_PACKETS,
    Matter {
        name: "overlapping packets",
        words: overlapping_packet,
        subject: few_bits,
        mangled: mangled_packet,
        everything: EVERY_PACKET,
    },
    Matter {
        name: "packet prefixes",
        words: packet_prefix,
        subject: near_the_key,
        mangled: mangled_packet,
        everything: EVERY_PACKET,
    },
    Matter {
        name: "packets apart",
        words: packet_apart,
        subject: |random| random.below(600),
        mangled: mangled_packet,
        everything: EVERY_PACKET,
    },
];

const EVERY_PACKET: Words = Words { a: 0, b: 0 };

/// Any mask, with the key under it.
pub fn nested_packet(random: &mut Random) -> Words {
    let mask = random.word();
    Words {
        a: KEY & mask,
        b: mask,
    }
}

/// The key, or a subject that differs from it in a few bits.
fn near_the_key(random: &mut Random) -> u64 {
    let changes = random.below(4);
    (0..changes).fold(KEY, |subject, _| subject ^ 1 << random.below(64))
}

/// Few bits at both ends of the words, so that a half word lost would be seen. Most values are 0, so
/// that rules meet often and yet not always.
pub fn overlapping_packet(random: &mut Random) -> Words {
    let mask = few_bits(random);
    let value = if random.percent(60) { 0 } else { random.word() };
    Words {
        a: value & mask,
        b: mask,
    }
}

fn few_bits(random: &mut Random) -> u64 {
    random.below(32) << 59 | random.below(32)
}

/// Masks of leading bits over a few networks.
fn packet_prefix(random: &mut Random) -> Words {
    let mask = u64::MAX.checked_shl(random.below(65) as u32).unwrap_or(0);
    Words {
        a: near_the_key(random) & mask,
        b: mask,
    }
}

/// Rules that meet only where they are equal.
fn packet_apart(random: &mut Random) -> Words {
    Words {
        a: random.below(600),
        b: 0xFFFF,
    }
}

/// A value with a bit that the mask has not.
fn mangled_packet(random: &mut Random) -> Words {
    let lost = 1 << random.below(64);
    Words {
        a: random.word() | lost,
        b: random.word() & !lost,
    }
}

pub const NESTED_DIALLING: Matter = Matter {
    name: "nested dialling",
    words: nested_pattern,
    subject: near_the_number,
    mangled: mangled_pattern,
    everything: EVERY_NUMBER,
};

pub const DIALLING: [Matter; 4] = [
    NESTED_DIALLING,
    Matter {
        name: "overlapping dialling",
        words: overlapping_pattern,
        subject: |random| dialled(random, &[0, 1, 2, 9, HASH], 4),
        mangled: mangled_pattern,
        everything: EVERY_NUMBER,
    },
    Matter {
        name: "long numbers",
        words: long_pattern,
        subject: long_number,
        mangled: mangled_pattern,
        everything: EVERY_NUMBER,
    },
    Matter {
        name: "dialling apart",
        words: |random| pattern(&three_digits(random)),
        subject: |random| word_of(&three_digits(random)),
        mangled: mangled_pattern,
        everything: EVERY_NUMBER,
    },
];

/// A rest in the first place.
const EVERY_NUMBER: Words = Words {
    a: 0xEFFF_FFFF_FFFF_FFFF,
    b: 0,
};

const PLACES: usize = 16;

/// All patterns of the nested dial matter match this number.
const NUMBER: [u8; PLACES] = [9, 4, 1, 7, 7, 2, 3, 8, 5, 6, 1, 1, 9, 2, 4, 3];

/// A row of codes, filled up with ends.
fn word_of(codes: &[u8]) -> u64 {
    (0..PLACES).fold(0, |word, place| {
        word << 4 | u64::from(codes.get(place).copied().unwrap_or(END))
    })
}

fn pattern(codes: &[u8]) -> Words {
    Words {
        a: word_of(codes),
        b: 0,
    }
}

/// Each place the number's digit or a wild one, and sometimes a rest before the end.
pub fn nested_pattern(random: &mut Random) -> Words {
    let mut codes = NUMBER.map(|digit| random.pick(&[digit, ANY_DIGIT, ANY_DIGIT_BUT_ZERO]));
    if random.percent(30) {
        let place = random.below(PLACES as u64) as usize;
        codes[place] = REST;
        return pattern(&codes[..=place]);
    }
    pattern(&codes)
}

/// The number, or one that differs from it in one place or is shorter.
fn near_the_number(random: &mut Random) -> u64 {
    let mut codes = NUMBER;
    let place = random.below(PLACES as u64) as usize;
    match random.below(4) {
        0 => codes[place] = random.below(12) as u8,
        1 => return word_of(&codes[..place]),
        _ => {}
    }
    word_of(&codes)
}

/// At most so many of the symbols.
fn dialled(random: &mut Random, symbols: &[u8], most: u64) -> u64 {
    let length = random.below(most + 1);
    let codes: Vec<u8> = (0..length).map(|_| random.pick(symbols)).collect();
    word_of(&codes)
}

/// Short patterns of few signs, many of them wild.
pub fn overlapping_pattern(random: &mut Random) -> Words {
    let length = random.below(5);
    let signs = [0, 1, 2, HASH, ANY_DIGIT, ANY_DIGIT, ANY_DIGIT_BUT_ZERO];
    let mut codes: Vec<u8> = (0..length).map(|_| random.pick(&signs)).collect();
    if random.percent(40) {
        codes.push(REST);
    }
    pattern(&codes)
}

/// Patterns that differ at the sixteenth place and just before it.
fn long_pattern(random: &mut Random) -> Words {
    let mut codes = vec![5; 12];
    let more = random.below(5);
    codes.extend((0..more).map(|_| random.pick(&[0, 5, 5, ANY_DIGIT, ANY_DIGIT_BUT_ZERO])));
    if codes.len() < PLACES && random.percent(50) {
        codes.push(REST);
    }
    pattern(&codes)
}

fn long_number(random: &mut Random) -> u64 {
    let mut codes = vec![5; 12];
    let more = random.below(5);
    codes.extend((0..more).map(|_| random.pick(&[0, 5, 5, 7, HASH])));
    word_of(&codes)
}

fn three_digits(random: &mut Random) -> [u8; 3] {
    [0; 3].map(|_| random.below(10) as u8)
}

/// A symbol after an end, one after a rest, a rest after a rest, or a word B.
fn mangled_pattern(random: &mut Random) -> Words {
    let mut words = overlapping_pattern(random);
    match random.below(4) {
        0 => words.a = 0xF1FF_FFFF_FFFF_FFFF,
        1 => words.a = 0x1E1F_FFFF_FFFF_FFFF,
        2 => words.a = 0xEEFF_FFFF_FFFF_FFFF,
        _ => words.b = 1 << random.below(64),
    }
    words
}

#[cfg(test)]
mod tests {
    use super::*;
    use second::{Dial, Kind, Packet};

    fn keeps_its_word<K: Kind>(matters: &[Matter]) {
        let mut random = Random::new(1);
        for matter in matters {
            assert!(K::rule_is_well_formed(matter.everything));
            for _ in 0..2_000 {
                let words = (matter.words)(&mut random);
                assert!(K::rule_is_well_formed(words), "{} {words:x?}", matter.name);
                assert!(
                    K::meet(words, matter.everything),
                    "{} {words:x?}",
                    matter.name
                );
                let subject = (matter.subject)(&mut random);
                assert!(
                    K::subject_is_well_formed(subject),
                    "{} {subject:x}",
                    matter.name
                );
                assert!(K::matches(matter.everything, subject));
            }
        }
    }

    #[test]
    fn words_and_subjects_are_well_formed() {
        keeps_its_word::<Packet>(&PACKETS);
        keeps_its_word::<Dial>(&DIALLING);
    }

    #[test]
    fn mangled_words_are_mangled() {
        let mut random = Random::new(2);
        for _ in 0..1_000 {
            assert!(!Packet::rule_is_well_formed(mangled_packet(&mut random)));
            assert!(!Dial::rule_is_well_formed(mangled_pattern(&mut random)));
        }
    }

    #[test]
    fn nested_rules_all_meet() {
        let mut random = Random::new(3);
        for _ in 0..1_000 {
            let (one, other) = (nested_packet(&mut random), nested_packet(&mut random));
            assert!(Packet::meet(one, other));
            let (one, other) = (nested_pattern(&mut random), nested_pattern(&mut random));
            assert!(Dial::meet(one, other));
        }
    }
}
