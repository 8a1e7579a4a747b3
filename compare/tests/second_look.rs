//! The second implementation looked at once more, with means that it does not use itself: patterns as
//! sets of symbols, and chip words by counting.

use second::random::Random;
use second::{ChipImage, Dial, Kind, Rule, SlotDevice, Words};

const PLACES: u32 = 16;

/// The bit of the end, after those of the twelve symbols.
const END_BIT: u16 = 1 << 12;
const DIGITS: u16 = 0x3FF;
const ALL: u16 = 0x1FFF;

fn code(word: u64, place: u32) -> u64 {
    word >> (60 - 4 * place) & 0xF
}

/// What a place takes, as a set of symbols and the end.
fn set(code: u64) -> u16 {
    match code {
        0..=11 => 1 << code,
        12 => DIGITS,
        13 => DIGITS & !1,
        14 => ALL,
        _ => END_BIT,
    }
}

/// The sets of all places: a rest takes everything from its place on. None for words that are not well
/// formed.
fn sets(words: Words) -> Option<Vec<u16>> {
    let codes: Vec<u64> = (0..PLACES).map(|place| code(words.a, place)).collect();
    let closed = codes
        .iter()
        .position(|&code| code >= 14)
        .unwrap_or(codes.len());
    let ends = codes.iter().skip(closed + 1).all(|&code| code == 15);
    if words.b != 0 || !ends {
        return None;
    }
    let rest = codes.get(closed) == Some(&14);
    let after = if rest { ALL } else { END_BIT };
    Some(
        codes
            .iter()
            .enumerate()
            .map(|(place, &code)| if place < closed { set(code) } else { after })
            .collect(),
    )
}

/// The subject that has in each place the end where it may, or else the lowest symbol.
fn witness(sets: &[u16]) -> u64 {
    sets.iter().fold(0, |word, &set| {
        let symbol = if set & END_BIT != 0 {
            15
        } else {
            set.trailing_zeros()
        };
        word << 4 | u64::from(symbol)
    })
}

/// Words near to well formed: signs, then perhaps a rest, then ends; a few in a hundred are spoilt.
fn some_words(random: &mut Random) -> Words {
    let length = random.below(17) as u32;
    let rest = random.percent(40);
    let mut a = (0..PLACES).fold(0, |word, place| {
        let code = if place < length {
            random.pick(&[0, 1, 1, 9, 10, 11, 12, 12, 12, 13, 13])
        } else if place == length && rest {
            14
        } else {
            15
        };
        word << 4 | code
    });
    if random.percent(5) {
        a ^= 1 << random.below(64);
    }
    Words {
        a,
        b: u64::from(random.percent(2)),
    }
}

#[test]
fn patterns_meet_as_their_sets_do() {
    let mut random = Random::new(1);
    let (mut met, mut apart) = (0, 0);
    for _ in 0..200_000 {
        let (first, second) = (some_words(&mut random), some_words(&mut random));
        let (first_sets, second_sets) = (sets(first), sets(second));
        assert_eq!(
            Dial::rule_is_well_formed(first),
            first_sets.is_some(),
            "{first:x?}"
        );
        let both: Option<Vec<u16>> = first_sets.zip(second_sets).map(|(first, second)| {
            first
                .iter()
                .zip(&second)
                .map(|(one, other)| one & other)
                .collect()
        });
        let meet = both
            .as_ref()
            .is_some_and(|both| both.iter().all(|&set| set != 0));
        assert_eq!(Dial::meet(first, second), meet, "{first:x?} {second:x?}");
        if let Some(both) = both.filter(|_| meet) {
            let subject = witness(&both);
            assert!(Dial::matches(first, subject), "{first:x?} {subject:x}");
            assert!(Dial::matches(second, subject), "{second:x?} {subject:x}");
            met += 1;
        } else {
            apart += 1;
        }
    }
    assert!(met > 1_000 && apart > 1_000, "{met} {apart}");
}

#[test]
fn patterns_match_as_their_sets_do() {
    let mut random = Random::new(2);
    let mut matched = 0;
    for _ in 0..200_000 {
        let words = some_words(&mut random);
        let length = random.below(17) as u32;
        let subject = (0..PLACES).fold(0, |word, place| {
            let symbol = if place < length {
                random.pick(&[0, 1, 1, 9, 10, 11])
            } else {
                15
            };
            word << 4 | symbol
        });
        assert!(Dial::subject_is_well_formed(subject));
        let takes = sets(words).is_some_and(|sets| {
            (0..PLACES).zip(sets).all(|(place, set)| {
                let symbol = code(subject, place).min(12);
                set >> symbol & 1 == 1
            })
        });
        assert_eq!(
            Dial::matches(words, subject),
            takes,
            "{words:x?} {subject:x}"
        );
        matched += u32::from(takes);
    }
    assert!(matched > 1_000, "{matched}");
}

/// Every slot of every chip: its three words stand where counting the addresses leads, and no others
/// are touched.
#[test]
fn a_rule_stands_in_the_three_words_of_its_address() {
    let rule = Rule {
        number: 0xFEDC,
        priority: 0xBA98,
        action: 0x7654_3210,
        words: Words { a: 1, b: 3 },
    };
    for (blocks, more) in [(1, 0), (2, 143), (9, 1), (10, 143), (11, 6)] {
        let length = 144 * blocks + more;
        let mut places = Vec::new();
        for block in 0..blocks.min(10) {
            places.extend((0..48).map(|row| 144 * block + row));
        }
        // Slot 0 has the last address.
        places.reverse();
        for (slot, &place) in places.iter().enumerate() {
            let mut words = vec![u64::MAX; length];
            let mut chip = ChipImage::new(&mut words);
            assert_eq!(chip.count(), places.len());
            chip.write(slot, rule).unwrap();
            let mut expected = vec![u64::MAX; length];
            expected[place] = 0xFEDC_BA98_7654_3210;
            expected[place + 48] = 1;
            expected[place + 96] = 3;
            assert_eq!(words, expected, "slot {slot} of {length} words");
        }
    }
}
