//! The dial kind: word A holds sixteen places of four bits, the first in the highest bits.

use crate::kind::Kind;
use crate::rule::Words;

pub struct Dial;

const PLACES: usize = 16;

pub const STAR: u8 = 10;
pub const HASH: u8 = 11;
pub const ANY_DIGIT: u8 = 12;
pub const ANY_DIGIT_BUT_ZERO: u8 = 13;
pub const REST: u8 = 14;
pub const END: u8 = 15;

/// The sixteen places of a word, the first place first.
fn places(word: u64) -> [u8; PLACES] {
    std::array::from_fn(|place| (word >> (60 - 4 * place)) as u8 & 0xF)
}

/// Whether a place of a pattern takes a symbol, or the end, of a subject.
fn takes(place: u8, symbol: u8) -> bool {
    match place {
        ANY_DIGIT => symbol <= 9,
        ANY_DIGIT_BUT_ZERO => (1..=9).contains(&symbol),
        REST => true,
        // A digit, star, hash or the end takes exactly itself.
        _ => symbol == place,
    }
}

/// Two places meet when some symbol, or the end, is taken by both.
fn places_meet(first: u8, second: u8) -> bool {
    (0..=HASH)
        .chain([END])
        .any(|symbol| takes(first, symbol) && takes(second, symbol))
}

/// Whether after the first place that `closes` only ends follow.
fn only_ends_after(word: u64, closes: impl Fn(u8) -> bool) -> bool {
    places(word)
        .into_iter()
        .skip_while(|&place| !closes(place))
        .skip(1)
        .all(|place| place == END)
}

impl Kind for Dial {
    fn rule_is_well_formed(words: Words) -> bool {
        words.b == 0 && only_ends_after(words.a, |place| place == REST || place == END)
    }

    fn subject_is_well_formed(subject: u64) -> bool {
        places(subject)
            .into_iter()
            .all(|symbol| symbol <= HASH || symbol == END)
            && only_ends_after(subject, |symbol| symbol == END)
    }

    fn matches(words: Words, subject: u64) -> bool {
        if !Dial::rule_is_well_formed(words) || !Dial::subject_is_well_formed(subject) {
            return false;
        }
        for (place, symbol) in places(words.a).into_iter().zip(places(subject)) {
            if place == REST {
                return true;
            }
            if !takes(place, symbol) {
                return false;
            }
        }
        true
    }

    fn meet(first: Words, second: Words) -> bool {
        if !Dial::rule_is_well_formed(first) || !Dial::rule_is_well_formed(second) {
            return false;
        }
        for (one, other) in places(first.a).into_iter().zip(places(second.a)) {
            if one == REST || other == REST {
                return true;
            }
            if !places_meet(one, other) {
                return false;
            }
        }
        true
    }
}

impl Dial {
    /// The word of a row of signs, filled up with ends. None for a strange sign or for more than
    /// sixteen. Whether the word is well formed is not asked.
    pub fn word(signs: &str) -> Option<u64> {
        if signs.chars().count() > PLACES {
            return None;
        }
        let codes = signs.chars().map(Dial::code).collect::<Option<Vec<u8>>>()?;
        let ends = std::iter::repeat(END);
        Some(
            codes
                .into_iter()
                .chain(ends)
                .take(PLACES)
                .fold(0, |word, code| word << 4 | u64::from(code)),
        )
    }

    /// The words A and B of a pattern in signs.
    pub fn pattern(signs: &str) -> Option<Words> {
        Dial::word(signs).map(|a| Words { a, b: 0 })
    }

    fn code(sign: char) -> Option<u8> {
        match sign {
            '0'..='9' => Some(sign as u8 - b'0'),
            '*' => Some(STAR),
            '#' => Some(HASH),
            'X' => Some(ANY_DIGIT),
            'Z' => Some(ANY_DIGIT_BUT_ZERO),
            '!' => Some(REST),
            _ => None,
        }
    }
}

#[cfg(test)]
mod tests {
    use super::*;

    fn pattern(signs: &str) -> Words {
        Dial::pattern(signs).unwrap()
    }

    fn meet(first: &str, second: &str) -> bool {
        let there = Dial::meet(pattern(first), pattern(second));
        let back = Dial::meet(pattern(second), pattern(first));
        assert_eq!(there, back, "meeting is symmetric");
        there
    }

    fn matches(signs: &str, subject: &str) -> bool {
        Dial::matches(pattern(signs), Dial::word(subject).unwrap())
    }

    fn well_formed(signs: &str) -> bool {
        Dial::rule_is_well_formed(pattern(signs))
    }

    #[test]
    fn worked_case_1() {
        assert!(meet("9!", "90"));
        assert!(!meet("9", "90"));
    }

    #[test]
    fn worked_case_2() {
        assert!(!meet("X", "*"));
        assert!(meet("Z", "X"));
        assert!(!meet("Z", "0"));
    }

    #[test]
    fn worked_case_3() {
        assert!(meet("!", ""));
        assert!(!meet("Z!", ""));
    }

    #[test]
    fn worked_case_4() {
        assert!(matches("!", "#"));
    }

    #[test]
    fn zero_is_sixteen_zeros_and_not_the_empty_pattern() {
        assert_eq!(pattern("0000000000000000").a, 0);
        assert_eq!(pattern("").a, u64::MAX);
        assert!(Dial::matches(Words { a: 0, b: 0 }, 0));
        assert!(!Dial::matches(Words { a: 0, b: 0 }, u64::MAX));
        assert!(matches("", ""));
        assert!(!matches("", "0"));
    }

    #[test]
    fn sixteen_places_need_no_end() {
        assert!(well_formed("1234567890123456"));
        assert!(matches("1234567890123456", "1234567890123456"));
        assert!(!matches("1234567890123456", "123456789012345"));
    }

    #[test]
    fn a_rest_in_the_last_place_takes_one_symbol_or_none() {
        assert!(well_formed("123456789012345!"));
        assert!(matches("123456789012345!", "123456789012345"));
        assert!(matches("123456789012345!", "123456789012345#"));
        assert!(!matches("123456789012345!", "12345678901234"));
        assert!(meet("123456789012345!", "123456789012345"));
        assert!(meet("123456789012345!", "123456789012345*"));
    }

    #[test]
    fn sixteen_zeros_do_not_meet_fifteen_zeros() {
        assert!(!meet("0000000000000000", "000000000000000"));
    }

    #[test]
    fn the_rest_meets_the_end_and_the_any_digits_do_not() {
        assert!(meet("9!", "9"));
        assert!(!meet("9X", "9"));
        assert!(!meet("9Z", "9"));
    }

    #[test]
    fn nothing_but_the_end_follows_a_rest_or_an_end() {
        assert!(!well_formed("!!"));
        assert!(!well_formed("9!0"));
        let nine_end_nine = 0x9F9F_FFFF_FFFF_FFFF;
        let nine_end_rest = 0x9FEF_FFFF_FFFF_FFFF;
        for a in [nine_end_nine, nine_end_rest, 0xFFFF_FFFF_FFFF_FFF0] {
            assert!(!Dial::rule_is_well_formed(Words { a, b: 0 }));
            assert!(!Dial::subject_is_well_formed(a));
        }
    }

    #[test]
    fn word_b_must_be_zero() {
        let words = Words {
            b: 1,
            ..pattern("9!")
        };
        assert!(!Dial::rule_is_well_formed(words));
        assert!(!Dial::matches(words, Dial::word("9").unwrap()));
        assert!(!Dial::meet(words, pattern("!")));
        assert!(!Dial::meet(pattern("!"), words));
    }

    #[test]
    fn subjects_have_no_wild_places() {
        for signs in ["X", "Z", "!", "12X"] {
            let subject = Dial::word(signs).unwrap();
            assert!(!Dial::subject_is_well_formed(subject));
            assert!(!Dial::matches(pattern("!"), subject));
        }
        assert!(Dial::subject_is_well_formed(u64::MAX));
        assert!(Dial::subject_is_well_formed(0));
        assert!(Dial::subject_is_well_formed(Dial::word("*21#").unwrap()));
    }

    #[test]
    fn signs_that_are_no_signs() {
        assert_eq!(Dial::word("12a"), None);
        assert_eq!(Dial::word("01234567890123456"), None);
    }

    /// All rows of at most `most` of the signs.
    fn rows(signs: &[char], most: usize) -> Vec<String> {
        let mut all = vec![String::new()];
        let mut last = all.clone();
        for _ in 0..most {
            last = last
                .iter()
                .flat_map(|row| signs.iter().map(move |sign| format!("{row}{sign}")))
                .collect();
            all.extend(last.iter().cloned());
        }
        all
    }

    /// Every pattern with at most three places after a fixed beginning, well formed or not, against
    /// every subject with the same beginning. 0, 1 and star stand for the three sorts of symbol that
    /// the wild places tell apart.
    fn law_holds_after(beginning: &str, most: usize) {
        let patterns: Vec<Words> = rows(&['0', '1', '*', 'X', 'Z', '!'], most)
            .iter()
            .map(|row| pattern(&format!("{beginning}{row}")))
            .collect();
        let subjects: Vec<u64> = rows(&['0', '1', '*'], most)
            .iter()
            .map(|row| Dial::word(&format!("{beginning}{row}")).unwrap())
            .collect();
        // Row i says which subjects pattern i matches, so that each pair is one comparison of rows.
        let matched: Vec<Vec<bool>> = patterns
            .iter()
            .map(|&words| subjects.iter().map(|&s| Dial::matches(words, s)).collect())
            .collect();
        for (first, row) in patterns.iter().zip(&matched) {
            for (second, other_row) in patterns.iter().zip(&matched) {
                let witness = row.iter().zip(other_row).any(|(&one, &other)| one && other);
                assert_eq!(Dial::meet(*first, *second), witness, "{first:?} {second:?}");
            }
        }
    }

    #[test]
    fn two_patterns_meet_exactly_when_some_subject_is_matched_by_both() {
        law_holds_after("", 3);
        law_holds_after("7", 2);
    }

    #[test]
    fn the_law_holds_at_the_last_places_too() {
        law_holds_after("00000000000000", 2);
        law_holds_after("0000000000000", 3);
    }

    /// Every symbol on its own, in one place: the table of takes, tried out.
    #[test]
    fn single_places_meet_exactly_when_some_symbol_is_matched_by_both() {
        let signs = "0123456789*#XZ!";
        for first in signs.chars() {
            for second in signs.chars() {
                let (first, second) = (first.to_string(), second.to_string());
                let witness = rows(&"0123456789*#".chars().collect::<Vec<_>>(), 1)
                    .iter()
                    .any(|subject| matches(&first, subject) && matches(&second, subject));
                assert_eq!(meet(&first, &second), witness, "{first} {second}");
            }
        }
    }
}
