//! What a kind of rule says.

use crate::rule::Words;

/// The four questions that a kind answers. None of them refuses anything.
///
/// The law of every kind: two well-formed rules meet exactly when some well-formed subject is matched
/// by both. The tests hold both kinds to it by trying subjects out.
pub trait Kind {
    fn rule_is_well_formed(words: Words) -> bool;

    fn subject_is_well_formed(subject: u64) -> bool;

    /// False unless the words and the subject are well formed.
    fn matches(words: Words, subject: u64) -> bool;

    /// False unless both pairs of words are well formed.
    fn meet(first: Words, second: Words) -> bool;
}
