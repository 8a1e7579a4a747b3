//! What a rule is.

/// What a rule matches. Only a kind knows how to read the two words.
#[derive(Clone, Copy, Debug, Default, PartialEq, Eq, Hash)]
pub struct Words {
    pub a: u64,
    pub b: u64,
}

/// One rule. Number 0 names no rule; it marks an empty slot.
#[derive(Clone, Copy, Debug, Default, PartialEq, Eq, Hash)]
pub struct Rule {
    pub number: u16,
    pub priority: u16,
    pub action: u32,
    pub words: Words,
}

impl Rule {
    /// All zero: what an erased record holds.
    pub const ZERO: Rule = Rule {
        number: 0,
        priority: 0,
        action: 0,
        words: Words { a: 0, b: 0 },
    };
}
