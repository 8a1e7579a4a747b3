//! The fourteen refusals, by number and by word.

use std::fmt;

#[derive(Clone, Copy, Debug, PartialEq, Eq, PartialOrd, Ord, Hash)]
pub enum Refusal {
    Busy = 1,
    Mangled = 2,
    Known = 3,
    Tied = 4,
    Crossed = 5,
    NoSlot = 6,
    Unknown = 7,
    Misdialled = 8,
    Foreign = 9,
    RunOut = 10,
    OffTheTable = 11,
    Unmarked = 12,
    StrangeLetter = 13,
    CutShort = 14,
}

impl Refusal {
    pub fn number(self) -> u8 {
        self as u8
    }

    pub fn word(self) -> &'static str {
        match self {
            Refusal::Busy => "busy",
            Refusal::Mangled => "mangled",
            Refusal::Known => "known",
            Refusal::Tied => "tied",
            Refusal::Crossed => "crossed",
            Refusal::NoSlot => "no slot",
            Refusal::Unknown => "unknown",
            Refusal::Misdialled => "misdialled",
            Refusal::Foreign => "foreign",
            Refusal::RunOut => "run out",
            Refusal::OffTheTable => "off the table",
            Refusal::Unmarked => "unmarked",
            Refusal::StrangeLetter => "strange letter",
            Refusal::CutShort => "cut short",
        }
    }
}

impl fmt::Display for Refusal {
    fn fmt(&self, formatter: &mut fmt::Formatter<'_>) -> fmt::Result {
        write!(formatter, "{} {}", self.number(), self.word())
    }
}

impl std::error::Error for Refusal {}
