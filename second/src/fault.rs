//! What is wrong with a line of a layout, each fault under its number in docs/LAYOUT.md.

use crate::refusal::Refusal;

/// The words that stand before a number; "The words are 1 `D`, 2 `A`, 3 `q`, 4 `address`, ..".
#[derive(Clone, Copy, Debug, PartialEq, Eq)]
pub enum Word {
    D = 1,
    A = 2,
    Q = 3,
    Address = 4,
    Capability = 5,
    Time = 6,
    Value = 7,
    Length = 8,
    Every = 9,
    From = 10,
    To = 11,
    Laxity = 12,
    Steps = 13,
}

/// A fault of a line.
#[derive(Clone, Copy, Debug, PartialEq, Eq)]
pub enum Fault {
    /// "those up to 22 are refusals of the engine's table".
    Refused(Refusal),
    /// "another word, or none, stands in the place of word w".
    NotWord(Word),
    /// "what follows it is no number".
    NoNumber(Word),
    /// "the line goes on after its last number".
    GoesOn,
    NotBus,
    NotStation,
    NotAfterStation,
    NotAfterArrival,
    AfterRun,
    AddressAbove,
    LengthAbove,
    StepsAbove,
    EveryZero,
    ToBelowFrom,
}

/// The first line that is wrong, and its fault.
#[derive(Clone, Copy, Debug, PartialEq, Eq)]
pub struct Wrong {
    pub line: usize,
    pub fault: Fault,
}

impl Word {
    pub fn text(self) -> &'static str {
        match self {
            Word::D => "D",
            Word::A => "A",
            Word::Q => "q",
            Word::Address => "address",
            Word::Capability => "capability",
            Word::Time => "time",
            Word::Value => "value",
            Word::Length => "length",
            Word::Every => "every",
            Word::From => "from",
            Word::To => "to",
            Word::Laxity => "laxity",
            Word::Steps => "steps",
        }
    }
}

impl Fault {
    pub fn number(self) -> u32 {
        match self {
            Fault::Refused(refusal) => refusal.number(),
            Fault::NotWord(word) => 100 + word as u32,
            Fault::NoNumber(word) => 200 + word as u32,
            Fault::GoesOn => 300,
            Fault::NotBus => 301,
            Fault::NotStation => 302,
            Fault::NotAfterStation => 303,
            Fault::NotAfterArrival => 304,
            Fault::AfterRun => 305,
            Fault::AddressAbove => 306,
            Fault::LengthAbove => 307,
            Fault::StepsAbove => 308,
            Fault::EveryZero => 309,
            Fault::ToBelowFrom => 310,
        }
    }
}

impl From<Refusal> for Fault {
    fn from(refusal: Refusal) -> Fault {
        Fault::Refused(refusal)
    }
}
