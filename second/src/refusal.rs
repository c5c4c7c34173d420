//! The refusal numbers, each under the thing it is given for.

/// A refusal; its number is the one in the table of refusal numbers.
#[derive(Clone, Copy, Debug, PartialEq, Eq)]
pub enum Refusal {
    LentState = 1,
    Discipline = 2,
    ParameterSpace = 3,
    AddressSpace = 4,
    LaxityStep = 5,
    Stations = 6,
    AddressRange = 7,
    AddressTwice = 8,
    CapabilityRange = 9,
    CapabilityTwice = 10,
    NoStation = 11,
    Value = 12,
    Length = 13,
    LatestStart = 14,
    QueueFilled = 15,
    AdmittedSpent = 16,
    ClockSpent = 17,
    ScenarioEnds = 18,
    UnknownRecord = 19,
    OutOfPlace = 20,
    ArrivalTime = 21,
    ScenarioTooLong = 22,
    TooManyRuns = 23,
    UnbalancedRun = 24,
    ContentionUnderWay = 25,
    NoContention = 26,
}

impl Refusal {
    pub fn number(self) -> u32 {
        self as u32
    }
}
