//! The state of the bus: its fields, the numbers that bound them, and the first window of a space.

/// "stations N, 1 to 64".
pub const STATIONS: usize = 64;
/// "16 packets a station".
pub const QUEUE_PLACES: usize = 16;
/// "so 1,024 places in all".
pub const PLACES: usize = STATIONS * QUEUE_PLACES;
/// "clock: slots 0 to 1,073,741,824".
pub const LAST_SLOT: u32 = 1_073_741_824;
/// "packets admitted: at most 4,294,967,295".
pub const MOST_ADMITTED: u64 = 4_294_967_295;
/// "The count stops at 4,294,967,295", that of packets turned away.
pub const MOST_TURNED_AWAY: u64 = 4_294_967_295;
/// "packet length: 1 to 4,096 slots".
pub const LONGEST: u32 = 4_096;

pub const PRI: u32 = 0;
pub const RTDG: u32 = 1;
pub const RTVC: u32 = 2;

/// The set-up fields.
#[derive(Clone, Copy, Debug, PartialEq, Eq)]
pub struct Settings {
    pub discipline: u32,
    /// The parameter space D.
    pub d: u32,
    /// The address space A.
    pub a: u32,
    /// The laxity step q.
    pub q: u32,
    /// The number of stations N.
    pub n: u64,
}

#[derive(Clone, Copy, Debug, PartialEq, Eq)]
pub struct Station {
    pub address: u32,
    pub capability: u32,
}

#[derive(Clone, Copy, Debug, PartialEq, Eq)]
pub struct Packet {
    /// "at most 4,294,967,295", so 32 bits hold it.
    pub number: u32,
    pub value: u32,
    pub length: u32,
    /// "Keep with each packet its admission slot": the clock as it was admitted.
    pub admission: u32,
}

/// What is recorded of one station for the contention under way.
#[derive(Clone, Copy, Debug, PartialEq, Eq)]
pub struct Contender {
    pub contends: bool,
    pub parameter: u64,
    pub packet: Packet,
}

#[derive(Clone, Copy, Debug, PartialEq, Eq)]
pub enum Side {
    Left,
    Right,
}

#[derive(Clone, Copy, Debug, PartialEq, Eq)]
pub struct Window {
    pub start: u64,
    pub size: u64,
    pub side: Side,
}

/// Whether a contention is under way, and where it stands.
#[derive(Clone, Copy, Debug, PartialEq, Eq)]
pub struct Contention {
    pub begun: bool,
    pub window: Window,
    /// Whether it is in the tie phase.
    pub tied: bool,
    /// The tied parameter.
    pub tie: u64,
}

#[derive(Clone, Debug, PartialEq, Eq)]
pub struct State {
    pub settings: Settings,
    pub stations: [Station; STATIONS],
    pub clock: u32,
    pub admitted: u64,
    pub sent: u64,
    pub lost: u64,
    /// "a count of packets turned away".
    pub turned_away: u64,
    /// Whether a circuit has won in this round.
    pub won: bool,
    /// The last winner's capability.
    pub last: u32,
    pub contention: Contention,
    pub contenders: [Contender; STATIONS],
    /// How many packets each station's queue has.
    pub waiting: [u64; STATIONS],
    /// Station i owns the sixteen places from 16 × i on.
    pub packets: [Packet; PLACES],
}

impl Settings {
    pub const ZERO: Settings = Settings {
        discipline: 0,
        d: 0,
        a: 0,
        q: 0,
        n: 0,
    };
}

impl Station {
    pub const ZERO: Station = Station {
        address: 0,
        capability: 0,
    };
}

impl Packet {
    pub const ZERO: Packet = Packet {
        number: 0,
        value: 0,
        length: 0,
        admission: 0,
    };
}

impl Contender {
    pub const ZERO: Contender = Contender {
        contends: false,
        parameter: 0,
        packet: Packet::ZERO,
    };
}

impl Window {
    pub const ZERO: Window = Window {
        start: 0,
        size: 0,
        side: Side::Left,
    };

    /// "the first window ..., start 0, side right".
    pub fn first_of(space: u32) -> Window {
        Window {
            start: 0,
            size: first_window(space),
            side: Side::Right,
        }
    }

    pub fn holds(&self, point: u64) -> bool {
        point
            .checked_sub(self.start)
            .is_some_and(|inside| inside < self.size)
    }
}

impl Contention {
    pub const ZERO: Contention = Contention {
        begun: false,
        window: Window::ZERO,
        tied: false,
        tie: 0,
    };
}

impl State {
    pub const ZERO: State = State {
        settings: Settings::ZERO,
        stations: [Station::ZERO; STATIONS],
        clock: 0,
        admitted: 0,
        sent: 0,
        lost: 0,
        turned_away: 0,
        won: false,
        last: 0,
        contention: Contention::ZERO,
        contenders: [Contender::ZERO; STATIONS],
        waiting: [0; STATIONS],
        packets: [Packet::ZERO; PLACES],
    };

    /// The first N places, for an N of any size.
    pub(crate) fn listed(&self) -> usize {
        self.settings.n.min(STATIONS as u64) as usize
    }

    /// How many packets the queue at a place has, for a length of any size.
    pub(crate) fn queue_length(&self, place: usize) -> usize {
        self.waiting[place].min(QUEUE_PLACES as u64) as usize
    }

    /// The sixteen places of one station.
    pub(crate) fn places(&self, place: usize) -> &[Packet] {
        &self.packets[place * QUEUE_PLACES..][..QUEUE_PLACES]
    }

    pub(crate) fn places_mut(&mut self, place: usize) -> &mut [Packet] {
        &mut self.packets[place * QUEUE_PLACES..][..QUEUE_PLACES]
    }

    /// The packets queued at one station.
    pub(crate) fn queue(&self, place: usize) -> &[Packet] {
        &self.places(place)[..self.queue_length(place)]
    }
}

/// "rounded up to the nearest power of two".
pub fn first_window(space: u32) -> u64 {
    u64::from(space).next_power_of_two()
}
