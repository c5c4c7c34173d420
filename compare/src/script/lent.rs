//! States to be lent: made so that they stand, whether a history leads to them or not.

use super::text::{set_up_of, Admission, Script};
use crate::edges::{edges, Ranges};
use crate::records::{
    LAST_NUMBER, LAST_SLOT, LAST_STEP, LONGEST_PACKET, MOST_TURNED_AWAY, PRI, QUEUE_PLACES, RTDG, RTVC, STATIONS,
};
use crate::scenario::{bus, LAXITY_STEPS};
use crate::seeded::Numbers;
use std::collections::{BTreeMap, BTreeSet};
use std::ops::Range;

/// The fields of a state, by the numbers that edits call them by.
#[rustfmt::skip]
mod field {
    pub const DISCIPLINE: u64 = 1; pub const PARAMETERS: u64 = 2; pub const ADDRESSES: u64 = 3;
    pub const LAXITY_STEP: u64 = 4; pub const LISTED: u64 = 5; pub const ADDRESS: u64 = 6;
    pub const CAPABILITY: u64 = 7; pub const CLOCK: u64 = 8; pub const ADMITTED: u64 = 9; pub const SENT: u64 = 10;
    pub const LOST: u64 = 11; pub const WON: u64 = 12; pub const LAST_WINNER: u64 = 13; pub const BEGUN: u64 = 14;
    pub const START: u64 = 15; pub const SIZE: u64 = 16; pub const SIDE: u64 = 17; pub const TIED: u64 = 18;
    pub const TIE_VALUE: u64 = 19; pub const CONTENDS: u64 = 20; pub const PARAMETER: u64 = 21;
    pub const OFFERED_NUMBER: u64 = 22; pub const OFFERED_VALUE: u64 = 23; pub const OFFERED_LENGTH: u64 = 24;
    pub const QUEUE: u64 = 25; pub const NUMBER: u64 = 26; pub const VALUE: u64 = 27; pub const LENGTH: u64 = 28;
    pub const OFFERED_ADMISSION: u64 = 29; pub const ADMISSION: u64 = 30; pub const WORD: u64 = 31;
    pub const TURNED_AWAY: u64 = 32; pub const LAST_FIELD: u64 = TURNED_AWAY;
}
pub use field::*;

/// How many of a field a state has.
pub fn places(field: u64) -> usize {
    match field {
        ADDRESS | CAPABILITY | CONTENDS..=QUEUE | OFFERED_ADMISSION => STATIONS,
        NUMBER..=LENGTH | ADMISSION => STATIONS * QUEUE_PLACES,
        _ => 1,
    }
}

/// How many bits a field has.
pub fn bits(field: u64) -> u32 {
    match field {
        WON | BEGUN | SIDE | TIED | CONTENDS => 1,
        LISTED | ADMITTED | SENT | LOST | START | SIZE | TIE_VALUE | PARAMETER | QUEUE | WORD | TURNED_AWAY => 64,
        _ => 32,
    }
}

/// Where a lent state is in a contention.
#[derive(Clone, Copy, Debug, PartialEq)]
pub enum Phase {
    Between,
    Parameters,
    Ties,
}

/// A discipline and a phase.
pub type State = (u8, Phase);

pub const PHASES: [Phase; 3] = [Phase::Between, Phase::Parameters, Phase::Ties];

/// Each discipline with each phase.
pub fn states() -> Vec<State> {
    [PRI, RTDG, RTVC].into_iter().flat_map(|discipline| PHASES.map(|phase| (discipline, phase))).collect()
}

/// How many packets a state has turned away: none, some, or about as many as are counted.
pub const TURNED: &[u64] = &[0, 0, 1, 70_000, MOST_TURNED_AWAY - 3, MOST_TURNED_AWAY - 1, MOST_TURNED_AWAY];

/// More stations than this are many.
const MANY: usize = 8;

/// A state: the value of each field and place that is not zero.
#[derive(Default)]
pub struct Lent(BTreeMap<(u64, usize), u64>);

impl Lent {
    /// The word of contenders is kept as its bits.
    pub fn get(&self, field: u64, place: usize) -> u64 {
        match field {
            WORD => (0..STATIONS).fold(0, |word, place| word | self.get(CONTENDS, place) << place),
            _ => self.0.get(&(field, place)).copied().unwrap_or(0),
        }
    }

    /// A field that stands once.
    pub fn one(&self, field: u64) -> u64 {
        self.get(field, 0)
    }

    /// Sets some fields from one on, at a place.
    fn set(&mut self, from: u64, place: usize, values: &[u64]) {
        self.0.extend((from..).zip(values).map(|(field, value)| ((field, place), *value)));
    }

    /// How many stations are listed.
    pub fn stations(&self) -> usize {
        self.one(LISTED) as usize
    }

    /// The places of a station's queue that have a packet.
    pub fn filled(&self, station: usize) -> Range<usize> {
        let first = QUEUE_PLACES * station;
        first..first + self.get(QUEUE, station) as usize
    }

    /// The set-up and an edit for every other field that is not zero. Who contends is an edit for each, or where there are many
    /// stations one of the word.
    pub fn write(&self, script: &mut Script) {
        let station = |place| [ADDRESS, CAPABILITY].map(|field| self.get(field, place));
        let row: Vec<[u64; 2]> = (0..self.stations()).map(station).collect();
        let numbers = [DISCIPLINE, PARAMETERS, ADDRESSES, LAXITY_STEP].map(|field| self.one(field));
        script.set_up(numbers, row.len() as u64, row.len() as u64, &row);
        let many = row.len() > MANY;
        let written = |field: u64| field >= CLOCK && !(many && field == CONTENDS);
        let rest = self.0.iter().filter(|((field, _), value)| written(*field) && **value != 0);
        rest.for_each(|((field, place), value)| script.edit(*field, *place, *value));
        if many {
            script.edit(WORD, 0, self.one(WORD));
        }
    }

    /// A state that stands, with so many stations where there is room, and queues of drawn lengths.
    pub fn made(numbers: &mut Numbers, (discipline, phase): State, stations: u64, clock: u64, lengths: &[u64]) -> Lent {
        let mut lent = Lent::default();
        let spaces: &[u32] =
            if stations > MANY as u64 { &[64, 257, 65_536] } else { &[2, 3, 4, 5, 7, 8, 16, 257, 65_536] };
        let (fields, row) = set_up_of(&bus(numbers, discipline, spaces, LAXITY_STEPS, stations));
        lent.set(DISCIPLINE, 0, &fields);
        lent.set(LISTED, 0, &[row.len() as u64]);
        row.iter().enumerate().for_each(|(place, station)| lent.set(ADDRESS, place, station));
        lent.set(CLOCK, 0, &[clock]);
        lent.queue_up(numbers, lengths);
        lent.set(TURNED_AWAY, 0, &[numbers.pick(TURNED)]);
        if discipline == RTVC && numbers.once_in(2) {
            lent.set(WON, 0, &[1, numbers.pick(&row)[1]]);
        }
        if phase != Phase::Between {
            (0..row.len()).for_each(|station| lent.contend(numbers, station));
            lent.split(numbers, phase);
        }
        lent
    }

    /// Queues with packets, and the counts that go with them.
    fn queue_up(&mut self, numbers: &mut Numbers, lengths: &[u64]) {
        let lengths: Vec<u64> = (0..self.stations()).map(|_| numbers.pick(lengths)).collect();
        let waiting: u64 = lengths.iter().sum();
        let (sent, lost) = (numbers.pick(&[0, 1, 20, 70_000]), numbers.pick(&[0, 0, 1, 9]));
        let admitted = waiting + sent + lost;
        self.set(ADMITTED, 0, &[admitted, sent, lost]);
        let mut packets = numbers.distinct(waiting as usize, admitted.max(1));
        for (station, length) in lengths.into_iter().enumerate() {
            let mut own: Vec<u64> = packets.drain(..length as usize).collect();
            own.sort_unstable();
            self.set(QUEUE, station, &[length]);
            for (place, number) in (QUEUE_PLACES * station..).zip(own) {
                self.set(NUMBER, place, &[number + 1, self.value(numbers), numbers.pick(&[1, 1, 2, 5, 4_096])]);
                self.set(ADMISSION, place, &[self.slot(numbers)]);
            }
        }
    }

    /// A slot that a packet may have been admitted in: the first, the present one, or any up to it.
    fn slot(&self, numbers: &mut Numbers) -> u64 {
        let clock = self.one(CLOCK);
        let any = numbers.between((0, clock));
        numbers.pick(&[0, 0, clock, any])
    }

    /// A value that a packet may have. In RTDG it is near the clock, on either side.
    fn value(&self, numbers: &mut Numbers) -> u64 {
        match self.one(DISCIPLINE) as u8 {
            PRI => numbers.below(self.one(PARAMETERS)),
            RTDG => (self.one(CLOCK) + numbers.below(40)).saturating_sub(5).min(LAST_SLOT.into()),
            _ => 0,
        }
    }

    /// A station that has a packet mostly contends with one of its own.
    fn contend(&mut self, numbers: &mut Numbers, station: usize) {
        let (filled, space) = (self.filled(station), self.one(PARAMETERS));
        if filled.is_empty() || numbers.once_in(5) {
            return;
        }
        let place = filled.start + numbers.place(filled.len());
        let [number, value, length, slot] = [NUMBER, VALUE, LENGTH, ADMISSION].map(|field| self.get(field, place));
        let parameter = match self.one(DISCIPLINE) as u8 {
            PRI => value,
            RTVC => self.get(CAPABILITY, station),
            _ => numbers.pick(&[0, 1, space - 1, station as u64 / 2 % space]),
        };
        self.set(CONTENDS, station, &[1, parameter, number, value, length]);
        self.set(OFFERED_ADMISSION, station, &[slot]);
    }

    /// A window that stands, often one that a contender is in, and in a tie often that contender's parameter.
    fn split(&mut self, numbers: &mut Numbers, phase: Phase) {
        let contender = numbers.place(self.stations());
        let parameter = self.get(PARAMETER, contender);
        let tied = phase == Phase::Ties;
        let (space, inside) = if tied { (ADDRESSES, self.get(ADDRESS, contender)) } else { (PARAMETERS, parameter) };
        let first = self.one(space).next_power_of_two();
        let size = first >> numbers.below(u64::from(first.trailing_zeros()) + 1);
        let multiple = if numbers.once_in(4) { numbers.below(first / size) } else { inside / size };
        let side = if size == first { 1 } else { multiple % 2 };
        self.set(BEGUN, 0, &[1, multiple * size, size, side]);
        if tied {
            let any = numbers.below(self.one(PARAMETERS));
            self.set(TIED, 0, &[1, if numbers.once_in(4) { any } else { parameter }]);
        }
    }

    /// An admission that the state takes, if the queue has a place.
    pub fn admission(&self, numbers: &mut Numbers) -> Admission {
        let station = numbers.place(self.stations());
        [self.get(ADDRESS, station), self.value(numbers), 1]
    }

    /// The places that a field is tried at: some that have a meaning, and some that have none.
    pub fn spots(&self, field: u64) -> Vec<usize> {
        let last = self.stations() - 1;
        let around =
            |queue: Range<usize>| [queue.start, queue.end.max(1) - 1, queue.end, queue.start + QUEUE_PLACES - 1];
        match places(field) {
            1 => vec![0],
            STATIONS => vec![0, last, (last + 1) % STATIONS, STATIONS - 1],
            all => {
                [around(self.filled(0)), around(self.filled(last)), [QUEUE_PLACES * (last + 1) % all, all - 1, 1, 2]]
                    .concat()
            }
        }
    }

    /// The values that a field at a place is tried with: at the edges of what it may be, in this state or in another, those
    /// of others of its kind, and at its bits.
    pub fn tried(&self, field: u64, place: usize) -> BTreeSet<u64> {
        let (parameters, addresses, admitted) = (self.one(PARAMETERS), self.one(ADDRESSES), self.one(ADMITTED));
        let one = |field, place| (self.get(field, place), self.get(field, place));
        let others = |field, places: Range<usize>| places.map(move |place| one(field, place));
        let stations = 0..self.stations();
        let (start, size) = (self.one(START), self.one(SIZE));
        let ranges: Ranges = match field {
            DISCIPLINE => vec![(0, 2)],
            PARAMETERS | ADDRESSES => vec![(2, 65_536)],
            LAXITY_STEP => vec![(1, 65_535)],
            LISTED => vec![(1, STATIONS as u64)],
            ADDRESS => others(ADDRESS, stations).chain([(0, addresses - 1)]).collect(),
            CAPABILITY | LAST_WINNER => others(CAPABILITY, stations).chain([(0, parameters - 1)]).collect(),
            CLOCK => vec![(0, LAST_SLOT.into()), (0, LAST_STEP.into())],
            ADMITTED | SENT | LOST => vec![(0, LAST_NUMBER)],
            TURNED_AWAY => vec![(0, MOST_TURNED_AWAY)],
            START | SIZE => vec![(start, start + size), (size / 2, 2 * size), (parameters, addresses)],
            TIE_VALUE | PARAMETER => others(PARAMETER, stations).chain([(0, parameters - 1)]).collect(),
            OFFERED_NUMBER | NUMBER => others(NUMBER, self.filled(0)).chain([(1, admitted)]).collect(),
            OFFERED_VALUE | VALUE => vec![(0, parameters - 1), (self.one(CLOCK), LAST_SLOT.into())],
            OFFERED_LENGTH | LENGTH => vec![(1, LONGEST_PACKET.into())],
            OFFERED_ADMISSION | ADMISSION => others(ADMISSION, self.filled(0)).chain([(0, self.one(CLOCK))]).collect(),
            QUEUE => vec![(0, QUEUE_PLACES as u64)],
            _ => Vec::new(),
        };
        let mut values = edges(bits(field), self.get(field, place), &ranges);
        if field == WORD {
            values.extend(self.words());
        }
        values
    }

    /// Words of contenders, the right one among them: with its bits at other places, with a half or more of it lost, with
    /// the bit of a listed station or one about N turned, and with the bits of all listed stations, all others, or all.
    fn words(&self) -> Vec<u64> {
        let (word, listed) = (self.one(WORD), u64::MAX >> (STATIONS - self.stations()));
        let (lower, reversed) = (word & u64::from(u32::MAX), word.reverse_bits());
        let moved =
            [word, word << 1, word >> 1, word.rotate_left(1), word.rotate_left(32), word << 32, word.swap_bytes()];
        let in_n = reversed >> (STATIONS - self.stations());
        let lost = [lower, word ^ lower, word & 0xFFFF, word & 0xFF, word & (u64::MAX >> 1), 0];
        let about = self.stations().saturating_sub(2)..(self.stations() + 2).min(STATIONS);
        let turned = about.chain([0, 1, 31, 32, STATIONS - 1]).map(|bit| word ^ (1 << bit));
        let filled = [listed, !listed, word | !listed, word ^ listed, u64::MAX];
        [&moved[..], &[reversed, in_n], &lost, &filled].concat().into_iter().chain(turned).collect()
    }

    /// A value for a field at a place: one of those that are tried, or for the word of contenders often any bits, of all
    /// places or of the listed ones, more of them set or fewer.
    pub fn drawn(&self, numbers: &mut Numbers, field: u64, place: usize) -> u64 {
        if field == WORD && numbers.once_in(3) {
            let (any, other) = (numbers.number(), numbers.number());
            let bits = numbers.pick(&[any, any & other, any | other]);
            return numbers.pick(&[bits, bits & (u64::MAX >> (STATIONS - self.stations()))]);
        }
        let values: Vec<u64> = self.tried(field, place).into_iter().collect();
        numbers.pick(&values)
    }
}

#[cfg(test)]
mod tests {
    use super::*;

    fn made(stations: u64) -> Lent {
        Lent::made(&mut Numbers::of(9, stations), (PRI, Phase::Parameters), stations, 100, &[0, 1, 2])
    }

    #[test]
    fn the_word_has_the_bit_of_each_contender() {
        for lent in [3, 33, 64].map(made) {
            let word = lent.one(WORD);
            assert!(word != 0 && (0..STATIONS).all(|place| word >> place & 1 == lent.get(CONTENDS, place)));
        }
        let written = |stations| {
            let mut script = Script::default();
            made(stations).write(&mut script);
            [CONTENDS, WORD].map(|field| script.text.matches(&format!("E {field} ")).count())
        };
        assert_eq!(written(64), [0, 1]);
        assert_eq!(written(3), [made(3).one(WORD).count_ones() as usize, 0]);
    }

    #[test]
    fn right_and_wrong_words_are_tried() {
        let lent = made(33);
        let (word, tried) = (lent.one(WORD), lent.tried(WORD, 0));
        let bits = [0, 1, 31, 32, 33, 34, 63].map(|bit| word ^ (1 << bit));
        let others = [word, word << 1, word >> 1, word & 0xFFFF_FFFF, word | u64::MAX << 33, u64::MAX << 33, u64::MAX];
        assert!(bits.iter().chain(&others).all(|value| tried.contains(value)));
    }
}
