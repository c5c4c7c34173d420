//! What the second engine's listing shows of a scenario: its contentions, how they went, and what waited as each began.

use compare::records::{Arrival, Scenario};
use second::lines::Lines;
use second::listing::list;
use std::collections::BTreeMap;

/// One contention.
#[derive(Debug)]
pub struct Contention {
    /// The packets that wait as it begins, without those that drop then.
    pub waiting: usize,
    /// The stations that have a packet as it begins; the listing tells that only where nothing is dropped.
    pub busy: usize,
    pub probes: usize,
    pub collisions: usize,
    pub tie_probes: usize,
    /// The smallest window of the tie phase; the largest number where there was no tie.
    pub smallest_tie: u32,
    pub sent: bool,
}

/// The counts of the last line.
#[derive(Default)]
pub struct End {
    pub sent: u64,
    pub lost: u64,
    pub waiting: u64,
    pub turned_away: u64,
}

/// All of it. Arrivals are refused only because a queue is full.
#[derive(Default)]
pub struct Shown {
    pub contentions: Vec<Contention>,
    pub refused: usize,
    pub end: End,
}

impl Shown {
    /// The slots that were probed.
    pub fn slots(&self) -> usize {
        self.contentions.iter().map(|contention| contention.probes).sum()
    }

    /// How many contentions pass a test.
    pub fn count(&self, test: fn(&Contention) -> bool) -> usize {
        self.contentions.iter().filter(|contention| test(contention)).count()
    }
}

/// Plays a scenario through the second engine and reads its listing.
pub fn shown(scenario: &Scenario) -> Shown {
    let mut reading = Reading {
        scenario,
        ahead: &scenario.arrivals,
        queues: BTreeMap::new(),
        dropped: 0,
        under_way: false,
        shown: Shown::default(),
    };
    for line in listing(scenario).lines() {
        reading.line(&line.split(' ').collect::<Vec<_>>());
    }
    reading.shown
}

fn listing(scenario: &Scenario) -> String {
    let mut lines = Lines::new(Vec::new());
    list(&scenario.bytes(), &mut lines);
    String::from_utf8(lines.finish()).expect("a listing is text")
}

/// A listing as it is read: the arrivals ahead, the queues by address as if nothing were dropped, and the drops.
struct Reading<'a> {
    scenario: &'a Scenario,
    ahead: &'a [Arrival],
    queues: BTreeMap<u16, usize>,
    dropped: usize,
    under_way: bool,
    shown: Shown,
}

impl Reading<'_> {
    fn line(&mut self, words: &[&str]) {
        match words {
            ["R", slot, address, "15"] => self.refuse(number(slot), number(address)),
            ["D", count] => self.dropped += number::<usize>(count),
            ["END", _, _, sent, lost, waiting, turned_away] => {
                self.shown.end = End {
                    sent: number(sent),
                    lost: number(lost),
                    waiting: number(waiting),
                    turned_away: number(turned_away),
                }
            }
            [slot, phase, start, size, event @ ..] => {
                self.begin(number(slot));
                self.probe(*phase == "T", number(start), number(size), event);
            }
            _ => panic!("a line that no scenario here has: {words:?}"),
        }
    }

    /// The arrivals whose time has come join their queues.
    fn arrive(&mut self, slot: u32) {
        let due = self.ahead.iter().take_while(|arrival| arrival.time <= slot).count();
        let (due, later) = self.ahead.split_at(due);
        for arrival in due {
            *self.queues.entry(arrival.address).or_default() += 1;
        }
        self.ahead = later;
    }

    fn refuse(&mut self, slot: u32, address: u16) {
        self.arrive(slot);
        self.leave(address);
        self.shown.refused += 1;
    }

    fn leave(&mut self, address: u16) {
        *self.queues.get_mut(&address).expect("the address of an arrival") -= 1;
    }

    /// A contention begins where none is under way.
    fn begin(&mut self, slot: u32) {
        self.arrive(slot);
        if self.under_way {
            return;
        }
        self.under_way = true;
        self.shown.contentions.push(Contention {
            waiting: self.queues.values().sum::<usize>() - self.dropped,
            busy: self.queues.values().filter(|waiting| **waiting > 0).count(),
            probes: 0,
            collisions: 0,
            tie_probes: 0,
            smallest_tie: u32::MAX,
            sent: false,
        });
    }

    fn probe(&mut self, tie: bool, start: u32, size: u32, event: &[&str]) {
        let contention = self.shown.contentions.last_mut().expect("a contention is under way");
        contention.probes += 1;
        contention.collisions += usize::from(event == ["C"]);
        if tie {
            contention.tie_probes += 1;
            contention.smallest_tie = contention.smallest_tie.min(size);
        }
        if let ["S", address, ..] = event {
            contention.sent = true;
            self.under_way = false;
            self.leave(number(address));
        } else if event == ["I"] && self.is_right(tie, start, size) {
            self.under_way = false;
        }
    }

    /// Yes for a first window and for a right half.
    fn is_right(&self, tie: bool, start: u32, size: u32) -> bool {
        let set_up = &self.scenario.set_up;
        let space = if tie { set_up.addresses } else { set_up.parameters };
        size == space.next_power_of_two() || start / size % 2 == 1
    }
}

fn number<N: std::str::FromStr>(word: &str) -> N {
    word.parse().ok().expect("a field is a number")
}

#[cfg(test)]
mod tests {
    use super::*;
    use compare::records::{SetUp, Station, PRI, RTDG};

    /// Two stations, D 2, A 2; packets by address and value, all at slot 0.
    fn small(discipline: u8, packets: &[(u16, u32)], steps: u16) -> Scenario {
        Scenario {
            set_up: SetUp {
                discipline,
                parameters: 2,
                addresses: 2,
                laxity_step: 1,
                stations: 2,
            },
            stations: [0, 1].map(|address| Station { address, capability: 0 }).to_vec(),
            arrivals: packets.iter().map(at_once).collect(),
            steps,
        }
    }

    fn at_once(&(address, value): &(u16, u32)) -> Arrival {
        Arrival {
            time: 0,
            address,
            value,
            length: 1,
        }
    }

    fn each(shown: &Shown, field: fn(&Contention) -> usize) -> Vec<usize> {
        shown.contentions.iter().map(field).collect()
    }

    #[test]
    fn a_tie_with_a_full_queue() {
        let packets = [[(0, 0); 17].as_slice(), &[(1, 0)]].concat();
        let shown = shown(&small(PRI, &packets, 5));
        assert_eq!(each(&shown, |contention| contention.probes), [4, 1]);
        assert_eq!(each(&shown, |contention| contention.waiting), [17, 16]);
        assert_eq!(each(&shown, |contention| contention.busy), [2, 2]);
        assert_eq!(each(&shown, |contention| contention.collisions), [3, 1]);
        assert_eq!(each(&shown, |contention| contention.tie_probes), [2, 0]);
        assert_eq!(each(&shown, |contention| usize::from(contention.sent)), [1, 0]);
        assert_eq!(shown.contentions[0].smallest_tie, 1);
        assert_eq!((shown.refused, shown.slots()), (1, 5));
        assert_eq!(
            (shown.end.sent, shown.end.lost, shown.end.waiting, shown.end.turned_away),
            (1, 0, 16, 1)
        );
    }

    /// The settled example of two packets that are late before either can be sent.
    #[test]
    fn late_packets_do_not_wait() {
        let shown = shown(&small(RTDG, &[(0, 0), (1, 1)], 4));
        assert_eq!(each(&shown, |contention| contention.probes), [3, 1]);
        assert_eq!(each(&shown, |contention| contention.waiting), [2, 0]);
        assert_eq!(
            (shown.end.sent, shown.end.lost, shown.end.waiting, shown.end.turned_away),
            (0, 2, 0, 0)
        );
    }
}
