//! Tables of contentions that are begun and probed in calls of their own: the order of refusals, who contends among many
//! stations, and steps beside begins and probes.

use super::calls::{plain, values, LAST, NOW};
use super::lent::{states, Lent, State, CLOCK, LAST_WINNER, WON};
use super::table::accepted;
use super::text::{words, Script};
use crate::case::{refused, step_report, Case, Shows};
use crate::records::{LAST_STEP, PRI, QUEUE_PLACES, RTDG, RTVC, STATIONS};
use crate::seeded::Numbers;

/// The calls of which the order of refusals is tried, and the clocks.
const CALLS: [&str; 4] = ["B", "O", "S", "R 1 0 0"];
const CLOCKS: [u64; 4] = [NOW, LAST_STEP as u64, LAST_STEP as u64 + 1, LAST];

/// Each call on states that are broken or not, in a contention or between, up to the last step's clock or past it.
pub fn orders() -> Vec<Case> {
    let case = |at: usize| {
        let bits = [1, 2].map(|bit| at & bit != 0);
        order([PRI, RTDG, RTVC][at / 64], CALLS[at / 16 % 4], CLOCKS[at / 4 % 4], bits)
    };
    (0..3 * 64).map(case).collect()
}

/// A call on the state of one packet, which wins where a slot is probed: the first refusal in order decides.
fn order(discipline: u8, call: &str, clock: u64, [broken, under_way]: [bool; 2]) -> Case {
    let begin = if under_way { "B" } else { "" };
    let edit = if broken { format!("E {LAST_WINNER} 0 1") } else { String::new() };
    let (set_up, value) = (words(&plain(discipline)), values(discipline).1);
    let text = format!("U {set_up} E {CLOCK} 0 {NOW} A 7 {value} 1 {begin} E {CLOCK} 0 {clock} {edit} P {call}");
    let late = clock > LAST_STEP.into();
    let tests = match call {
        "B" => vec![(broken, 1), (under_way, 25)],
        "O" => vec![(broken, 1), (!under_way, 26), (late, 17)],
        _ => vec![(broken, 1), (late, 17)],
    };
    let refusal = tests.into_iter().find(|(fault, _)| *fault).map(|(_, number)| number);
    let answer = |letter| match refusal {
        Some(number) => refused(letter, number),
        None => format!("{letter} 0 0 {clock} 0 0 8 2 7 1 1 {} 1", clock - NOW),
    };
    let begun = |slot: u64| {
        let parameter = if discipline == RTDG { ((LAST - slot) / 10).min(4) } else { 4 };
        vec![format!("B 0 0 {slot} 0 8 1"), format!("offer 0 7 1 {parameter}")]
    };
    let before = if under_way { begun(NOW) } else { Vec::new() };
    let lines = match call {
        "B" if refusal.is_none() => begun(clock),
        "B" => vec![answer('B')],
        "O" => vec![answer('O')],
        "S" => vec![answer('S')],
        _ => vec![step_report(0, clock, &answer('S')), "R 1 0 0".to_string()],
    };
    let state = |same: bool| vec![if same { "same" } else { "state" }.to_string()];
    let writes = [accepted(&text), before, state(false), lines, state(refusal.is_some())].concat();
    let name = format!("{call} in discipline {discipline} at {clock}, broken {broken}, under way {under_way}");
    Case::new(name, text, vec![Shows::Writes(writes)])
}

/// Who contends as a contention begins, by the places of stations: all of so many, and some of 64; in RTVC circuits that sit
/// out; in RTDG packets that are dropped, up to 1,024.
pub fn contenders() -> Vec<Case> {
    let all = [1, 2, 31, 32, 33, 63, 64].map(|stations| (stations, u64::MAX >> (STATIONS - stations)));
    let (lower, odd) = (u64::from(u32::MAX), u64::MAX / 3);
    let some = [0, 1, 1 << 31, 1 << 32, 1 << 63, 3 << 31, lower, !lower, odd, !odd, u64::MAX >> 1, !1];
    let segments = all.into_iter().chain(some.map(|word| (STATIONS, word)));
    let each = segments.flat_map(|(stations, word)| {
        [PRI, RTDG, RTVC].map(|discipline| Segment { discipline, stations, word, late: 0, last: None })
    });
    let full = |discipline| Segment { discipline, stations: STATIONS, word: u64::MAX, late: 0, last: None };
    let sitting = [0, 31, 32, 62, 63].map(|last| Segment { last: Some(last), ..full(RTVC) });
    let late = [0, 1 << 63, odd, u64::MAX].map(|word| Segment { word, late: QUEUE_PLACES - 1, ..full(RTDG) });
    each.chain(sitting).chain(late).map(|segment| segment.case()).collect()
}

/// At the places of a word's bits a station has a packet, the earlier the higher the place. In each queue so many are late, and
/// one more where it has no other. A circuit of some capability has won last.
#[derive(Debug)]
struct Segment {
    discipline: u8,
    stations: usize,
    word: u64,
    late: usize,
    last: Option<u64>,
}

/// The address of the station at a place; its parameter, which falls as places rise.
fn address(place: usize) -> u64 {
    7 + 1_021 * place as u64
}

fn parameter(place: usize) -> u64 {
    (STATIONS - 1 - place) as u64
}

impl Segment {
    fn waits(&self, place: usize) -> bool {
        self.word >> place & 1 == 1
    }

    fn dropped(&self, place: usize) -> usize {
        self.late + usize::from(self.late > 0 && !self.waits(place))
    }

    /// The number of the packet that a station offers: it comes last in its queue, after those of higher places.
    fn number(&self, place: usize) -> usize {
        (place..self.stations).map(|place| self.dropped(place) + usize::from(self.waits(place))).sum()
    }

    fn script(&self) -> String {
        let mut script = Script::default();
        let capability = |place| if self.discipline == RTVC { parameter(place) } else { 0 };
        let row: Vec<[u64; 2]> = (0..self.stations).map(|place| [address(place), capability(place)]).collect();
        let (many, laxity_step) = (self.stations as u64, if self.discipline == RTDG { 10 } else { 1 });
        script.set_up([self.discipline.into(), STATIONS as u64, 65_536, laxity_step], many, many, &row);
        for place in (0..self.stations).rev() {
            let value = [parameter(place), NOW + 10 * parameter(place) + 9, 0][usize::from(self.discipline)];
            (0..self.dropped(place)).for_each(|_| script.admit(&[address(place), NOW - 1, 1]));
            (0..u8::from(self.waits(place))).for_each(|_| script.admit(&[address(place), value, 1]));
        }
        script.edit(CLOCK, 0, NOW);
        script.edit(WON, 0, self.last.is_some().into());
        script.edit(LAST_WINNER, 0, self.last.unwrap_or(0));
        script.put("B P O");
        script.text
    }

    fn case(&self) -> Case {
        let text = self.script();
        let contends = |place: &usize| self.waits(*place) && self.last.is_none_or(|last| parameter(*place) > last);
        let contenders: Vec<usize> = (0..self.stations).filter(contends).collect();
        let drops: usize = (0..self.stations).map(|place| self.dropped(place)).sum();
        let word = contenders.iter().fold(0_u64, |word, place| word | 1 << place);
        let event = match contenders[..] {
            [] => "0 0 0 0 0 1".to_string(),
            [place] => format!("2 {} {} 1 {NOW} 1", address(place), self.number(place)),
            _ => "1 0 0 0 0 0".to_string(),
        };
        let offer = |place| format!("offer {place} {} {} {}", address(place), self.number(place), parameter(place));
        let [begin, state] = [format!("B 0 {drops} {NOW} 0 {STATIONS} {word}"), "state".to_string()];
        let probe = format!("O 0 0 {NOW} 0 0 {STATIONS} {event}");
        let offers = contenders.into_iter().map(offer).collect();
        let writes = [accepted(&text), vec![begin], offers, vec![state.clone(), probe, state]].concat();
        Case::new(format!("{self:?}"), text, vec![Shows::Writes(writes)])
    }
}

/// Steps, and a begin and a probe for each of them, from states of each discipline and phase on: of few stations, with
/// admissions and every state between, and of 64.
pub fn pairs() -> Vec<Case> {
    states().into_iter().enumerate().flat_map(|(at, state)| pairs_of(state, Numbers::of(3, at as u64))).collect()
}

fn pairs_of(state: State, mut numbers: Numbers) -> [Case; 2] {
    let few = Lent::made(&mut numbers, state, 3, 100, &[1, 2, 3]);
    let many = Lent::made(&mut numbers, state, STATIONS as u64, 100, &[0, 1, 1, 2]);
    let calls = (0..8).map(|_| format!("S P S P S P S P S P A {} ", words(&few.admission(&mut numbers)))).collect();
    [("few", few, calls), ("64", many, "S ".repeat(80))].map(|(name, lent, calls): (_, _, String)| {
        let mut script = Script::default();
        lent.write(&mut script);
        let made = script.text;
        let text = format!("{made}P {calls}P\n{made}P {}", calls.replace('S', "B O"));
        Case::new(format!("{name} stations, {state:?}"), text, vec![Shows::Pairs])
    })
}
