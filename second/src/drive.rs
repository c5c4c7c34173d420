//! Plays a script of calls on one state and writes each answer and the state.

use std::io::Write;

use crate::admission::admit;
use crate::lines::Lines;
use crate::refusal::Refusal;
use crate::set_up::set_up;
use crate::state::{Contender, Packet, Settings, Side, State, Station, PLACES, STATIONS};
use crate::step::{begin, probe, step, Answer, Beginning, Event, Offer};
use crate::totals::totals;

/// "its first 65,536 bytes are read".
pub const LONGEST_SCRIPT: usize = 65_536;

/// The commands' letters.
const LETTERS: &[u8] = b"UABOSRTEP";

/// Numbers from here on read as the largest of 64 bits.
const READS_AS_LARGEST: u64 = 18_446_744_073_709_551_610;

/// "up to 512 calls", and "the 512 places" of their reports.
const CALLS: usize = 512;

/// "a row of 64 places of arrivals", and "fewer than 64 arrivals taken".
const ARRIVALS: usize = 64;

/// The numbers of a report after its place.
type Report = [u64; 17];

/// "what it does not have is zero".
const ZERO_REPORT: Report = [0; 17];

/// Plays a whole script; "At the script's end the state is written once more".
pub fn drive<W: Write>(script: &[u8], lines: &mut Lines<W>) {
    let mut state = State::ZERO;
    let mut script = Script {
        bytes: &script[..script.len().min(LONGEST_SCRIPT)],
        at: 0,
    };
    while let Some(letter) = script.letter() {
        match letter {
            b'U' => play_set_up(&mut state, &mut script, lines),
            b'A' => play_admission(&mut state, &mut script, lines),
            b'B' => play_begin(&mut state, lines),
            b'O' => play_probe(&mut state, lines),
            b'S' => play_step(&mut state, lines),
            b'R' => play_stretch(&mut state, &mut script, lines),
            b'T' => play_totals(&state, lines),
            b'E' => play_change(&mut state, &mut script),
            _ => write_state(&state, lines),
        }
    }
    write_state(&state, lines);
}

/// A script and how far it has been read.
struct Script<'a> {
    bytes: &'a [u8],
    at: usize,
}

impl Script<'_> {
    fn byte(&mut self) -> Option<u8> {
        let byte = *self.bytes.get(self.at)?;
        self.at += 1;
        Some(byte)
    }

    /// "every byte is passed over until a command's letter; `#` passes over the rest of its line".
    fn letter(&mut self) -> Option<u8> {
        loop {
            match self.byte()? {
                b'#' => self.pass_line(),
                letter if LETTERS.contains(&letter) => return Some(letter),
                _ => {}
            }
        }
    }

    fn pass_line(&mut self) {
        while self.byte().is_some_and(|byte| byte != b'\n') {}
    }

    /// "bytes that are no digit are passed over, then its digits are read, decimal".
    fn number(&mut self) -> u64 {
        while self.digit().is_none() && self.at < self.bytes.len() {
            self.at += 1;
        }
        let mut number: u64 = 0;
        while let Some(digit) = self.digit() {
            number = number.saturating_mul(10).saturating_add(digit);
            self.at += 1;
        }
        if number >= READS_AS_LARGEST {
            u64::MAX
        } else {
            number
        }
    }

    /// The digit that stands next, if one does.
    fn digit(&self) -> Option<u64> {
        let byte = *self.bytes.get(self.at)?;
        byte.is_ascii_digit().then(|| u64::from(byte - b'0'))
    }

    /// A number stored in 32 bits.
    fn number32(&mut self) -> u32 {
        self.number() as u32
    }
}

/// `U`: "set-up, with a row of 64 places of which the first `length` are filled".
fn play_set_up<W: Write>(state: &mut State, script: &mut Script, lines: &mut Lines<W>) {
    let settings = Settings {
        discipline: script.number32(),
        d: script.number32(),
        a: script.number32(),
        q: script.number32(),
        n: script.number(),
    };
    let filled = at_most_64(script.number());
    let pairs = at_most_64(script.number());
    let mut row = [Station::ZERO; STATIONS];
    for station in &mut row[..pairs] {
        station.address = script.number32();
        station.capability = script.number32();
    }
    let (passed, fresh) = set_up(settings, &row[..filled]);
    *state = fresh;
    let (refusal, station) = match passed {
        Ok(()) => (0, 0),
        Err(refused) => (refused.refusal.number(), refused.station),
    };
    lines
        .word("U")
        .number(refusal)
        .number(station as u64)
        .close();
}

/// "k above 64 counts as 64, and `length` above 64 as 64".
fn at_most_64(number: u64) -> usize {
    number.min(STATIONS as u64) as usize
}

/// `A`: admission.
fn play_admission<W: Write>(state: &mut State, script: &mut Script, lines: &mut Lines<W>) {
    let address = script.number32();
    let value = script.number32();
    let length = script.number32();
    let numbers = admission_numbers(state, address, value, length);
    lines.word("A").numbers(&numbers).close();
}

/// Admits; "the two numbers of an `A` line".
fn admission_numbers(state: &mut State, address: u32, value: u32, length: u32) -> [u64; 2] {
    match admit(state, address, value, length) {
        Ok(number) => [0, u64::from(number)],
        Err(refusal) => [u64::from(refusal.number()), 0],
    }
}

/// `B`: begins a contention; after its line "for each station that contends" one more.
fn play_begin<W: Write>(state: &mut State, lines: &mut Lines<W>) {
    match begin(state) {
        Ok(beginning) => write_beginning(&beginning, lines),
        // "A refused begin writes its number, five zeros and no such line."
        Err(refusal) => lines
            .word("B")
            .number(refusal.number())
            .numbers(&[0; 5])
            .close(),
    }
}

/// "B refusal drops slot start size contenders", of a begin that was not refused, and its offers.
fn write_beginning<W: Write>(beginning: &Beginning, lines: &mut Lines<W>) {
    lines
        .word("B")
        .number(0u64)
        .number(beginning.drops)
        .number(beginning.slot)
        .number(beginning.start)
        .number(beginning.size)
        .number(beginning.contenders)
        .close();
    for offer in &beginning.offers {
        write_offer(offer, lines);
    }
}

/// "offer i address number parameter".
fn write_offer<W: Write>(offer: &Offer, lines: &mut Lines<W>) {
    lines
        .word("offer")
        .number(offer.place as u64)
        .number(offer.address)
        .number(offer.number)
        .number(offer.parameter)
        .close();
}

/// `O`: "probes one slot"; "`O` and the twelve numbers of an `S` line".
fn play_probe<W: Write>(state: &mut State, lines: &mut Lines<W>) {
    let numbers = answered_numbers(probe(state));
    lines.word("O").numbers(&numbers).close();
}

/// `S`: step.
fn play_step<W: Write>(state: &mut State, lines: &mut Lines<W>) {
    lines.word("S").numbers(&step_numbers(state)).close();
}

/// Steps; "the twelve numbers of an `S` line".
fn step_numbers(state: &mut State) -> [u64; 12] {
    answered_numbers(step(state))
}

/// The twelve numbers of a step or a probe; "zero in the answer's other fields" for a refusal.
fn answered_numbers(answered: Result<Answer, Refusal>) -> [u64; 12] {
    match answered {
        Ok(answer) => answer_numbers(&answer),
        Err(refusal) => refused_numbers(refusal),
    }
}

/// The number of a refused step or probe, and zeros.
fn refused_numbers(refusal: Refusal) -> [u64; 12] {
    let mut numbers = [0; 12];
    numbers[0] = u64::from(refusal.number());
    numbers
}

/// The fields of a step or a probe that was not refused.
fn answer_numbers(answer: &Answer) -> [u64; 12] {
    let [event, address, number, length, wait] = event_numbers(&answer.event);
    [
        0,
        answer.drops,
        u64::from(answer.slot),
        u64::from(answer.tied),
        answer.start,
        answer.size,
        event,
        address,
        number,
        length,
        wait,
        u64::from(answer.ended),
    ]
}

/// "event 0 idle, 1 collision, 2 success"; address, packet number, length and wait "on success, else 0".
fn event_numbers(event: &Event) -> [u64; 5] {
    match *event {
        Event::Idle => [0, 0, 0, 0, 0],
        Event::Collision => [1, 0, 0, 0, 0],
        Event::Success {
            address,
            number,
            length,
            wait,
        } => [2, address, number, length, wait].map(u64::from),
    }
}

/// An arrival of a stretch.
#[derive(Clone, Copy)]
struct Arrival {
    time: u32,
    address: u32,
    value: u32,
    length: u32,
}

impl Arrival {
    const ZERO: Arrival = Arrival {
        time: 0,
        address: 0,
        value: 0,
        length: 0,
    };
}

/// `R`: "a row of 64 places of arrivals of which the first `length` are filled; the fours stand in its
/// first places, the others are zero".
fn play_stretch<W: Write>(state: &mut State, script: &mut Script, lines: &mut Lines<W>) {
    let steps = script.number32();
    let filled = at_most_64(script.number());
    let fours = at_most_64(script.number());
    let mut row = [Arrival::ZERO; ARRIVALS];
    for arrival in &mut row[..fours] {
        arrival.time = script.number32();
        arrival.address = script.number32();
        arrival.value = script.number32();
        arrival.length = script.number32();
    }
    let stretch = stretch(state, &row[..filled], steps);
    for (place, report) in stretch.reports.iter().enumerate() {
        write_place("call", place, report, lines);
    }
    lines
        .word("R")
        .number(stretch.made as u64)
        .number(stretch.taken as u64)
        .number(stretch.left)
        .close();
}

/// "the calls made, the arrivals taken and the steps left where it ends", and the reports.
struct Stretch {
    made: usize,
    taken: usize,
    left: u32,
    reports: [Report; CALLS],
}

/// "A stretch is made of the single calls."
fn stretch(state: &mut State, row: &[Arrival], steps: u32) -> Stretch {
    let mut stretch = Stretch {
        made: 0,
        taken: 0,
        left: steps,
        reports: [ZERO_REPORT; CALLS],
    };
    // "fewer than 512 calls have been made, fewer than 64 arrivals taken, and a step is left".
    while stretch.made < CALLS && stretch.taken < ARRIVALS && stretch.left > 0 {
        stretch.reports[stretch.made] = match next_arrival(state, &row[stretch.taken..]) {
            Some(arrival) => {
                stretch.taken += 1;
                admission_report(state, arrival)
            }
            None => {
                stretch.left -= 1;
                step_report(state)
            }
        };
        stretch.made += 1;
    }
    stretch
}

/// "if an arrival comes next among the first `length` of the row and its time is not above the clock".
fn next_arrival<'a>(state: &State, rest: &'a [Arrival]) -> Option<&'a Arrival> {
    rest.first().filter(|arrival| arrival.time <= state.clock)
}

/// "the clock before the call", and of an admission "the arrival's address and the two numbers of an
/// `A` line".
fn admission_report(state: &mut State, arrival: &Arrival) -> Report {
    let clock = u64::from(state.clock);
    let address = u64::from(arrival.address);
    let [refusal, number] =
        admission_numbers(state, arrival.address, arrival.value, arrival.length);
    let mut report = ZERO_REPORT;
    report[..5].copy_from_slice(&[1, clock, address, refusal, number]);
    report
}

/// "the clock before the call", and "of a step the twelve numbers of an `S` line".
fn step_report(state: &mut State) -> Report {
    let mut report = ZERO_REPORT;
    report[1] = u64::from(state.clock);
    report[5..].copy_from_slice(&step_numbers(state));
    report
}

/// `T`: "the closing numbers of a state that stands; any other is refused with 1, and zeros".
fn play_totals<W: Write>(state: &State, lines: &mut Lines<W>) {
    lines.word("T");
    match totals(state) {
        Ok(totals) => lines
            .number(0u64)
            .number(totals.clock)
            .number(totals.admitted)
            .number(totals.sent)
            .number(totals.lost)
            .number(totals.waiting)
            .number(totals.turned_away)
            .close(),
        Err(refusal) => lines.number(refusal.number()).numbers(&[0; 6]).close(),
    }
}

/// `E`: "the state with one field changed".
fn play_change(state: &mut State, script: &mut Script) {
    let field = script.number();
    let index = script.number();
    let value = script.number();
    let place = (index % STATIONS as u64) as usize;
    match field {
        1..=5 => change_settings(&mut state.settings, field, value),
        6 => state.stations[place].address = value as u32,
        7 => state.stations[place].capability = value as u32,
        8..=13 | 32 => change_counts(state, field, value),
        14..=19 => change_contention(state, field, value),
        20..=24 | 29 => change_contender(&mut state.contenders[place], field, value),
        25 => state.waiting[place] = value,
        26..=28 | 30 => {
            let packet = &mut state.packets[(index % PLACES as u64) as usize];
            change_packet(packet, field, value as u32);
        }
        31 => change_word(&mut state.contenders, value),
        _ => {}
    }
}

/// Fields 1 to 5.
fn change_settings(settings: &mut Settings, field: u64, value: u64) {
    match field {
        1 => settings.discipline = value as u32,
        2 => settings.d = value as u32,
        3 => settings.a = value as u32,
        4 => settings.q = value as u32,
        _ => settings.n = value,
    }
}

/// Fields 8 to 13, and 32: clock, counts and round.
fn change_counts(state: &mut State, field: u64, value: u64) {
    match field {
        8 => state.clock = value as u32,
        9 => state.admitted = value,
        10 => state.sent = value,
        11 => state.lost = value,
        12 => state.won = yes(value),
        13 => state.last = value as u32,
        _ => state.turned_away = value,
    }
}

/// Fields 14 to 19.
fn change_contention(state: &mut State, field: u64, value: u64) {
    let contention = &mut state.contention;
    match field {
        14 => contention.begun = yes(value),
        15 => contention.window.start = value,
        16 => contention.window.size = value,
        17 => contention.window.side = side(value),
        18 => contention.tied = yes(value),
        _ => contention.tie = value,
    }
}

/// Fields 20 to 24, and 29.
fn change_contender(contender: &mut Contender, field: u64, value: u64) {
    match field {
        20 => contender.contends = yes(value),
        21 => contender.parameter = value,
        _ => change_packet(&mut contender.packet, field, value as u32),
    }
}

/// Field 31: "the station at place i contends where bit i is set", and no other does; what a station
/// contends with stays as it is.
fn change_word(contenders: &mut [Contender; STATIONS], word: u64) {
    for (place, contender) in contenders.iter_mut().enumerate() {
        contender.contends = word & (1 << place) != 0;
    }
}

/// Number, value, length and admission slot: 22, 23, 24 and 29 of an offered packet, 26, 27, 28 and 30
/// of a queued one.
fn change_packet(packet: &mut Packet, field: u64, value: u32) {
    match field {
        22 | 26 => packet.number = value,
        23 | 27 => packet.value = value,
        24 | 28 => packet.length = value,
        _ => packet.admission = value,
    }
}

/// "modulo 2 where it is a yes or no (1 is yes)".
fn yes(value: u64) -> bool {
    value % 2 == 1
}

/// "a side (0 left, 1 right)".
fn side(value: u64) -> Side {
    if yes(value) {
        Side::Right
    } else {
        Side::Left
    }
}

/// Writes a state.
fn write_state<W: Write>(state: &State, lines: &mut Lines<W>) {
    write_single_fields(state, lines);
    for (place, station) in state.stations.iter().enumerate() {
        let fields = [u64::from(station.address), u64::from(station.capability)];
        write_place("station", place, &fields, lines);
    }
    for (place, contender) in state.contenders.iter().enumerate() {
        write_place("contender", place, &contender_fields(contender), lines);
    }
    for (place, &waiting) in state.waiting.iter().enumerate() {
        write_place("queue", place, &[waiting], lines);
    }
    for (place, packet) in state.packets.iter().enumerate() {
        write_place("packet", place, &packet_fields(packet), lines);
    }
    lines.word("end").close();
}

/// The five lines that are always written.
fn write_single_fields<W: Write>(state: &State, lines: &mut Lines<W>) {
    let settings = &state.settings;
    lines
        .word("settings")
        .number(settings.discipline)
        .number(settings.d)
        .number(settings.a)
        .number(settings.q)
        .number(settings.n)
        .close();
    lines.word("clock").number(state.clock).close();
    lines
        .word("counts")
        .numbers(&[state.admitted, state.sent, state.lost, state.turned_away])
        .close();
    lines
        .word("round")
        .number(state.won)
        .number(state.last)
        .close();
    let contention = &state.contention;
    lines
        .word("contention")
        .number(contention.begun)
        .number(contention.window.start)
        .number(contention.window.size)
        .number(contention.window.side == Side::Right)
        .number(contention.tied)
        .number(contention.tie)
        .close();
}

/// "contender i contends parameter number value length admission".
fn contender_fields(contender: &Contender) -> [u64; 6] {
    let [number, value, length, admission] = packet_fields(&contender.packet);
    let contends = u64::from(contender.contends);
    [
        contends,
        contender.parameter,
        number,
        value,
        length,
        admission,
    ]
}

/// "packet j number value length admission".
fn packet_fields(packet: &Packet) -> [u64; 4] {
    [packet.number, packet.value, packet.length, packet.admission].map(u64::from)
}

/// A line "for each place ... where not all of its numbers after the place are zero".
fn write_place<W: Write>(word: &str, place: usize, fields: &[u64], lines: &mut Lines<W>) {
    if fields.iter().any(|&field| field != 0) {
        lines
            .word(word)
            .number(place as u64)
            .numbers(fields)
            .close();
    }
}
