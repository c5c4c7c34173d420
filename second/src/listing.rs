//! The listing: plays a scenario and writes its lines.

use std::io::Write;

use crate::lines::Lines;
use crate::play::{play, Told};
use crate::refusal::Refusal;
use crate::scenario::{read, Arrival};
use crate::step::{Answer, Event};
use crate::totals::Totals;

/// Writes the listing of an input; "A refused scenario prints only `REFUSED number offset`".
pub fn list<W: Write>(input: &[u8], lines: &mut Lines<W>) {
    match read(input) {
        Ok(scenario) => {
            let totals = play(scenario, |told| list_told(&told, lines));
            list_end(&totals, lines);
        }
        Err(refused) => lines
            .word("REFUSED")
            .number(refused.refusal.number())
            .number(refused.offset as u64)
            .close(),
    }
}

fn list_told<W: Write>(told: &Told, lines: &mut Lines<W>) {
    match *told {
        Told::Refused {
            clock,
            arrival,
            refusal,
        } => list_refused(clock, arrival, refusal, lines),
        Told::Answered(answer) => list_answer(answer, lines),
    }
}

/// "`R slot address number` (the clock, the refusal) for a refused arrival".
fn list_refused<W: Write>(clock: u32, arrival: &Arrival, refusal: Refusal, lines: &mut Lines<W>) {
    lines
        .word("R")
        .number(clock)
        .number(arrival.address)
        .number(refusal.number())
        .close();
}

/// "`D count` if packets were dropped, then `slot phase start size event`".
fn list_answer<W: Write>(answer: &Answer, lines: &mut Lines<W>) {
    if answer.drops > 0 {
        lines.word("D").number(answer.drops).close();
    }
    lines
        .number(answer.slot)
        .word(if answer.tied { "T" } else { "P" })
        .number(answer.start)
        .number(answer.size);
    list_event(&answer.event, lines);
    lines.close();
}

/// "event I, C, or S with address, packet number, length", and "the wait as a fourth number after S".
fn list_event<W: Write>(event: &Event, lines: &mut Lines<W>) {
    match *event {
        Event::Idle => lines.word("I"),
        Event::Collision => lines.word("C"),
        Event::Success {
            address,
            number,
            length,
            wait,
        } => lines
            .word("S")
            .number(address)
            .number(number)
            .number(length)
            .number(wait),
    };
}

/// "Last: `END clock admitted sent lost waiting`", and "the count as its last field".
fn list_end<W: Write>(totals: &Totals, lines: &mut Lines<W>) {
    lines
        .word("END")
        .number(totals.clock)
        .number(totals.admitted)
        .number(totals.sent)
        .number(totals.lost)
        .number(totals.waiting)
        .number(totals.turned_away)
        .close();
}
