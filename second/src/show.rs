//! Shows a scenario as a layout: "a line for each record, in order, with one space between words and
//! nothing else".

use std::io::Write;

use crate::admission::{length_in_range, value_in_range};
use crate::fault::Word;
use crate::lines::Lines;
use crate::scenario::{Arrival, Scenario};
use crate::state::{Settings, Station, PRI, RTDG, RTVC};

/// Writes the layout of a scenario.
pub fn show<W: Write>(scenario: &Scenario, lines: &mut Lines<W>) {
    let settings = &scenario.state.settings;
    show_bus(settings, lines);
    for station in &scenario.state.stations[..scenario.state.listed()] {
        show_station(settings, station, lines);
    }
    for arrival in &scenario.arrivals {
        show_arrival(settings, arrival, lines);
    }
    lines.word("run");
    named(Word::Steps, scenario.steps.into(), lines);
    lines.close();
}

fn show_bus<W: Write>(settings: &Settings, lines: &mut Lines<W>) {
    lines.word("bus").word(match settings.discipline {
        PRI => "PRI",
        RTDG => "RTDG",
        _ => "RTVC",
    });
    named(Word::D, settings.d, lines);
    named(Word::A, settings.a, lines);
    named(Word::Q, settings.q, lines);
    lines.close();
}

fn show_station<W: Write>(settings: &Settings, station: &Station, lines: &mut Lines<W>) {
    lines.word("station");
    named_address(station.address, lines);
    if settings.discipline == RTVC {
        named(Word::Capability, station.capability, lines);
    }
    lines.close();
}

/// "An arrival whose value or length is outside its range is an attempt."
fn show_arrival<W: Write>(settings: &Settings, arrival: &Arrival, lines: &mut Lines<W>) {
    let in_range = value_in_range(settings, arrival.value) && length_in_range(arrival.length);
    lines.word(if in_range { "arrival" } else { "attempt" });
    named(Word::Time, arrival.time, lines);
    named_address(arrival.address, lines);
    named(Word::Value, arrival.value, lines);
    named(Word::Length, arrival.length, lines);
    lines.close();
}

/// "all other numbers in decimal".
fn named<W: Write>(word: Word, number: u32, lines: &mut Lines<W>) {
    lines.word(word.text()).number(number);
}

/// "addresses as `0x` and four capital digits".
fn named_address<W: Write>(address: u32, lines: &mut Lines<W>) {
    lines
        .word(Word::Address.text())
        .word(&format!("0x{address:04X}"));
}

#[cfg(test)]
mod tests {
    use super::show;
    use crate::layout::read_layout;
    use crate::lines::Lines;
    use crate::scenario::read;

    /// The layout of a scenario's bytes.
    fn shown(bytes: &[u8]) -> String {
        let mut lines = Lines::new(Vec::new());
        show(&read(bytes).unwrap(), &mut lines);
        String::from_utf8(lines.finish()).unwrap()
    }

    const RTVC: &str = "\
bus RTVC D 65536 A 65536 q 1
station address 0xABCD capability 65535
station address 0x000F capability 0
arrival time 0 address 0x000F value 0 length 4096
arrival time 4294967295 address 0xFFFF value 0 length 1
attempt time 4294967295 address 0xABCD value 1 length 1
attempt time 4294967295 address 0xABCD value 0 length 4097
attempt time 4294967295 address 0xABCD value 4294967295 length 65535
run steps 65535
";

    const RTDG: &str = "\
bus RTDG D 2 A 2 q 65535
station address 0x0001
arrival time 7 address 0x0001 value 1073741824 length 1
attempt time 7 address 0x0001 value 1073741825 length 1
attempt time 8 address 0x0000 value 0 length 0
run steps 0
";

    const PRI: &str = "\
bus PRI D 5 A 16 q 1
station address 0x0009
arrival time 0 address 0x0009 value 4 length 2
attempt time 0 address 0x0009 value 5 length 2
run steps 1
";

    #[test]
    fn a_layout_as_it_is_shown_is_shown_again() {
        for layout in [RTVC, RTDG, PRI] {
            let bytes = read_layout(layout.as_bytes()).unwrap();
            assert_eq!(shown(&bytes), layout);
        }
    }

    #[test]
    fn the_layout_of_a_scenario_says_that_scenario() {
        for bytes in [
            &include_bytes!("../../examples/worked.scenario")[..],
            include_bytes!("../../examples/chatty.scenario"),
            include_bytes!("../../examples/rtdg.scenario"),
            include_bytes!("../../examples/turned-away.scenario"),
        ] {
            assert_eq!(read_layout(shown(bytes).as_bytes()).unwrap(), bytes);
        }
    }
}
