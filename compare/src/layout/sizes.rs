//! Layouts of scenarios that are as long as may be, and of those that would be longer; and layouts that are long texts.

use super::text::{layout_of, shown, timed_line};
use super::{right, wrong};
use crate::case::Case;
use crate::records::{Arrival, Scenario, SetUp, Station, LONGEST, PRI};

/// So many stations, and arrivals at these times.
fn scenario(stations: usize, times: impl IntoIterator<Item = usize>) -> Scenario {
    let set_up = SetUp { discipline: PRI, parameters: 4, addresses: 64, laxity_step: 1, stations: stations as u8 };
    let stations = (0..stations).map(|address| Station { address: address as u16, capability: 0 }).collect();
    let mut arrivals: Vec<Arrival> = times.into_iter().map(arrival).collect();
    arrivals.sort_by_key(|arrival| arrival.time);
    Scenario { set_up, stations, arrivals, steps: 1 }
}

fn arrival(time: usize) -> Arrival {
    Arrival { time: time as u32, address: 0, value: 3, length: 2 }
}

/// The most arrivals of a scenario with so many stations.
fn most(stations: usize) -> usize {
    (LONGEST - scenario(stations, []).bytes().len()) / 16
}

/// A layout of so many stations with some more lines before its run.
fn layout(stations: usize, lines: &[String]) -> String {
    let layout = layout_of(&scenario(stations, []));
    let (bus, run) = layout.split_at(layout.find("run").expect("a layout has a run"));
    format!("{bus}{}\n{run}", lines.join("\n"))
}

/// Scenarios with the most arrivals and with one more, for numbers of stations that leave different room; and long texts.
pub fn sizes() -> Vec<Case> {
    let by_lines = [1, 64].into_iter().flat_map(by_a_line_each);
    [1, 2, 3, 4, 63, 64].into_iter().flat_map(by_few_lines).chain(by_lines).chain(texts()).collect()
}

/// The same arrivals again and again, from slot 0 on.
fn repeated(many: usize) -> String {
    format!("arrivals every 1 from 0 to {} address 0 value 3 length 2", many - 1)
}

/// Lines that are one arrival too many, the last of them.
fn passes(stations: usize, name: &str, lines: &[String]) -> Case {
    let name = format!("{stations} stations, one arrival too many, {name}");
    wrong(name, layout(stations, lines), 1 + stations + lines.len(), 22)
}

/// The most arrivals by one line and by two, and one more by each sort of line.
fn by_few_lines(stations: usize) -> Vec<Case> {
    let most = most(stations);
    let fits = |name: &str, lines: &[String], times: Vec<usize>| {
        let name = format!("{stations} stations, the most arrivals, {name}");
        right(name, layout(stations, lines), &scenario(stations, times))
    };
    let more = [
        "arrival time 0 address 0 value 3 length 2",
        "attempt time 0 address 0 value 4 length 0",
        "arrivals every 9 from 5 to 5 address 0 value 3 length 2",
    ];
    let more = more.map(|line| passes(stations, line, &[repeated(most), line.to_string()]));
    let cases = [
        fits("by one line", &[repeated(most)], (0..most).collect()),
        fits("by two lines", &[repeated(most - 10), repeated(10)], (0..most - 10).chain(0..10).collect()),
        passes(stations, "by one line", &[repeated(most + 1)]),
        passes(stations, "by two lines", &[repeated(most - 10), repeated(11)]),
    ];
    cases.into_iter().chain(more).collect()
}

/// The most arrivals, and one more, by a line each.
fn by_a_line_each(stations: usize) -> Vec<Case> {
    let most = most(stations);
    let lines = |first, many: usize| -> Vec<String> {
        (0..many).rev().map(|time| shown(&timed_line(first, &arrival(time)))).collect()
    };
    let name = format!("{stations} stations, the most arrivals, by a line each");
    vec![
        right(name, layout(stations, &lines("arrival", most)), &scenario(stations, 0..most)),
        passes(stations, "by a line each", &lines("arrival", most + 1)),
        passes(stations, "by a line each, attempts", &lines("attempt", most + 1)),
    ]
}

/// Long texts of a short scenario: comments, blanks, empty lines, words and numbers of many letters.
fn texts() -> Vec<Case> {
    let (scenario, many) = (scenario(1, []), 70_000);
    let layout = layout_of(&scenario);
    let zeros = |digit| layout.replace("0x0000", &format!("0x{digit}{}", "0".repeat(many)));
    let right = |name: &str, text: String| right(name, text, &scenario);
    vec![
        right("a long comment", format!("#{}\n{layout}", "x".repeat(many))),
        right("a long comment behind the run", format!("{layout}#{}", " run".repeat(many / 4))),
        right("many empty lines", format!("{}{layout}", "\n".repeat(many))),
        right("many blanks", layout.replace(' ', &" \t\r ".repeat(many / 16))),
        right("a number of many digits", zeros("")),
        wrong("a number of many digits, one of them a 1", zeros("1"), 2, 204),
        wrong("a long word", format!("bus{}\n{layout}", "x".repeat(many)), 1, 301),
        wrong("many lines, and no station", format!("bus PRI D 4 A 64 q 1{}", "\n".repeat(many)), many + 1, 302),
    ]
}

#[cfg(test)]
mod tests {
    use super::*;

    #[test]
    fn the_most_arrivals_leave_no_room_for_one_more() {
        assert_eq!([1, 2, 3, 64].map(most), [4_094, 4_093, 4_093, 4_062]);
        for stations in 1..=64 {
            let length = scenario(stations, 0..most(stations)).bytes().len();
            assert!((LONGEST - 15..=LONGEST).contains(&length));
        }
    }
}
