//! The worked example and the lines of a listing.

use crate::worlds::{arrival_record, listing_of, run_record, set_up_record, station_record};

/// The worked example of the paper.
const INPUT: &[u8] = include_bytes!("../../../examples/worked.scenario");

/// Its listing, with the waits and the packets turned away.
const OUTPUT: &str = "\
0 P 0 4 C
1 P 0 2 I
2 P 2 2 C
3 P 2 1 C
4 T 0 8 C
5 T 0 4 I
6 T 4 4 C
7 T 4 2 S 5 1 3 7
10 P 0 4 C
11 P 0 2 I
12 P 2 2 C
13 P 2 1 S 6 2 1 13
14 P 0 4 S 1 3 2 14
16 P 0 4 I
END 17 3 3 0 0 0
";

/// Arrivals refused with 11 to 15.
const TURNED_AWAY: &[u8] = include_bytes!("../../../examples/turned-away.scenario");

#[test]
fn the_worked_example() {
    assert_eq!(listing_of(INPUT), OUTPUT);
}

#[test]
fn no_steps_admit_nothing() {
    let input = [
        set_up_record(0, 4, 8, 1, 1),
        station_record(1, 0),
        arrival_record(0, 1, 0, 1),
        run_record(0),
    ]
    .concat();
    assert_eq!(listing_of(&input), "END 0 0 0 0 0 0\n");
}

#[test]
fn refused_arrivals_and_drops_are_listed() {
    let input = [
        set_up_record(1, 2, 8, 1, 2),
        station_record(1, 0),
        station_record(2, 0),
        arrival_record(0, 1, 0, 1),
        arrival_record(0, 2, 1, 1),
        arrival_record(0, 3, 1, 1),
        arrival_record(3, 1, 2, 1),
        arrival_record(99, 1, 200, 1),
        run_record(4),
    ]
    .concat();
    let expected =
        "R 0 3 11\n0 P 0 2 C\n1 P 0 1 I\n2 P 1 1 I\nR 3 1 14\nD 2\n3 P 0 2 I\nEND 4 2 0 2 0 1\n";
    assert_eq!(listing_of(&input), expected);
}

/// "`END` gains the count as its last field": 14 and 15, one of each.
#[test]
fn the_last_field_is_the_packets_turned_away() {
    let listing = listing_of(TURNED_AWAY);
    let refused: Vec<&str> = listing
        .lines()
        .filter(|line| line.starts_with('R'))
        .filter_map(|line| line.split(' ').next_back())
        .collect();
    assert_eq!(refused, ["11", "12", "13", "13", "14", "15"]);
    assert!(listing.ends_with("\nEND 4100 19 2 1 16 2\n"));
}

#[test]
fn a_newcomer_does_not_join_midway() {
    let input = [
        set_up_record(0, 4, 8, 1, 3),
        station_record(1, 0),
        station_record(2, 0),
        station_record(3, 0),
        arrival_record(0, 1, 2, 1),
        arrival_record(0, 2, 3, 1),
        arrival_record(1, 3, 0, 1),
        run_record(5),
    ]
    .concat();
    let expected =
        "0 P 0 4 C\n1 P 0 2 I\n2 P 2 2 C\n3 P 2 1 S 1 1 1 3\n4 P 0 4 C\nEND 5 3 1 0 2 0\n";
    assert_eq!(listing_of(&input), expected);
}

/// One PRI station, its arrivals of priority 0 by time and length, and as many steps.
fn one_station(arrivals: &[(u32, u16)]) -> String {
    let arrivals = arrivals
        .iter()
        .map(|&(time, length)| arrival_record(time, 1, 0, length));
    let records = [set_up_record(0, 4, 8, 1, 1), station_record(1, 0)];
    let run = run_record(arrivals.len() as u16);
    let input: Vec<u8> = records
        .into_iter()
        .chain(arrivals)
        .chain([run])
        .flatten()
        .collect();
    listing_of(&input)
}

#[test]
fn the_wait_is_from_the_admission_and_not_from_the_arrivals_time() {
    let expected = "0 P 0 4 S 1 1 10 0\n10 P 0 4 S 1 2 1 0\nEND 11 2 2 0 0 0\n";
    assert_eq!(one_station(&[(0, 10), (1, 1)]), expected);
    let expected = "0 P 0 4 S 1 1 10 0\n10 P 0 4 S 1 2 1 10\nEND 11 2 2 0 0 0\n";
    assert_eq!(one_station(&[(0, 10), (0, 1)]), expected);
}

#[test]
fn a_crowd_is_turned_away() {
    let listing = one_station(&[(0, 1); 316]);
    assert!(listing.starts_with("R 0 1 15\nR 0 1 15\n"));
    assert!(listing.ends_with("\nEND 316 16 16 0 0 300\n"));
}

#[test]
fn the_longest_run_ends() {
    let input = [
        set_up_record(0, 2, 2, 1, 1),
        station_record(0, 0),
        run_record(65_535),
    ]
    .concat();
    let listing = listing_of(&input);
    assert_eq!(listing.lines().count(), 65_536);
    assert!(listing.ends_with("65534 P 0 2 I\nEND 65535 0 0 0 0 0\n"));
}
