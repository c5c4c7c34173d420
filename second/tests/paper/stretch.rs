//! Stretches of a run: which calls are made, their reports, and where a stretch ends.

use crate::worlds::{played, WRITTEN_ZERO};

/// PRI, D 4, A 8, one station at address 1.
const ONE: &str = "U 0 4 8 1 1 1 1 1 0 ";

/// What a script writes before the state at its end.
fn answers(script: &str) -> String {
    let written = played(script);
    let (answers, _) = written
        .split_once("settings")
        .expect("a state is written at the end");
    answers.to_string()
}

/// The line of a call that was an admission at slot 0.
fn admission(place: u32, address: u32, refusal: u32, number: u32) -> String {
    format!("call {place} 1 0 {address} {refusal} {number} 0 0 0 0 0 0 0 0 0 0 0 0\n")
}

/// The line of a call that was a step of `ONE` with nothing queued.
fn idle(place: u32, slot: u32) -> String {
    format!("call {place} 0 {slot} 0 0 0 0 0 {slot} 0 0 4 0 0 0 0 0 1\n")
}

#[test]
fn it_ends_by_its_steps() {
    let script = "U 0 4 8 1 3 3 3 1 0 5 0 6 0 R 14 3 3 0 5 2 3 0 6 2 1 0 1 3 2";
    let expected = "\
U 0 0
call 0 1 0 5 0 1 0 0 0 0 0 0 0 0 0 0 0 0
call 1 1 0 6 0 2 0 0 0 0 0 0 0 0 0 0 0 0
call 2 1 0 1 0 3 0 0 0 0 0 0 0 0 0 0 0 0
call 3 0 0 0 0 0 0 0 0 0 0 4 1 0 0 0 0 0
call 4 0 1 0 0 0 0 0 1 0 0 2 0 0 0 0 0 0
call 5 0 2 0 0 0 0 0 2 0 2 2 1 0 0 0 0 0
call 6 0 3 0 0 0 0 0 3 0 2 1 1 0 0 0 0 0
call 7 0 4 0 0 0 0 0 4 1 0 8 1 0 0 0 0 0
call 8 0 5 0 0 0 0 0 5 1 0 4 0 0 0 0 0 0
call 9 0 6 0 0 0 0 0 6 1 4 4 1 0 0 0 0 0
call 10 0 7 0 0 0 0 0 7 1 4 2 2 5 1 3 7 1
call 11 0 10 0 0 0 0 0 10 0 0 4 1 0 0 0 0 0
call 12 0 11 0 0 0 0 0 11 0 0 2 0 0 0 0 0 0
call 13 0 12 0 0 0 0 0 12 0 2 2 1 0 0 0 0 0
call 14 0 13 0 0 0 0 0 13 0 2 1 2 6 2 1 13 1
call 15 0 14 0 0 0 0 0 14 0 0 4 2 1 3 2 14 1
call 16 0 16 0 0 0 0 0 16 0 0 4 0 0 0 0 0 1
R 17 3 0
settings 0 4 8 1 3
clock 17
counts 3 3 0 0
round 0 0
contention 0 0 0 0 0 0
station 0 1 0
station 1 5 0
station 2 6 0
end
";
    assert_eq!(played(script), expected);
}

#[test]
fn no_steps_make_no_call() {
    assert_eq!(
        answers(&format!("{ONE} R 0 1 1 0 1 0 1")),
        "U 0 0\nR 0 0 0\n"
    );
}

#[test]
fn arrivals_come_later() {
    let script = "U 0 4 8 1 2 2 2 1 0 2 0 R 4 3 3 2 1 3 2 3 2 0 1 9 1 0 1";
    let expected = "\
U 0 0
call 0 0 0 0 0 0 0 0 0 0 0 4 0 0 0 0 0 1
call 1 0 1 0 0 0 0 0 1 0 0 4 0 0 0 0 0 1
call 2 1 2 1 0 1 0 0 0 0 0 0 0 0 0 0 0 0
call 3 0 2 0 0 0 0 0 2 0 0 4 2 1 1 2 0 1
call 4 1 4 2 0 2 0 0 0 0 0 0 0 0 0 0 0 0
call 5 0 4 0 0 0 0 0 4 0 0 4 2 2 2 1 0 1
R 6 2 0
settings 0 4 8 1 2
clock 5
counts 2 2 0 0
round 0 0
contention 0 0 0 0 0 0
station 0 1 0
station 1 2 0
end
";
    assert_eq!(played(script), expected);
}

#[test]
fn only_the_next_arrival_of_the_row_is_looked_at() {
    let expected = format!("U 0 0\n{}{}R 2 0 0\n", idle(0, 0), idle(1, 1));
    assert_eq!(answers(&format!("{ONE} R 2 2 2 5 1 0 1 0 1 0 1")), expected);
}

#[test]
fn a_contention_goes_on_in_the_next_stretch() {
    let script = "U 0 4 8 1 3 3 3 1 0 2 0 3 0 R 1 2 2 0 1 2 1 0 2 3 1 R 4 1 1 1 3 0 1";
    let expected = "\
U 0 0
call 0 1 0 1 0 1 0 0 0 0 0 0 0 0 0 0 0 0
call 1 1 0 2 0 2 0 0 0 0 0 0 0 0 0 0 0 0
call 2 0 0 0 0 0 0 0 0 0 0 4 1 0 0 0 0 0
R 3 2 0
call 0 1 1 3 0 3 0 0 0 0 0 0 0 0 0 0 0 0
call 1 0 1 0 0 0 0 0 1 0 0 2 0 0 0 0 0 0
call 2 0 2 0 0 0 0 0 2 0 2 2 1 0 0 0 0 0
call 3 0 3 0 0 0 0 0 3 0 2 1 2 1 1 1 3 1
call 4 0 4 0 0 0 0 0 4 0 0 4 1 0 0 0 0 0
R 5 1 0
settings 0 4 8 1 3
clock 5
counts 3 1 0 0
round 0 0
contention 1 0 2 0 0 0
station 0 1 0
station 1 2 0
station 2 3 0
contender 1 1 3 2 3 1 0
contender 2 1 0 3 0 1 1
queue 1 1
queue 2 1
packet 16 2 3 1 0
packet 32 3 0 1 1
end
";
    assert_eq!(played(script), expected);
}

#[test]
fn a_refused_arrival_is_taken() {
    let script = "U 1 2 8 1 2 2 2 1 0 2 0 R 4 5 5 0 1 0 1 0 2 1 1 0 3 1 1 3 1 2 1 99 1 200 1";
    let expected = "\
U 0 0
call 0 1 0 1 0 1 0 0 0 0 0 0 0 0 0 0 0 0
call 1 1 0 2 0 2 0 0 0 0 0 0 0 0 0 0 0 0
call 2 1 0 3 11 0 0 0 0 0 0 0 0 0 0 0 0 0
call 3 0 0 0 0 0 0 0 0 0 0 2 1 0 0 0 0 0
call 4 0 1 0 0 0 0 0 1 0 0 1 0 0 0 0 0 0
call 5 0 2 0 0 0 0 0 2 0 1 1 0 0 0 0 0 1
call 6 1 3 1 14 0 0 0 0 0 0 0 0 0 0 0 0 0
call 7 0 3 0 0 0 0 2 3 0 0 2 0 0 0 0 0 1
R 8 4 0
settings 1 2 8 1 2
clock 4
counts 2 0 2 1
round 0 0
contention 0 0 0 0 0 0
station 0 1 0
station 1 2 0
end
";
    assert_eq!(played(script), expected);
}

#[test]
fn places_past_k_are_zero_arrivals() {
    let expected = "\
U 0 0
call 0 1 0 1 0 1 0 0 0 0 0 0 0 0 0 0 0 0
call 1 1 0 0 11 0 0 0 0 0 0 0 0 0 0 0 0 0
call 2 1 0 0 11 0 0 0 0 0 0 0 0 0 0 0 0 0
call 3 0 0 0 0 0 0 0 0 0 0 4 2 1 1 3 0 1
R 4 3 0
";
    assert_eq!(answers(&format!("{ONE} R 1 3 1 0 1 2 3")), expected);
    let with_address_0 = answers("U 0 4 8 1 1 1 1 0 0 R 1 1 0");
    let expected = format!("U 0 0\n{}{}R 2 1 0\n", admission(0, 0, 13, 0), idle(1, 0));
    assert_eq!(with_address_0, expected);
}

#[test]
fn fours_past_the_length_are_not_taken() {
    let expected = format!("U 0 0\n{}R 1 0 0\nT 0 1 0 0 0 0 0\n", idle(0, 0));
    assert_eq!(answers(&format!("{ONE} R 1 0 1 0 1 2 3 T")), expected);
}

/// PRI, D 4, A 8, four stations; 64 fours fill the four queues.
const FOUR: &str = "U 0 4 8 1 4 4 4 0 0 1 0 2 0 3 0 ";
const FOURS: &str = "0 0 1 1 0 1 1 1 0 2 1 1 0 3 1 1 ";

/// The lines of the first arrivals of these fours.
fn admissions(count: u32) -> String {
    (0..count)
        .map(|place| admission(place, place % 4, 0, place + 1))
        .collect()
}

#[test]
fn a_full_row_ends_it() {
    let fours = FOURS.repeat(16);
    let expected = format!("U 0 0\n{}R 64 64 5\nT 0 0 64 0 0 64 0\n", admissions(64));
    assert_eq!(answers(&format!("{FOUR} R 5 64 64 {fours} T")), expected);
    assert_eq!(answers(&format!("{FOUR} R 5 99 99 {fours} T")), expected);
    let collision = "call 63 0 0 0 0 0 0 0 0 0 0 4 1 0 0 0 0 0\n";
    let expected = format!("U 0 0\n{}{collision}R 64 63 0\n", admissions(63));
    assert_eq!(answers(&format!("{FOUR} R 1 63 64 {fours}")), expected);
}

#[test]
fn it_ends_after_512_calls() {
    let idles: String = (0..512).map(|place| idle(place, place)).collect();
    for (steps, left) in [(512, 0), (513, 1), (600, 88), (u32::MAX, 4_294_966_783_u32)] {
        let expected = format!("U 0 0\n{idles}R 512 0 {left}\nT 0 512 0 0 0 0 0\n");
        assert_eq!(answers(&format!("{ONE} R {steps} 0 0 T")), expected);
    }
    let idles: String = (1..512).map(|place| idle(place, place - 1)).collect();
    let refused = admission(0, 7, 11, 0);
    let expected = format!("U 0 0\n{refused}{idles}R 512 1 1\nT 0 511 0 0 0 0 0\n");
    assert_eq!(answers(&format!("{ONE} R 512 1 1 0 7 0 1 T")), expected);
}

#[test]
fn a_state_that_does_not_stand() {
    let expected = "\
call 0 1 0 7 1 0 0 0 0 0 0 0 0 0 0 0 0 0
call 1 0 0 0 0 0 1 0 0 0 0 0 0 0 0 0 0 0
call 2 0 0 0 0 0 1 0 0 0 0 0 0 0 0 0 0 0
R 3 1 0
";
    assert_eq!(
        played("R 2 2 2 0 7 8 9 1 7 8 9"),
        format!("{expected}{WRITTEN_ZERO}")
    );
    let expected = "\
call 0 1 4294967295 7 1 0 0 0 0 0 0 0 0 0 0 0 0 0
call 1 1 4294967295 6 1 0 0 0 0 0 0 0 0 0 0 0 0 0
call 2 0 4294967295 0 0 0 1 0 0 0 0 0 0 0 0 0 0 0
R 3 2 0
";
    let state = WRITTEN_ZERO.replace("clock 0", "clock 4294967295");
    assert_eq!(
        played("E 8 0 4294967295 R 1 2 2 4294967295 7 8 9 0 6 8 9"),
        format!("{expected}{state}")
    );
    let refused: String = (0..512)
        .map(|place| format!("call {place} 0 0 0 0 0 1 0 0 0 0 0 0 0 0 0 0 0\n"))
        .collect();
    assert_eq!(answers("R 600 0 0"), format!("{refused}R 512 0 88\n"));
}

#[test]
fn the_clock_at_its_end() {
    let script = format!("{ONE} E 8 0 1073737728 R 3 2 2 0 1 0 4096 1073741824 1 0 1");
    let expected = "\
U 0 0
call 0 1 1073737728 1 0 1 0 0 0 0 0 0 0 0 0 0 0 0
call 1 0 1073737728 0 0 0 0 0 1073737728 0 0 4 2 1 1 4096 0 1
call 2 1 1073741824 1 0 2 0 0 0 0 0 0 0 0 0 0 0 0
call 3 0 1073741824 0 0 0 17 0 0 0 0 0 0 0 0 0 0 0
call 4 0 1073741824 0 0 0 17 0 0 0 0 0 0 0 0 0 0 0
R 5 2 0
settings 0 4 8 1 1
clock 1073741824
counts 2 1 0 0
round 0 0
contention 0 0 0 0 0 0
station 0 1 0
queue 0 1
packet 0 2 0 1 1073741824
end
";
    assert_eq!(played(&script), expected);
}

#[test]
fn numbers_of_a_stretch() {
    let reduced = "R 4294967297 1 1 4294967296 4294967297 4294967298 4294967299";
    let success = "call 1 0 0 0 0 0 0 0 0 0 0 4 2 1 1 3 0 1\n";
    let expected = format!("U 0 0\n{}{success}R 2 1 0\n", admission(0, 1, 0, 1));
    assert_eq!(answers(&format!("{ONE} {reduced}")), expected);

    let row: String = (0..64).map(|place| admission(place, 0, 11, 0)).collect();
    let expected = format!("U 0 0\n{row}R 64 64 1\n");
    assert_eq!(answers(&format!("{ONE} R 1 4294967296 0")), expected);

    let fours = "0 1 2 3 ".repeat(64);
    let first = admission(0, 1, 0, 1);
    let expected = format!("U 0 0\n{first}{success}R 2 1 0\nT 0 3 1 1 0 0 0\n");
    assert_eq!(
        answers(&format!("{ONE} R 1 1 4294967296 {fours} T")),
        expected
    );
}

#[test]
fn numbers_past_the_end_are_zero() {
    assert_eq!(answers(&format!("{ONE} R")), "U 0 0\nR 0 0 0\n");
    let expected = format!("U 0 0\n{}R 1 0 0\n", idle(0, 0));
    assert_eq!(answers(&format!("{ONE} R 1")), expected);
    let (first, second) = (admission(0, 1, 13, 0), admission(1, 0, 11, 0));
    let expected = format!("U 0 0\n{first}{second}{}R 3 2 0\n", idle(2, 0));
    assert_eq!(answers(&format!("{ONE} R 1 2 2 0 1")), expected);
}
