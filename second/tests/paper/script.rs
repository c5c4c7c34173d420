//! Scripts of calls: reading of commands and numbers, changed fields, and what is written.

use crate::worlds::{played, WRITTEN_ZERO};

#[test]
fn the_empty_script() {
    assert_eq!(played(""), WRITTEN_ZERO);
    assert_eq!(played("x # U A S R T P\n y12"), WRITTEN_ZERO);
}

#[test]
fn calls_on_a_zero_state() {
    let expected =
        format!("A 1 0\nS 1 0 0 0 0 0 0 0 0 0 0 0\nT 1 0 0 0 0 0 0\n{WRITTEN_ZERO}{WRITTEN_ZERO}");
    assert_eq!(played("A 1 2 3 S T P"), expected);
}

#[test]
fn a_history() {
    let script = "U 0 4 8 1 3 64 3 1 0 5 0 6 0 A 5 2 3 A 6 2 1 A 1 3 2 SSSSSSSS T";
    let expected = "\
U 0 0
A 0 1
A 0 2
A 0 3
S 0 0 0 0 0 4 1 0 0 0 0 0
S 0 0 1 0 0 2 0 0 0 0 0 0
S 0 0 2 0 2 2 1 0 0 0 0 0
S 0 0 3 0 2 1 1 0 0 0 0 0
S 0 0 4 1 0 8 1 0 0 0 0 0
S 0 0 5 1 0 4 0 0 0 0 0 0
S 0 0 6 1 4 4 1 0 0 0 0 0
S 0 0 7 1 4 2 2 5 1 3 7 1
T 0 10 3 1 0 2 0
settings 0 4 8 1 3
clock 10
counts 3 1 0 0
round 0 0
contention 0 0 0 0 0 0
station 0 1 0
station 1 5 0
station 2 6 0
queue 0 1
queue 2 1
packet 0 3 3 2 0
packet 32 2 2 1 0
end
";
    assert_eq!(played(script), expected);
}

#[test]
fn rows_of_a_set_up() {
    assert!(played("U 0 4 8 1 2 1 2 1 0 5 0").starts_with("U 6 0\n"));
    assert!(played("U 0 4 8 1 2 2 1 1 0").contains("station 0 1 0\nend"));
    assert!(played("U 0 4 8 1 2 2 0").starts_with("U 8 1\n"));
    let many = format!("U 0 4 128 1 1 99 99 {} P", "7 0 ".repeat(64));
    assert!(played(&many).starts_with("U 0 0\nsettings 0 4 128 1 1\n"));
    assert!(played("U 4294967296 4 8 1 1 1 1 4294967303 0").starts_with("U 0 0\n"));
}

#[test]
fn numbers_of_a_script() {
    let read = |number: &str| played(&format!("E 9 0 {number}"));
    assert!(read("18446744073709551609").contains("counts 18446744073709551609 0 0 0"));
    assert!(read("18446744073709551610").contains("counts 18446744073709551615 0 0 0"));
    assert!(read("99999999999999999999999").contains("counts 18446744073709551615 0 0 0"));
    assert!(read("000000000000000000000000000012").contains("counts 12 0 0 0"));
    assert!(read("#A\n-12x3").contains("counts 12 0 0 0"));
    assert!(read("").contains("counts 0 0 0 0"));
}

/// The lines of a state that a change of one field makes differ from the all-zero state's.
fn changed(change: &str) -> Vec<String> {
    played(change)
        .lines()
        .filter(|line| !WRITTEN_ZERO.lines().any(|zero| zero == *line))
        .map(str::to_string)
        .collect()
}

#[test]
fn every_field() {
    let expected = [
        ("E 1 9 4294967303", "settings 7 0 0 0 0"),
        ("E 2 9 4294967303", "settings 0 7 0 0 0"),
        ("E 3 9 4294967303", "settings 0 0 7 0 0"),
        ("E 4 9 4294967303", "settings 0 0 0 7 0"),
        ("E 5 9 4294967303", "settings 0 0 0 0 4294967303"),
        ("E 6 65 4294967303", "station 1 7 0"),
        ("E 7 65 4294967303", "station 1 0 7"),
        ("E 8 9 4294967303", "clock 7"),
        ("E 9 9 4294967303", "counts 4294967303 0 0 0"),
        ("E 10 9 4294967303", "counts 0 4294967303 0 0"),
        ("E 11 9 4294967303", "counts 0 0 4294967303 0"),
        ("E 12 9 4294967303", "round 1 0"),
        ("E 13 9 4294967303", "round 0 7"),
        ("E 14 9 4294967303", "contention 1 0 0 0 0 0"),
        ("E 15 9 4294967303", "contention 0 4294967303 0 0 0 0"),
        ("E 16 9 4294967303", "contention 0 0 4294967303 0 0 0"),
        ("E 17 9 4294967303", "contention 0 0 0 1 0 0"),
        ("E 18 9 4294967303", "contention 0 0 0 0 1 0"),
        ("E 19 9 4294967303", "contention 0 0 0 0 0 4294967303"),
        ("E 20 65 4294967303", "contender 1 1 0 0 0 0 0"),
        ("E 21 65 4294967303", "contender 1 0 4294967303 0 0 0 0"),
        ("E 22 65 4294967303", "contender 1 0 0 7 0 0 0"),
        ("E 23 65 4294967303", "contender 1 0 0 0 7 0 0"),
        ("E 24 65 4294967303", "contender 1 0 0 0 0 7 0"),
        ("E 25 65 4294967303", "queue 1 4294967303"),
        ("E 26 1025 4294967303", "packet 1 7 0 0 0"),
        ("E 27 1025 4294967303", "packet 1 0 7 0 0"),
        ("E 28 1025 4294967303", "packet 1 0 0 7 0"),
        ("E 29 65 4294967303", "contender 1 0 0 0 0 0 7"),
        ("E 30 1025 4294967303", "packet 1 0 0 0 7"),
        ("E 32 9 4294967303", "counts 0 0 0 4294967303"),
    ];
    for (change, line) in expected {
        assert_eq!(changed(change), [line], "{change}");
    }
    for change in ["E 0 1 1", "E 33 1 1", "E 18446744073709551615 1 1"] {
        assert!(changed(change).is_empty());
    }
}

/// The lines of stations that contend with zeros, one for each of these places.
fn contending(places: impl IntoIterator<Item = usize>) -> Vec<String> {
    places
        .into_iter()
        .map(|place| format!("contender {place} 1 0 0 0 0 0"))
        .collect()
}

/// "31: the word of contenders, 64 bits: the station at place i contends where bit i is set".
#[test]
fn the_word_of_contenders() {
    assert_eq!(changed("E 31 0 1"), contending([0]));
    assert_eq!(changed("E 31 0 2"), contending([1]));
    assert_eq!(changed("E 31 0 2147483648"), contending([31]));
    assert_eq!(changed("E 31 0 4294967296"), contending([32]));
    assert_eq!(changed("E 31 0 4294967303"), contending([0, 1, 2, 32]));
    assert_eq!(changed("E 31 0 9223372036854775808"), contending([63]));
    assert_eq!(changed("E 31 0 9223372036854775809"), contending([0, 63]));
    assert_eq!(changed("E 31 0 9223372036854775807"), contending(0..63));
    for place in 0..64 {
        let one = format!("E 31 0 {}", 1u64 << place);
        assert_eq!(changed(&one), contending([place]));
    }
    assert!(changed("E 31 0 0").is_empty());
}

/// "A number of 18,446,744,073,709,551,610 or more reads as 18,446,744,073,709,551,615": bits 1 and 2
/// are clear in the one before it.
#[test]
fn words_that_read_as_all_bits() {
    let all_but_two = (0..64).filter(|place| ![1, 2].contains(place));
    assert_eq!(
        changed("E 31 0 18446744073709551609"),
        contending(all_but_two)
    );
    assert_eq!(changed("E 31 0 18446744073709551610"), contending(0..64));
    assert_eq!(changed("E 31 0 18446744073709551615"), contending(0..64));
}

/// "The index of a field that stands once is not used".
#[test]
fn the_word_stands_once() {
    for index in ["1", "5", "63", "64", "1025", "18446744073709551615"] {
        assert_eq!(changed(&format!("E 31 {index} 6")), contending([1, 2]));
    }
}

/// A word takes the place of the one before it, and what a station contends with stays.
#[test]
fn the_word_is_the_whole_word() {
    assert_eq!(changed("E 31 0 5 E 31 0 6"), contending([1, 2]));
    assert!(changed("E 31 0 18446744073709551615 E 31 0 0").is_empty());
    let offered = "E 21 63 9 E 22 63 8 E 23 63 7 E 24 63 6 E 29 63 5";
    let line = |contends| [format!("contender 63 {contends} 9 8 7 6 5")];
    assert_eq!(changed(offered), line(0));
    let set = format!("{offered} E 31 0 9223372036854775808");
    assert_eq!(changed(&set), line(1));
    assert_eq!(changed(&format!("{set} E 31 0 0")), line(0));
    assert_eq!(
        changed(&format!("E 31 0 9223372036854775808 {offered}")),
        line(1)
    );
}

/// "whether the station at place i contends, which is bit i of the word of contenders".
#[test]
fn a_station_and_the_word() {
    assert_eq!(
        changed("E 31 0 9223372036854775809 E 20 0 0"),
        contending([63])
    );
    assert_eq!(
        changed("E 31 0 9223372036854775809 E 20 63 0"),
        contending([0])
    );
    assert_eq!(changed("E 20 5 1 E 31 0 32"), contending([5]));
    assert_eq!(changed("E 20 5 1 E 31 0 64"), contending([6]));
    assert_eq!(changed("E 31 0 64 E 20 5 1"), contending([5, 6]));
    let each: String = (0..64).map(|place| format!("E 20 {place} 1 ")).collect();
    assert_eq!(changed(&each), changed("E 31 0 18446744073709551615"));
}

/// The word that a contention has stands, and is the same state; one with a bit more or less does not.
#[test]
fn the_word_of_a_contention() {
    let begun = "U 0 4 8 1 3 3 3 1 0 5 0 6 0 A 5 2 3 A 6 2 1 S";
    let state = played(begun);
    assert!(state.contains("\ncontender 1 1 2 1 2 3 0\ncontender 2 1 2 2 2 1 0\n"));
    assert_eq!(played(&format!("{begun} E 31 0 6")), state);
    assert!(played(&format!("{begun} E 31 0 6 T")).contains("\nT 0 1 2 0 0 2 0\n"));
    for word in [0u64, 2, 4, 7, 12, 14, 6 | 1 << 63, 6 | 1 << 32, u64::MAX] {
        let written = played(&format!("{begun} E 31 0 {word} T S"));
        assert!(written.contains("\nT 1 0 0 0 0 0 0\nS 1 0 "), "{word}");
    }
}
