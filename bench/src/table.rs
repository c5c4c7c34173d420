//! The page that is printed: the machine, the table, the notes under it and the verdict, as markdown.

use std::time::Duration;

/// The ratio that is asked for in each of the scenarios, and the one that is asked for in one of them.
const MOST: f64 = 1.5;
const LEVEL: f64 = 1.0;

const TITLE: &str = "# How quick busrun is beside the second engine";

const HEAD: &str = "\
| scenario | slots | busrun, ns a slot | second, ns a slot | ratio \
| busrun, instructions a slot | second, instructions a slot | ratio |
|---|--:|--:|--:|--:|--:|--:|--:|
";

/// The last line where times are not to be trusted.
const UNTRUSTED: &str = "nothing is said of the target, because the times are not to be trusted";

/// What was measured on one scenario; of two numbers the first is busrun's.
pub struct Row {
    pub letter: char,
    pub words: &'static str,
    pub slots: u16,
    pub times: [Duration; 2],
    pub counts: [Option<u64>; 2],
}

/// The page, of times that are to be trusted or not.
pub fn page(machine: &[String], rows: &[Row], notes: &[String], trusted: bool) -> String {
    let machine: String = machine.iter().map(|line| format!("- {line}\n")).collect();
    let table: String = rows.iter().map(Row::line).collect();
    let notes: String = notes.iter().map(|note| format!("{note}\n")).collect();
    let last = if trusted { verdict(rows) } else { UNTRUSTED.to_string() };
    format!("{TITLE}\n\n{machine}\n{HEAD}{table}\n{notes}\n{last}\n")
}

impl Row {
    fn line(&self) -> String {
        let [times, counts] = [self.times_a_slot().map(Some), self.counts_a_slot()];
        format!(
            "| {}: {} | {} | {} | {} |\n",
            self.letter,
            self.words,
            grouped(&self.slots.to_string()),
            fields(times, 1),
            fields(counts, 0)
        )
    }

    fn times_a_slot(&self) -> [f64; 2] {
        self.times.map(|time| time.as_nanos() as f64 / f64::from(self.slots))
    }

    fn counts_a_slot(&self) -> [Option<f64>; 2] {
        self.counts.map(|count| Some(count? as f64 / f64::from(self.slots)))
    }

    fn takes_more_than(&self, ratio: f64) -> bool {
        let [busrun, second] = self.times_a_slot();
        busrun > ratio * second
    }
}

/// Two numbers and their ratio; '-' stands for what is missing.
fn fields([busrun, second]: [Option<f64>; 2], digits: usize) -> String {
    let ratio = busrun.zip(second).map(|(busrun, second)| busrun / second);
    [(busrun, digits), (second, digits), (ratio, 2)]
        .map(|(number, digits)| number.map_or("-".to_string(), |number| grouped(&format!("{number:.digits$}"))))
        .join(" | ")
}

/// A decimal number with its thousands parted.
fn grouped(number: &str) -> String {
    let (whole, rest) = number.split_at(number.find('.').unwrap_or(number.len()));
    let parts = whole.as_bytes().rchunks(3).rev().map(String::from_utf8_lossy);
    parts.collect::<Vec<_>>().join(",") + rest
}

/// The last line where times are to be trusted: "at most 1.5 times its time in each of the four scenarios, and one figure at or below 1.0".
fn verdict(rows: &[Row]) -> String {
    let letters = |wanted: fn(&Row) -> bool| {
        let found = rows.iter().filter(|row| wanted(row));
        found.map(|row| row.letter.to_string()).collect::<Vec<_>>().join(", ")
    };
    let above = letters(|row| row.takes_more_than(MOST));
    let level = letters(|row| !row.takes_more_than(LEVEL));
    if !above.is_empty() {
        format!("target not met: above {MOST} times the second engine's time in {above}")
    } else if level.is_empty() {
        format!("target not met: above {LEVEL} times the second engine's time in each of the four")
    } else {
        format!("target met: at most {MOST} times the second engine's time in each of the four, and at most {LEVEL} times in {level}")
    }
}

#[cfg(test)]
mod tests {
    use super::*;

    fn row(letter: char, busrun: u64, second: u64, counts: [Option<u64>; 2]) -> Row {
        Row {
            letter,
            words: "words",
            slots: 1_000,
            times: [busrun, second].map(Duration::from_micros),
            counts,
        }
    }

    #[test]
    fn a_line_of_the_table() {
        let line = row('a', 1_234_567, 1_000, [Some(3_000_400), Some(2_000_000)]).line();
        assert_eq!(
            line,
            "| a: words | 1,000 | 1,234,567.0 | 1,000.0 | 1,234.57 | 3,000 | 2,000 | 1.50 |\n"
        );
    }

    #[test]
    fn what_is_not_counted_is_a_dash() {
        let line = row('b', 30, 20, [None, Some(1_000)]).line();
        assert_eq!(line, "| b: words | 1,000 | 30.0 | 20.0 | 1.50 | - | 1 | - |\n");
    }

    #[test]
    fn thousands_are_parted() {
        let numbers = ["1", "999", "1000", "65535", "999.9", "1000.25", "1234567.0"];
        let parted = ["1", "999", "1,000", "65,535", "999.9", "1,000.25", "1,234,567.0"];
        assert_eq!(numbers.map(grouped), parted);
    }

    #[test]
    fn one_and_a_half_times_is_within_the_target_where_one_is_level() {
        let within = |letter| row(letter, 15, 10, [None; 2]);
        let level = |letter| row(letter, 10, 10, [None; 2]);
        assert_eq!(
            verdict(&[level('a'), within('b'), level('c')]),
            "target met: at most 1.5 times the second engine's time in each of the four, and at most 1 times in a, c"
        );
        assert_eq!(
            verdict(&[within('a'), row('b', 11, 10, [None; 2])]),
            "target not met: above 1 times the second engine's time in each of the four"
        );
        let above = |letter| row(letter, 16, 10, [None; 2]);
        assert_eq!(
            verdict(&[above('b'), level('a'), above('d')]),
            "target not met: above 1.5 times the second engine's time in b, d"
        );
    }

    fn small_page(trusted: bool) -> String {
        let row = row('a', 1, 1, [None; 2]);
        page(&["machine: m".to_string()], &[row], &["A note.".to_string()], trusted)
    }

    #[test]
    fn the_page_is_closed_by_the_verdict() {
        let page = small_page(true);
        assert!(page.starts_with("# How quick"));
        assert!(page.contains("\n\n- machine: m\n\n| scenario |"));
        let (_, last) = page.split_once(" |\n\nA note.\n\n").unwrap();
        assert!(last.starts_with("target met: ") && last.lines().count() == 1);
    }

    #[test]
    fn times_that_are_not_to_be_trusted_have_no_verdict() {
        let page = small_page(false);
        assert!(!page.contains("target met") && !page.contains("target not met"));
        assert!(page.ends_with("\n\nnothing is said of the target, because the times are not to be trusted\n"));
    }
}
