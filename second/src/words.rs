//! The lines, words and numbers of a text that a person writes.

/// "spaces, tabs and carriage returns part words".
const BLANKS: &[u8] = b" \t\r";

/// The lines of a text with their numbers: "lines are counted from 1, the one after the last newline too".
pub fn lines(text: &[u8]) -> impl Iterator<Item = (usize, &[u8])> {
    (1..).zip(text.split(|&byte| byte == b'\n'))
}

/// The words of a line.
pub fn words(line: &[u8]) -> impl Iterator<Item = &[u8]> {
    before_comment(line)
        .split(|byte| BLANKS.contains(byte))
        .filter(|word| !word.is_empty())
}

/// "`#` begins a comment, which ends with its line: also in the middle of a word."
fn before_comment(line: &[u8]) -> &[u8] {
    let end = line.iter().position(|&byte| byte == b'#');
    &line[..end.unwrap_or(line.len())]
}

/// "A number is written in decimal, or in hexadecimal as `0x` and digits, small or capital."
pub fn number(word: &[u8]) -> Option<u32> {
    match word {
        [b'0', b'x', digits @ ..] => number_in_base(digits, 16),
        // "A decimal number has no 0 before other digits".
        [b'0', _, ..] => None,
        digits => number_in_base(digits, 10),
    }
}

/// One digit or more; "It is at most 4,294,967,295."
fn number_in_base(digits: &[u8], base: u32) -> Option<u32> {
    if digits.is_empty() {
        return None;
    }
    digits.iter().try_fold(0u32, |number, &digit| {
        let digit = char::from(digit).to_digit(base)?;
        number.checked_mul(base)?.checked_add(digit)
    })
}

#[cfg(test)]
mod tests {
    use super::{lines, number, words};

    fn words_of(line: &str) -> Vec<&str> {
        words(line.as_bytes())
            .map(|word| std::str::from_utf8(word).unwrap())
            .collect()
    }

    #[test]
    fn lines_are_counted_from_1_to_the_one_after_the_last_newline() {
        let counted =
            |text: &'static str| -> Vec<(usize, &[u8])> { lines(text.as_bytes()).collect() };
        assert_eq!(counted(""), [(1, &b""[..])]);
        assert_eq!(counted("a"), [(1, &b"a"[..])]);
        assert_eq!(counted("a\n"), [(1, &b"a"[..]), (2, b"")]);
        assert_eq!(counted("\n\rb c"), [(1, &b""[..]), (2, b"\rb c")]);
    }

    #[test]
    fn spaces_tabs_and_carriage_returns_part_words() {
        assert_eq!(words_of("a b"), ["a", "b"]);
        assert_eq!(words_of(" \ta\t \tb\rc \r"), ["a", "b", "c"]);
        assert_eq!(words_of(" \t\r"), [""; 0]);
        assert_eq!(
            words_of("a\0b\x0Bc\x0Cd\u{A0}e,f"),
            ["a\0b\x0Bc\x0Cd\u{A0}e,f"]
        );
    }

    #[test]
    fn a_comment_ends_the_words_also_in_one() {
        assert_eq!(words_of("# a b"), [""; 0]);
        assert_eq!(words_of("a # b # c"), ["a"]);
        assert_eq!(words_of("a b#c d"), ["a", "b"]);
        assert_eq!(words_of("a #"), ["a"]);
    }

    #[test]
    fn decimal_numbers() {
        assert_eq!(number(b"0"), Some(0));
        assert_eq!(number(b"7"), Some(7));
        assert_eq!(number(b"4294967295"), Some(u32::MAX));
        for word in [
            "4294967296",
            "4294967300",
            "42949672950",
            "18446744073709551616",
        ] {
            assert_eq!(number(word.as_bytes()), None, "{word}");
        }
    }

    #[test]
    fn a_decimal_number_has_no_0_before_other_digits() {
        for word in ["00", "01", "0107", "0000000000"] {
            assert_eq!(number(word.as_bytes()), None, "{word}");
        }
        assert_eq!(number(b"10"), Some(10));
    }

    #[test]
    fn hexadecimal_numbers() {
        assert_eq!(number(b"0x0107"), Some(263));
        assert_eq!(number(b"0x0"), Some(0));
        assert_eq!(number(b"0xabcdef"), Some(0xABCDEF));
        assert_eq!(number(b"0xABCDEF"), Some(0xABCDEF));
        assert_eq!(number(b"0xFfFfFfFf"), Some(u32::MAX));
        assert_eq!(number(b"0x0000000000000000001F"), Some(31));
        assert_eq!(number(b"0x100000000"), None);
        assert_eq!(number(b"0x10000000000000000"), None);
    }

    #[test]
    fn what_is_no_number() {
        for word in [
            "", "x", "0x", "0X1", "x1", "0xg", "0x1g", "0x 1", "0x0x1", "1a", "a", "-1", "+1",
            "0x-1", "1,000", "1_000", "1.", "1e3", "\u{663}",
        ] {
            assert_eq!(number(word.as_bytes()), None, "{word}");
        }
    }
}
