//! Writes lines: fields one space apart, numbers in decimal, each line closed by one newline.

use std::io::Write;

/// How many bytes are gathered before they are written out.
const GATHER: usize = 1 << 16;

/// A writer of lines that gathers them; what cannot be written is let go.
pub struct Lines<W: Write> {
    out: W,
    gathered: Vec<u8>,
    begun: bool,
}

impl<W: Write> Lines<W> {
    pub fn new(out: W) -> Self {
        Lines {
            out,
            gathered: Vec::with_capacity(GATHER + 256),
            begun: false,
        }
    }

    /// One field that is a word.
    pub fn word(&mut self, word: &str) -> &mut Self {
        self.part();
        self.gathered.extend_from_slice(word.as_bytes());
        self
    }

    /// One field that is a number; a yes is 1.
    pub fn number(&mut self, number: impl Into<u64>) -> &mut Self {
        self.part();
        let mut digits = [0u8; 20];
        let mut at = digits.len();
        let mut left: u64 = number.into();
        loop {
            at -= 1;
            digits[at] = b'0' + (left % 10) as u8;
            left /= 10;
            if left == 0 {
                break;
            }
        }
        self.gathered.extend_from_slice(&digits[at..]);
        self
    }

    /// Several fields that are numbers.
    pub fn numbers(&mut self, numbers: &[u64]) -> &mut Self {
        for &number in numbers {
            self.number(number);
        }
        self
    }

    /// Closes the line.
    pub fn close(&mut self) {
        self.gathered.push(b'\n');
        self.begun = false;
        if self.gathered.len() >= GATHER {
            self.write_out();
        }
    }

    /// Writes out what is gathered and hands back the writer.
    pub fn finish(mut self) -> W {
        self.write_out();
        let _ = self.out.flush();
        self.out
    }

    /// The space before every field but a line's first.
    fn part(&mut self) {
        if self.begun {
            self.gathered.push(b' ');
        }
        self.begun = true;
    }

    fn write_out(&mut self) {
        let _ = self.out.write_all(&self.gathered);
        self.gathered.clear();
    }
}
