//! Reads a batch of runs: their number, then the runs, all little-endian.

use crate::scenario::little_endian;
use crate::sheet::{Run, MOST_RUNS};

/// "The input's first eight bytes are the number of runs".
const NUMBER_BYTES: usize = 8;

/// "the runs, 24 bytes each".
const RUN_BYTES: usize = 24;

/// One run above the most is enough to refuse a larger batch.
const RUNS_READ: usize = MOST_RUNS + 1;

/// How many bytes of an input are read.
pub const LONGEST_BATCH: usize = NUMBER_BYTES + RUNS_READ * RUN_BYTES;

/// The runs of an input; "Where the input ends early, the bytes that are missing are zero."
pub fn read_batch(input: &[u8]) -> Vec<Run> {
    let runs = number_of_runs(input).min(RUNS_READ as u64) as usize;
    (0..runs)
        .map(|place| run_at(input, NUMBER_BYTES + place * RUN_BYTES))
        .collect()
}

fn number_of_runs(input: &[u8]) -> u64 {
    let low = little_endian(input, 0, 4);
    let high = little_endian(input, 4, 4);
    u64::from(high) << 32 | u64::from(low)
}

/// "admitted, sent, lost, waiting, turned away, longest wait, four bytes each".
fn run_at(input: &[u8], from: usize) -> Run {
    Run {
        admitted: little_endian(input, from, 4),
        sent: little_endian(input, from + 4, 4),
        lost: little_endian(input, from + 8, 4),
        waiting: little_endian(input, from + 12, 4),
        turned_away: little_endian(input, from + 16, 4),
        longest_wait: little_endian(input, from + 20, 4),
    }
}

#[cfg(test)]
mod tests {
    use super::{read_batch, LONGEST_BATCH};
    use crate::sheet::{Run, MOST_RUNS};

    /// A batch's bytes: the number it says, and its runs.
    fn bytes(number: u64, runs: &[[u32; 6]]) -> Vec<u8> {
        let mut bytes = number.to_le_bytes().to_vec();
        bytes.extend(
            runs.iter()
                .flatten()
                .flat_map(|number| number.to_le_bytes()),
        );
        bytes
    }

    fn numbers(run: &Run) -> [u32; 6] {
        let &Run {
            admitted,
            sent,
            lost,
            waiting,
            turned_away,
            longest_wait,
        } = run;
        [admitted, sent, lost, waiting, turned_away, longest_wait]
    }

    fn read(input: &[u8]) -> Vec<[u32; 6]> {
        read_batch(input).iter().map(numbers).collect()
    }

    #[test]
    fn the_runs_are_read_in_order() {
        let runs = [
            [0x0403_0201, 2, 3, 4, 5, 6],
            [u32::MAX, 7, 8, 9, 0x4000_0000, 0x8000_0000],
        ];
        assert_eq!(read(&bytes(2, &runs)), runs);
        assert_eq!(read(&bytes(1, &runs)), runs[..1]);
        assert_eq!(read(&bytes(0, &runs)), [[0; 6]; 0]);
    }

    #[test]
    fn missing_bytes_are_zero() {
        assert_eq!(read(&[]), [[0; 6]; 0]);
        assert_eq!(read(&[2]), [[0; 6]; 2]);
        let whole = bytes(3, &[[0x0101_0101; 6]; 2]);
        let cut = [
            [0x0101_0101; 6],
            [0x0101_0101, 0x0001_0101, 0, 0, 0, 0],
            [0; 6],
        ];
        assert_eq!(read(&whole[..8 + 24 + 7]), cut);
    }

    #[test]
    fn a_number_above_the_most_is_seen_in_all_its_bytes() {
        assert_eq!(read(&bytes(256, &[])).len(), 256);
        for number in [257, 258, 1 << 16, 1 << 32, 1 << 63, u64::MAX] {
            assert_eq!(read(&bytes(number, &[])).len(), MOST_RUNS + 1);
        }
    }

    #[test]
    fn the_bytes_read_hold_the_most_runs() {
        let runs = vec![[1, 2, 3, 4, 5, 6]; MOST_RUNS + 1];
        assert_eq!(bytes(0, &runs).len(), LONGEST_BATCH);
    }
}
