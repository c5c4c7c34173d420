//! The values that a field is tried with, at the edges of what it may be and at its bits; the faults that are tried together.

use std::collections::BTreeSet;

/// What a field may be: numbers from one to another, both among them, or several such ranges.
pub type Ranges = Vec<(u64, u64)>;

/// Whether a value is in one of the ranges.
pub fn within(ranges: &Ranges, value: u64) -> bool {
    ranges.iter().any(|(low, high)| (*low..=*high).contains(&value))
}

/// The values for a field of so many bits: 0, 1 and the highest; the ends of each range and what lies beside them; what is
/// there now with a bit turned, the lowest or one beside the end of a byte, and what lies beside it.
pub fn edges(bits: u32, now: u64, ranges: &Ranges) -> BTreeSet<u64> {
    let most = u64::MAX >> (64 - bits);
    let beside = |value: u64| [value.saturating_sub(1), value, value.saturating_add(1)];
    let ends = ranges.iter().flat_map(|(low, high)| [*low, *high]).chain([now]).flat_map(beside);
    let turned = (0..bits).filter(|bit| [7, 0].contains(&(bit % 8))).map(|bit| now ^ (1 << bit));
    ends.chain(turned).chain([0, 1, most]).filter(|value| *value <= most).collect()
}

/// Each of a row alone, and each with each of those after it.
pub fn alone_and_with<T>(row: &[T]) -> Vec<(&T, Option<&T>)> {
    let with = |at: usize| row[at + 1..].iter().map(Some);
    (0..row.len()).flat_map(|at| [None].into_iter().chain(with(at)).map(move |later| (&row[at], later))).collect()
}

#[cfg(test)]
mod tests {
    use super::*;

    #[test]
    fn edges_and_bits() {
        let values: Vec<u64> = edges(4, 5, &vec![(2, 6)]).into_iter().collect();
        assert_eq!(values, [0, 1, 2, 3, 4, 5, 6, 7, 15]);
        assert!(edges(64, 0, &vec![(0, u64::MAX)]).contains(&(1 << 63)));
        assert_eq!(alone_and_with(&[1, 2]), [(&1, None), (&1, Some(&2)), (&2, None)]);
    }
}
