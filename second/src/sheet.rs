//! The sheet of a batch of finished runs, and its text.

use std::fmt::Display;

use crate::refusal::Refusal;
use crate::scenario::Refused;

/// "up to 256 finished runs".
pub const MOST_RUNS: usize = 256;

/// "Of a name the first 4,096 bytes are written".
const LONGEST_NAME: usize = 4_096;

/// A finished run: its counts "at the end of the run", and the longest wait of a packet that was sent.
#[derive(Clone, Copy, Debug, PartialEq, Eq)]
pub struct Run {
    pub admitted: u32,
    pub sent: u32,
    pub lost: u32,
    pub waiting: u32,
    pub turned_away: u32,
    pub longest_wait: u32,
}

/// "the five counts' sums"; 64 bits hold those of any batch.
#[derive(Clone, Copy, Debug, PartialEq, Eq)]
pub struct Sums {
    pub admitted: u64,
    pub sent: u64,
    pub lost: u64,
    pub waiting: u64,
    pub turned_away: u64,
}

/// "lost + turned away over lost + turned away + sent, kept as two whole numbers and not reduced".
#[derive(Clone, Copy, Debug, PartialEq, Eq)]
pub struct Loss {
    /// "A packet turned away is lost too": "the packets lost or turned away".
    pub lost: u64,
    /// "the packets lost, turned away or sent", not 0.
    pub lost_or_sent: u64,
}

/// "the run with the highest loss".
#[derive(Clone, Copy, Debug, PartialEq, Eq)]
pub struct Highest {
    /// The run's place in the batch, counted from 0.
    pub place: usize,
    pub loss: Loss,
}

#[derive(Clone, Debug, PartialEq, Eq)]
pub struct Sheet {
    /// The runs in the order of the batch, each with its longest wait.
    pub rows: Vec<Run>,
    pub sums: Sums,
    /// None where "none has a figure".
    pub highest: Option<Highest>,
}

/// A refused batch: the number, and for 24 the place of the run named with it, counted from 0 (else 0).
#[derive(Clone, Copy, Debug, PartialEq, Eq)]
pub struct RefusedBatch {
    pub refusal: Refusal,
    pub place: usize,
}

/// The sheet of a batch: "23 is tried first. A refused batch has no sheet."
pub fn sheet(batch: &[Run]) -> Result<Sheet, RefusedBatch> {
    check_number(batch.len())?;
    check_balance(batch)?;
    Ok(Sheet {
        rows: batch.iter().map(row).collect(),
        sums: sums(batch),
        highest: highest(batch),
    })
}

/// "23: more than 256 runs."
pub fn check_number(runs: usize) -> Result<(), RefusedBatch> {
    if runs > MOST_RUNS {
        return Err(RefusedBatch {
            refusal: Refusal::TooManyRuns,
            place: 0,
        });
    }
    Ok(())
}

/// 24: "the first such run, in the order of the batch, is named with it".
fn check_balance(batch: &[Run]) -> Result<(), RefusedBatch> {
    match batch.iter().position(|run| !balances(run)) {
        Some(place) => Err(RefusedBatch {
            refusal: Refusal::UnbalancedRun,
            place,
        }),
        None => Ok(()),
    }
}

/// Whether the admitted count is "sent + lost + waiting".
fn balances(run: &Run) -> bool {
    let [sent, lost, waiting] = [run.sent, run.lost, run.waiting].map(u64::from);
    u64::from(run.admitted) == sent + lost + waiting
}

/// The longest wait is "0 if none was sent, whatever was lent".
fn row(run: &Run) -> Run {
    let mut row = *run;
    if run.sent == 0 {
        row.longest_wait = 0;
    }
    row
}

fn sums(batch: &[Run]) -> Sums {
    let sum = |count: fn(&Run) -> u32| batch.iter().map(|run| u64::from(count(run))).sum();
    Sums {
        admitted: sum(|run| run.admitted),
        sent: sum(|run| run.sent),
        lost: sum(|run| run.lost),
        waiting: sum(|run| run.waiting),
        turned_away: sum(|run| run.turned_away),
    }
}

/// "Of equal ones the earlier run comes highest."
fn highest(batch: &[Run]) -> Option<Highest> {
    let mut highest: Option<Highest> = None;
    for (place, run) in batch.iter().enumerate() {
        let Some(loss) = loss(run) else {
            continue;
        };
        if highest.is_none_or(|so_far| above(&loss, &so_far.loss)) {
            highest = Some(Highest { place, loss });
        }
    }
    highest
}

/// "A run with nothing lost, turned away or sent has no figure".
fn loss(run: &Run) -> Option<Loss> {
    let lost = u64::from(run.lost) + u64::from(run.turned_away);
    let lost_or_sent = lost + u64::from(run.sent);
    (lost_or_sent > 0).then_some(Loss { lost, lost_or_sent })
}

/// "a over b is above c over d where a × d is above c × b, also where the products pass 64 bits".
fn above(one: &Loss, other: &Loss) -> bool {
    let [a, b, c, d] = [one.lost, one.lost_or_sent, other.lost, other.lost_or_sent].map(u128::from);
    a * d > c * b
}

/// Why a scenario has no run; "Neither is counted."
#[derive(Clone, Copy, Debug, PartialEq, Eq)]
pub enum NoRun {
    Refused(Refused),
    Unreadable,
}

/// What has a row in the text: a run, or a scenario without one, under its name.
#[derive(Clone, Debug, PartialEq, Eq)]
pub struct Entry {
    pub name: Vec<u8>,
    pub run: Result<Run, NoRun>,
}

/// "Where runs have no names, a run's name is its place in the batch, counted from 1, in decimal."
pub fn without_names(batch: &[Run]) -> Vec<Entry> {
    (1..)
        .zip(batch)
        .map(|(place, &run): (usize, _)| Entry {
            name: place.to_string().into_bytes(),
            run: Ok(run),
        })
        .collect()
}

/// The text of the runs' sheet, or of its refusal.
pub fn text(entries: &[Entry]) -> Vec<u8> {
    let batch: Vec<Run> = entries.iter().filter_map(|entry| entry.run.ok()).collect();
    match sheet(&batch) {
        Ok(sheet) => sheet_text(entries, &sheet),
        Err(refused) => refused_text(&refused),
    }
}

/// "A refused batch writes the one line `REFUSED number place`".
pub fn refused_text(refused: &RefusedBatch) -> Vec<u8> {
    let mut text = refused_words(refused.refusal, refused.place).into_bytes();
    text.push(b'\n');
    text
}

fn refused_words(refusal: Refusal, place: usize) -> String {
    format!("REFUSED {} {place}", refusal.number())
}

/// "A heading, a line for each run, a line for the sums, and one for the highest loss".
fn sheet_text(entries: &[Entry], sheet: &Sheet) -> Vec<u8> {
    let mut text = Vec::new();
    let counts = ["admitted", "sent", "lost", "waiting", "turned away"];
    add_line(&mut text, &columns(counts, "longest wait"), b"run");
    let mut rows = sheet.rows.iter();
    for entry in entries {
        add_line(&mut text, &entry_columns(entry, &mut rows), &entry.name);
    }
    add_line(&mut text, &sums_columns(&sheet.sums), b"all runs");
    add_highest(&mut text, entries, sheet.highest);
    text
}

/// The columns, "then come two spaces and the run's name".
fn add_line(text: &mut Vec<u8>, columns: &str, name: &[u8]) {
    text.extend_from_slice(columns.as_bytes());
    text.extend_from_slice(b"  ");
    text.extend_from_slice(&name[..name.len().min(LONGEST_NAME)]);
    text.push(b'\n');
}

/// "each after one space and right-aligned: admitted, sent, lost and waiting in 10 places, the packets
/// turned away in 11; the longest wait likewise in 12 places".
fn columns(counts: [impl Display; 5], wait: impl Display) -> String {
    let [admitted, sent, lost, waiting, turned_away] = counts;
    format!(" {admitted:>10} {sent:>10} {lost:>10} {waiting:>10} {turned_away:>11} {wait:>12}")
}

/// The columns of the next row for a run; what stands "in place of the columns, right-aligned in 69
/// places", for a scenario without one.
fn entry_columns<'a>(entry: &Entry, rows: &mut impl Iterator<Item = &'a Run>) -> String {
    match entry.run {
        Ok(_) => rows.next().map_or_else(String::new, row_columns),
        Err(NoRun::Refused(refused)) => {
            format!("{:>69}", refused_words(refused.refusal, refused.offset))
        }
        Err(NoRun::Unreadable) => format!("{:>69}", "UNREADABLE"),
    }
}

fn row_columns(row: &Run) -> String {
    let counts = [
        row.admitted,
        row.sent,
        row.lost,
        row.waiting,
        row.turned_away,
    ];
    columns(counts, row.longest_wait)
}

/// "five columns, then 13 spaces, for there is no sum of waits".
fn sums_columns(sums: &Sums) -> String {
    let counts = [
        sums.admitted,
        sums.sent,
        sums.lost,
        sums.waiting,
        sums.turned_away,
    ];
    columns(counts, "")
}

/// "The last line".
fn add_highest(text: &mut Vec<u8>, entries: &[Entry], highest: Option<Highest>) {
    match highest {
        Some(Highest { place, loss }) => {
            let words = format!("highest loss {}/{}", loss.lost, loss.lost_or_sent);
            add_line(text, &words, name_of(entries, place));
        }
        None => text.extend_from_slice(b"highest loss: no run has a figure\n"),
    }
}

/// The name of the run at a place in the batch.
fn name_of(entries: &[Entry], place: usize) -> &[u8] {
    let mut runs = entries.iter().filter(|entry| entry.run.is_ok());
    runs.nth(place).map_or(&[], |entry| &entry.name)
}

#[cfg(test)]
pub(crate) mod tests {
    use super::*;

    /// A run of these counts: admitted, sent, lost, waiting, turned away.
    pub(crate) fn run(counts: [u32; 5], longest_wait: u32) -> Run {
        let [admitted, sent, lost, waiting, turned_away] = counts;
        Run {
            admitted,
            sent,
            lost,
            waiting,
            turned_away,
            longest_wait,
        }
    }

    /// A run that balances, by what was lost and sent.
    fn lossy(lost: u32, sent: u32) -> Run {
        crowded(lost, 0, sent)
    }

    /// A run that balances, by what was lost, turned away and sent.
    fn crowded(lost: u32, turned_away: u32, sent: u32) -> Run {
        run([lost + sent, sent, lost, 0, turned_away], 0)
    }

    fn highest_of(batch: &[Run]) -> Option<(usize, u64, u64)> {
        let sheet = sheet(batch).expect("the batch is accepted");
        sheet
            .highest
            .map(|highest| (highest.place, highest.loss.lost, highest.loss.lost_or_sent))
    }

    fn refused(refusal: Refusal, place: usize) -> Result<Sheet, RefusedBatch> {
        Err(RefusedBatch { refusal, place })
    }

    fn entry(name: &[u8], run: Result<Run, NoRun>) -> Entry {
        Entry {
            name: name.to_vec(),
            run,
        }
    }

    fn text_of(batch: &[Run]) -> String {
        String::from_utf8(text(&without_names(batch))).expect("the names are text")
    }

    const NOTHING: Run = Run {
        admitted: 0,
        sent: 0,
        lost: 0,
        waiting: 0,
        turned_away: 0,
        longest_wait: 0,
    };

    const UNBALANCED: Run = Run {
        admitted: 1,
        ..NOTHING
    };

    const HEADING: &str =
        "   admitted       sent       lost    waiting turned away longest wait  run\n";

    #[test]
    fn the_earlier_of_equal_losses_comes_highest() {
        let half = [lossy(1, 1), lossy(2, 2)];
        assert_eq!(highest_of(&half), Some((0, 1, 2)));
        let halves = [lossy(2, 2), lossy(1, 1), lossy(2, 2)];
        assert_eq!(highest_of(&halves), Some((0, 2, 4)));
        let later = [lossy(1, 2), lossy(3, 3), lossy(1, 3), lossy(1, 1)];
        assert_eq!(highest_of(&later), Some((1, 3, 6)));
        let none_lost = [lossy(0, 5), lossy(0, 9)];
        assert_eq!(highest_of(&none_lost), Some((0, 0, 5)));
        let all_lost = [lossy(5, 0), lossy(9, 0)];
        assert_eq!(highest_of(&all_lost), Some((0, 5, 5)));
    }

    #[test]
    fn the_loss_decides_and_not_the_lost() {
        assert_eq!(highest_of(&[lossy(100, 101), lossy(1, 1)]), Some((1, 1, 2)));
        let waiting = run([9, 1, 1, 7, 0], 0);
        assert_eq!(highest_of(&[lossy(2, 3), waiting]), Some((1, 1, 2)));
    }

    #[test]
    fn a_run_without_a_figure_never_comes_highest() {
        let waiting = run([3, 0, 0, 3, 0], 0);
        assert_eq!(
            highest_of(&[NOTHING, waiting, lossy(0, 1)]),
            Some((2, 0, 1))
        );
        assert_eq!(highest_of(&[lossy(0, 1), NOTHING]), Some((0, 0, 1)));
        assert_eq!(
            highest_of(&[NOTHING, lossy(1, 8), waiting]),
            Some((1, 1, 9))
        );
    }

    #[test]
    fn none_has_a_figure() {
        assert_eq!(highest_of(&[]), None);
        assert_eq!(highest_of(&[NOTHING, run([3, 0, 0, 3, 0], 0)]), None);
        let expected =
            "          0          0          0          0           0               all runs\n\
             highest loss: no run has a figure\n";
        assert_eq!(text_of(&[]), format!("{HEADING}{expected}"));
    }

    #[test]
    fn losses_that_differ_least_and_most_are_told_apart() {
        let most = u32::MAX;
        let near = [lossy(most - 2, 1), lossy(most - 1, 1)];
        let highest = Some((1, u64::from(most - 1), u64::from(most)));
        assert_eq!(highest_of(&near), highest);
        let near = [lossy(1, most - 1), lossy(1, most - 2)];
        assert_eq!(highest_of(&near), Some((1, 1, u64::from(most - 1))));
        let far = [lossy(0, most), lossy(most, 0)];
        assert_eq!(
            highest_of(&far),
            Some((1, u64::from(most), u64::from(most)))
        );
    }

    #[test]
    fn products_past_64_bits_are_exact() {
        let most = u64::MAX;
        let loss = |lost, lost_or_sent| Loss { lost, lost_or_sent };
        let (lower, higher) = (loss(most - 2, most - 1), loss(most - 1, most));
        assert!(above(&higher, &lower));
        assert!(!above(&lower, &higher));
        assert!(!above(&higher, &higher));
        assert!(!above(&loss(1 << 32, 1 << 63), &loss(1, 1 << 31)));
        assert!(above(&loss(1 << 63, most), &loss(1, 2)));
    }

    #[test]
    fn a_packet_turned_away_is_lost_too() {
        assert_eq!(highest_of(&[crowded(7, 4, 5)]), Some((0, 11, 16)));
        let batch = [lossy(3, 3), crowded(1, 2, 2), crowded(0, 2, 1)];
        assert_eq!(highest_of(&batch), Some((2, 2, 3)));
        let halves = [crowded(0, 2, 2), lossy(1, 1), crowded(1, 1, 2)];
        assert_eq!(highest_of(&halves), Some((0, 2, 4)));
        let waiting = run([9, 1, 1, 7, 2], 0);
        assert_eq!(highest_of(&[lossy(2, 1), waiting]), Some((1, 3, 4)));
    }

    #[test]
    fn a_run_with_only_packets_turned_away_has_a_figure() {
        let only = run([0, 0, 0, 0, 3], 0);
        assert_eq!(highest_of(&[only]), Some((0, 3, 3)));
        let with_waiting = run([16, 0, 0, 16, 1], 0);
        let batch = [NOTHING, lossy(9, 1), with_waiting, only];
        assert_eq!(highest_of(&batch), Some((2, 1, 1)));
        assert_eq!(highest_of(&[lossy(9, 0), only]), Some((0, 9, 9)));
    }

    /// A run has at most twice 4,294,967,295 packets lost, turned away or sent.
    #[test]
    fn the_largest_loss_is_past_32_bits() {
        let most = u64::from(u32::MAX);
        let all = crowded(u32::MAX, u32::MAX, 0);
        assert_eq!(highest_of(&[all]), Some((0, 2 * most, 2 * most)));
        let all_but_one = crowded(u32::MAX - 1, u32::MAX, 1);
        let near = [all_but_one, all];
        assert_eq!(highest_of(&near), Some((1, 2 * most, 2 * most)));
        let one_fewer = crowded(u32::MAX - 1, u32::MAX - 1, 1);
        let near = [one_fewer, all_but_one];
        assert_eq!(highest_of(&near), Some((1, 2 * most - 1, 2 * most)));
    }

    /// Cross products 2^64 and 2^64 - 1: the higher one has nothing in 64 bits.
    #[test]
    fn losses_about_64_bits() {
        let (lower, higher) = (crowded(0, u32::MAX, 1), crowded(1, u32::MAX, 1));
        let highest = |place| Some((place, 1 << 32, (1 << 32) + 1));
        assert_eq!(highest_of(&[lower, higher]), highest(1));
        assert_eq!(highest_of(&[higher, lower]), highest(0));
    }

    /// Cross products that differ by 2^64, and so are equal in 64 bits.
    #[test]
    fn losses_that_differ_only_past_64_bits() {
        let lower = crowded((1 << 31) - 9, u32::MAX, (1 << 31) + 2);
        let higher = crowded(u32::MAX - 3, u32::MAX, 1);
        let figure = |run: &Run| loss(run).expect("it has a figure");
        let product = |one: &Run, other: &Run| {
            u128::from(figure(one).lost) * u128::from(figure(other).lost_or_sent)
        };
        let difference = product(&higher, &lower) - product(&lower, &higher);
        assert_eq!(difference, 1 << 64);
        let highest = |place| Some((place, (1 << 33) - 5, (1 << 33) - 4));
        assert_eq!(highest_of(&[lower, higher]), highest(1));
        assert_eq!(highest_of(&[higher, lower]), highest(0));
    }

    #[test]
    fn at_most_256_runs() {
        let mut batch = [lossy(0, 1); 256];
        batch[255] = lossy(3, 1);
        assert_eq!(highest_of(&batch), Some((255, 3, 4)));
        let sheet_of_256 = sheet(&batch).expect("256 are accepted");
        assert_eq!(sheet_of_256.rows, batch);
        assert_eq!(sheet_of_256.sums.admitted, 255 + 4);
        assert_eq!(sheet(&[NOTHING; 257]), refused(Refusal::TooManyRuns, 0));
        assert_eq!(text_of(&[NOTHING; 257]), "REFUSED 23 0\n");
    }

    #[test]
    fn too_many_runs_before_an_unbalanced_one() {
        assert_eq!(sheet(&[UNBALANCED; 257]), refused(Refusal::TooManyRuns, 0));
        let all = refused(Refusal::UnbalancedRun, 0);
        assert_eq!(sheet(&[UNBALANCED; 256]), all);
    }

    #[test]
    fn the_first_unbalanced_run_is_named() {
        let batch = [NOTHING, lossy(1, 1), UNBALANCED, NOTHING, UNBALANCED];
        assert_eq!(sheet(&batch), refused(Refusal::UnbalancedRun, 2));
        assert_eq!(text_of(&batch), "REFUSED 24 2\n");
        let mut last = [NOTHING; 256];
        last[255] = UNBALANCED;
        assert_eq!(sheet(&last), refused(Refusal::UnbalancedRun, 255));
    }

    #[test]
    fn each_count_is_weighed_in_the_balance() {
        let unbalanced = [
            run([4, 1, 1, 1, 0], 0),
            run([2, 1, 1, 1, 0], 0),
            run([0, 1, 0, 0, 0], 0),
            run([0, 0, 1, 0, 0], 0),
            run([0, 0, 0, 1, 0], 0),
            run([0, u32::MAX, 1, 0, 0], 0),
            run([u32::MAX, u32::MAX, u32::MAX, 1, 0], 0),
        ];
        for run in unbalanced {
            assert_eq!(sheet(&[run]), refused(Refusal::UnbalancedRun, 0));
        }
        assert!(sheet(&[run([u32::MAX, u32::MAX - 2, 1, 1, 0], 0)]).is_ok());
    }

    /// What was turned away "was never admitted, so that it stands beside" the balance.
    #[test]
    fn turned_away_is_not_in_the_balance() {
        assert!(sheet(&[run([3, 1, 1, 1, 5], 0), run([0, 0, 0, 0, u32::MAX], 0)]).is_ok());
        let with_it = run([4, 1, 1, 1, 1], 0);
        assert_eq!(sheet(&[with_it]), refused(Refusal::UnbalancedRun, 0));
        let without_it = run([2, 1, 1, 1, 1], 0);
        assert_eq!(sheet(&[without_it]), refused(Refusal::UnbalancedRun, 0));
    }

    #[test]
    fn the_longest_wait_is_0_where_none_was_sent() {
        let batch = [
            run([2, 0, 1, 1, 5], 7),
            run([2, 1, 1, 0, 0], 7),
            run([1, 1, 0, 0, 0], 0),
            run([0, 0, 0, 0, 0], u32::MAX),
        ];
        let rows = sheet(&batch).expect("the batch is accepted").rows;
        assert!(rows.iter().map(|row| row.longest_wait).eq([0, 7, 0, 0]));
        assert_eq!(rows[0], run([2, 0, 1, 1, 5], 0));
    }

    #[test]
    fn the_sums_are_past_32_bits() {
        let most = u32::MAX;
        let batch = [
            run([most, most, 0, 0, 0], 1),
            run([most, 0, most, 0, 0], 2),
            run([most, 0, 0, most, 0], 3),
            run([6, 1, 2, 3, 4], 5),
            run([0, 0, 0, 0, most], 6),
        ];
        let sums = sheet(&batch).expect("the batch is accepted").sums;
        let most = u64::from(most);
        let expected = Sums {
            admitted: 3 * most + 6,
            sent: most + 1,
            lost: most + 2,
            waiting: most + 3,
            turned_away: most + 4,
        };
        assert_eq!(sums, expected);
    }

    #[test]
    fn a_longer_number_takes_the_places_it_needs() {
        let most = run([u32::MAX, u32::MAX, 0, 0, u32::MAX], u32::MAX);
        let row = " 4294967295 4294967295          0          0  4294967295   4294967295  1\n";
        let sums =
            " 4294967295 4294967295          0          0  4294967295               all runs\n";
        let highest = "highest loss 4294967295/8589934590  1\n";
        assert_eq!(text_of(&[most]), [HEADING, row, sums, highest].concat());
        let sums =
            " 12884901885 12884901885          0          0 12884901885               all runs\n";
        assert!(text_of(&[most; 3]).ends_with(&["  3\n", sums, highest].concat()));
        let sum = "128849018850";
        let sums = format!(" {sum} {sum}          0          0 {sum}               all runs\n");
        assert!(text_of(&[most; 30]).ends_with(&["  30\n", &sums, highest].concat()));
    }

    #[test]
    fn the_text_of_a_report() {
        let cut = NoRun::Refused(Refused {
            refusal: Refusal::OutOfPlace,
            offset: 32,
        });
        let entries = [
            entry(b"worked", Ok(run([3, 3, 0, 0, 0], 14))),
            entry(b"crowded", Ok(run([12, 5, 7, 0, 4], 9))),
            entry(b"cut", Err(cut)),
            entry(b"missing", Err(NoRun::Unreadable)),
        ];
        let expected = "   admitted       sent       lost    waiting turned away longest wait  run
          3          3          0          0           0           14  worked
         12          5          7          0           4            9  crowded
                                                        REFUSED 20 32  cut
                                                           UNREADABLE  missing
         15          8          7          0           4               all runs
highest loss 11/16  crowded
";
        assert_eq!(String::from_utf8(text(&entries)).as_deref(), Ok(expected));
    }

    #[test]
    fn the_longest_offset() {
        let ends = NoRun::Refused(Refused {
            refusal: Refusal::ScenarioEnds,
            offset: 65_536,
        });
        let row = "                                                     REFUSED 18 65536  a\n";
        let written = text(&[entry(b"a", Err(ends))]);
        assert!(written[HEADING.len()..].starts_with(row.as_bytes()));
    }

    #[test]
    fn the_highest_is_named_past_those_without_a_run() {
        let entries = [
            entry(b"a", Err(NoRun::Unreadable)),
            entry(b"b", Ok(lossy(1, 1))),
            entry(b"c", Err(NoRun::Unreadable)),
            entry(b"d", Ok(lossy(2, 1))),
        ];
        assert!(text(&entries).ends_with(b"  all runs\nhighest loss 2/3  d\n"));
    }

    #[test]
    fn a_name_is_bytes_and_is_cut() {
        let mut name = vec![b'x'; 4_097];
        name[..3].copy_from_slice(b"\xff\n\0");
        let cut = &name[..4_096];
        let columns = b"          2          1          1          0           0            0  ";
        let row = [columns, cut, b"\n"].concat();
        let highest = [b"\nhighest loss 1/2  ", cut, b"\n"].concat();
        for name in [&name, cut] {
            let written = text(&[entry(name, Ok(lossy(1, 1)))]);
            assert!(written[HEADING.len()..].starts_with(&row));
            assert!(written.ends_with(&highest));
        }
    }

    #[test]
    fn without_names_a_run_has_its_place() {
        let written = text_of(&[lossy(1, 1); 10]);
        let names: Vec<&str> = written
            .lines()
            .skip(1)
            .take(10)
            .filter_map(|line| line.split_whitespace().last())
            .collect();
        assert_eq!(names, ["1", "2", "3", "4", "5", "6", "7", "8", "9", "10"]);
        assert!(written.ends_with("highest loss 1/2  1\n"));
    }
}
