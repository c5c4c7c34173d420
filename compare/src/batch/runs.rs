//! Tables of batches in bytes: which loss is highest, how many runs there are, runs that do not balance, the largest numbers,
//! and inputs that end early or late.

use super::sheet::{bytes, refused, sheet_of_places, turned_away_of, Loss, Run, MOST_RUNS};
use crate::case::Case;
use crate::edges::edges;

/// Nothing lost, turned away or sent.
const NONE: Loss = (0, 0);
/// The highest count, the same as part of a loss, and the most packets that are in a loss.
const HIGHEST: u32 = u32::MAX;
const MOST: u64 = u32::MAX as u64;
const TWICE: u64 = 2 * MOST;

/// Losses of which the first is above the second.
const ABOVE: &[[Loss; 2]] = &[
    [(1, 1), (1, 2)],
    [(1, 5), (0, 5)],
    [(1, MOST), (0, MOST)],
    // Fewer are lost, or more are sent.
    [(2, 4), (5, 100)],
    [(6, 9), (1, 2)],
    [(5, 10), (6, 13)],
    // The same in tenths, hundredths or thousandths.
    [(1, 9), (1, 10)],
    [(1, 3), (33, 100)],
    [(2, 3), (666, 1_000)],
    // The same in single precision.
    [(1, 3), (333_333_333, 1_000_000_000)],
    [(333_333_334, 1_000_000_000), (1, 3)],
    [(1, MOST - 1), (1, MOST)],
    [(MOST, MOST), (MOST - 1, MOST)],
    [(2_147_483_648, MOST), (1, 2)],
    [(1, 2), (2_147_483_647, MOST)],
    // The same in double precision: the products differ by 1.
    [(MOST - 1, MOST), (MOST - 2, MOST - 1)],
    [(1_134_903_170, 1_836_311_903), (1_836_311_903, 2_971_215_073)],
    // The products are the same in 32 bits, or the other way round; the other way round in 64 bits with a sign.
    [(65_536, 65_537), (65_536, 131_073)],
    [(65_536, 65_536), (65_535, 65_536)],
    [(MOST, MOST), (2_147_483_647, MOST)],
    [(3_000_000_000, 4_000_000_000), (2_000_000_000, 4_000_000_000)],
    // What is lost or turned away, or ended, is 0 in 32 bits, or 1.
    [(MOST + 1, MOST + 1), (1, 2)],
    [(MOST + 2, MOST + 2), (1, 2)],
    [(MOST + 1, MOST + 3), (1, 2)],
    [(2, 3), (5, MOST + 1)],
    // One product passes 64 bits, by as little as may be or by more; the other way round modulo 2^64.
    [(MOST + 1, MOST + 2), (MOST, MOST + 1)],
    [(MOST + 1, MOST + 1), (MOST, MOST + 1)],
    [(TWICE, TWICE), (2_147_483_648, MOST + 1)],
    // Both pass 64 bits, and the products are the other way round modulo 2^64, or with a sign.
    [(TWICE, TWICE), (MOST + 1, TWICE)],
    [(6_000_000_000, 8_000_000_000), (4_000_000_000, 8_000_000_000)],
    [(5_000_000_000, 5_000_000_000), (4_000_000_000, 6_000_000_000)],
    // The products differ by 2^64.
    [(6_043_231_022, 6_157_461_338), (874_525_121, 3_943_519_387)],
    [(4_642_203_533, 7_846_270_127), (356_397_549, 4_576_088_783)],
    [(5_578_480_658, 6_654_793_745), (3_628_842_830, 7_635_760_927)],
    // The products pass 64 bits and differ by 1, or by little.
    [(TWICE - 1, TWICE), (TWICE - 2, TWICE - 1)],
    [(2_971_215_073, 4_807_526_976), (4_807_526_976, 7_778_742_049)],
    [(TWICE, TWICE), (TWICE - 1, TWICE)],
    [(MOST, MOST), (TWICE - 1, TWICE)],
    [(8_000_000_000, TWICE), (7_999_999_999, TWICE)],
];

/// Losses that are equal.
const EQUAL: &[[Loss; 2]] = &[
    [(1, 2), (2, 4)],
    [(1, 1), (5, 5)],
    [(0, 1), (0, 7)],
    [(3, 7), (3, 7)],
    [(1, 1), (MOST, MOST)],
    [(0, 1), (0, MOST)],
    [(1, 3), (1_431_655_765, MOST)],
    [(1, 65_537), (65_535, MOST)],
    [(2_147_483_647, MOST - 1), (1, 2)],
    [(1, 1), (TWICE, TWICE)],
    [(1, 2), (MOST, TWICE)],
    // The products pass 64 bits.
    [(MOST + 1, MOST + 1), (TWICE, TWICE)],
    [(5_726_623_060, TWICE), (4_294_967_298, 6_442_450_947)],
    [(6_442_450_941, 8_589_934_588), (4_831_838_208, 6_442_450_944)],
];

/// Three losses or more, or runs without a figure; and the place of the highest, counted from 1, or 0 where there is none.
const LOSSES: &[(&[Loss], usize)] = &[
    (&[], 0),
    (&[NONE], 0),
    (&[NONE, NONE, NONE], 0),
    (&[(1, 2)], 1),
    (&[(0, 3)], 1),
    (&[(3, 3)], 1),
    (&[NONE, (3, 3)], 2),
    (&[(2, 3), (1, 1), NONE, (3, 3)], 2),
    (&[NONE, (1, 2)], 2),
    (&[(1, 2), NONE], 1),
    (&[NONE, (0, 3)], 2),
    (&[(0, 3), NONE], 1),
    (&[NONE, (0, 3), NONE], 2),
    (&[NONE, NONE, (0, 3), (0, 2)], 3),
    (&[(1, 3), NONE, (1, 2)], 3),
    (&[(1, 2), NONE, (1, 3)], 1),
    (&[(1, 2), NONE, (2, 4)], 1),
    (&[NONE, (1, 3), NONE, NONE, (1, 2), NONE], 5),
    (&[(2, 4), (1, 2), (3, 6)], 1),
    (&[(1, 2), (3, 6), (2, 4)], 1),
    (&[(1, 3), (3, 6), (1, 2), (2, 4)], 2),
    (&[(1, 3), (2, 6), (2, 4), (1, 2), (1, 3)], 3),
    (&[(0, 5), (0, 1), (0, 3)], 1),
    (&[(1, 4), (2, 4), (3, 4)], 3),
    (&[(3, 4), (2, 4), (1, 4)], 1),
    (&[(3, 4), (1, 4), (2, 4)], 1),
    (&[(1, 4), (3, 4), (2, 4)], 2),
    (&[(3, 4), (1, 4), (6, 8)], 1),
    (&[(MOST, TWICE), (TWICE, TWICE), (MOST + 1, MOST + 1), (2, 3)], 2),
    (&[(MOST, TWICE), (MOST + 1, TWICE), (1, 2), (MOST + 2, TWICE), (MOST + 2, TWICE)], 4),
];

/// Whether as many packets of a loss as may be are turned away, at a place of a batch, or as few.
type Split = (&'static str, fn(usize) -> bool);

const SPLITS: [Split; 3] =
    [("lost", |_| false), ("turned away", |_| true), ("lost, turned away, by turns", |place| place % 2 == 1)];

/// Each of the tables, by each split; of two losses both orders.
pub fn losses() -> Vec<Case> {
    SPLITS.into_iter().flat_map(losses_by).collect()
}

fn losses_by((name, are_turned): Split) -> Vec<Case> {
    let above = ABOVE.iter().flat_map(|[high, low]| [(vec![*high, *low], 1), (vec![*low, *high], 2)]);
    let equal = EQUAL.iter().flat_map(|[one, other]| [(vec![*one, *other], 1), (vec![*other, *one], 1)]);
    let listed = LOSSES.iter().map(|(losses, place)| (losses.to_vec(), *place));
    let case = |(losses, place): (Vec<Loss>, usize)| {
        let words: Vec<String> = losses.iter().map(|(lost, ended)| format!("{lost}/{ended}")).collect();
        let runs: Vec<Run> = (0..).zip(losses).map(|(at, loss)| split(loss, are_turned(at))).collect();
        played(format!("losses {}, {name}", words.join(" ")), &runs, place.checked_sub(1))
    };
    above.chain(equal).chain(listed).map(case).collect()
}

/// A run of a loss, of whose packets as many as may be are turned away, or as few.
fn split(loss: Loss, are_turned: bool) -> Run {
    let (least, most) = turned_away_of(loss);
    Run::of(loss, if are_turned { most } else { least }, 2, 5)
}

/// A run of a loss whose packets are all lost.
fn run(loss: Loss) -> Run {
    split(loss, false)
}

/// A batch with its sheet; the place of the highest is counted from 0.
fn played(name: impl Into<String>, runs: &[Run], highest: Option<usize>) -> Case {
    Case::new(name, bytes(runs.len() as u64, runs), vec![sheet_of_places(runs, highest)])
}

/// So many runs, each with a higher loss than those before it.
fn rising(many: usize) -> Vec<Run> {
    (1..=many as u64).map(|place| run((place, 1_000))).collect()
}

/// A run that does not balance.
const UNEVEN: Run = Run { admitted: 7, sent: 3, lost: 2, waiting: 1, turned_away: 1, wait: 9 };

/// Batches by the number of their runs, of which one more is there than may be; inputs with fewer runs than they say, or more.
pub fn counts() -> Vec<Case> {
    let (many, more) = (MOST_RUNS as u64, rising(MOST_RUNS + 1));
    let powers = [1 << 16, 1 << 31, 1 << 32, (1 << 32) + 1, 1 << 63];
    let counts = edges(64, many, &vec![(0, many)]).into_iter().chain(powers);
    let each = counts.map(|count| counted(format!("{count} runs"), count, &more));
    let (first, last) = ([&[UNEVEN], &more[..]].concat(), [&more[..MOST_RUNS], &[UNEVEN]].concat());
    let uneven = [many + 1, 1 << 32, (1 << 32) + 1, u64::MAX];
    let uneven = uneven.map(|count| counted(format!("{count} runs, the first does not balance"), count, &first));
    let mut long = counted("256 runs in 206,176 bytes", many, &last);
    long.input.extend(vec![1; 200_000]);
    let others = [
        long,
        counted("257 runs, the last does not balance", many + 1, &last),
        counted("the 257th of 256 runs does not balance", many, &last),
        counted("the third of two runs does not balance", 2, &[&more[..2], &[UNEVEN]].concat()),
        counted("the first of no runs does not balance", 0, &[UNEVEN]),
        counted("300 runs", 300, &rising(300)),
    ];
    let few = [(3, 2), (256, 2), (256, 255), (256, 0), (1, 0)].map(|(many, here)| few(many, here));
    each.chain(uneven).chain(others).chain(few).collect()
}

/// Runs of which the first so many are read, each with a higher loss than those before it.
fn counted(name: impl Into<String>, count: u64, runs: &[Run]) -> Case {
    let shows = if count > MOST_RUNS as u64 {
        refused(23, 0)
    } else {
        sheet_of_places(&runs[..count as usize], (count as usize).checked_sub(1))
    };
    Case::new(name, bytes(count, runs), vec![shows])
}

/// A batch of so many runs, of which only some are there.
fn few(many: usize, here: usize) -> Case {
    let runs = [rising(here), vec![Run::default(); many - here]].concat();
    let shows = vec![sheet_of_places(&runs, here.checked_sub(1))];
    Case::new(format!("{here} of {many} runs are there"), bytes(many as u64, &runs[..here]), shows)
}

/// The fields of a run.
type Field = (&'static str, fn(&mut Run) -> &mut u32);

const FIELDS: [Field; 6] = [
    ("admitted", |run| &mut run.admitted),
    ("sent", |run| &mut run.sent),
    ("lost", |run| &mut run.lost),
    ("waiting", |run| &mut run.waiting),
    ("turned away", |run| &mut run.turned_away),
    ("wait", |run| &mut run.wait),
];

/// Counts, admitted first, that balance in 32 bits and no further.
const AROUND: &[[u32; 4]] = &[
    [0, HIGHEST, 1, 0],
    [0, 1, 0, HIGHEST],
    [0, 0, HIGHEST, 1],
    [5, HIGHEST, 6, 0],
    [5, 6, 0, HIGHEST],
    [0, 1 << 31, 1 << 31, 0],
    [0, 0, 1 << 31, 1 << 31],
    [HIGHEST - 2, HIGHEST, HIGHEST, HIGHEST],
    [HIGHEST, HIGHEST, 1 << 31, 1 << 31],
];

/// Runs that do not balance: by each number of a run; by sums past 32 bits; at places of a batch, and more than one.
pub fn unbalanced() -> Vec<Case> {
    let around = AROUND.iter().map(|[admitted, sent, lost, waiting]| {
        let run = Run { admitted: *admitted, sent: *sent, lost: *lost, waiting: *waiting, turned_away: 0, wait: 1 };
        uneven(format!("{run:?}"), 2, &[(1, run)], 1)
    });
    let places = [0, 1, 127, 128, 254, 255];
    let placed = places
        .map(|place| uneven(format!("place {place} of 256 does not balance"), MOST_RUNS, &[(place, UNEVEN)], place));
    let (more, less) = (Run { admitted: 4, ..run((1, 1)) }, Run { admitted: 2, ..run((1, 1)) });
    let others = [
        uneven("places 3 and 5 of 8 do not balance", 8, &[(3, UNEVEN), (5, UNEVEN)], 3),
        uneven("places 0 and 255 of 256 do not balance", MOST_RUNS, &[(0, UNEVEN), (255, UNEVEN)], 0),
        uneven("one too many, then one too few", 4, &[(1, more), (2, less)], 1),
        uneven("one too few, then one too many", 4, &[(1, less), (3, more)], 1),
        uneven("one admitted, and nothing else", 3, &[(2, Run { admitted: 1, ..Run::default() })], 2),
        uneven("the only run does not balance", 1, &[(0, UNEVEN)], 0),
        uneven(
            "one admitted, and one turned away",
            2,
            &[(1, Run { admitted: 1, turned_away: 1, ..Run::default() })],
            1,
        ),
        uneven("one too many, and many turned away", 2, &[(1, more.turning_away(HIGHEST))], 1),
        uneven("one too few, and one turned away", 2, &[(1, less.turning_away(1))], 1),
    ];
    FIELDS.into_iter().flat_map(changed).chain(around).chain(placed).chain(others).collect()
}

/// So many rising losses with other runs at some places, one of which is named.
fn uneven(name: impl Into<String>, many: usize, others: &[(usize, Run)], named: usize) -> Case {
    let mut runs = rising(many);
    others.iter().for_each(|(place, run)| runs[*place] = *run);
    Case::new(name, bytes(many as u64, &runs), vec![refused(24, named)])
}

/// Three runs of which the middle one has a number changed, to each value at its edges and bits; as many as there are may be
/// turned away, and a wait may be any.
fn changed((name, number): Field) -> Vec<Case> {
    let mut middle = Run::balanced(40_000, 20_000, 10_000, 300).turning_away(3_000);
    let now = *number(&mut middle);
    let mut case = |value: u64| {
        *number(&mut middle) = value as u32;
        let runs = [run((1, 4)), middle, run((1, 5))];
        let balances = value == now.into() || ["turned away", "wait"].contains(&name);
        let shows = if balances { sheet_of_places(&runs, Some(1)) } else { refused(24, 1) };
        Case::new(format!("{name} {value} for {now}"), bytes(3, &runs), vec![shows])
    };
    edges(32, now.into(), &vec![]).into_iter().map(&mut case).collect()
}

/// Numbers of every length, the largest ones and their sums, waits, and counts that are no part of a loss.
pub fn numbers() -> Vec<Case> {
    let lengths: Vec<u32> = (0..10).flat_map(|digits| [10_u32.pow(digits), 10_u32.pow(digits) - 1]).collect();
    let runs = |by: fn(u32) -> Run| lengths.iter().map(|number| by(*number)).collect::<Vec<_>>();
    let each = |count, wait| {
        let run = Run::default().turning_away(count);
        [Run::balanced(count, 0, 0, wait), Run::balanced(0, count, 0, 0), Run::balanced(0, 0, count, 0), run]
    };
    let (most, one) = (each(HIGHEST, HIGHEST), each(1, 0));
    let sums = most.iter().zip([Some(0), Some(0), None, Some(0)]).zip(["sent", "lost", "waiting", "turned away"]);
    let sums = sums.flat_map(|((run, highest), name)| {
        [2, 3, 24, MOST_RUNS].map(|many| played(format!("{many} times the most {name}"), &vec![*run; many], highest))
    });
    let all = Run::balanced(1 << 31, (1 << 31) - 1, 0, HIGHEST).turning_away(HIGHEST);
    let [fewer, more] = [Run::balanced(1, 1, 0, 1), Run::balanced(4, 1, 0, 1).turning_away(3)];
    let [as_many, most_away] = [2, 1].map(|sent| Run::balanced(sent, 0, 1, 1).turning_away(3));
    let waits = edges(32, 14, &vec![(0, 65_535)]);
    let waiting = |sent, lost| waits.iter().map(|wait| Run::balanced(sent, lost, 1, *wait as u32)).collect::<Vec<_>>();
    let away: Vec<Run> = waiting(0, 0).into_iter().map(|run| run.turning_away(2)).collect();
    [
        played(
            "the runs of docs/SHEET.md",
            &[Run::balanced(3, 0, 0, 14), Run::balanced(5, 7, 0, 9).turning_away(4)],
            Some(1),
        ),
        played("sent, of each length", &runs(|number| Run::balanced(number, 0, 0, number)), Some(0)),
        played("lost, of each length", &runs(|number| Run::balanced(0, number, 0, number)), Some(0)),
        played("waiting, of each length", &runs(|number| Run::balanced(0, 0, number, number)), None),
        played("turned away, of each length", &runs(|number| Run::default().turning_away(number)), Some(0)),
        played(
            "turned away and sent, of each length",
            &runs(|number| Run::balanced(number, 0, 0, 1).turning_away(number)),
            Some(0),
        ),
        played("the largest counts", &most, Some(1)),
        played("256 times the largest counts in one run", &[all; MOST_RUNS], Some(0)),
        played("sums of 2^32", &[most, one].concat(), Some(1)),
        played("waits, one sent", &waiting(1, 0), Some(0)),
        played("waits, 256 sent", &waiting(256, 0), Some(0)),
        played("waits, 65,536 sent", &waiting(65_536, 0), Some(0)),
        played("waits, 2^31 sent", &waiting(1 << 31, 1), Some(0)),
        played("waits, nothing sent but some lost", &waiting(0, 1), Some(0)),
        played("waits, nothing sent or lost", &waiting(0, 0), None),
        played("many wait where more are lost", &[Run::balanced(2, 2, 10, 1), Run::balanced(2, 1, 0, 1)], Some(0)),
        played("many wait where fewer are lost", &[Run::balanced(2, 2, 0, 1), Run::balanced(1, 2, 9, 1)], Some(1)),
        played("waits, nothing sent but some turned away", &away, Some(0)),
        played("fewer are lost, but more turned away", &[fewer, as_many], Some(1)),
        played("as many are turned away where fewer are sent", &[more, as_many, most_away], Some(2)),
    ]
    .into_iter()
    .chain(sums)
    .collect()
}

/// Inputs that end early: two runs cut at every byte, the later of which loses more, and counts cut at every byte.
pub fn cuts() -> Vec<Case> {
    let runs = [(0x1111_1111, 0x2222_2222), (0x1212_1212, 0x3434_3434)];
    let runs = runs.map(|(sent, lost)| Run::balanced(sent, lost, 0x0102_0304, 0x0506_0708).turning_away(0x090A_0B0C));
    let whole = bytes(2, &runs);
    let cut = |at: usize| {
        let kept = |number: u32, from: usize| number & ((1_u64 << (8 * at.saturating_sub(from).min(4))) - 1) as u32;
        let last_two = |run: Run, [turned_away, wait]: [usize; 2]| Run {
            turned_away: kept(run.turned_away, turned_away),
            wait: kept(run.wait, wait),
            ..run
        };
        let (one, two) = (last_two(runs[0], [24, 28]), last_two(runs[1], [48, 52]));
        let shows = match at {
            0 => sheet_of_places(&[], None),
            1..=8 => sheet_of_places(&[Run::default(); 2], None),
            9..24 => refused(24, 0),
            24..=32 => sheet_of_places(&[one, Run::default()], Some(0)),
            33..48 => refused(24, 1),
            _ => sheet_of_places(&[one, two], Some(1)),
        };
        Case::new(format!("two runs, cut after {at} bytes"), &whole[..at], vec![shows])
    };
    let count = |(count, at): (u64, usize)| {
        let left = count & !(u64::MAX << (8 * at));
        let runs = vec![Run::default(); MOST_RUNS.min(left as usize)];
        let shows = if left > MOST_RUNS as u64 { refused(23, 0) } else { sheet_of_places(&runs, None) };
        Case::new(format!("{count} runs, cut after {at} bytes"), &count.to_le_bytes()[..at], vec![shows])
    };
    let counts = [256, 257, 1 << 32 | 3, u64::MAX].into_iter();
    let counts = counts.flat_map(|count| (1..8).map(move |at| (count, at)));
    (0..=whole.len()).map(cut).chain(counts.map(count)).collect()
}
