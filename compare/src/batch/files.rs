//! Tables of batches of scenario files: what a sheet says of each file, and the names of files.

use super::sheet::{refused, sheet, Row, Run, MOST_RUNS};
use crate::case::{Case, File, Holds, Shows};
use crate::records::{Arrival, Scenario, PRI, QUEUE_PLACES, RTDG};
use crate::scenario::{alone, plain, sizes};
use Holds::{Bytes, Folder, Nothing};

/// A file, and what the sheet says of it.
type Given = (File, Row);

/// A batch with its sheet; the place of the highest is counted from 0.
fn played(name: impl Into<String>, given: &[Given], highest: Option<usize>) -> Case {
    let (files, rows): (Vec<File>, Vec<Row>) = given.iter().cloned().unzip();
    let rows: Vec<(Vec<u8>, Row)> = files.iter().map(|file| file.name.clone()).zip(rows).collect();
    Case::of(name, files, vec![sheet(&rows, highest)])
}

/// A scenario and its run.
type Played = (Scenario, Run);

fn good(name: impl Into<Vec<u8>>, (scenario, run): Played) -> Given {
    (File { name: name.into(), holds: Bytes(scenario.bytes()) }, Row::Run(run))
}

/// A file that cannot be opened or read.
fn unreadable(name: impl Into<Vec<u8>>, holds: Holds) -> Given {
    (File { name: name.into(), holds }, Row::Words("UNREADABLE".to_string()))
}

/// A file that is refused with a number and an offset.
fn faulty(name: impl Into<Vec<u8>>, bytes: Vec<u8>, number: u8, offset: usize) -> Given {
    (File { name: name.into(), holds: Bytes(bytes) }, Row::Words(format!("REFUSED {number} {offset}")))
}

/// A scenario of another table that is refused there.
fn refused_there(case: Case) -> Given {
    let [Shows::Whole(line)] = &case.shows[..] else { panic!("the scenario '{}' is not refused", case.name) };
    let row = Row::Words(line.trim_end().to_string());
    (File { name: case.name.into(), holds: Bytes(case.input) }, row)
}

/// A scenario of the table of sizes.
fn sized(name: &str, run: Run) -> Given {
    let case = sizes().into_iter().find(|case| case.name == name);
    let case = case.unwrap_or_else(|| panic!("there is no scenario '{name}'"));
    (File { name: name.into(), holds: Bytes(case.input) }, Row::Run(run))
}

fn packet(time: u32, address: u16, value: u32, length: u16) -> Arrival {
    Arrival { time, address, value, length }
}

/// So many packets lost, and one or more sent: the first takes ten slots, in which latest starts pass.
fn losing(lost: u32, sent: u32) -> Played {
    let (late, later) = (vec![packet(0, 7, 5, 1); lost as usize], vec![packet(0, 7, 900, 1); sent as usize - 1]);
    let scenario = Scenario { arrivals: [vec![packet(0, 7, 0, 10)], late, later].concat(), ..plain(RTDG) };
    (scenario, Run::balanced(sent, lost, 0, if sent > 1 { 8 + sent } else { 0 }))
}

/// Two packets that collide, and are late then.
fn all_lost() -> Played {
    (Scenario { arrivals: vec![packet(0, 7, 0, 1), packet(0, 263, 0, 1)], ..plain(RTDG) }, Run::balanced(0, 2, 0, 0))
}

/// Packets of two stations, which collide in the only step.
fn waiting(packets: u32) -> Played {
    let arrivals = (0..packets).map(|at| packet(0, [7, 263][at as usize % 2], 1, 1)).collect();
    (Scenario { arrivals, steps: 1, ..plain(PRI) }, Run::balanced(0, 0, packets, 0))
}

/// So many packets turned away as late, and one sent: it takes ten slots, in which their times and latest starts pass.
fn late(turned_away: u32) -> Played {
    let late = vec![packet(2, 7, 9, 1); turned_away as usize];
    let scenario = Scenario { arrivals: [vec![packet(0, 7, 0, 10)], late].concat(), ..plain(RTDG) };
    (scenario, Run::balanced(1, 0, 0, 0).turning_away(turned_away))
}

/// So many packets turned away for want of a place, and one sent in each step, of sixteen.
fn crowded(turned_away: u32, steps: u16) -> Played {
    let arrivals = vec![packet(0, 7, 1, 1); QUEUE_PLACES + turned_away as usize];
    let sent = u32::from(steps);
    let run = Run::balanced(sent, 0, QUEUE_PLACES as u32 - sent, sent - 1).turning_away(turned_away);
    (Scenario { arrivals, steps, ..plain(PRI) }, run)
}

/// So many packets turned away for want of a place, and none sent: in the only step two stations collide.
fn only_turned_away(turned_away: u32) -> Played {
    let arrivals = [crowded(turned_away, 1).0.arrivals, vec![packet(0, 263, 1, 1)]].concat();
    (Scenario { arrivals, steps: 1, ..plain(PRI) }, Run::balanced(0, 0, 17, 0).turning_away(turned_away))
}

/// Some packets by discipline, and so many steps.
fn run_of(discipline: u8, arrivals: &[Arrival], steps: u16, run: Run) -> Played {
    (Scenario { arrivals: arrivals.to_vec(), steps, ..plain(discipline) }, run)
}

/// Sheets of files.
pub fn sheets() -> Vec<Case> {
    [waits(), refusals(), highest(), turned_away(), many()].concat()
}

/// Runs of which the longest wait is that of the first success, of a middle one, or of the last; of one alone; in which packets
/// wait longer that are lost, or are not sent yet, or whose time came before their admission.
fn waits() -> Vec<Case> {
    let [first, late] = [packet(0, 7, 20, 30), packet(0, 263, 25, 1)];
    let [long, short] = [packet(0, 7, 0, 20), packet(0, 263, 1, 3)];
    let runs = [
        ("first", run_of(RTDG, &[first, late, packet(50, 7, 900, 1)], 40, Run::balanced(2, 1, 0, 6))),
        ("middle", run_of(PRI, &[long, short, packet(40, 299, 0, 1)], 40, Run::balanced(3, 0, 0, 23))),
        ("last", run_of(PRI, &[long, short], 40, Run::balanced(2, 0, 0, 23))),
        ("lost", losing(2, 1)),
        ("waiting", run_of(PRI, &[long, packet(1, 263, 0, 1), packet(1, 7, 0, 1)], 2, Run::balanced(1, 0, 2, 0))),
    ];
    let given = runs.map(|(name, played)| good(name, played));
    let mut turned = given.clone();
    turned.reverse();
    let sizes = [
        sized("300 packets", Run::balanced(300, 0, 0, 0)),
        sized("a packet that waits past slot 65,536", Run::balanced(17, 0, 0, 65_552)),
        sized("a packet admitted after its time", Run::balanced(2, 0, 0, 0)),
    ];
    vec![
        played("waits of one run after another", &given, Some(3)),
        played("waits, the other way round", &turned, Some(1)),
        played("waits of none and of many slots", &sizes, Some(0)),
    ]
}

/// Refused scenarios between good ones and alone; none is counted or comes highest, whatever it would lose.
fn refusals() -> Vec<Case> {
    let faults: Vec<Given> = alone().into_iter().map(refused_there).collect();
    let between = faults.iter().cloned().zip(0..).flat_map(|(fault, at)| {
        let name = format!("good {}", at % 12);
        [fault, good(name, losing(at % 4, 1 + at % 3))]
    });
    let between: Vec<Given> = between.collect();
    let sized = sizes().into_iter().filter(|case| matches!(case.shows[..], [Shows::Whole(_)]));
    let sized: Vec<Given> = sized.map(refused_there).collect();
    let lost = all_lost().0.bytes();
    let doubled = faulty("run twice", [&lost[..], &lost].concat(), 20, lost.len());
    vec![
        played("each fault alone", &faults, None),
        played("faults between good ones", &between, Some(7)),
        played("scenarios too long and about as long as may be", &sized, None),
        played("a fault behind the end of what loses most", &[doubled, good("good", losing(0, 3))], Some(1)),
        played("an empty file", &[faulty("empty", Vec::new(), 18, 0)], None),
    ]
}

/// The highest loss of files: equal ones, files without a figure, files that are not counted; what is in no loss.
fn highest() -> Vec<Case> {
    let loses = |lost, sent| good(format!("{lost} lost, {sent} sent"), losing(lost, sent));
    let none = |packets| good(format!("{packets} wait"), waiting(packets));
    let absent = || unreadable("absent", Nothing);
    let lost = || good("all lost", all_lost());
    let others = [packet(0, 7, 5, 1), packet(0, 8, 0, 1), packet(0, 7, 0, 0), packet(0, 7, 0, 9), packet(90, 7, 0, 1)];
    let others = good("refused", run_of(PRI, &others, 12, Run::balanced(1, 0, 0, 0)));
    vec![
        played("no file", &[], None),
        played("one file", &[loses(3, 4)], Some(0)),
        played("1/2 and 2/4", &[loses(1, 1), loses(2, 2)], Some(0)),
        played("2/4 and 1/2", &[loses(2, 2), loses(1, 1)], Some(0)),
        played("1/3, 2/4, 3/6 and 1/2", &[loses(1, 2), loses(2, 2), loses(3, 3), loses(1, 1)], Some(1)),
        played("3/7, 2/5 and 1/2", &[loses(3, 4), loses(2, 3), loses(1, 1)], Some(2)),
        played("a file twice", &[loses(1, 2), loses(2, 1), loses(2, 1)], Some(1)),
        played("a scenario by two names", &[good("b", losing(2, 1)), good("a", losing(2, 1))], Some(0)),
        played("all lost after most", &[loses(9, 1), lost(), loses(9, 1)], Some(1)),
        played("no figure first", &[none(3), loses(0, 2), loses(0, 1)], Some(1)),
        played("no figure last", &[loses(0, 2), none(2)], Some(0)),
        played("no figure between", &[loses(1, 2), none(4), loses(2, 4)], Some(0)),
        played("no figure at all", &[none(0), absent(), none(2)], None),
        played("absent first and last", &[absent(), loses(1, 3), loses(1, 1), absent()], Some(2)),
        played("refused by other numbers and not reached", &[others, loses(0, 1)], Some(0)),
    ]
}

/// Losses of which packets turned away are a part, or all.
fn turned_away() -> Vec<Case> {
    let loses = |lost, sent| good(format!("{lost} lost, {sent} sent"), losing(lost, sent));
    let late = |away| good(format!("{away} late"), late(away));
    let crowded = |away, steps| good(format!("{away} without a place, {steps} sent"), crowded(away, steps));
    let only = |away| good(format!("{away} turned away, none sent"), only_turned_away(away));
    let none = || good("4 wait", waiting(4));
    let both = [packet(0, 7, 0, 10), packet(0, 7, 5, 1), packet(2, 7, 9, 1), packet(2, 7, 10, 1), packet(2, 8, 9, 1)];
    let both = good("one lost, one late", run_of(RTDG, &both, 12, Run::balanced(2, 1, 0, 0).turning_away(1)));
    vec![
        played("late ones alone", &[late(0), late(1), late(3), late(2)], Some(2)),
        played("ones without a place", &[crowded(0, 4), crowded(2, 4), crowded(1, 1), crowded(9, 16)], Some(2)),
        played("late ones and lost ones, as many", &[loses(1, 1), late(1), crowded(3, 3)], Some(0)),
        played("lost ones and late ones, as many", &[crowded(2, 2), loses(2, 2), late(1)], Some(0)),
        played("more late than lost", &[loses(2, 1), late(3), loses(3, 2)], Some(1)),
        played("more lost than late", &[late(2), loses(4, 1), crowded(9, 3)], Some(1)),
        played("one lost and one late", &[loses(1, 2), both, late(0)], Some(1)),
        played("only turned away", &[only(1)], Some(0)),
        played("only turned away, after what loses most", &[loses(9, 1), none(), only(1), only(5)], Some(2)),
        played("nothing turned away, lost or sent", &[only(0), none(), crowded(0, 1)], Some(2)),
        played("4,000 without a place", &[loses(9, 1), crowded(4_000, 16), late(4_000)], Some(2)),
    ]
}

/// As many files as may be, and more; they are twelve, each by many names.
fn many() -> Vec<Case> {
    let dotted = |at: usize| format!("{}run {}", "./".repeat(at / 12), at % 12);
    let many =
        |many: usize| -> Vec<Given> { (0..many).map(|at| good(dotted(at), losing(at as u32 % 12, 3))).collect() };
    let absent = |many: usize| vec![unreadable("absent", Nothing); many];
    let refused = |name: &str, given: Vec<Given>| {
        Case::of(name, given.into_iter().map(|(file, _)| file).collect(), vec![refused(23, 0)])
    };
    vec![
        played("255 files", &many(MOST_RUNS - 1), Some(11)),
        played("256 files", &many(MOST_RUNS), Some(11)),
        played("256 times one file", &vec![good("a", losing(1, 1)); MOST_RUNS], Some(0)),
        played("256 absent files", &absent(MOST_RUNS), None),
        played("the last of 256 files is read", &[absent(MOST_RUNS - 1), many(1)].concat(), Some(MOST_RUNS - 1)),
        refused("257 files", many(MOST_RUNS + 1)),
        refused("257 absent files", absent(MOST_RUNS + 1)),
        refused("256 files and an absent one", [many(MOST_RUNS), absent(1)].concat()),
        refused("512 absent files", absent(2 * MOST_RUNS)),
        refused("513 absent files", absent(2 * MOST_RUNS + 1)),
    ]
}

/// Names of files that are read.
const NAMES: &[(&str, &[u8])] = &[
    ("one letter", b"a"),
    ("spaces", b" two words  "),
    ("only a space", b" "),
    ("a newline", b"two\nlines"),
    ("newlines around", b"\n\na\n"),
    ("a line of a sheet", b"a\nhighest loss 9/9  b"),
    ("a tabulator and controls", b"\ta\r\x01\x1B[2J\x7F"),
    ("UTF-8", "Wägung ½ → 3".as_bytes()),
    ("no UTF-8", b"\xFF\x80a\xC3"),
    ("a dash", b"-"),
    ("two dashes", b"--"),
    ("an option", b"-h"),
    ("a long option", b"--help"),
    ("signs of a shell", b"$HOME '`\"*?\\ ; &"),
    ("signs of a format", b"%s%n{}%%"),
    ("a number", b"256"),
    ("words of a row", b"REFUSED 18 0"),
    ("folders", b"in/a folder/a"),
    ("folders and dots", b"./in//./a"),
];

/// Names of files that are read, in a row and in the last line; names of those that are not.
pub fn names() -> Vec<Case> {
    let highest = |(what, name): (&str, &[u8])| {
        played(what, &[good("first", losing(1, 3)), good(name, losing(1, 1)), good("last", losing(1, 2))], Some(1))
    };
    let path = [&b"./".repeat(2_047)[..], b"a"].concat();
    let more = [highest(("255 bytes", &long(255))), highest(("4,095 bytes of a path", &path))];
    let all: Vec<Given> = NAMES.iter().map(|(_, name)| good(*name, losing(0, 1))).collect();
    let among = |(what, given)| played(what, &[good("first", losing(1, 2)), given], Some(0));
    let between = not_read().into_iter().flat_map(|(_, given)| [given, good("first", losing(1, 2))]);
    let together = [
        played("all names that are read", &all, Some(0)),
        played("all names that are not read", &between.collect::<Vec<_>>(), Some(1)),
    ];
    let each = NAMES.iter().copied().map(highest).chain(more).chain(not_read().into_iter().map(among));
    each.chain(together).collect()
}

/// A name of so many bytes.
fn long(bytes: usize) -> Vec<u8> {
    b"0123456789abc".iter().copied().cycle().take(bytes).collect()
}

/// Names of files that are not read, beside a file whose name is `first`.
fn not_read() -> Vec<(String, Given)> {
    let bytes = [256, 4_095, 4_096, 4_097, 8_192, 100_000];
    let bytes = bytes.map(|bytes| (format!("a name of {bytes} bytes"), unreadable(long(bytes), Nothing)));
    let split = [&long(4_095)[..], "é".as_bytes(), b"abc"].concat();
    let others = [
        ("a letter of two bytes of which one is written", unreadable(split, Nothing)),
        ("an absent file", unreadable("absent", Nothing)),
        ("an absent file of two lines", unreadable("two\nlines", Nothing)),
        ("an absent folder", unreadable("absent/a", Nothing)),
        ("a name of no bytes", unreadable("", Nothing)),
        ("a folder", unreadable("folder", Folder)),
        ("a folder and a slash", unreadable("folder/", Folder)),
        ("the folder of all", unreadable(".", Nothing)),
        ("a file and a slash", unreadable("first/", Nothing)),
        ("a file below a file", unreadable("first/a", Nothing)),
    ];
    bytes.into_iter().chain(others.map(|(what, given)| (what.to_string(), given))).collect()
}
