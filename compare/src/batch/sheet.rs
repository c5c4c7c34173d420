//! The runs of a batch and their bytes; the text of a sheet.

use crate::case::Shows;

/// The most runs of a batch.
pub const MOST_RUNS: usize = 256;
/// How many bytes of a name are written.
const WRITTEN: usize = 4_096;

/// The bytes of a batch before its runs, and those of a run.
pub const BEFORE_RUNS: usize = 8;
pub const RUN_BYTES: usize = 24;

/// A run: its five counts and its longest wait.
#[derive(Clone, Copy, Debug, Default, PartialEq, Eq)]
pub struct Run {
    pub admitted: u32,
    pub sent: u32,
    pub lost: u32,
    pub waiting: u32,
    pub turned_away: u32,
    pub wait: u32,
}

/// A loss: the packets lost or turned away, and those lost, turned away or sent.
pub type Loss = (u64, u64);

impl Run {
    /// A run that balances and has turned nothing away.
    pub fn balanced(sent: u32, lost: u32, waiting: u32, wait: u32) -> Run {
        Run { admitted: sent + lost + waiting, sent, lost, waiting, turned_away: 0, wait }
    }

    /// The same with so many packets turned away.
    pub fn turning_away(self, turned_away: u32) -> Run {
        Run { turned_away, ..self }
    }

    /// A run of a loss, so many of whose packets are turned away and the others lost; in it up to so many wait, as there is room.
    pub fn of((lost, ended): Loss, turned_away: u64, waiting: u32, wait: u32) -> Run {
        let (sent, lost) = ((ended - lost) as u32, (lost - turned_away) as u32);
        Run::balanced(sent, lost, waiting.min(u32::MAX - sent - lost), wait).turning_away(turned_away as u32)
    }

    pub fn loss(&self) -> Loss {
        let lost = u64::from(self.lost) + u64::from(self.turned_away);
        (lost, lost + u64::from(self.sent))
    }

    /// The five counts.
    fn counts(&self) -> [u32; 5] {
        [self.admitted, self.sent, self.lost, self.waiting, self.turned_away]
    }

    fn bytes(&self) -> Vec<u8> {
        [&self.counts()[..], &[self.wait]].concat().into_iter().flat_map(u32::to_le_bytes).collect()
    }
}

/// How many packets of a loss are turned away at the least and at the most, so that no count passes 32 bits.
pub fn turned_away_of((lost, ended): Loss) -> (u64, u64) {
    let most = u64::from(u32::MAX);
    (ended.saturating_sub(most), lost.min(most))
}

/// A batch in bytes; the count of its runs is its own, so that it can be wrong.
pub fn bytes(count: u64, runs: &[Run]) -> Vec<u8> {
    count.to_le_bytes().into_iter().chain(runs.iter().flat_map(Run::bytes)).collect()
}

/// The line of a batch that is refused.
pub fn refused(number: u8, place: usize) -> Shows {
    Shows::Whole(format!("REFUSED {number} {place}\n"))
}

/// What a sheet says of a run: its numbers, or words in their place.
#[derive(Clone)]
pub enum Row {
    Run(Run),
    Words(String),
}

/// The sheet of some rows with their names, and the place of the highest loss, if one has a figure.
pub fn sheet(rows: &[(Vec<u8>, Row)], highest: Option<usize>) -> Shows {
    let words = ["admitted", "sent", "lost", "waiting", "turned away"].map(str::to_string);
    let mut lines = vec![format!("{} longest wait  run", columns(&words)).into_bytes()];
    lines.extend(rows.iter().map(|(name, row)| [row.text().as_bytes(), b"  ", written(name)].concat()));
    lines.push(format!("{}{:13}  all runs", columns(&sums(rows).map(|sum| sum.to_string())), "").into_bytes());
    lines.push(match highest.map(|place| &rows[place]) {
        Some((name, row)) => [format!("highest loss {}  ", row.loss()).as_bytes(), written(name)].concat(),
        None => b"highest loss: no run has a figure".to_vec(),
    });
    Shows::Whole(lines.into_iter().map(|line| String::from_utf8_lossy(&line).into_owned() + "\n").collect())
}

/// The sheet of runs whose names are their places.
pub fn sheet_of_places(runs: &[Run], highest: Option<usize>) -> Shows {
    let row = |(place, run): (usize, &Run)| ((place + 1).to_string().into(), Row::Run(*run));
    sheet(&runs.iter().enumerate().map(row).collect::<Vec<_>>(), highest)
}

/// Five columns of counts.
fn columns(words: &[String; 5]) -> String {
    words.iter().zip([10, 10, 10, 10, 11]).map(|(word, width)| format!(" {word:>width$}")).collect()
}

fn sums(rows: &[(Vec<u8>, Row)]) -> [u64; 5] {
    let counts = rows.iter().filter_map(|(_, row)| row.run()).map(|run| run.counts().map(u64::from));
    counts.fold([0; 5], |sums, counts| [0, 1, 2, 3, 4].map(|at| sums[at] + counts[at]))
}

/// What is written of a name.
fn written(name: &[u8]) -> &[u8] {
    &name[..name.len().min(WRITTEN)]
}

impl Row {
    fn run(&self) -> Option<&Run> {
        match self {
            Row::Run(run) => Some(run),
            Row::Words(_) => None,
        }
    }

    /// The columns. A run that has sent nothing has no wait, whatever was lent.
    fn text(&self) -> String {
        match self {
            Row::Run(run) => {
                let wait = if run.sent == 0 { 0 } else { run.wait };
                format!("{} {wait:>12}", columns(&run.counts().map(|count| count.to_string())))
            }
            Row::Words(words) => format!("{words:>69}"),
        }
    }

    fn loss(&self) -> String {
        let (lost, ended) = self.run().expect("it has a figure").loss();
        format!("{lost}/{ended}")
    }
}

#[cfg(test)]
mod tests {
    use super::*;

    /// The sheet that docs/SHEET.md shows.
    const SHEET: &str = "   admitted       sent       lost    waiting turned away longest wait  run
          3          3          0          0           0           14  worked
         12          5          7          0           4            9  crowded
                                                        REFUSED 20 32  cut
                                                           UNREADABLE  missing
         15          8          7          0           4               all runs
highest loss 11/16  crowded
";

    #[test]
    fn a_sheet_as_written_down() {
        let runs = [Run::balanced(3, 0, 0, 14), Run::balanced(5, 7, 0, 9).turning_away(4)].map(Row::Run);
        let words = ["REFUSED 20 32", "UNREADABLE"].map(|words| Row::Words(words.to_string()));
        let names = ["worked", "crowded", "cut", "missing"].map(|name| name.as_bytes().to_vec());
        let rows: Vec<(Vec<u8>, Row)> = names.into_iter().zip(runs.into_iter().chain(words)).collect();
        assert_eq!(sheet(&rows, Some(1)), Shows::Whole(SHEET.to_string()));
    }

    #[test]
    fn a_run_has_its_loss() {
        let most = u64::from(u32::MAX);
        for loss in [(0, 0), (0, 3), (2, 3), (most, most), (most + 1, most + 1), (most, 2 * most), (2 * most, 2 * most)]
        {
            let (least, highest) = turned_away_of(loss);
            let runs = [least, highest].map(|turned_away| Run::of(loss, turned_away, 2, 0));
            assert_eq!(runs.map(|run| run.loss()), [loss; 2]);
        }
        assert_eq!(Run::of((4, 6), 3, 2, 9), Run::balanced(2, 1, 2, 9).turning_away(3));
    }

    #[test]
    fn a_batch_in_bytes() {
        let run = Run { admitted: 0x0403_0201, sent: 5, lost: 6, waiting: 7, turned_away: 0x0900, wait: 0x0800_0000 };
        let numbers = [1, 2, 3, 4, 5, 0, 0, 0, 6, 0, 0, 0, 7, 0, 0, 0, 0, 9, 0, 0, 0, 0, 0, 8];
        assert_eq!(bytes(258, &[run]), [&[2, 1, 0, 0, 0, 0, 0, 0][..], &numbers].concat());
        assert_eq!((numbers.len(), bytes(0, &[]).len()), (RUN_BYTES, BEFORE_RUNS));
    }
}
