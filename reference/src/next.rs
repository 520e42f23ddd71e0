//! "The next switch on the way": the table rows for its port, the file of its table, and two ports in a row.

use crate::bounds::{holds, Bounds};
use crate::cases::make::table_of;
use crate::port::{fresh, Answer, Arrival, Report, DROPPED, FILTERED, POLICED};
use crate::table::{bytes_of, is_oversold, read, Link, Table};

/// "22, the chosen line is not below the new line count, checked first, and then 3 for a new line count outside 1
/// to 24"
fn line_refusal(line: u64, lines: u64) -> u32 {
    if line >= lines {
        return 22;
    }
    if !(1..=24).contains(&lines) {
        return 3;
    }
    0
}

fn check_line(line: u64, lines: u64) -> Result<(), u32> {
    match line_refusal(line, lines) {
        0 => Ok(()),
        refusal => Err(refusal),
    }
}

/// "every link of this table, now put on the chosen line, with jitter J + hold − least length, hold being that of its
/// priority"; "21, a jitter would exceed 125,000".
fn row(link: &Link, line: u64, holds: &[u64; 8]) -> Result<Link, u32> {
    let hold = holds[usize::from(link.priority)];
    let jitter = u64::from(link.jitter) + hold - u64::from(link.least);
    if jitter > 125_000 {
        return Err(21);
    }
    Ok(Link { line: line as u8, jitter: jitter as u32, ..*link })
}

/// The table for the next port, with sizes 0: "The caller adds sizes afterwards." 22 and 3 come "before the table's own
/// checks; 21 .. after 8"; 23 is among the table's own, and of the rows "in the chain, after 21".
pub fn next(table: &Table, line: u64, lines: u64) -> Result<Table, u32> {
    check_line(line, lines)?;
    let holds = holds(table)?;
    let rows: Result<Vec<Link>, u32> = table.members().iter().map(|v| row(v, line, &holds)).collect();
    let rows = rows?;
    // This never comes: a table with bounds promises at most 1,600,000 in all, and the rows promise the same.
    if is_oversold(&rows, lines as u16) {
        return Err(23);
    }
    Ok(table_of(lines as u16, &rows, [0; 8]))
}

/// From a table file to the next table's, with these sizes: the refusals of line and line count come first, those of the
/// file before 8 and 21, and 6 of the sizes last.
pub fn next_file(file: &[u8], line: u64, lines: u64, sizes: &[u64; 8]) -> Result<Vec<u8>, u32> {
    check_line(line, lines)?;
    let mut table = next(&read(file)?, line, lines)?;
    if sizes.iter().any(|size| *size > 16_384) {
        return Err(6);
    }
    table.sizes = sizes.map(|size| size as u32);
    Ok(bytes_of(&table))
}

/// What the program next_table writes: the file, or `refused N`. It reads "at most 4,653 bytes".
pub fn printed(input: &[u8], line: u64, lines: u64, sizes: &[u64; 8]) -> Vec<u8> {
    let file = &input[..input.len().min(4_653)];
    match next_file(file, line, lines, sizes) {
        Ok(bytes) => bytes,
        Err(refusal) => format!("refused {refusal}\n").into_bytes(),
    }
}

/// Number, length, tick freed.
pub type Departure = [u64; 3];

/// The reports in order to a fresh port, each lent a list of so many numbers: every answer, and the departures.
pub fn run(table: &Table, calls: &[(Report, usize)]) -> (Vec<Result<Answer, u32>>, Vec<Departure>) {
    let mut port = fresh(table).expect("a good table");
    let (mut answers, mut departures) = (Vec::new(), Vec::new());
    for (report, list) in calls {
        let mut lent = vec![0; *list];
        let answer = port.report(report, &mut lent);
        let freed = answer.map_or(0, |a| a.frames as usize);
        departures.extend(lent.chunks(3).take(freed).map(|d| [d[0], d[1], d[2]]));
        answers.push(answer);
    }
    (answers, departures)
}

/// What is reported to the second port: the next departure of the first, or something else.
#[derive(Clone, Copy, Debug, PartialEq, Eq)]
pub enum Turn {
    Departure,
    Other(Report),
}

/// "its departures, reported in order at their ticks", on the chosen line, each where its turn is.
pub fn reported(turns: &[Turn], departures: &[Departure], line: u64) -> Vec<Report> {
    let mut left = departures.iter();
    let mut onward = || {
        let [number, length, tick] = *left.next().expect("a departure for each turn");
        Report { tick, frame: Some(Arrival { line, number, length }) }
    };
    turns
        .iter()
        .map(|turn| match turn {
            Turn::Departure => onward(),
            Turn::Other(report) => *report,
        })
        .collect()
}

/// "none of them refused for line timing, filtered or policed": none is refused but with 16, for a list too short. And
/// none is dropped where the second table has bounds and the size of its priority is at least the bound.
pub struct Second<'a> {
    table: &'a Table,
    is_sized: [bool; 8],
}

impl<'a> Second<'a> {
    /// The table, with its bounds where it has some.
    pub fn new(table: &'a Table, bounds: &Option<Bounds>) -> Second<'a> {
        let is_sized = match bounds {
            Some(found) => std::array::from_fn(|p| u64::from(table.sizes[p]) >= found.bounds[p]),
            None => [false; 8],
        };
        Second { table, is_sized }
    }

    /// The priorities whose frames are never dropped.
    pub fn sized(&self) -> usize {
        self.is_sized.iter().filter(|sized| **sized).count()
    }

    /// Whether the answer to a departure of this number is as promised.
    pub fn look(&self, number: u64, answer: &Result<Answer, u32>) -> Result<(), String> {
        let link = self.table.members().iter().find(|v| u64::from(v.number) == number);
        let p = usize::from(link.ok_or(format!("there is no link {number}"))?.priority);
        match answer {
            Err(16) => Ok(()),
            Err(refusal) => Err(format!("a departure of {number} is refused with {refusal}")),
            Ok(answer) => match answer.verdict {
                FILTERED => Err(format!("a departure of {number} is filtered")),
                POLICED => Err(format!("a departure of {number} is policed")),
                DROPPED if self.is_sized[p] => Err(format!("a departure of {number} is dropped")),
                _ => Ok(()),
            },
        }
    }
}

#[cfg(test)]
mod tests {
    use super::*;
    use crate::bounds::bounds;
    use crate::cases::carried::spread;
    use crate::examples::{link, table_e, table_full, table_over, table_spread};
    use crate::port::STORED;
    use crate::random::Random;
    use crate::table::check;

    fn jitters(table: &Table) -> Result<Vec<u32>, u32> {
        next(table, 3, 5).map(|t| t.members().iter().map(|v| v.jitter).collect())
    }

    fn e_with(change: impl Fn(&mut Table)) -> Table {
        let mut table = table_e();
        change(&mut table);
        table
    }

    /// P: E with link 1 of code 7, least 100, and this jitter.
    fn table_p(jitter: u32) -> Table {
        e_with(|t| t.links[0] = Link { code: 7, least: 100, jitter, ..t.links[0] })
    }

    #[test]
    fn the_rows_of_e() {
        let expected = table_of(
            5,
            &[Link { jitter: 1_415, ..link(1, 3, 0, 500) }, Link { jitter: 1_416, ..link(2, 3, 1, 1_000) }],
            [0; 8],
        );
        assert_eq!(next(&table_e(), 3, 5), Ok(expected));
        assert_eq!(jitters(&e_with(|t| t.links[0].least = 100)), Ok(vec![1_399, 1_416]));
    }

    #[test]
    fn jitters_up_to_125_000() {
        assert_eq!(jitters(&table_p(123_601)), Ok(vec![125_000, 1_416]));
        assert_eq!(jitters(&table_p(123_602)), Err(21));
        let last = |jitter| e_with(|t| t.links[1] = Link { code: 7, jitter, ..t.links[1] });
        assert_eq!(jitters(&last(123_584)), Ok(vec![1_415, 125_000]));
        assert_eq!(jitters(&last(123_585)), Err(21));
    }

    #[test]
    fn lines_and_line_counts() {
        for (line, lines) in [(5, 5), (0, 0), (30, 24), (259, 5), (256, 256), (u64::MAX, u64::MAX)] {
            assert_eq!(next(&table_e(), line, lines), Err(22), "{line} {lines}");
        }
        for (line, lines) in [(24, 25), (0, 25), (0, 256), (3, 65_541), (0, u64::MAX)] {
            assert_eq!(next(&table_e(), line, lines), Err(3), "{line} {lines}");
        }
        for (line, lines) in [(23, 24), (0, 1), (4, 5)] {
            let table = next(&table_e(), line, lines).expect("rows");
            assert_eq!(u64::from(table.lines), lines);
            assert!(table.members().iter().all(|v| u64::from(v.line) == line));
        }
    }

    /// 22 and 3 before the table's own checks, these before 8, and 8 before 21.
    #[test]
    fn the_order_of_refusals() {
        let wrong = e_with(|t| t.sizes[7] = 16_385);
        assert_eq!(next(&wrong, 5, 5), Err(22));
        assert_eq!(next(&wrong, 24, 25), Err(3));
        assert_eq!(next(&wrong, 3, 5), Err(6));
        assert_eq!(jitters(&e_with(|t| t.lines = 25)), Err(3));
        assert_eq!(jitters(&e_with(|t| t.links[1].priority = 8)), Err(4));
        assert_eq!(jitters(&e_with(|t| t.links[1].number = 1)), Err(5));
        let late = |number, line, priority, greatest| Link {
            jitter: 125_000,
            ..link(number, line, priority, greatest)
        };
        let links = [late(1, 0, 0, 500), late(2, 1, 7, 1_538), late(3, 1, 7, 1_538), late(4, 1, 7, 1_538)];
        let table = table_of(2, &links, [0; 8]);
        assert_eq!(jitters(&table), Err(8));
        let alone = table_of(2, &[links[0], Link { jitter: 0, code: 7, ..links[1] }], [0; 8]);
        assert_eq!((holds(&alone).map(|holds| holds[0]), jitters(&alone)), (Ok(7_037), Err(21)));
    }

    /// 23 is among the table's own checks: after 22 and 3 of the line, after 3, 4 and 5, before 6 and 8.
    #[test]
    fn an_oversold_line() {
        assert_eq!(next(&table_over(), 5, 5), Err(22));
        assert_eq!(next(&table_over(), 24, 25), Err(3));
        assert_eq!(jitters(&table_over()), Err(23));
        assert_eq!(jitters(&Table { sizes: [16_385; 8], ..table_over() }), Err(23));
        assert_eq!(jitters(&table_spread()), Err(8));
        assert_eq!(jitters(&table_full()), Ok(vec![12_416; 9]));
        let over = bytes_of(&table_over());
        assert_eq!(next_file(&over, 5, 5, &[16_385; 8]), Err(22));
        assert_eq!(next_file(&over, 24, 25, &[16_385; 8]), Err(3));
        assert_eq!(next_file(&over, 3, 5, &[16_385; 8]), Err(23));
        assert_eq!(printed(&over[..over.len() - 36], 3, 5, &[0; 8]), b"refused 23\n");
    }

    /// A refusal with 23 is always the table's own, and the rows pass every check.
    #[test]
    fn rows_are_never_oversold() {
        let mut random = Random::new(2_024_107);
        let (mut accepted, mut refused) = (0, 0);
        for _ in 0..300 {
            let table = spread(&mut random);
            match next(&table, 0, 1) {
                Ok(rows) => {
                    assert_eq!(check(&rows), 0);
                    accepted += 1;
                }
                Err(23) => {
                    assert_eq!(check(&table), 23);
                    refused += 1;
                }
                Err(_) => {}
            }
        }
        assert!(accepted >= 80 && refused >= 40, "{accepted} {refused}");
    }

    #[test]
    fn from_file_to_file() {
        let e = bytes_of(&table_e());
        let mut expected = next(&table_e(), 3, 5).expect("rows");
        assert_eq!(next_file(&e, 3, 5, &[0; 8]), Ok(bytes_of(&expected)));
        expected.sizes = [16_384, 1, 2, 3, 4, 5, 6, 7];
        assert_eq!(next_file(&e, 3, 5, &expected.sizes.map(u64::from)), Ok(bytes_of(&expected)));
        let large = [0, 0, 0, 0, 0, 0, 0, 16_385];
        assert_eq!(next_file(&e, 3, 5, &large), Err(6));
        assert_eq!(next_file(&e, 3, 5, &[1 << 32; 8]), Err(6));
        assert_eq!(next_file(&bytes_of(&table_p(123_602)), 3, 5, &large), Err(21));
        let short = &e[..79];
        assert_eq!(next_file(short, 3, 5, &large), Err(1));
        assert_eq!(next_file(short, 24, 25, &large), Err(3));
        assert_eq!(next_file(short, 5, 5, &large), Err(22));
        assert_eq!(printed(short, 259, 5, &[0; 8]), b"refused 22\n");
        assert_eq!(printed(&[&e[..], &[0; 9_000]].concat(), 3, 5, &[0; 8]), b"refused 7\n");
    }

    fn frame(tick: u64, line: u64, number: u64, length: u64) -> (Report, usize) {
        (Report { tick, frame: Some(Arrival { line, number, length }) }, 30)
    }

    /// The verdicts of the second port, whose rows' jitters are less by so much.
    fn second_verdicts(less: u32) -> Vec<u64> {
        let wait = (Report { tick: 20_000, frame: None }, 30);
        let first = [frame(1_000, 1, 2, 1_000), frame(1_001, 0, 1, 500), frame(13_501, 0, 1, 84), wait];
        let (answers, departures) = run(&table_e(), &first);
        assert!(answers.iter().all(|answer| answer.map(|a| a.verdict) == Ok(STORED)));
        assert_eq!(departures, [[2, 1_000, 2_000], [1, 500, 2_500], [1, 84, 13_585]]);
        let mut table = next(&table_e(), 3, 5).expect("rows");
        table.sizes = table_e().sizes;
        table.links[..2].iter_mut().for_each(|v| v.jitter -= less);
        let calls: Vec<(Report, usize)> =
            reported(&[Turn::Departure; 3], &departures, 3).into_iter().map(|report| (report, 30)).collect();
        run(&table, &calls).0.into_iter().map(|answer| answer.expect("accepted").verdict).collect()
    }

    #[test]
    fn two_hops() {
        assert_eq!(second_verdicts(0), [STORED; 3]);
        assert_eq!(second_verdicts(1), [STORED, STORED, POLICED]);
    }

    #[test]
    fn what_is_no_breach_and_what_is() {
        let mut table = next(&table_e(), 3, 5).expect("rows");
        table.sizes = [2_000, 979, 0, 0, 0, 0, 0, 0];
        let second = Second::new(&table, &bounds(&table).ok());
        let verdict = |number, verdict| second.look(number, &Ok(Answer { verdict, frames: 0, bytes: 0 }));
        assert!(verdict(1, STORED).is_ok() && verdict(2, STORED).is_ok());
        assert!(verdict(1, DROPPED).is_err() && verdict(2, DROPPED).is_ok());
        assert!(verdict(1, FILTERED).is_err() && verdict(1, POLICED).is_err() && verdict(3, STORED).is_err());
        assert_eq!(second.look(1, &Err(16)), Ok(()));
        assert!([10, 11, 12, 13, 14, 15].iter().all(|refusal| second.look(1, &Err(*refusal)).is_err()));
    }
}
