//! The cases of the next switch: tables with a line and a line count, and lists that run through two ports in a row.
//!
//! Standard input is a run of cases: form (1 byte; 1 a call, 2 two ports), line and line count (8 bytes each,
//! little-endian), the bytes of a table record (2), and the record (`port_records` has its form). Of two ports behind
//! it: the bytes of the second's record (2), by how much the rows' jitters are less (1), the reports to the first and the
//! numbers of its departure list (2 each), and the same of the second; then the second's record, in whose first links the
//! rows are put and which has the new line count; the reports to the first, and those to the second. A report is form
//! (1 byte; 0 a wait, 1 a frame, 2 the next departure of the first on the chosen line, with nothing behind it), tick (8),
//! line (1), number (2), length (2).
//!
//! Standard output, of each case: `next REFUSED LINES COUNT` and the sizes of the table handed out. Of a call then its rows:
//! number, line, priority, code, least, greatest, jitter. Of two ports, each in one batch: `first REFUSED DEPARTURES
//! ANSWERS LIST`, the last two being sums; a line for each answer of the second; `second` with the same numbers as
//! `first`; `port CLOCK SUM` of the second. A sum is the FNV-1a of a list afterwards, and of `state_of`. Every number of
//! a list is 0 before its batch.

use super::next_tables::{self, Asked};
use super::port::{fnv_of_numbers, state_of};
use super::port_records::table_bytes;
use super::tandem_lists::{self, Batch, TwoPorts};
use super::Cases;
use crate::batch::rows;
use crate::next::{next, reported, Turn};
use crate::port::{Report, POLICED};
use crate::table::{Link, Table};

fn next_line(answer: &Result<Table, u32>) -> String {
    let sizes = |table: &Table| table.sizes.map(|size| format!(" {size}")).concat();
    match answer {
        Ok(table) => format!("next 0 {} {}{}\n", table.lines, table.count, sizes(table)),
        Err(refusal) => format!("next {refusal} 0 0{}\n", " 0".repeat(8)),
    }
}

/// How many departures a batch wrote, and the sums of its lists.
fn batch_line(word: &str, batch: &Batch) -> String {
    let sums = [&batch.answers, &batch.list].map(|list| fnv_of_numbers(list));
    format!("{word} 0 {} {} {}\n", batch.departures, sums[0], sums[1])
}

pub fn row_line(v: &Link) -> String {
    format!("{} {} {} {} {} {} {}\n", v.number, v.line, v.priority, v.code, v.least, v.greatest, v.jitter)
}

fn put_record(stdin: &mut Vec<u8>, form: u8, line: u64, lines: u64, table: &Table) {
    let record = table_bytes(table);
    stdin.push(form);
    stdin.extend(line.to_le_bytes());
    stdin.extend(lines.to_le_bytes());
    stdin.extend((record.len() as u16).to_le_bytes());
    stdin.extend(record);
}

fn put_report(stdin: &mut Vec<u8>, report: &Report) {
    stdin.push(u8::from(report.frame.is_some()));
    stdin.extend(report.tick.to_le_bytes());
    let [line, number, length] = report.frame.map_or([0; 3], |f| [f.line, f.number, f.length]);
    stdin.push(u8::try_from(line).expect("a byte"));
    stdin.extend(u16::try_from(number).expect("two bytes").to_le_bytes());
    stdin.extend(u16::try_from(length).expect("two bytes").to_le_bytes());
}

fn put_turn(stdin: &mut Vec<u8>, turn: &Turn) {
    match turn {
        Turn::Departure => stdin.push(2),
        Turn::Other(report) => put_report(stdin, report),
    }
}

/// What happened, for a person to read.
#[derive(Default)]
struct Tally {
    calls: usize,
    refused: [usize; 24],
    lists: usize,
    among_others: usize,
    departures: usize,
    verdicts: [usize; 4],
    refused_reports: [usize; 17],
    policed_with_less: usize,
}

/// The cases while they are made.
#[derive(Default)]
struct Maker {
    stdin: Vec<u8>,
    stdout: String,
    tally: Tally,
}

impl Maker {
    fn call(&mut self, asked: &Asked) {
        let Asked { table, line, lines } = asked;
        put_record(&mut self.stdin, 1, *line, *lines, table);
        let answer = next(table, *line, *lines);
        self.stdout += &next_line(&answer);
        if let Ok(table) = &answer {
            self.stdout += &table.members().iter().map(row_line).collect::<String>();
        }
        self.tally.calls += 1;
        self.tally.refused[answer.err().unwrap_or(0) as usize] += 1;
    }

    fn two_ports(&mut self, two: &TwoPorts) {
        let lines = u64::from(two.onward.table.lines);
        let first = Batch::of(&two.table, &two.reports, two.rooms[0]);
        let turns = &two.onward.turns;
        let reports = reported(turns, &first.departed(), two.onward.line);
        let second = Batch::of(&two.second(), &reports, two.rooms[1]);
        self.put_two_ports(two);
        self.stdout += &next_line(&next(&two.table, two.onward.line, lines));
        self.stdout += &batch_line("first", &first);
        self.stdout += &rows(&second.answers);
        self.stdout += &batch_line("second", &second);
        self.stdout += &format!("port {} {}\n", second.record.clock, state_of(&second.record, false));
        self.tally.count(two, &second);
    }

    fn put_two_ports(&mut self, two: &TwoPorts) {
        let TwoPorts { table, reports, rooms, less, onward } = two;
        let stdin = &mut self.stdin;
        put_record(stdin, 2, onward.line, onward.table.lines.into(), table);
        let record = table_bytes(&two.without_rows());
        stdin.extend((record.len() as u16).to_le_bytes());
        stdin.push(*less as u8);
        for many in [reports.len(), rooms[0], onward.turns.len(), rooms[1]] {
            stdin.extend((many as u16).to_le_bytes());
        }
        stdin.extend(record);
        reports.iter().for_each(|report| put_report(stdin, report));
        onward.turns.iter().for_each(|turn| put_turn(stdin, turn));
    }
}

impl Tally {
    fn count(&mut self, two: &TwoPorts, second: &Batch) {
        self.lists += 1;
        self.among_others += usize::from(two.onward.table.count > two.table.count);
        let mut is_policed = false;
        for (turn, answer) in two.onward.turns.iter().zip(second.answers.chunks(3)) {
            if *turn != Turn::Departure {
                continue;
            }
            self.departures += 1;
            match answer[0] {
                0 => self.verdicts[answer[1] as usize] += 1,
                refusal => self.refused_reports[refusal as usize] += 1,
            }
            is_policed |= answer[0] == 0 && answer[1] == POLICED;
        }
        self.policed_with_less += usize::from(two.less > 0 && is_policed);
        assert!(two.less > 0 || !is_policed);
    }

    fn summary(&self) -> String {
        format!(
            "calls: {}; accepted: {}; refused 3 to 6, 8, 21, 22, 23: {:?}, {}, {}, {}, {}; lists through two ports: {}, with further links {}; \
             departures reported: {}; verdicts 0 to 3: {:?}; refused 16: {}; lists with a departure policed for too small a jitter: {}\n",
            self.calls,
            self.refused[0],
            &self.refused[3..7],
            self.refused[8],
            self.refused[21],
            self.refused[22],
            self.refused[23],
            self.lists,
            self.among_others,
            self.departures,
            self.verdicts,
            self.refused_reports[16],
            self.policed_with_less
        )
    }
}

fn made() -> Maker {
    let mut maker = Maker::default();
    next_tables::all().iter().for_each(|asked| maker.call(asked));
    tandem_lists::all().iter().for_each(|two| maker.two_ports(two));
    maker
}

pub fn cases() -> Cases {
    let Maker { stdin, stdout, tally } = made();
    Cases { stdin, stdout: stdout.into_bytes(), summary: tally.summary() }
}

#[cfg(test)]
mod tests {
    use super::*;

    #[test]
    fn there_are_cases_of_each_kind() {
        let Maker { stdin, stdout, tally } = made();
        assert!(tally.calls >= 300 && tally.refused[0] >= 90);
        assert!([3, 4, 5, 6, 8, 21, 22, 23].iter().all(|n| tally.refused[*n] >= 10));
        assert!(tally.lists >= 220 && tally.among_others >= 100 && tally.departures >= 1_500);
        assert!(tally.verdicts[0] >= 1_000 && tally.verdicts[1] == 0 && tally.verdicts[3] >= 100);
        assert!(tally.refused_reports[16] >= 50 && tally.policed_with_less >= 20);
        assert_eq!(tally.refused_reports[..16], [0; 16]);
        assert!(stdin.len() + stdout.len() < 300_000);
    }
}
