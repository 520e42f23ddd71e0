//! The cases of batches: reports in bytes through the C call, and in numbers on a port in two calls, the second on the port
//! that the first handed back.
//!
//! Standard input is a run of cases. 12 bytes, little-endian: form (1 byte; 1 a table file, 2 a port record), the bytes of
//! it, of the reports, of the answer list and of the departure list (2 each), how many reports the first call takes (2),
//! what is shown (1). Then the file or record (`port_records` has the latter's form) and the reports. Byte i of a lent list
//! is 1 + i % 251 before a call.
//!
//! Standard output, of a file: `c REFUSED`, rows if shown has 1, `sums ANSWERS DEPARTURES`. Of a file that is not
//! refused, from its fresh port, and of a record: `calls REFUSED DEPARTURES REFUSED DEPARTURES`, rows if shown has 2,
//! `sums ANSWERS DEPARTURES`, `port CLOCK SUM`. Rows are the answers, then the departures, three numbers in each. A sum is
//! the FNV-1a of a whole list afterwards; the port's is that of `state_of`, whole if shown has 4.

use super::batches::{self, Batch, Start};
use super::port::{fnv_of_numbers, state_of};
use super::port_records::record_bytes;
use super::table::fnv;
use super::Cases;
use crate::batch::{bytes_of_numbers, departures_of, on_file, on_record, printed, rows, whole_numbers};
use crate::record::Record;
use crate::replay::REPORT_BYTES;
use crate::sheet::sheet;
use crate::table;

/// Rows of so many reports are shown, of the C call and of the two calls.
const SHOWN: [usize; 2] = [60, 12];

const C_ROWS: u8 = 1;
const CALLS_ROWS: u8 = 2;
const WHOLE: u8 = 4;

/// A lent list before the call.
fn found(bytes: usize) -> Vec<u8> {
    (0..bytes).map(|i| 1 + (i % 251) as u8).collect()
}

/// The rows of so many answers, and of their departures.
fn rows_of(answers: &[u64], list: &[u64], reports: usize) -> String {
    let answers = &answers[..3 * reports];
    rows(answers) + &rows(&list[..3 * departures_of(answers)])
}

fn c_lines(file: &[u8], batch: &Batch, shown: bool) -> String {
    let (mut answers, mut departures) = (found(batch.answers), found(batch.departures));
    let refused = on_file(file, &batch.reports, &mut answers, &mut departures).err().unwrap_or(0);
    let mut lines = format!("c {refused}\n");
    if shown && refused == 0 {
        let (answers, list) = (whole_numbers(&answers), whole_numbers(&departures));
        lines += &rows_of(&answers, &list, batch.reports.len() / REPORT_BYTES);
    }
    lines + &format!("sums {} {}\n", fnv(&answers), fnv(&departures))
}

/// What two calls did: refusals and departures of each, the lists, how many answers they gave.
struct Calls {
    refused: [u32; 2],
    departures: [usize; 2],
    answers: Vec<u64>,
    list: Vec<u64>,
    answered: usize,
}

/// The second call is lent what the first left.
fn call_twice(record: &mut Record, batch: &Batch) -> Calls {
    let reports = whole_numbers(&batch.reports);
    let parts = reports.split_at(reports.len().min(5 * batch.first));
    let mut calls = Calls {
        refused: [0; 2],
        departures: [0; 2],
        answers: whole_numbers(&found(batch.answers)),
        list: whole_numbers(&found(batch.departures)),
        answered: 0,
    };
    for (i, part) in [parts.0, parts.1].into_iter().enumerate() {
        let answers = &mut calls.answers[3 * calls.answered..];
        let list = &mut calls.list[3 * calls.departures[0]..];
        match on_record(record, part, answers, list) {
            Ok(many) => {
                calls.departures[i] = many;
                calls.answered += part.len() / 5;
            }
            Err(refusal) => calls.refused[i] = refusal,
        }
    }
    calls
}

/// The lines of the two calls, and whether the record is told whole: none of its parts was touched.
fn calls_lines(start: &Record, batch: &Batch, shown: bool) -> (String, bool) {
    let mut record = start.clone();
    let Calls { refused, departures, answers, list, answered } = call_twice(&mut record, batch);
    let mut lines = format!("calls {} {} {} {}\n", refused[0], departures[0], refused[1], departures[1]);
    if shown {
        lines += &rows_of(&answers, &list, answered);
    }
    lines += &format!("sums {} {}\n", fnv_of_numbers(&answers), fnv_of_numbers(&list));
    let whole = answered == 0 || answers[..3 * answered].chunks(3).all(|answer| answer[0] == 10);
    lines += &format!("port {} {}\n", record.clock, state_of(&record, whole));
    (lines, whole)
}

fn lines_of(batch: &Batch, shown: u8) -> (String, u8) {
    let mut lines = String::new();
    let record = match &batch.start {
        Start::File(file) => {
            lines += &c_lines(file, batch, shown & C_ROWS != 0);
            table::read(file).and_then(|table| Record::fresh(&table)).ok()
        }
        Start::Record(record) => Some(record.clone()),
    };
    let Some(record) = record else {
        return (lines, shown);
    };
    let (calls, whole) = calls_lines(&record, batch, shown & CALLS_ROWS != 0);
    (lines + &calls, if whole { shown | WHOLE } else { shown })
}

fn put(stdin: &mut Vec<u8>, batch: &Batch, shown: u8) {
    let (form, start) = match &batch.start {
        Start::File(file) => (1, file.clone()),
        Start::Record(record) => (2, record_bytes(record)),
    };
    stdin.push(form);
    for number in [start.len(), batch.reports.len(), batch.answers, batch.departures, batch.first] {
        stdin.extend(u16::try_from(number).expect("two bytes").to_le_bytes());
    }
    stdin.push(shown);
    stdin.extend(start);
    stdin.extend(&batch.reports);
}

fn shown_of(batch: &Batch) -> u8 {
    let many = batch.reports.len() / REPORT_BYTES;
    C_ROWS * u8::from(many <= SHOWN[0]) + CALLS_ROWS * u8::from(many <= SHOWN[1])
}

pub fn cases() -> Cases {
    let mut cases = Cases { stdin: Vec::new(), stdout: Vec::new(), summary: String::new() };
    let batches = batches::all();
    for batch in &batches {
        let (lines, shown) = lines_of(batch, shown_of(batch));
        put(&mut cases.stdin, batch, shown);
        cases.stdout.extend(lines.as_bytes());
    }
    cases.summary = tally(&batches).summary();
    cases
}

/// Files for the examples in C and Rust: the table, the reports, what is printed of them, and the table's sheet.
pub fn runs() -> Vec<(String, Vec<u8>)> {
    let mut files = Vec::new();
    for (i, batch) in batches::all().iter().enumerate() {
        if let Start::File(file) = &batch.start {
            files.push((format!("{i}.table"), file.clone()));
            files.push((format!("{i}.reports"), batch.reports.clone()));
            files.push((format!("{i}.printed"), printed(file, &batch.reports).into_bytes()));
            files.push((format!("{i}.sheet"), sheet(file).into_bytes()));
        }
    }
    files
}

/// What happened, for a person to read.
#[derive(Default)]
struct Tally {
    files: usize,
    records: usize,
    reports: usize,
    /// Of calls, by number.
    refused_calls: [usize; 24],
    /// Of reports, by number.
    refused: [usize; 17],
    verdicts: [usize; 4],
    freed: u64,
    /// Batches with 1 to 500 reports that are answered.
    answered: usize,
}

fn tally(batches: &[Batch]) -> Tally {
    let mut tally = Tally::default();
    for batch in batches {
        let (mut answers, mut departures) = (found(batch.answers), found(batch.departures));
        let answered = match &batch.start {
            Start::File(file) => {
                tally.files += 1;
                on_file(file, &batch.reports, &mut answers, &mut departures)
                    .map(|()| batch.reports.len() / REPORT_BYTES)
            }
            Start::Record(record) => {
                tally.records += 1;
                let calls = call_twice(&mut record.clone(), batch);
                answers = bytes_of_numbers(&calls.answers);
                Ok(calls.answered)
            }
        };
        match answered {
            Ok(many) => tally.count(&whole_numbers(&answers)[..3 * many]),
            Err(refusal) => tally.refused_calls[refusal as usize] += 1,
        }
    }
    tally
}

impl Tally {
    fn count(&mut self, answers: &[u64]) {
        let many = answers.len() / 3;
        self.refused_calls[0] += 1;
        self.reports += many;
        self.answered += usize::from((1..=500).contains(&many));
        for answer in answers.chunks(3) {
            match answer[0] {
                0 => self.verdicts[answer[1] as usize] += 1,
                refusal => self.refused[refusal as usize] += 1,
            }
            self.freed += answer[2];
        }
    }

    fn summary(&self) -> String {
        format!(
            "files: {}; records: {}; answered: {}; refused 1 to 7, 23, 19, 20: {:?}, {}, {:?}; reports: {}; verdicts 0 to 3: {:?}; \
             frames freed: {}; refused 10 to 16: {:?}\n",
            self.files,
            self.records,
            self.answered,
            &self.refused_calls[1..8],
            self.refused_calls[23],
            &self.refused_calls[19..21],
            self.reports,
            self.verdicts,
            self.freed,
            &self.refused[10..]
        )
    }
}

#[cfg(test)]
mod tests {
    use super::*;

    #[test]
    fn there_are_batches_of_each_kind() {
        let tally = tally(&batches::all());
        assert!(tally.answered >= 200);
        assert!([1, 2, 3, 4, 5, 6, 7, 23].iter().all(|n| tally.refused_calls[*n] >= 3));
        assert!([19, 20].iter().all(|n| tally.refused_calls[*n] >= 20));
        assert!(tally.refused[10..].iter().all(|many| *many >= 40));
        assert!(tally.verdicts.iter().all(|many| *many >= 100));
        assert!(tally.freed >= 1_000);
    }

    #[test]
    fn the_files_are_modest() {
        let made = cases();
        assert!(made.stdin.len() + made.stdout.len() < 1_500_000);
    }

    /// Both ways say the same of a batch in whole numbers that is not refused.
    #[test]
    fn two_calls_leave_what_one_leaves() {
        for batch in batches::all() {
            let Start::File(file) = &batch.start else { continue };
            let (mut answers, mut departures) = (found(batch.answers), found(batch.departures));
            if on_file(file, &batch.reports, &mut answers, &mut departures).is_ok() {
                let mut record = Record::fresh(&table::read(file).expect("a table")).expect("a good table");
                let calls = call_twice(&mut record, &batch);
                assert_eq!(calls.answers, whole_numbers(&answers));
                assert_eq!(calls.list, whole_numbers(&departures));
            }
        }
    }
}
