//! The cases of the table: files for the reader, records for the check and the writer, every BAG code.
//!
//! Standard input is a run of cases: form (1 byte; 1 a file, 2 a record, 3 a BAG code), length (2 bytes,
//! little-endian), and as many bytes. Standard output has a line for each.

use super::{table_files, table_records, Cases};
use crate::table::{bag, check, read, write};
use table_records::Record;

/// The room for a table that was read and is written again; a file of 256 links has 4,652 bytes.
const AGAIN: usize = 4_700;

/// What every output holds before the writer is called.
const FILLED: u8 = 0xA5;

/// 32-bit FNV-1a.
pub fn fnv(bytes: &[u8]) -> u32 {
    bytes.iter().fold(2_166_136_261, |sum: u32, byte| (sum ^ u32::from(*byte)).wrapping_mul(16_777_619))
}

/// What the reader answers; and, for a table, what the writer makes of it.
fn file_line(file: &[u8]) -> String {
    let table = match read(file) {
        Ok(table) => table,
        Err(refusal) => return format!("refused {refusal}"),
    };
    let mut output = [FILLED; AGAIN];
    let written = write(&table, &mut output).expect("a table that was read passes every check");
    let bytes = &output[..written];
    let same = if bytes == file { "same" } else { "differs" };
    format!("table {} {} {written} {} {same}", table.lines, table.count, fnv(bytes))
}

fn record_line(record: &Record) -> String {
    let mut output = vec![FILLED; record.output];
    let answer = match write(&record.table, &mut output) {
        Ok(written) => format!("wrote {written}"),
        Err(refusal) => format!("refused {refusal}"),
    };
    format!("check {} {answer} {}", check(&record.table), fnv(&output))
}

fn add(cases: &mut Cases, form: u8, bytes: &[u8], line: &str) {
    cases.stdin.push(form);
    cases.stdin.extend((bytes.len() as u16).to_le_bytes());
    cases.stdin.extend(bytes);
    cases.stdout.extend(line.as_bytes());
    cases.stdout.push(b'\n');
}

pub fn cases() -> Cases {
    let mut cases = Cases { stdin: Vec::new(), stdout: Vec::new(), summary: String::new() };
    for file in table_files::all() {
        add(&mut cases, 1, &file, &file_line(&file));
    }
    for record in table_records::all() {
        add(&mut cases, 2, &record.bytes(), &record_line(&record));
    }
    for code in 0..=255 {
        add(&mut cases, 3, &[code], &format!("bag {}", bag(code)));
    }
    cases.summary = summary(&cases.stdout);
    cases
}

/// How many cases of files and records have each answer: of a file its refusal or 0, of a record what the writer answers.
fn summary(stdout: &[u8]) -> String {
    let text = String::from_utf8_lossy(stdout);
    let mut files = [0; 24];
    let mut records = [0; 24];
    for line in text.lines() {
        let words: Vec<&str> = line.split(' ').collect();
        match words[..] {
            ["refused", number] => files[number.parse::<usize>().expect("a number")] += 1,
            ["table", ..] => files[0] += 1,
            ["check", _, "refused", number, _] => records[number.parse::<usize>().expect("a number")] += 1,
            ["bag", _] => {}
            _ => records[0] += 1,
        }
    }
    format!(
        "files: {} good; refused 1 to 7: {:?}, 23: {}\nrecords: {} good; refused 3 to 6: {:?}, 9: {}, 23: {}\n",
        files[0],
        &files[1..8],
        files[23],
        records[0],
        &records[3..7],
        records[9],
        records[23]
    )
}

#[cfg(test)]
mod tests {
    use super::*;

    #[test]
    fn fnv_of_known_texts() {
        assert_eq!(fnv(b""), 2_166_136_261);
        assert_eq!(fnv(b"a"), 0xE40C_292C);
        assert_eq!(fnv(b"foobar"), 0xBF9C_F968);
    }

    #[test]
    fn there_are_enough_cases_of_each_kind() {
        assert!(table_files::all().len() >= 2_000);
        assert!(table_records::all().len() >= 200);
        let made = cases();
        assert!(made.stdin.len() < 900_000);
        let text = String::from_utf8(made.stdout).expect("plain text");
        for number in 1..=7 {
            assert!(text.lines().filter(|l| **l == format!("refused {number}")).count() >= 40);
        }
        assert!(text.lines().filter(|l| *l == "refused 23").count() >= 40);
        assert!(text.lines().filter(|l| l.starts_with("check 23 refused 23 ")).count() >= 20);
        for number in [3, 4, 5, 6, 9] {
            assert!(text.contains(&format!(" refused {number} ")));
        }
        assert!(!text.contains("differs"));
        assert!(table_files::all().iter().any(|file| file.len() > 4_653));
    }
}
