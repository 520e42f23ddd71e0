//! batch-rust TABLE REPORTS: prints and ends as examples/c/batch.c does.

mod fenuschia;

use std::io::{self, BufWriter, Write};
use std::process::ExitCode;
use std::{env, fs};

const REPORT: usize = 40;
const ROW: usize = 24;
const MOST_HELD: usize = 2_048;

fn contents(name: &str) -> Result<Vec<u8>, String> {
    let cannot = |error: io::Error| match error.kind() {
        io::ErrorKind::NotFound | io::ErrorKind::PermissionDenied => format!("can't open {name}"),
        _ => format!("can't read {name}"),
    };
    fs::read(name).map_err(cannot)
}

fn numbers(row: &[u8]) -> [u64; 3] {
    [0, 8, 16].map(|at| u64::from_le_bytes(row[at..at + 8].try_into().expect("eight bytes")))
}

/// The first rows of three numbers.
fn print_rows(out: &mut impl Write, bytes: &[u8], rows: usize) -> io::Result<()> {
    for row in bytes.chunks_exact(ROW).take(rows) {
        let [a, b, c] = numbers(row);
        writeln!(out, "{a} {b} {c}")?;
    }
    Ok(())
}

/// Whether the table and the reports were taken.
fn run(table: &[u8], reports: &[u8], out: &mut impl Write) -> io::Result<bool> {
    let many = reports.len() / REPORT;
    let mut answers = vec![0; ROW * many];
    let mut departures = vec![0; ROW * (many + MOST_HELD)];
    let called = fenuschia::batch(table, reports, &mut answers, &mut departures);
    if let Err(refused) = called {
        writeln!(out, "refused {refused}")?;
    } else {
        let freed: u64 = answers.chunks_exact(ROW).map(|row| numbers(row)[2]).sum();
        print_rows(out, &answers, many)?;
        print_rows(out, &departures, freed as usize)?;
    }
    out.flush()?;
    Ok(called.is_ok())
}

fn try_run() -> Result<bool, String> {
    let words: Vec<String> = env::args().skip(1).collect();
    let [table, reports] = &words[..] else {
        return Err("usage: batch-rust TABLE REPORTS".to_string());
    };
    let (table, reports) = (contents(table)?, contents(reports)?);
    run(&table, &reports, &mut BufWriter::new(io::stdout().lock()))
        .map_err(|_| "can't write".to_string())
}

fn main() -> ExitCode {
    match try_run() {
        Ok(true) => ExitCode::SUCCESS,
        Ok(false) => ExitCode::from(3),
        Err(message) => {
            eprintln!("{message}");
            ExitCode::from(2)
        }
    }
}
