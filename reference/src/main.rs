//! `reference CASES FOLDER` makes the cases, `reference check-CASES FOLDER` compares the committed ones with
//! what is computed, `reference watch` watches demand 3, counts, and two ports in a row, on the lists of the port's cases,
//! `reference edits` holds the statements on edits against pairs of tables, `reference margins` the jitters that are left
//! against the jitters about them, `reference handfuls` the links that break a table against what is said of them,
//! `reference replay TABLE REPORTS` prints what the program replay must print, `reference redundancy SKEW A B` what
//! redundancy must, `reference next TABLE LINE LINES [SIZES]` what next_table must, `reference jitter TABLE [NUMBER]` what
//! jitter_left must, `reference handful TABLE` what handful must, and `reference batch TABLE REPORTS` what the examples must;
//! `reference batch-runs FOLDER` writes files for them.

use reference::cases::{
    batch, bounds, differing, edits, handful, handful_run, jitter, jitter_run, next, port, recordings,
    redundancy, replay, store, table, tandem, tandem_watch, Files,
};
use reference::numeral::value_of;
use std::env;
use std::fs;
use std::io::{self, Write};
use std::path::Path;
use std::process::ExitCode;

const USAGE: &str = "usage: reference CASES FOLDER
       reference check-CASES FOLDER
       reference replay TABLE REPORTS
       reference redundancy SKEW A B
       reference next TABLE LINE LINES [SIZES]
       reference jitter TABLE [NUMBER]
       reference handful TABLE
       reference batch TABLE REPORTS
       reference batch-runs FOLDER
       reference watch
       reference edits
       reference margins
       reference handfuls
CASES: table-cases, bounds-cases, port-cases, batch-cases, tandem-cases, jitter-cases, handful-cases, replay-case, next-run,
       jitter-run, handful-run, redundancy-cases, redundancy-run";

fn make(files: Files, summary: &str, folder: &Path) -> Result<(), String> {
    store(&files, folder).map_err(|error| format!("{}: {error}", folder.display()))?;
    print!("{summary}");
    Ok(())
}

fn check(files: Files, folder: &Path) -> Result<(), String> {
    let found = differing(&files, folder).map_err(|error| format!("{}: {error}", folder.display()))?;
    match found {
        Some(name) => Err(format!("{}: {name} is not what is computed", folder.display())),
        None => Ok(()),
    }
}

/// The files of the cases, and how many cases there are of each kind.
fn cases_of(name: &str) -> Result<(Files, String), String> {
    let mut cases = match name {
        "table-cases" => table::cases(),
        "bounds-cases" => bounds::cases(),
        "port-cases" => port::cases(),
        "batch-cases" => batch::cases(),
        "tandem-cases" => tandem::cases(),
        "jitter-cases" => jitter::cases(),
        "handful-cases" => handful::cases(),
        "redundancy-cases" => redundancy::cases(),
        "replay-case" => return Ok((replay::files(), String::new())),
        "next-run" => return Ok((next::files(), String::new())),
        "jitter-run" => return Ok((jitter_run::files(), String::new())),
        "handful-run" => return Ok((handful_run::files(), String::new())),
        "redundancy-run" => return Ok((recordings::files(), String::new())),
        _ => return Err(USAGE.to_string()),
    };
    let summary = std::mem::take(&mut cases.summary);
    Ok((cases.files(), summary))
}

fn contents(name: &str) -> Result<Vec<u8>, String> {
    fs::read(name).map_err(|error| format!("{name}: {error}"))
}

fn run(words: &[&str]) -> Result<(), String> {
    match words {
        ["watch"] => {
            print!("{}{}", port::watch()?, tandem_watch::watch()?);
            Ok(())
        }
        ["edits"] => {
            print!("{}", edits::watch()?);
            Ok(())
        }
        ["margins"] => {
            print!("{}", jitter::margins()?);
            Ok(())
        }
        ["handfuls"] => {
            print!("{}", handful::handfuls()?);
            Ok(())
        }
        ["replay", table, reports] => {
            print!("{}", reference::replay::replay(&contents(table)?, &contents(reports)?));
            Ok(())
        }
        ["next", table, line, lines, sizes @ ..] if [0, 8].contains(&sizes.len()) => {
            let number = |word: &&str| value_of(word).ok_or(format!("{word} is no numeral"));
            let mut given = [0; 8];
            for (place, word) in given.iter_mut().zip(sizes) {
                *place = number(word)?;
            }
            let printed = reference::next::printed(&contents(table)?, number(line)?, number(lines)?, &given);
            io::stdout().write_all(&printed).map_err(|error| error.to_string())
        }
        ["jitter", table] => {
            print!("{}", reference::jitter::printed(&contents(table)?, None));
            Ok(())
        }
        ["jitter", table, number] => {
            let number = value_of(number).ok_or("NUMBER is no numeral")?;
            print!("{}", reference::jitter::printed(&contents(table)?, Some(number)));
            Ok(())
        }
        ["handful", table] => {
            print!("{}", reference::overload::printed(&contents(table)?));
            Ok(())
        }
        ["batch", table, reports] => {
            print!("{}", reference::batch::printed(&contents(table)?, &contents(reports)?));
            Ok(())
        }
        ["batch-runs", folder] => {
            store(&batch::runs(), Path::new(folder)).map_err(|error| format!("{folder}: {error}"))
        }
        ["redundancy", skew, a, b] => {
            let skew = value_of(skew).ok_or("SKEW is no numeral")?;
            let (first, second) = (contents(a)?, contents(b)?);
            let printed = reference::recordings::redundancy(skew, (a, &first), (b, &second));
            print!("{}", printed.text);
            printed.message.map_or(Ok(()), Err)
        }
        [command, folder] => {
            let (files, summary) = cases_of(command.strip_prefix("check-").unwrap_or(command))?;
            if command.starts_with("check-") {
                check(files, Path::new(folder))
            } else {
                make(files, &summary, Path::new(folder))
            }
        }
        _ => Err(USAGE.to_string()),
    }
}

fn main() -> ExitCode {
    let words: Vec<String> = env::args().skip(1).collect();
    let words: Vec<&str> = words.iter().map(String::as_str).collect();
    match run(&words) {
        Ok(()) => ExitCode::SUCCESS,
        Err(message) => {
            eprintln!("{message}");
            ExitCode::FAILURE
        }
    }
}
