//! The cases of the handful that breaks a table: tables.
//!
//! Standard input is a run of cases: the bytes of a table record (2, little-endian), and the record (`port_records` has its
//! form). Standard output, of each: `handful REFUSED SUM LINES COUNT` and the sizes of the table handed out, the sum being the FNV-1a
//! of `numbers_of_table`, all 256 entries; its links: number, line, priority, code, least, greatest, jitter; `sold` and what is
//! sold of each of its lines; and where the table passes its checks, `given` and what that table sells of each line.

use super::handful_tables;
use super::port::{fnv_of_numbers, numbers_of_table};
use super::port_records::table_bytes;
use super::tandem::row_line;
use super::Cases;
use crate::bounds::{has_bounds, holds};
use crate::cases::make::table_of;
use crate::overload::{handful, sold, tried};
use crate::random::Random;
use crate::table::{check, Link, Table};
use std::collections::BTreeSet;

/// What happened, for a person to read.
#[derive(Default)]
struct Tally {
    calls: usize,
    refused: [usize; 27],
    /// Every link is kept; and the most that are, of how many, and the most that are removed.
    all: usize,
    most_kept: usize,
    most_links: usize,
    most_removed: usize,
    /// How many answers have 3 links, up to 10, up to 40, and more.
    kept: [usize; 4],
    /// How many have links of several lines, priorities, codes and lengths, and some with jitter and some without.
    mixed: [usize; 5],
    /// What is sold of a line with a kept link: 1, 2 to 999, 1,000; and 0 of a line without one.
    sold: [usize; 4],
    /// Refused with 26, and a byte more takes the bounds away.
    just: usize,
}

/// How many values there are.
fn values(links: &[Link], of: fn(&Link) -> u64) -> usize {
    links.iter().map(of).collect::<BTreeSet<u64>>().len()
}

/// Whether the table has no bounds once its shortest link is a byte longer.
fn is_just(table: &Table) -> bool {
    let mut longer = table.clone();
    let members = longer.links[..usize::from(table.count)].iter_mut();
    members.min_by_key(|v| v.greatest).expect("a link").greatest += 1;
    !has_bounds(&longer)
}

impl Tally {
    fn count(&mut self, table: &Table, answer: &Result<Table, u32>) {
        self.calls += 1;
        self.refused[*answer.as_ref().err().unwrap_or(&0) as usize] += 1;
        match answer {
            Ok(kept) => self.count_kept(table, kept),
            Err(26) => self.just += usize::from(is_just(table)),
            Err(_) => (),
        }
    }

    fn count_kept(&mut self, table: &Table, kept: &Table) {
        let (many, of) = (kept.members().len(), table.members().len());
        self.all += usize::from(many == of);
        self.most_kept = self.most_kept.max(many);
        self.most_links = self.most_links.max(of);
        self.most_removed = self.most_removed.max(of - many);
        self.kept[usize::from(many > 3) + usize::from(many > 10) + usize::from(many > 40)] += 1;
        self.count_mixed(kept.members());
        (0..kept.lines).for_each(|line| self.count_sold(sold(kept, line)));
    }

    fn count_mixed(&mut self, links: &[Link]) {
        let parts: [fn(&Link) -> u64; 5] = [
            |v| v.line.into(),
            |v| v.priority.into(),
            |v| v.code.into(),
            |v| v.greatest.into(),
            |v| u64::from(v.jitter > 0),
        ];
        for (mixed, part) in self.mixed.iter_mut().zip(parts) {
            *mixed += usize::from(values(links, part) > 1);
        }
    }

    fn count_sold(&mut self, thousandths: u64) {
        let place = match thousandths {
            1 => 0,
            2..=999 => 1,
            1_000 => 2,
            _ => 3,
        };
        self.sold[place] += 1;
    }

    fn summary(&self) -> String {
        format!(
            "calls: {}; answers: {}, of which {} are all; links kept 3, to 10, to 40, more: {:?}, the most {}, of {} at most; the most removed: {}; \
             answers with several lines, priorities, codes, lengths, and with and without jitter: {:?}; sold 1, 2 to 999, 1,000, 0: {:?}; \
             refused 3 to 6, 23, 26: {:?}, {}, {}, of these without bounds with a byte more: {}\n",
            self.calls,
            self.refused[0],
            self.all,
            self.kept,
            self.most_kept,
            self.most_links,
            self.most_removed,
            self.mixed,
            self.sold,
            &self.refused[3..7],
            self.refused[23],
            self.refused[26],
            self.just
        )
    }
}

fn sold_line(word: &str, table: &Table) -> String {
    let shares: String = (0..table.lines).map(|line| format!(" {}", sold(table, line))).collect();
    format!("{word}{shares}\n")
}

/// What is printed of a call; a refusal hands out the blank table.
fn said(table: &Table, answer: &Result<Table, u32>) -> String {
    let blank = table_of(0, &[], [0; 8]);
    let kept = answer.as_ref().unwrap_or(&blank);
    let refused = answer.as_ref().err().unwrap_or(&0);
    let sizes = kept.sizes.map(|size| format!(" {size}")).concat();
    let sum = fnv_of_numbers(&numbers_of_table(kept));
    let mut text = format!("handful {refused} {sum} {} {}{sizes}\n", kept.lines, kept.count);
    text += &kept.members().iter().map(row_line).collect::<String>();
    text += &sold_line("sold", kept);
    if check(table) == 0 {
        text += &sold_line("given", table);
    }
    text
}

fn made() -> (Vec<u8>, String, Tally) {
    let (mut stdin, mut stdout, mut tally) = (Vec::new(), String::new(), Tally::default());
    for table in handful_tables::all() {
        let answer = handful(&table);
        let record = table_bytes(&table);
        stdin.extend((record.len() as u16).to_le_bytes());
        stdin.extend(record);
        stdout += &said(&table, &answer);
        tally.count(&table, &answer);
    }
    (stdin, stdout, tally)
}

pub fn cases() -> Cases {
    let (stdin, stdout, tally) = made();
    Cases { stdin, stdout: stdout.into_bytes(), summary: tally.summary() }
}

/// Whether a table has bounds: by the formulas alone where it has few links.
fn asked(table: &Table) -> bool {
    match table.count {
        0..=4 => holds(table).is_ok(),
        _ => has_bounds(table),
    }
}

/// Holds the answers for drawn tables without bounds against the statement: what was tried, or the first breach.
pub fn handfuls() -> Result<String, String> {
    let mut random = Random::new(2_024_115);
    let (mut links, mut kept, mut asked_for) = (0, 0, 0);
    let tables = [12, 30].map(|most_links| handful_tables::drawn(&mut random, most_links)).concat();
    for (i, table) in tables.iter().enumerate() {
        let answer = handful(table);
        asked_for += tried(table, &answer, asked).map_err(|breach| format!("table {i}: {breach}"))?;
        links += table.members().len();
        kept += answer.map_or(0, |kept| kept.members().len());
    }
    Ok(format!(
        "handfuls: {} tables without bounds; {kept} of {links} links kept; {asked_for} selections tried; no breach\n",
        tables.len()
    ))
}

#[cfg(test)]
mod tests {
    use super::*;
    use crate::overload::slips::{answer, BY_SIZES, SLIPS};

    #[test]
    fn there_are_cases_of_each_kind() {
        let (stdin, stdout, tally) = made();
        assert!(tally.calls >= 300 && tally.refused[0] >= 200 && tally.all >= 20);
        assert!([3, 4, 5, 6, 23].iter().all(|n| tally.refused[*n] >= 6));
        assert!(tally.refused[26] >= 30 && tally.just >= 4 && tally.refused[8] == 0);
        assert!(tally.kept.iter().all(|many| *many >= 15), "3, up to 10, up to 40, more");
        assert!(tally.mixed.iter().all(|many| *many >= 80));
        assert!(tally.most_kept >= 150 && tally.most_links == 256 && tally.most_removed >= 150);
        assert!(tally.sold.iter().all(|many| *many >= 1) && tally.sold[0] >= 5);
        assert!(stdin.len() + stdout.len() < 300_000);
    }

    /// Each slip would answer many of the cases otherwise.
    #[test]
    fn slips_are_seen() {
        let (mut seen, mut by_sizes) = ([0; 5], 0);
        for table in handful_tables::all().iter().filter(|table| table.count <= 12 && check(table) == 0) {
            let right = handful(table);
            if right == Err(26) {
                by_sizes += usize::from(BY_SIZES(table).len() < table.count.into());
                continue;
            }
            for ((_, slip), seen) in SLIPS.iter().zip(&mut seen) {
                *seen += usize::from(answer(table, *slip) != right);
            }
        }
        assert!(seen.iter().all(|many| *many >= 20) && by_sizes >= 3, "{seen:?} {by_sizes}");
    }

    /// Counts that no table has, and entries behind counts that one has.
    #[test]
    fn counts_and_what_is_behind_them() {
        let tables = handful_tables::all();
        assert!([0, 257, 65_535].iter().all(|count| tables.iter().any(|table| table.count == *count)));
        let is_wild =
            |table: &&Table| table.count < 256 && table.links[usize::from(table.count)] != Link::default();
        let wild: Vec<&Table> = tables.iter().filter(is_wild).collect();
        assert!(wild.iter().filter(|table| check(table) == 0).count() >= 80);
    }
}
