//! Table records for the check and the writer, each with the length of its output.

use super::{carried, make};
use crate::examples::{table_full, table_over};
use crate::random::Random;
use crate::table::{check, Link, Table};

pub struct Record {
    pub table: Table,
    /// How many links stand in the case; those behind them are zero.
    pub given: usize,
    pub output: usize,
}

impl Record {
    /// Lines, count, output length, links given, the links at 13 bytes each, the eight sizes.
    pub fn bytes(&self) -> Vec<u8> {
        let mut bytes = Vec::new();
        for value in [self.table.lines, self.table.count, self.output as u16, self.given as u16] {
            bytes.extend(value.to_le_bytes());
        }
        for link in &self.table.links[..self.given] {
            bytes.extend(link.number.to_le_bytes());
            bytes.extend([link.line, link.priority, link.code]);
            bytes.extend(link.least.to_le_bytes());
            bytes.extend(link.greatest.to_le_bytes());
            bytes.extend(link.jitter.to_le_bytes());
        }
        for size in self.table.sizes {
            bytes.extend(size.to_le_bytes());
        }
        bytes
    }
}

/// Every record of the cases, in order.
pub fn all() -> Vec<Record> {
    let mut random = Random::new(2_024_002);
    let mut records = good(&mut random);
    records.extend(wrong_counts(&mut random));
    records.extend(wrong_links(&mut random));
    records.extend(wrong_sizes(&mut random));
    records.extend(random_faults(&mut random));
    records.extend(about_full(&mut random));
    records
}

/// So many of them that fail this check, from first to last, each with fewer than 20 links.
pub fn failing(refusal: u32, many: usize) -> Vec<Table> {
    let fails = |table: &Table| check(table) == refusal && table.links[20..].iter().all(|v| v.number == 0);
    let tables: Vec<Table> = all().into_iter().map(|record| record.table).filter(fails).collect();
    let apart = (tables.len() / many).max(1);
    tables.into_iter().step_by(apart).take(many).collect()
}

fn needed(table: &Table) -> usize {
    44 + 18 * table.count as usize
}

pub fn wild(random: &mut Random) -> Link {
    Link {
        number: random.from(0, 65_535) as u16,
        line: random.from(0, 255) as u8,
        priority: random.from(0, 255) as u8,
        code: random.from(0, 255) as u8,
        least: random.from(0, 65_535) as u16,
        greatest: random.from(0, 65_535) as u16,
        jitter: random.from(0, u64::from(u32::MAX)) as u32,
    }
}

/// Good tables with outputs of length zero, one too short, exact and longer, with wild entries behind
/// the count or none.
fn good(random: &mut Random) -> Vec<Record> {
    let mut records = Vec::new();
    for many in [1, 2, 3, 5, 8, 13, 255, 256] {
        let mut table = make::table(random, many);
        let exact = needed(&table);
        for output in [0, 1, 43, exact - 1, exact, exact + 1, exact + 40] {
            records.push(Record { table: table.clone(), given: many, output });
        }
        let behind = (256 - many).min(3);
        for i in many..many + behind {
            table.links[i] = wild(random);
        }
        for output in [exact - 1, exact, exact + 2] {
            records.push(Record { table: table.clone(), given: many + behind, output });
        }
    }
    records
}

/// Counts of 0, 257, 65,535 and the like, with outputs that are too short for what was meant.
fn wrong_counts(random: &mut Random) -> Vec<Record> {
    let mut records = Vec::new();
    for output in [0, 44, 200] {
        for lines in [0, 25, 256, 65_535] {
            let mut table = make::table(random, 3);
            table.lines = lines;
            records.push(Record { table, given: 3, output });
        }
        for count in [0, 257, 512, 65_535] {
            let mut table = make::table(random, 3);
            table.count = count;
            records.push(Record { table, given: 3, output });
        }
    }
    let mut full = make::table(random, 256);
    full.count = 257;
    records.push(Record { table: full, given: 256, output: 4_700 });
    // More counted than given: the zero entries are part of the table, and out of range.
    let mut table = make::table(random, 3);
    table.count = 4;
    records.push(Record { table, given: 3, output: 200 });
    records
}

/// One field of a link out of range, or a number not above the one before.
fn spoil_link(random: &mut Random, table: &mut Table, i: usize) {
    let before = if i > 0 { table.links[i - 1].number } else { 0 };
    let lines = table.lines as u8;
    let link = &mut table.links[i];
    match random.from(0, 11) {
        0 => link.line = lines,
        1 => link.line = 255,
        2 => link.priority = random.pick(&[8, 255]),
        3 => link.code = random.pick(&[8, 255]),
        4 => link.least = random.pick(&[0, 83]),
        5 => link.greatest = random.pick(&[1_539, 65_535]),
        6 => link.least = link.greatest + 1,
        7 => link.jitter = random.pick(&[125_001, u32::MAX]),
        8 => link.greatest = 83,
        9 => link.number = before,
        10 => link.number = before.saturating_sub(1),
        _ => link.number = random.from(0, 65_535) as u16,
    }
}

fn wrong_links(random: &mut Random) -> Vec<Record> {
    let mut records = Vec::new();
    for many in [1, 2, 4] {
        for _ in 0..40 {
            let mut table = make::table(random, many);
            let i = random.below(many);
            spoil_link(random, &mut table, i);
            let output = needed(&table);
            records.push(Record { table, given: many, output });
        }
    }
    records
}

fn wrong_sizes(random: &mut Random) -> Vec<Record> {
    let mut records = Vec::new();
    for p in 0..8 {
        for size in [16_385, 65_536, u32::MAX] {
            let mut table = make::table(random, 2);
            table.sizes[p] = size;
            records.push(Record { table, given: 2, output: 40 + 20 * p });
        }
    }
    records
}

/// One to three faults, with wild entries behind the count, and any output.
fn random_faults(random: &mut Random) -> Vec<Record> {
    let mut records = Vec::new();
    for i in 0..120 {
        let many = random.from(1, 9) as usize;
        let mut table = make::table(random, many);
        for _ in 0..i % 4 {
            match random.from(0, 5) {
                0 => table.lines = random.from(0, 30) as u16,
                1 => table.sizes[random.below(8)] = random.from(16_000, 17_000) as u32,
                _ => {
                    let place = random.below(many);
                    spoil_link(random, &mut table, place);
                }
            }
        }
        let behind = random.from(0, 2) as usize;
        for k in many..many + behind {
            table.links[k] = wild(random);
        }
        let output = (needed(&table) + random.from(0, 4) as usize).saturating_sub(2);
        records.push(Record { table, given: many + behind, output });
    }
    records
}

/// Lines about full, with outputs that are too short and not: alone, with one more fault, with links behind the count.
fn about_full(random: &mut Random) -> Vec<Record> {
    let mut records = Vec::new();
    for table in carried::named() {
        let exact = needed(&table);
        for output in [0, exact - 1, exact, exact + 2] {
            records.push(Record { table: table.clone(), given: table.count.into(), output });
        }
    }
    for table in [table_full(), table_over()] {
        let with = |change: &dyn Fn(&mut Table)| {
            let mut table = table.clone();
            change(&mut table);
            Record { output: needed(&table), given: 10, table }
        };
        records.push(with(&|t| t.sizes[7] = 16_385));
        records.push(with(&|t| t.links[8].number = 7));
        records.push(with(&|t| t.links[0].code = 8));
        records.push(with(&|t| t.lines = 25));
        records.push(with(&|t| t.count = 8));
        records.push(with(&|t| t.links[9] = t.links[0]));
        records.push(with(&|t| t.links[8].least = t.links[8].greatest));
    }
    for more in [0, 0, 0, 1, 1, 128, 60_000] {
        let table = carried::filled(random, more);
        records.push(Record { given: table.count.into(), output: needed(&table), table });
    }
    for _ in 0..16 {
        let mut table = carried::filled(random, 1);
        let many = usize::from(table.count);
        let place = random.below(many);
        if random.once_in(3) {
            table.sizes[place % 8] = 16_385;
        } else {
            spoil_link(random, &mut table, place);
        }
        records.push(Record { given: many, output: needed(&table), table });
    }
    records
}
