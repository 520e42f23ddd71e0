//! The cases of the bounds and the sheet: table files, each with the text of its sheet.
//!
//! Standard input is a run of cases: length (2 bytes, little-endian), and as many bytes of a table file.
//! Standard output has the sheets, one after the other.

use super::{carried, edits, make, Cases};
use crate::bounds::bounds;
use crate::examples::{link, nine_on, table_c, table_e};
use crate::random::Random;
use crate::sheet::sheet;
use crate::table::{bytes_of, Link, Table};

/// How the random tables of a family are drawn.
struct Family {
    tables: usize,
    links: (u64, u64),
    lines: (u64, u64),
    codes: (u64, u64),
    /// Jitter is drawn up to this.
    jitter: u64,
    /// The greatest lengths are drawn up to this.
    length: u64,
}

const FAMILIES: [Family; 13] = [
    // Few links.
    Family { tables: 80, links: (1, 4), lines: (1, 3), codes: (0, 7), jitter: 0, length: 1_538 },
    Family { tables: 60, links: (1, 6), lines: (1, 24), codes: (0, 7), jitter: 125_000, length: 1_538 },
    Family { tables: 40, links: (3, 8), lines: (1, 1), codes: (0, 2), jitter: 30_000, length: 400 },
    // Busy: long holds, or none.
    Family { tables: 30, links: (6, 12), lines: (1, 12), codes: (0, 1), jitter: 12_500, length: 1_538 },
    Family { tables: 20, links: (8, 14), lines: (2, 24), codes: (0, 0), jitter: 0, length: 1_538 },
    Family { tables: 16, links: (13, 20), lines: (1, 24), codes: (0, 0), jitter: 2_000, length: 1_538 },
    Family { tables: 10, links: (30, 50), lines: (2, 24), codes: (2, 3), jitter: 60_000, length: 1_100 },
    Family { tables: 10, links: (50, 70), lines: (24, 24), codes: (2, 4), jitter: 60_000, length: 800 },
    // The usual: some tens of links.
    Family { tables: 40, links: (15, 40), lines: (1, 24), codes: (2, 7), jitter: 5_000, length: 1_538 },
    Family { tables: 16, links: (15, 40), lines: (1, 24), codes: (0, 7), jitter: 125_000, length: 300 },
    // Large.
    Family { tables: 6, links: (80, 110), lines: (24, 24), codes: (3, 7), jitter: 20_000, length: 500 },
    Family { tables: 4, links: (256, 256), lines: (24, 24), codes: (5, 7), jitter: 125_000, length: 250 },
    Family { tables: 4, links: (256, 256), lines: (1, 1), codes: (5, 7), jitter: 125_000, length: 240 },
];

/// A good file, or one damaged: every table leaves at least one priority unused.
fn files() -> Vec<Vec<u8>> {
    let mut random = Random::new(2_024_003);
    let mut files: Vec<Vec<u8>> = named().iter().map(bytes_of).collect();
    for family in &FAMILIES {
        for i in 0..family.tables {
            let mut table = draw(&mut random, family);
            if i % 3 == 0 && table.count < 50 {
                fit_sizes(&mut random, &mut table);
            }
            files.push(bytes_of(&table));
        }
    }
    for i in 0..48 {
        let table = draw(&mut random, &FAMILIES[2]);
        files.push(damaged(&mut random, &table, i % 6));
    }
    files.push(Vec::new());
    let mut long = bytes_of(&draw(&mut random, &FAMILIES[11]));
    long.push(0);
    files.push(long.clone());
    long.resize(5_000, 7);
    files.push(long);
    files.extend(about_full(&mut random).iter().map(bytes_of));
    files.extend(edits::for_the_sheet().iter().map(bytes_of));
    files
}

/// Lines that are full, or oversold, or full beside others; a tick of jitter, which takes FULL's bounds away.
fn about_full(random: &mut Random) -> Vec<Table> {
    let mut tables = carried::named();
    tables.push(nine_on(0, 195));
    for (p, jitter) in [(0, 1), (3, 0)] {
        let mut table = nine_on(1, 196);
        table.links[8] = Link { priority: p, jitter, ..table.links[8] };
        tables.push(table);
    }
    tables.extend([0, 0, 1, 1, 128].map(|more| carried::filled(random, more)));
    tables.extend((0..14).map(|_| carried::spread(random)));
    tables
}

/// 42 links of 1,538 and one of another length, code 7, on one line.
pub fn forty_three(last: u16) -> Table {
    let mut links: Vec<Link> = (0..43).map(|number| Link { code: 7, ..link(number, 0, 0, 1_538) }).collect();
    links[42].greatest = last;
    make::table_of(1, &links, [16_384, 0, 1, 2, 3, 0, 0, 16_384])
}

/// Table E, the examples g to l, those with known windows, and their neighbours.
fn named() -> Vec<Table> {
    let three = [0, 1, 2].map(|number| link(number, 0, 0, 200));
    let apart = [0, 1, 2].map(|number| link(number, number as u8, 0, 200));
    let late = Link { jitter: 12_400, ..link(1, 0, 0, 100) };
    let mut l: Vec<Link> = (1..9).map(|number| link(number, 0, 1, 200)).collect();
    l.insert(0, link(0, 0, 0, 1_000));
    let mut large = table_e();
    large.sizes = [16_384; 8];
    let mut small = table_e();
    small.sizes = [480, 979, 1, 0, 0, 0, 0, 1];
    let mut tables = vec![
        table_e(),
        large,
        small,
        make::table_of(1, &three, [399, 0, 0, 0, 0, 0, 0, 0]),
        make::table_of(3, &apart, [539, 1, 0, 0, 0, 0, 0, 0]),
        make::table_of(3, &apart, [540, 1, 0, 0, 0, 0, 0, 0]),
        make::table_of(1, &[late], [79, 0, 0, 0, 0, 0, 0, 0]),
        make::table_of(1, &l, [980, 1_199, 0, 0, 0, 0, 0, 0]),
    ];
    tables.extend(windows());
    tables.extend(near_c());
    for last in [938, 939, 940, 941, 942] {
        tables.push(forty_three(last));
    }
    for jitter in [12_300, 12_399, 12_400, 12_401, 12_500] {
        tables.push(make::table_of(1, &[Link { jitter, ..late }], [80; 8]));
    }
    tables
}

/// Tables whose windows are known: K, O with its neighbours, P, Nt.
fn windows() -> Vec<Table> {
    let k = [link(1, 0, 0, 200), link(2, 0, 0, 300), link(3, 1, 1, 1_000)];
    let p = [1, 2, 3, 4, 5, 6].map(|number| link(number, u8::from(number > 3), 0, 200));
    let nt = [link(1, 0, 0, 200), link(2, 0, 0, 200), link(3, 0, 0, 200), link(4, 1, 3, 100)];
    let mut tables = vec![
        make::table_of(2, &k, [460, 980, 0, 0, 0, 0, 0, 0]),
        make::table_of(2, &p, [999, 0, 0, 0, 0, 0, 0, 0]),
        make::table_of(2, &nt, [498, 0, 0, 79, 0, 0, 0, 0]),
    ];
    for jitter in [11_999, 12_000, 12_001, 12_002, 12_019, 12_020, 12_021, 12_500] {
        tables.push(make::table_of(1, &[Link { jitter, ..link(1, 0, 0, 500) }], [960; 8]));
    }
    tables
}

/// Table C, whose bound is 256 frames, and its neighbours: a byte of size, a tick or a frame of jitter, a byte of
/// length.
fn near_c() -> Vec<Table> {
    let with = |change: fn(&mut Table)| {
        let mut table = table_c();
        change(&mut table);
        table
    };
    vec![
        table_c(),
        with(|t| t.sizes = [16_383, 1_517, 0, 0, 0, 0, 0, 0]),
        with(|t| t.links[23].jitter = 24_999),
        with(|t| t.links[23].jitter = 37_500),
        with(|t| t.links[0].jitter = 124_999),
        with(|t| t.links[0].jitter = 112_500),
        with(|t| t.links[0].jitter = 112_499),
        with(|t| t.links[22].greatest = 85),
        with(|t| t.links[24].greatest = 1_537),
        with(|t| t.links[24].greatest = 84),
    ]
}

fn draw(random: &mut Random, family: &Family) -> Table {
    let used = make::priorities(random, 7);
    let lines = random.from(family.lines.0, family.lines.1) as u16;
    let many = random.from(family.links.0, family.links.1) as usize;
    let mut links = Vec::new();
    for number in make::numbers(random, many) {
        let greatest = random.from(84, family.length) as u16;
        links.push(Link {
            number,
            line: random.from(0, u64::from(lines) - 1) as u8,
            priority: random.pick(&used),
            code: random.from(family.codes.0, family.codes.1) as u8,
            least: random.from(84, u64::from(greatest)) as u16,
            greatest,
            jitter: random.from(0, family.jitter) as u32,
        });
    }
    let sizes = [(); 8].map(|()| make::size(random));
    make::table_of(lines, &links, sizes)
}

/// Sizes at, just below and just above the bounds.
fn fit_sizes(random: &mut Random, table: &mut Table) {
    let Ok(found) = bounds(table) else {
        return;
    };
    for p in 0..8 {
        let near = found.bounds[p] + random.from(0, 2);
        table.sizes[p] = near.saturating_sub(1).min(16_384) as u32;
    }
}

/// A file of at least two links, damaged in a way of its own for each `way` from 0 to 5.
fn damaged(random: &mut Random, table: &Table, way: usize) -> Vec<u8> {
    let mut file = bytes_of(table);
    let at = random.below(file.len());
    match way {
        0 => file.truncate(at),
        1 => file.push(random.from(0, 255) as u8),
        2 => file[random.pick(&[4, 5, 6, 7])] ^= 0x80,
        3 => file.copy_within(12..14, 30),
        4 => file[12 + random.from(2, 13) as usize] = 255,
        _ => file[at] = random.from(0, 255) as u8,
    }
    file
}

pub fn cases() -> Cases {
    let mut cases = Cases { stdin: Vec::new(), stdout: Vec::new(), summary: String::new() };
    let mut refused = [0; 24];
    for file in files() {
        let text = sheet(&file);
        match text.strip_prefix("refused ") {
            Some(number) => refused[number.trim().parse::<usize>().expect("a number")] += 1,
            None => refused[0] += 1,
        }
        cases.stdin.extend((file.len() as u16).to_le_bytes());
        cases.stdin.extend(file);
        cases.stdout.extend(text.as_bytes());
    }
    cases.summary = format!(
        "tables: {} with bounds; refused 1 to 8: {:?}, 23: {}\n",
        refused[0],
        &refused[1..9],
        refused[23]
    );
    cases
}

#[cfg(test)]
mod tests {
    use super::*;
    use crate::table::read;

    /// Slips in a window show where windows are neither 0 nor rare; the line's cut in A_p changes windows alone.
    #[test]
    fn there_are_enough_windows() {
        let tables = files().iter().filter_map(|file| read(file).ok()).collect::<Vec<Table>>();
        let windows: Vec<u64> =
            tables.iter().filter_map(|table| bounds(table).ok()).flat_map(|found| found.windows).collect();
        assert!(windows.iter().filter(|window| **window > 0).count() >= 100);
        assert!(windows.iter().filter(|window| **window > 10_000).count() >= 10);
    }

    /// Sizes at the bounds that are known from the text, and a byte below them.
    #[test]
    fn there_are_sizes_at_the_known_bounds() {
        let text: String = named().iter().map(|table| sheet(&bytes_of(table))).collect();
        for line in [
            "0 480 1499 0 480 0 1000",
            "1 980 1500 0 979 -1 1002",
            "0 399 600 219 399 0 1000",
            "0 540 600 0 539 -1 1002",
            "0 540 600 0 540 0 1000",
            "0 80 100 0 79 -1 1013",
            "1 1199 2600 1019 1199 0 1000",
            "0 460 1499 180 460 0 1000",
            "0 999 1200 400 999 0 1000",
            "0 498 699 318 498 0 1000",
            "3 80 700 0 79 -1 1013",
            "0 960 1000 499 960 0 1000",
            "0 960 1000 480 960 0 1000",
            "0 16384 27073 640 16384 0 1000",
            "0 16384 27073 640 16383 -1 1001",
        ] {
            assert!(text.lines().any(|found| found == line), "{line}");
        }
    }

    #[test]
    fn there_are_enough_tables_and_each_leaves_a_priority_unused() {
        let tables: Vec<Table> = files().iter().filter_map(|file| read(file).ok()).collect();
        assert!(tables.len() >= 300);
        let mut empty = 0;
        let mut roomy = 0;
        for table in &tables {
            let unused: Vec<usize> =
                (0..8).filter(|p| table.members().iter().all(|v| v.priority as usize != *p)).collect();
            assert!(!unused.is_empty());
            empty += u32::from(unused.iter().any(|p| table.sizes[*p] == 0));
            roomy += u32::from(unused.iter().any(|p| table.sizes[*p] > 0));
        }
        assert!(empty > 50 && roomy > 50);
    }
}
