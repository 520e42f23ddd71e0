//! Tables that the call for the handful that breaks a table is tried on.

use super::make::{self, table_of};
use super::{carried, table_records};
use crate::bounds::has_bounds;
use crate::examples::{
    forty_six, forty_three, late, link, nine_on, table_c, table_e, table_full, table_j4, table_j5,
    table_spread,
};
use crate::random::Random;
use crate::table::{bag, Link, Table};
use std::cmp::Reverse;

/// From the first to the last.
type Range = (u64, u64);

/// How the random tables of a family are drawn.
struct Family {
    tables: usize,
    links: Range,
    lines: u64,
    codes: Range,
    jitter: Range,
    /// Of the greatest lengths.
    long: Range,
    /// The links have these priorities.
    of: &'static [u8],
}

const ALL: &[u8] = &[0, 1, 2, 3, 4, 5, 6, 7];
const ENDS: &[u8] = &[0, 7];
const NEXT: &[u8] = &[2, 3];
const APART: &[u8] = &[1, 4, 6];

const LATE: Range = (100_000, 125_000);
const ANY: Range = (0, 125_000);
const SOME: Range = (0, 50_000);
const LITTLE: Range = (0, 3_000);
const LONGEST: Range = (1_400, 1_538);
const LONG: Range = (1_000, 1_538);
const SHORT: Range = (84, 800);
const MIXED: Range = (84, 1_538);

const FAMILIES: [Family; 10] = [
    // Few links, late.
    Family { tables: 32, links: (3, 5), lines: 24, codes: (0, 0), jitter: LATE, long: LONGEST, of: ALL },
    Family { tables: 32, links: (5, 12), lines: 3, codes: (0, 1), jitter: ANY, long: LONG, of: ENDS },
    // The lines together are promised more than one carries.
    Family { tables: 24, links: (9, 20), lines: 12, codes: (0, 0), jitter: LITTLE, long: LONG, of: APART },
    Family { tables: 16, links: (18, 30), lines: 6, codes: (0, 1), jitter: (0, 0), long: MIXED, of: ALL },
    // Mixed.
    Family { tables: 36, links: (8, 30), lines: 24, codes: (0, 3), jitter: ANY, long: MIXED, of: ALL },
    Family { tables: 20, links: (20, 40), lines: 8, codes: (0, 7), jitter: ANY, long: MIXED, of: NEXT },
    // Many that are kept.
    Family { tables: 6, links: (44, 60), lines: 24, codes: (3, 7), jitter: SOME, long: LONG, of: ALL },
    Family { tables: 10, links: (40, 60), lines: 2, codes: (2, 4), jitter: SOME, long: MIXED, of: &[5] },
    // The largest.
    Family { tables: 3, links: (150, 255), lines: 24, codes: (2, 7), jitter: ANY, long: SHORT, of: NEXT },
    Family { tables: 2, links: (256, 256), lines: 24, codes: (4, 7), jitter: SOME, long: SHORT, of: ALL },
];

/// Every table, in order.
pub fn all() -> Vec<Table> {
    let mut random = Random::new(2_024_114);
    let mut tables = named();
    tables.extend(wrong(&mut random));
    tables.extend(about_65_536(&mut random));
    tables.extend(with_bounds(&mut random));
    tables.extend(drawn(&mut random, 256));
    tables
}

/// The tables of each family of so many links at most, without bounds; behind every other one there are entries that are no
/// part of it.
pub fn drawn(random: &mut Random, most_links: u64) -> Vec<Table> {
    let mut tables = Vec::new();
    for family in FAMILIES.iter().filter(|family| family.links.1 <= most_links) {
        for i in 0..family.tables {
            let mut table = until(random, |random| draw(random, family), |table| !has_bounds(table));
            if i % 2 == 1 {
                put_behind(random, &mut table);
            }
            tables.push(table);
        }
    }
    tables
}

fn until(
    random: &mut Random,
    draw: impl Fn(&mut Random) -> Table,
    is_such: impl Fn(&Table) -> bool,
) -> Table {
    loop {
        let table = draw(random);
        if is_such(&table) {
            return table;
        }
    }
}

/// What a link puts on its line at once.
fn burst(link: &Link) -> u64 {
    u64::from(link.greatest) * (1 + u64::from(link.jitter) / bag(link.code))
}

fn draw(random: &mut Random, family: &Family) -> Table {
    let lines = random.from(family.lines.div_ceil(2), family.lines) as u16;
    let many = random.from(family.links.0, family.links.1) as usize;
    let mut links: Vec<Link> = (0..many).map(|_| draw_link(random, family, lines)).collect();
    match random.from(0, 3) {
        0 => links.sort_by_key(burst),
        1 => links.sort_by_key(|v| Reverse(burst(v))),
        _ => (),
    }
    for (v, number) in links.iter_mut().zip(make::numbers(random, many)) {
        v.number = number;
    }
    make::relieve(&mut links, lines);
    let sizes = [(); 8].map(|()| make::size(random));
    table_of(lines, &links, sizes)
}

fn draw_link(random: &mut Random, family: &Family, lines: u16) -> Link {
    let greatest = random.from(family.long.0, family.long.1) as u16;
    Link {
        number: 0,
        line: random.from(0, u64::from(lines) - 1) as u8,
        priority: random.pick(family.of),
        code: random.from(family.codes.0, family.codes.1) as u8,
        least: random.from(84, greatest.into()) as u16,
        greatest,
        jitter: if random.once_in(8) { 0 } else { random.from(family.jitter.0, family.jitter.1) as u32 },
    }
}

/// Entries behind the count, which are no part of the table: wild ones, and a late link.
fn put_behind(random: &mut Random, table: &mut Table) {
    let count = usize::from(table.count);
    let behind = [table_records::wild(random), late(65_535, 0), table_records::wild(random)];
    for (place, entry) in table.links[count..].iter_mut().zip(behind) {
        *place = entry;
    }
}

fn with(table: Table, change: impl Fn(&mut Table)) -> Table {
    let mut table = table;
    change(&mut table);
    table
}

/// 253 short links, with three late ones in this place.
fn crowd(place: usize) -> Table {
    let mut links: Vec<Link> =
        (0..253).map(|i: u16| Link { code: 7, ..link(0, (i % 24) as u8, (i % 8) as u8, 84) }).collect();
    links.splice(place..place, [3, 9, 20].map(|line| late(0, line)));
    for (v, number) in links.iter_mut().zip(1..) {
        v.number = number;
    }
    table_of(24, &links, [16_384; 8])
}

/// The examples and those beside them, and tables that other requests name.
fn named() -> Vec<Table> {
    let mut tables = vec![table_j4(), table_j5(), forty_six(0), forty_six(43)];
    tables.extend([0, 1, 2, 3].map(|i| with(table_j4(), |t| t.links[i].jitter = 0)));
    tables.extend([0, 1, 2, 3].map(|i| with(table_j4(), |t| t.links[i].greatest = 84)));
    tables.extend([0, 1, 2, 3].map(|i| with(table_j4(), |t| t.links[i].priority = 7)));
    tables.extend([2, 3, 5].map(|count| with(table_j4(), |t| t.count = count)));
    tables.extend([3, 4].map(|count| with(table_j5(), |t| t.count = count)));
    tables.push(with(table_j5(), |t| t.sizes = [16_384, 1, 2, 3, 4, 5, 6, 7]));
    tables.extend([1, 22, 42].map(forty_six));
    tables.extend([940, 941, 942, 1_538].map(forty_three));
    tables.extend([0, 100, 253].map(crowd));
    tables.extend([[0; 8], [16_384; 8], table_e().sizes].map(|sizes| Table { sizes, ..table_e() }));
    tables.push(with(table_e(), |t| t.links[2] = late(3, 0)));
    tables.extend([table_full(), table_spread(), table_c(), nine_on(1, 196)]);
    // The greatest hold of one link, and of two.
    tables.extend([1, 2].map(|many| table_of(1, &[late(7, 0), late(9, 0)][..many], [0; 8])));
    tables
}

/// Tables that fail 3 to 6 and 23 of their own checks, and counts that no table has.
fn wrong(random: &mut Random) -> Vec<Table> {
    let mut tables = carried::oversold().to_vec();
    for refusal in [3, 4, 5, 6, 23] {
        tables.extend(table_records::failing(refusal, 4));
    }
    tables.extend([table_j4(), table_j5(), table_e()].iter().flat_map(faulty));
    tables.extend([0, 257, 65_535].map(|count| {
        let mut table = with(table_j5(), |t| t.count = count);
        table.links[5..9].fill_with(|| table_records::wild(random));
        table
    }));
    tables
}

/// The table with a fault, or with two that are checked one after the other.
fn faulty(table: &Table) -> [Table; 5] {
    let faults: [fn(&mut Table); 5] = [
        |t| t.lines = 25,
        |t| (t.links[1].jitter, t.sizes[7]) = (125_001, 16_385),
        |t| t.links[1].number = t.links[0].number,
        |t| (t.links[0].least, t.links[1].number) = (83, 0),
        |t| t.sizes[7] = 16_385,
    ];
    faults.map(|fault| with(table.clone(), fault))
}

/// Some tens of links that send one frame each in 65,536 ticks, so much in all.
fn summing(random: &mut Random, sum: u64) -> Table {
    let lines = random.pick(&[1, 6, 24]);
    let (mut links, mut left) = (Vec::new(), sum);
    while left > 0 {
        // What is left is no link, or at least the shortest.
        let greatest = match left {
            0..=1_538 => left,
            1_539..=1_622 => 700,
            _ => random.pick(&[1_538, 1_538, 1_400, left % 1_000 + 500, 84]),
        };
        links.push(Link {
            priority: random.from(0, 7) as u8,
            code: random.from(4, 7) as u8,
            jitter: random.from(0, 100_000) as u32,
            ..link(0, random.from(0, lines - 1) as u8, 0, greatest as u16)
        });
        left -= greatest;
    }
    table_of(lines as u16, &carried::numbered(random, links), [16_384; 8])
}

/// Just as much as fits the greatest hold, and a byte more, the shortest link more, or some links more.
fn about_65_536(random: &mut Random) -> Vec<Table> {
    let sums = [0, 0, 0, 0, 1, 1, 1, 84, 84, 85, 1_000, 1_538, 3_000, 20_000].map(|more| 65_536 + more);
    sums.map(|sum| summing(random, sum)).to_vec()
}

/// Tables of some families that have bounds, with whatever sizes.
fn with_bounds(random: &mut Random) -> Vec<Table> {
    let mut tables = Vec::new();
    for i in 0..20 {
        let family = &FAMILIES[[1, 4, 5, 7][i % 4]];
        let mut table = until(random, |random| draw(random, family), has_bounds);
        put_behind(random, &mut table);
        tables.push(table);
    }
    tables
}
