//! Tables with a link number: what the call for the jitter that is left is tried on.

use super::make::{self, table_of};
use super::{carried, table_records};
use crate::bounds::{bounds, Bounds};
use crate::examples::{link, nine_on, table_c, table_e, table_full, table_spread};
use crate::jitter::{fits, with_jitter};
use crate::random::Random;
use crate::table::{Link, Table};

pub struct Asked {
    pub table: Table,
    pub number: u64,
}

/// How the random tables of a family are drawn.
struct Family {
    tables: usize,
    links: (u64, u64),
    lines: u64,
    codes: (u64, u64),
    /// Jitter is drawn up to this.
    jitter: u64,
    /// The greatest lengths are drawn up to this.
    length: u64,
    /// The links have these priorities.
    of: &'static [u8],
}

const ALL: &[u8] = &[0, 1, 2, 3, 4, 5, 6, 7];
const FIRST: &[u8] = &[0, 1];
const ENDS: &[u8] = &[0, 7];
const NEXT: &[u8] = &[2, 3];
const APART: &[u8] = &[1, 4, 6];
const LAST: &[u8] = &[5, 6, 7];

const FAMILIES: [Family; 7] = [
    // Few links.
    Family { tables: 30, links: (1, 3), lines: 3, codes: (0, 7), jitter: 125_000, length: 1_538, of: ALL },
    Family { tables: 30, links: (2, 6), lines: 24, codes: (0, 2), jitter: 30_000, length: 1_538, of: ALL },
    Family { tables: 20, links: (2, 6), lines: 2, codes: (0, 4), jitter: 60_000, length: 500, of: NEXT },
    Family { tables: 20, links: (3, 6), lines: 2, codes: (0, 1), jitter: 125_000, length: 1_538, of: ENDS },
    // Busy.
    Family { tables: 24, links: (6, 12), lines: 4, codes: (0, 2), jitter: 20_000, length: 900, of: APART },
    Family { tables: 16, links: (6, 12), lines: 12, codes: (1, 3), jitter: 50_000, length: 1_538, of: LAST },
    // The usual: some tens of links.
    Family { tables: 12, links: (15, 40), lines: 24, codes: (3, 7), jitter: 20_000, length: 300, of: LAST },
];

/// Long frames, some of them late, on three lines: holds of more than a BAG.
const BUSY: Family =
    Family { tables: 4, links: (4, 7), lines: 3, codes: (0, 0), jitter: 40_000, length: 1_538, of: FIRST };

/// Every call, in order.
pub fn all() -> Vec<Asked> {
    let mut random = Random::new(2_024_109);
    let mut calls = named();
    calls.extend(wrong(&mut random));
    calls.extend(no_such_number(&mut random));
    calls.extend(nothing_left(&mut random));
    calls.extend(without_bounds());
    calls.extend(full(&mut random));
    calls.extend(not_a_tick(&mut random));
    calls.extend(late_on_one_line(&mut random));
    calls.extend(below(&mut random));
    for family in &FAMILIES {
        for i in 0..family.tables {
            calls.push(drawn(&mut random, family, i));
        }
    }
    calls.extend(large(&mut random));
    calls
}

fn of(number: u64, table: Table) -> Asked {
    Asked { table, number }
}

fn e_with(change: impl Fn(&mut Table)) -> Table {
    let mut table = table_e();
    change(&mut table);
    table
}

/// Table E with these sizes for priorities 0 and 1.
fn e_sized(first: u32, second: u32) -> Table {
    e_with(|t| t.sizes = [first, second, 0, 0, 0, 0, 0, 0])
}

fn roomy(table: Table) -> Table {
    Table { sizes: [16_384; 8], ..table }
}

/// Links 1 to 3 of 1,538, of this jitter, on these lines.
fn three_late(lines: [u8; 3], jitter: u32) -> Table {
    let links = [0, 1, 2].map(|i| Link { jitter, ..link(i as u16 + 1, lines[i], 0, 1_538) });
    roomy(table_of(3, &links, [0; 8]))
}

/// The examples, and those beside them: each link that they have.
fn named() -> Vec<Asked> {
    let mut tables = vec![table_e(), roomy(table_e()), e_with(|t| t.sizes[0] = 479), e_sized(480, 980)];
    tables.extend([1_999, 2_001, 980, 979, 0].map(|size| e_sized(2_000, size)));
    tables.extend([480, 481, 500, 959, 960, 961].map(|size| e_sized(size, 2_000)));
    tables.extend(
        [(11_001, 480), (11_002, 480), (125_000, 480), (125_000, 960)]
            .map(|(jitter, size)| e_with(|t| (t.links[0].jitter, t.sizes[0]) = (jitter, size))),
    );
    tables.extend([22_501, 22_502, 125_000].map(|jitter| e_with(|t| t.links[1].jitter = jitter)));
    tables.push(e_with(|t| t.sizes = [2_000, 2_000, 1, 2, 3, 4, 5, 16_384]));
    tables.extend([63_480, 63_481, 125_000].map(|jitter| three_late([0; 3], jitter)));
    tables.push(three_late([0, 1, 2], 125_000));
    let mut calls = Vec::new();
    for table in tables {
        calls.extend(table.members().iter().map(|v| of(v.number.into(), table.clone())));
    }
    for last in [195, 196] {
        let mut table = roomy(table_full());
        table.links[8].greatest = last;
        calls.extend([0, 8].map(|number| of(number, table.clone())));
    }
    let tight_c = Table { sizes: [16_383, 1_518, 0, 0, 0, 0, 0, 0], ..table_c() };
    for table in [table_c(), tight_c] {
        calls.extend([0, 23].map(|number| of(number, table.clone())));
    }
    calls
}

/// A number with more bits than a link's has, most often with this one at its end.
fn strange(random: &mut Random, number: u16) -> u64 {
    let number = u64::from(number);
    match random.from(0, 4) {
        0 => number + 65_536,
        1 => number + (1 << 32),
        2 => number + (1 << 63),
        3 => u64::MAX,
        _ => number + random.from(65_536, 1 << 40) / 65_536 * 65_536,
    }
}

/// Tables that fail 3 to 6 and 23 of their own checks: of each some that have the number, and some that have not.
fn wrong(random: &mut Random) -> Vec<Asked> {
    let mut calls = Vec::new();
    for refusal in [3, 4, 5, 6, 23] {
        for table in table_records::failing(refusal, 10) {
            let number = table.links[random.below(usize::from(table.count).clamp(1, 3))].number;
            calls.push(of(number.into(), table.clone()));
            calls.push(of(strange(random, number), table));
        }
    }
    calls.extend(two_faults());
    calls
}

/// Two of the table's own faults, and a number that is there, and one that is not.
fn two_faults() -> Vec<Asked> {
    carried::oversold().into_iter().flat_map(|table| [of(1, table.clone()), of(99, table)]).collect()
}

/// No such number: beside those that are there, behind the count, or above 65,535; in tables that fit, that do not, and that
/// have no bounds.
fn no_such_number(random: &mut Random) -> Vec<Asked> {
    let mut calls = Vec::new();
    let behind = |table: Table| {
        let mut table = table;
        table.links[usize::from(table.count)] = link(77, 0, 0, 84);
        table
    };
    for table in [table_e(), e_sized(0, 0), three_late([0, 1, 2], 125_000), roomy(table_spread())] {
        calls.extend([77, 65_535, 65_536].map(|number| of(number, behind(table.clone()))));
        let number = table.links[1].number;
        calls.extend((0..3).map(|_| of(strange(random, number), table.clone())));
    }
    for many in [1, 2, 5, 256] {
        let table = make::table(random, many);
        let is_there = |number: &u64| table.members().iter().any(|v| u64::from(v.number) == *number);
        let last = u64::from(table.links[many - 1].number);
        let beside = [0, 1, last - 1, last + 1, last + 65_536];
        calls.extend(beside.into_iter().filter(|n| !is_there(n)).map(|n| of(n, table.clone())));
    }
    calls
}

/// Sizes at the bounds; priorities without links have 0.
fn at_bounds(found: &Bounds) -> [u32; 8] {
    found.bounds.map(|bound| bound.min(16_384) as u32)
}

/// A table that has bounds, and a place in it.
fn with_bounds(random: &mut Random) -> (Table, usize) {
    loop {
        let table = draw(random, &FAMILIES[2]);
        if bounds(&table).is_ok() {
            let index = random.below(table.count.into());
            return (table, index);
        }
    }
}

/// A size is less than its bound already with jitter 0: that of the link's own priority, one above it or one below it.
fn nothing_left(random: &mut Random) -> Vec<Asked> {
    let mut calls = Vec::new();
    while calls.len() < 24 {
        let (mut table, index) = with_bounds(random);
        let found = bounds(&with_jitter(&table, index, 0)).expect("bounds, as with more jitter");
        let p = usize::from(random.pick(table.members()).priority);
        table.sizes = random.pick(&[at_bounds(&found), [16_384; 8]]);
        table.sizes[p] = found.bounds[p] as u32 - random.pick(&[1, 1, 20, 64]);
        let number = table.links[index].number;
        calls.push(of(number.into(), table));
    }
    calls
}

/// Tables without bounds as they stand: because of the link's jitter, or whatever it has.
fn without_bounds() -> Vec<Asked> {
    let mut calls = vec![of(9, roomy(table_spread())), of(0, roomy(table_spread()))];
    for (greatest, jitter) in [(1_538, 125_000), (1_538, 40_000), (1_000, 125_000), (700, 125_000)] {
        for p in [0, 7] {
            let one = |number: u8| Link { jitter, ..link(number.into(), number % 2, p, greatest) };
            let links: Vec<Link> = (0..6).map(one).collect();
            let mut table = table_of(2, &links, [16_384; 8]);
            table.links[5] = Link { priority: 3, code: 1, ..table.links[5] };
            calls.extend([0, 5].map(|number| of(number, table.clone())));
            for v in &mut table.links[..5] {
                v.jitter = 0;
            }
            calls.extend([0, 5].map(|number| of(number, table.clone())));
        }
    }
    calls
}

fn draw(random: &mut Random, family: &Family) -> Table {
    let lines = random.from(1, family.lines) as u16;
    let many = random.from(family.links.0, family.links.1) as usize;
    let mut links = Vec::new();
    for number in make::numbers(random, many) {
        let greatest = random.from(84, family.length) as u16;
        links.push(Link {
            number,
            line: random.from(0, u64::from(lines) - 1) as u8,
            priority: random.pick(family.of),
            code: random.from(family.codes.0, family.codes.1) as u8,
            least: random.from(84, greatest.into()) as u16,
            greatest,
            jitter: random.from(0, family.jitter) as u32,
        });
    }
    make::relieve(&mut links, lines);
    table_of(lines, &links, [16_384; 8])
}

/// A full line, its links of some priorities: a tick of jitter takes the bounds away. And a byte less.
fn full(random: &mut Random) -> Vec<Asked> {
    let mut calls = Vec::new();
    for last in [196, 196, 196, 196, 195, 195] {
        let mut table = nine_on(random.from(0, 1) as u8, last);
        for v in &mut table.links[..9] {
            v.priority = random.pick(&[0, 3, 6]);
        }
        calls.push(of(random.from(0, 8), roomy(table)));
    }
    calls
}

/// Three long links of jitter 125,000 on one line: often there are no bounds as it stands.
fn late_on_one_line(random: &mut Random) -> Vec<Asked> {
    let mut calls = Vec::new();
    for i in 0..12 {
        let mut links: Vec<Link> = (0..3).map(|number| link(number, 0, 0, 1_538)).collect();
        for v in &mut links {
            let (greatest, priority) = (random.from(1_400, 1_538) as u16, random.pick(&[0, 0, 5]));
            *v = Link { greatest, priority, jitter: 125_000, ..*v };
        }
        let table = roomy(table_of(1, &links, [0; 8]));
        calls.push(of(i % 3, table));
    }
    calls
}

/// A link, and many of a lower priority on another line, whose size alone is less than it needs with jitter 125,000.
fn below(random: &mut Random) -> Vec<Asked> {
    let mut calls = Vec::new();
    while calls.len() < 20 {
        let (p, below) = (random.from(0, 2) as u8, random.from(3, 7) as u8);
        let many = random.from(4, 9) as u16;
        let mut links = vec![link(0, 0, p, random.from(300, 1_538) as u16)];
        for number in 1..=many {
            let code = random.from(0, 2) as u8;
            links.push(Link { code, ..link(number, 1, below, random.from(84, 500) as u16) });
        }
        let mut table = roomy(table_of(2, &links, [0; 8]));
        let ends = [0, 125_000].map(|jitter| bounds(&with_jitter(&table, 0, jitter)));
        let [Ok(least), Ok(greatest)] = ends.map(|found| found.map(|found| found.bounds[usize::from(below)]))
        else {
            continue;
        };
        if least < greatest {
            table.sizes[usize::from(below)] = random.from(least, greatest - 1) as u32;
            table.links[0].jitter = random.pick(&[0, 12_500, 125_000]);
            calls.push(of(0, table));
        }
    }
    calls
}

/// Sizes at the bounds that there are with jitter 0, and a tick breaks one.
fn not_a_tick(random: &mut Random) -> Vec<Asked> {
    let mut calls = Vec::new();
    while calls.len() < BUSY.tables {
        let mut table = draw(random, &BUSY);
        let index = random.below(table.count.into());
        table.links[index].jitter = 0;
        let Ok(found) = bounds(&table) else {
            continue;
        };
        table.sizes = at_bounds(&found);
        if fits(&table, index, 0) && !fits(&table, index, 1) {
            let number = table.links[index].number;
            table.links[index].jitter = random.pick(&[0, 1, 125_000]);
            calls.push(of(number.into(), table));
        }
    }
    calls
}

/// A size for this bound: at it, one above it, or some hundreds above it.
fn near(random: &mut Random, bound: u64) -> u32 {
    let more = match random.from(0, 3) {
        0 => 0,
        1 => 1,
        _ => random.from(2, 700),
    };
    (bound + more).min(16_384) as u32
}

/// The place of one of two links of the table, the one whose frames come more often.
fn some_place(random: &mut Random, table: &Table) -> usize {
    let places = [(); 2].map(|()| random.below(table.count.into()));
    places.into_iter().min_by_key(|place| table.links[*place].code).expect("two places")
}

/// Sizes for the bounds that the table has with some jitter of the link, so that there is an answer from that jitter on; then
/// another jitter, or that one, stands in the table.
fn drawn(random: &mut Random, family: &Family, i: usize) -> Asked {
    let mut table = draw(random, family);
    let index = some_place(random, &table);
    let jitter = random.from(0, family.jitter) as u32;
    if let Ok(found) = bounds(&with_jitter(&table, index, jitter)) {
        table.sizes = found.bounds.map(|bound| if bound == 0 { 0 } else { near(random, bound) });
    }
    let present = random.from(0, 125_000) as u32;
    table.links[index].jitter = random.pick(&[jitter, present, 125_000, 125_000]);
    if i % 2 == 1 {
        put_behind(random, &mut table);
    }
    of(table.links[index].number.into(), table)
}

/// Entries behind the count, which are no part of the table.
fn put_behind(random: &mut Random, table: &mut Table) {
    for place in table.links[usize::from(table.count)..].iter_mut().take(2) {
        *place = table_records::wild(random);
    }
}

/// 100 links and 256, all of one priority: sizes at the bounds with some jitter of a link.
fn large(random: &mut Random) -> Vec<Asked> {
    let mut calls = Vec::new();
    for (many, p, jitter) in [(100, 6, 30_000), (256, 7, 0)] {
        let link = |i: u16| Link { code: 7, ..link(3 * i, (i % 24) as u8, p, 84) };
        let mut links: Vec<Link> = (0..many).map(link).collect();
        let index = random.below(links.len());
        links[index] = Link { code: 0, jitter: 1_000, ..links[index] };
        let mut table = table_of(24, &links, [0; 8]);
        let found = bounds(&with_jitter(&table, index, jitter)).expect("bounds");
        table.sizes = at_bounds(&found);
        calls.push(of(table.links[index].number.into(), table));
    }
    calls
}

#[cfg(test)]
mod tests {
    use super::*;
    use crate::table::check;

    /// Of each of the table's own refusals some have the number asked for, and some have not; counts are 0 and 257, lines 0
    /// and 25.
    #[test]
    fn the_own_checks_come_first() {
        let calls = wrong(&mut Random::new(1));
        for refusal in [3, 4, 5, 6, 23] {
            let fails: Vec<&Asked> = calls.iter().filter(|asked| check(&asked.table) == refusal).collect();
            let is_there = |asked: &&&Asked| {
                let count = usize::from(asked.table.count).min(256);
                asked.table.links[..count].iter().any(|v| u64::from(v.number) == asked.number)
            };
            let there = fails.iter().filter(is_there).count();
            assert!(there >= 8 && fails.len() - there >= 8, "{refusal}: {there} of {}", fails.len());
        }
        assert!([0, 257].iter().all(|count| calls.iter().any(|asked| asked.table.count == *count)));
        assert!([0, 25].iter().all(|lines| calls.iter().any(|asked| asked.table.lines == *lines)));
    }
}
