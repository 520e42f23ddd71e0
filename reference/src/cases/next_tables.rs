//! Tables with a chosen line and a line count: what the call for the next switch is tried on.

use super::make::{self, table_of};
use super::{carried, table_records};
use crate::bounds::holds;
use crate::examples::{link, nine_on, table_c, table_e, table_over};
use crate::random::Random;
use crate::table::{check, Link, Table};

pub struct Asked {
    pub table: Table,
    pub line: u64,
    pub lines: u64,
}

/// Every call, in order.
pub fn all() -> Vec<Asked> {
    let mut random = Random::new(2_024_019);
    let mut calls = named();
    calls.extend(lines_and_counts());
    calls.extend(wrong(&mut random));
    calls.extend(without_hold());
    calls.extend(overloaded());
    calls.extend(near_the_greatest_jitter(&mut random));
    calls.extend(any(&mut random));
    calls.extend(about_full());
    for (i, call) in calls.iter_mut().enumerate() {
        if i % 2 == 1 {
            put_behind(&mut random, &mut call.table);
        }
    }
    calls
}

/// "Entries of a record behind its counts are no part of a table": some that would be refused, or that would have the
/// greatest hold and jitter.
fn put_behind(random: &mut Random, table: &mut Table) {
    let from = usize::from(table.count).min(256);
    for place in table.links[from..].iter_mut().take(3) {
        *place = match random.from(0, 2) {
            0 => table_records::wild(random),
            1 => Link { jitter: 125_000, ..link(65_535, 0, 0, 1_538) },
            _ => link(0, 0, 0, 84),
        };
    }
}

fn at(line: u64, lines: u64, table: Table) -> Asked {
    Asked { table, line, lines }
}

fn e_with(change: impl Fn(&mut Table)) -> Table {
    let mut table = table_e();
    change(&mut table);
    table
}

/// "P, E with link 1 of code 7, least 100", and this jitter.
fn table_p(jitter: u32) -> Table {
    e_with(|t| t.links[0] = Link { code: 7, least: 100, jitter, ..t.links[0] })
}

/// "link 1 of 500, priority 0, line 0, jitter 125,000, and three of 1,538, priority 7, line 1, jitter 125,000"
fn eight_before_21() -> Table {
    let late =
        |number, line, priority, greatest| Link { jitter: 125_000, ..link(number, line, priority, greatest) };
    table_of(
        2,
        &[late(1, 0, 0, 500), late(2, 1, 7, 1_538), late(3, 1, 7, 1_538), late(4, 1, 7, 1_538)],
        [0; 8],
    )
}

/// The examples, and those beside them.
fn named() -> Vec<Asked> {
    let last = |jitter| e_with(|t| t.links[1] = Link { code: 7, jitter, ..t.links[1] });
    let tables = [
        table_e(),
        e_with(|t| t.links[0].least = 100),
        e_with(|t| t.links[1].least = 1_000),
        table_p(123_600),
        table_p(123_601),
        table_p(123_602),
        table_p(125_000),
        last(123_584),
        last(123_585),
        eight_before_21(),
        table_c(),
    ];
    tables.map(|table| at(3, 5, table)).into()
}

/// Lines and counts about 5, 24, 256, 65,536, 2^32 and the greatest.
fn lines_and_counts() -> Vec<Asked> {
    let lines = [0, 4, 5, 23, 24, 30, 259, 65_539, (1 << 32) + 3, u64::MAX];
    let counts = [0, 1, 5, 24, 25, 261, 65_541, (1 << 32) + 5, u64::MAX];
    let mut calls = Vec::new();
    for line in lines {
        calls.extend(counts.map(|count| at(line, count, table_e())));
    }
    calls
}

/// A line and a count, most of them good.
fn some_line(random: &mut Random) -> (u64, u64) {
    let lines = random.pick(&[1, 2, 5, 12, 24, 24, 25]);
    let line = random.from(0, lines - 1) + random.pick(&[0, 0, 0, 0, 0, 0, 0, 1]);
    (line, lines)
}

/// Tables that fail 3 to 6 of their own checks, some of each.
fn wrong(random: &mut Random) -> Vec<Asked> {
    let mut calls = Vec::new();
    for refusal in [3, 4, 5, 6] {
        let records = table_records::all().into_iter().map(|record| record.table);
        let fails = |table: &Table| check(table) == refusal && table.links[9..].iter().all(|v| v.number == 0);
        for table in records.filter(fails).take(16) {
            let (line, lines) = some_line(random);
            calls.push(at(line, lines, table));
        }
    }
    calls
}

/// 43 links of code 7 on one line, the last of another length and priority: a hold of 65,536, or none.
fn without_hold() -> Vec<Asked> {
    let mut calls = Vec::new();
    for (last, p, jitter) in [
        (939, 0, 0),
        (940, 0, 0),
        (941, 0, 0),
        (940, 7, 0),
        (941, 7, 0),
        (940, 0, 125_000),
        (941, 0, 125_000),
    ] {
        let mut links: Vec<Link> =
            (0..43).map(|number| Link { code: 7, ..link(number, 0, p, 1_538) }).collect();
        links[42] = Link { greatest: last, jitter, ..links[42] };
        calls.push(at(0, 1, table_of(1, &links, [0; 8])));
    }
    calls
}

/// Eight or nine links of 1,538 a BAG of 12,500, each on a line of its own: nine are too many. The last is of priority 0,
/// and its jitter would exceed 125,000 or not.
fn overloaded() -> Vec<Asked> {
    let mut calls = Vec::new();
    for (many, jitter) in [(8, 0), (8, 110_000), (8, 125_000), (9, 0), (9, 110_000), (9, 125_000)] {
        for p in [0, 3] {
            let mut links: Vec<Link> = (0..many).map(|i| link(i.into(), i, p, 1_538)).collect();
            let last = links.last_mut().expect("a link");
            *last = Link { jitter, priority: 0, code: 7, ..*last };
            links.push(link(900, many, 7, 84));
            calls.push(at(1, 2, table_of(u16::from(many) + 1, &links, [0; 8])));
        }
    }
    calls
}

/// One link or two, of code 7, whose jitter becomes 125,000, or one more or less: their jitter does not move a hold.
fn near_the_greatest_jitter(random: &mut Random) -> Vec<Asked> {
    let mut calls = Vec::new();
    while calls.len() < 48 {
        let mut table = small(random);
        let places: Vec<usize> = (0..usize::from(table.count)).collect();
        let chosen = [places[0], places[places.len() - 1], random.pick(&places)];
        let chosen = [random.pick(&chosen), random.pick(&chosen)];
        chosen.iter().for_each(|i| table.links[*i].code = 7);
        let Ok(holds) = holds(&table) else {
            continue;
        };
        for i in chosen {
            let v = &mut table.links[i];
            let wanted = random.pick(&[124_999, 125_000, 125_000, 125_001]);
            v.jitter = (wanted + u64::from(v.least) - holds[usize::from(v.priority)]) as u32;
        }
        let (line, lines) = some_line(random);
        calls.push(at(line, lines, table));
    }
    calls
}

/// One to six links.
fn small(random: &mut Random) -> Table {
    let many = random.from(1, 6) as usize;
    make::table(random, many)
}

/// Tables of all sizes.
fn any(random: &mut Random) -> Vec<Asked> {
    let mut calls = Vec::new();
    for i in 0..80 {
        let many = if i % 10 == 0 { random.from(8, 20) as usize } else { random.from(1, 5) as usize };
        let mut table = make::table(random, many);
        if i % 3 > 0 {
            for v in &mut table.links[..many] {
                v.jitter %= 20_000;
            }
        }
        let (line, lines) = some_line(random);
        calls.push(at(line, lines, table));
    }
    for many in [255, 256] {
        let mut table = make::table(random, many);
        for v in &mut table.links[..many] {
            *v = Link { code: 6, least: 84, greatest: 90, jitter: v.jitter % 50_000, ..*v };
        }
        calls.push(at(7, 24, table));
    }
    calls
}

/// Lines that are full or oversold: alone, with a chosen line or line count that is refused before, with a fault before 23 and
/// behind it.
fn about_full() -> Vec<Asked> {
    let mut random = Random::new(2_024_023);
    let over_and = |change: fn(&mut Table)| {
        let mut table = table_over();
        change(&mut table);
        at(3, 5, table)
    };
    let mut calls: Vec<Asked> = carried::named().into_iter().map(|table| at(3, 5, table)).collect();
    calls.extend([(0, 1), (5, 5), (24, 25), (23, 24)].map(|(line, lines)| at(line, lines, table_over())));
    calls.extend([
        over_and(|t| t.count = 257),
        over_and(|t| t.links[8].code = 8),
        over_and(|t| t.links[8].number = 7),
        over_and(|t| t.sizes[7] = 16_385),
        over_and(|t| t.links[0].jitter = 125_000),
        at(0, 1, nine_on(1, 196)),
    ]);
    for more in [0, 1, 1, 1, 128, 60_000] {
        let (line, lines) = some_line(&mut random);
        calls.push(at(line, lines, carried::filled(&mut random, more)));
    }
    for _ in 0..8 {
        let (line, lines) = some_line(&mut random);
        calls.push(at(line, lines, carried::spread(&mut random)));
    }
    calls
}
