//! Pairs of tables, the second an edit of the first: those made by hand, and random ones. What is seen of them.

use super::{carried, make, named_edits};
use crate::edits::{look, Pair, Seen};
use crate::random::Random;
use crate::table::{bag, check, Link, Table};
use std::iter::repeat_with;

/// How a first table is drawn, and how many are.
type Base = (&'static str, fn(&mut Random) -> Table, usize);

const BASES: [Base; 4] = [
    ("few links", few, 70),
    ("due links", due, 100),
    ("crowded", crowded, 44),
    ("about full", carried::spread, 20),
];

/// How a second is made of it.
type Edit = (&'static str, fn(&mut Random, &Table) -> Table);

const EDITS: [Edit; 4] = [("below", below), ("larger", larger), ("added", added), ("grown", grown)];

/// How often an edit is tried until the second can be taken.
const TRIES: usize = 30;

/// For the sheet: so many random pairs, with at most so many links in each table.
const SHEET_PAIRS: usize = 60;
const SHEET_LINKS: u16 = 16;

fn sizes(random: &mut Random) -> [u32; 8] {
    [(); 8].map(|()| make::size(random))
}

/// So many links on so many lines, each drawn by `link`, of at most seven priorities.
fn drawn(random: &mut Random, many: u64, lines: u16, link: fn(&mut Random, u16, u16) -> Link) -> Table {
    let used = make::priorities(random, 7);
    let mut links = Vec::new();
    for number in make::numbers(random, many as usize) {
        let priority = random.pick(&used);
        links.push(Link { priority, ..link(random, number, lines) });
    }
    make::table_of(lines, &links, sizes(random))
}

/// Few links of any kind, on few lines.
fn few(random: &mut Random) -> Table {
    let (many, lines) = (random.from(1, 6), random.from(1, 4) as u16);
    drawn(random, many, lines, make::link)
}

/// A short link whose next frame is due within 2,500 ticks.
fn due_link(random: &mut Random, number: u16, lines: u16) -> Link {
    let code = random.from(0, 2) as u8;
    let jitter = random.from(1, 2) * bag(code) - random.from(0, 2_500);
    let greatest = random.from(84, 500) as u16;
    Link { code, least: 84, greatest, jitter: jitter as u32, ..make::link(random, number, lines) }
}

/// Few such links, and a long one that they wait behind: many windows are where a frame is due.
fn due(random: &mut Random) -> Table {
    let (many, lines) = (random.from(2, 6), random.from(1, 3) as u16);
    let mut table = drawn(random, many, lines, due_link);
    let lowest = table.members().iter().map(|v| v.priority).max().expect("a link");
    let last = &mut table.links[many as usize - 1];
    *last = Link { priority: lowest, code: 7, greatest: 1_538, ..*last };
    table
}

/// A long link of code 0, seldom with jitter.
fn long_link(random: &mut Random, number: u16, lines: u16) -> Link {
    let greatest = random.from(900, 1_538) as u16;
    let jitter = random.pick(&[0, 0, 0, 0, 0, 0, 1, 400]);
    Link { code: 0, least: 84, greatest, jitter, ..make::link(random, number, lines) }
}

/// About as many of these as leave in a BAG: often there are no holds, or they are lost by little.
fn crowded(random: &mut Random) -> Table {
    let (many, lines) = (random.from(9, 11), random.from(2, 4) as u16);
    drawn(random, many, lines, long_link)
}

/// All priorities but one that no link has, so that the second leaves one unused too.
fn open(random: &mut Random, table: &Table) -> Vec<u8> {
    let is_unused = |p: &u8| table.members().iter().all(|v| v.priority != *p);
    let closed = random.pick(&(0..8).filter(is_unused).collect::<Vec<u8>>());
    (0..8).filter(|p| *p != closed).collect()
}

/// A number that no link has.
fn new_number(random: &mut Random, links: &[Link]) -> u16 {
    let mut numbers = repeat_with(|| random.from(0, 65_535) as u16);
    numbers.find(|number| links.iter().all(|v| v.number != *number)).expect("a number")
}

/// The links in the order of their numbers, and other sizes.
fn in_order(random: &mut Random, lines: u16, mut links: Vec<Link>) -> Table {
    links.sort_by_key(|v| v.number);
    make::table_of(lines, &links, sizes(random))
}

/// The link with some of line, priority, code, L and jitter drawn anew.
fn redrawn(random: &mut Random, v: &Link, open: &[u8], lines: u16) -> Link {
    let other = Link { priority: random.pick(open), ..make::link(random, v.number, lines) };
    let line = if u16::from(v.line) < lines { v.line } else { other.line };
    Link {
        number: v.number,
        line: random.pick(&[line, other.line]),
        priority: random.pick(&[v.priority, other.priority]),
        code: random.pick(&[v.code, other.code]),
        least: 84,
        greatest: random.pick(&[v.greatest, other.greatest]),
        jitter: random.pick(&[v.jitter, other.jitter]),
    }
}

/// Links of these priorities instead of those given: they are redrawn, some taken away and some added. Their greatest L
/// stays, be it that of another link.
fn instead(random: &mut Random, given: &[Link], table: &Table, open: &[u8], lines: u16) -> Vec<Link> {
    let longest = given.iter().map(|v| v.greatest).max().expect("a link");
    let mut links: Vec<Link> = given.iter().filter(|_| !random.once_in(4)).copied().collect();
    for _ in links.len().min(1)..random.from(1, 3) as usize {
        let number = new_number(random, &[table.members(), &links].concat());
        links.push(Link { priority: random.pick(open), ..make::link(random, number, lines) });
    }
    for v in &mut links {
        *v = redrawn(random, v, open, lines);
        v.greatest = v.greatest.min(longest);
    }
    let at = random.below(links.len());
    links[at].greatest = longest;
    links
}

/// What stands below the p of some link is edited, and often the line count.
fn below(random: &mut Random, table: &Table) -> Table {
    let p = random.pick(table.members()).priority;
    let (mut links, given): (Vec<Link>, Vec<Link>) = table.members().iter().partition(|v| v.priority <= p);
    let last = links.iter().map(|v| u64::from(v.line)).max().expect("a link");
    let lines = random.from(last + 1, 24) as u16;
    let lines = random.pick(&[lines, lines, table.lines]);
    if !given.is_empty() {
        let mut open = open(random, table);
        open.retain(|q| *q > p);
        links.extend(instead(random, &given, table, &open, lines));
    }
    in_order(random, lines, links)
}

/// More, up to the most: by one, by little, or by any amount.
fn more(random: &mut Random, from: u64, most: u64) -> u64 {
    let by = [1, random.from(1, 40), random.from(1, 500), random.from(0, most - from)];
    most.min(from + random.pick(&by))
}

/// One link or some have a larger L, or a larger jitter, or both.
fn larger(random: &mut Random, table: &Table) -> Table {
    let mut links = table.members().to_vec();
    let (is_longer, is_later) = random.pick(&[(true, false), (false, true), (true, true)]);
    let one = random.below(links.len());
    for (i, v) in links.iter_mut().enumerate() {
        let is_edited = i == one || random.once_in(4);
        if is_edited && is_longer {
            v.greatest = more(random, v.greatest.into(), 1_538) as u16;
        }
        if is_edited && is_later {
            v.jitter = more(random, v.jitter.into(), 125_000) as u32;
        }
    }
    in_order(random, table.lines, links)
}

/// Links are added anywhere, and often lines.
fn added(random: &mut Random, table: &Table) -> Table {
    let open = open(random, table);
    let lines = random.from(table.lines.into(), 24) as u16;
    let lines = random.pick(&[lines, table.lines]);
    let mut links = table.members().to_vec();
    for _ in 0..random.from(1, 3) {
        let number = new_number(random, &links);
        links.push(Link { priority: random.pick(&open), ..make::link(random, number, lines) });
    }
    in_order(random, lines, links)
}

/// Both.
fn grown(random: &mut Random, table: &Table) -> Table {
    let larger = larger(random, table);
    added(random, &larger)
}

/// A first table that passes its own checks.
fn first(random: &mut Random, draw: fn(&mut Random) -> Table) -> Table {
    repeat_with(|| draw(random)).find(|table| check(table) == 0).expect("a table that passes")
}

/// A second that passes them too, and has other links; None where there is none in some tries.
fn second(random: &mut Random, first: &Table, change: fn(&mut Random, &Table) -> Table) -> Option<Table> {
    let is_taken = |table: &Table| check(table) == 0 && table.members() != first.members();
    repeat_with(|| change(random, first)).take(TRIES).find(is_taken)
}

/// The random pairs: of each first table one by each edit.
fn random_pairs() -> Vec<Pair> {
    let mut random = Random::new(2_024_108);
    let mut pairs = Vec::new();
    for (base, draw, many) in BASES {
        for i in 0..many {
            let first = first(&mut random, draw);
            for (edit, change) in EDITS {
                if let Some(second) = second(&mut random, &first, change) {
                    pairs.push(Pair { name: format!("{base} {i}, {edit}"), first: first.clone(), second });
                }
            }
        }
    }
    pairs
}

/// Every pair, in order.
fn all() -> Vec<Pair> {
    let mut pairs = named_edits::all();
    pairs.extend(random_pairs());
    pairs
}

/// Both tables of the pairs made by hand, and of some small random ones; each table once.
pub fn for_the_sheet() -> Vec<Table> {
    let is_small = |pair: &Pair| pair.first.count.max(pair.second.count) <= SHEET_LINKS;
    let small: Vec<Pair> = random_pairs().into_iter().filter(is_small).collect();
    let apart = small.len() / SHEET_PAIRS;
    let mut pairs = named_edits::all();
    pairs.extend(small.into_iter().step_by(apart).take(SHEET_PAIRS));
    let mut tables: Vec<Table> = Vec::new();
    for table in pairs.into_iter().flat_map(|pair| [pair.first, pair.second]) {
        if !tables.contains(&table) {
            tables.push(table);
        }
    }
    tables
}

fn seen() -> Result<Vec<Seen>, String> {
    all().iter().map(look).collect()
}

/// Looks at every pair: what was seen, or the first statement that is false of one.
pub fn watch() -> Result<String, String> {
    let seen = seen()?;
    let count = |is_such: fn(&Seen) -> bool| seen.iter().filter(|pair| is_such(pair)).count();
    Ok(format!(
        "edits: {} pairs; {} agree to some p ({} with each p counted), {} of them on another line count; {} larger, {} with links \
         added, {} with both; a bound or hold rose in {}, a window fell in {}; {} first tables had no bounds, and {} lost \
         them; no breach\n",
        seen.len(),
        count(|pair| pair.agreed > 0),
        seen.iter().map(|pair| pair.agreed).sum::<usize>(),
        count(|pair| pair.agreed > 0 && pair.other_line_count),
        count(|pair| pair.larger),
        count(|pair| pair.added),
        count(|pair| pair.grown && !pair.larger && !pair.added),
        count(|pair| pair.rose),
        count(|pair| pair.window_fell),
        count(|pair| pair.without[0]),
        count(|pair| pair.without == [false, true])
    ))
}

#[cfg(test)]
mod tests {
    use super::*;
    use crate::bounds::bounds;
    use crate::edits::{enlargement, unmet};
    use crate::table::bytes_of;

    #[test]
    fn no_breach_on_any_pair() {
        let seen = seen().expect("no breach");
        let count = |is_such: fn(&Seen) -> bool| seen.iter().filter(|pair| is_such(pair)).count();
        assert!(count(|pair| pair.agreed > 0) >= 500);
        assert!(count(|pair| pair.agreed > 0 && !pair.grown) >= 100);
        assert!(count(|pair| pair.agreed > 0 && pair.other_line_count) >= 150);
        assert!(count(|pair| pair.larger) >= 200 && count(|pair| pair.added) >= 200);
        assert!(count(|pair| pair.grown && !pair.larger && !pair.added) >= 200);
        assert!(count(|pair| pair.rose) >= 400 && count(|pair| pair.window_fell) >= 20);
        assert!(count(|pair| pair.without[0]) >= 50 && count(|pair| pair.without == [false, true]) >= 25);
        assert!(seen.iter().all(|pair| pair.grown || !pair.larger && !pair.added));
    }

    #[test]
    fn random_pairs_pass_and_leave_a_priority_unused() {
        for Pair { name, first, second } in random_pairs() {
            for table in [first, second] {
                assert_eq!(check(&table), 0, "{name}");
                assert!((0..8).any(|p| table.members().iter().all(|v| v.priority != p)), "{name}");
            }
        }
    }

    /// Of the parts of "differs only by" these three are not needed.
    #[test]
    fn line_count_numbers_and_least_lengths_change_nothing() {
        let mut random = Random::new(2_024_109);
        for _ in 0..40 {
            let first = first(&mut random, due);
            let mut second = Table { lines: 24, ..first.clone() };
            for (number, v) in (0..).zip(&mut second.links[..first.count as usize]) {
                (v.number, v.least) = (number, v.greatest);
            }
            let parts = ["the same line count", "the same numbers", "the same least lengths"];
            assert_eq!(unmet(&enlargement(&first, &second)), parts);
            assert_eq!(bounds(&first), bounds(&second));
        }
    }

    #[test]
    fn the_tables_for_the_sheet() {
        let tables = for_the_sheet();
        assert!(named_edits::all().iter().all(|pair| tables.contains(&pair.first)));
        assert!(named_edits::all().iter().all(|pair| tables.contains(&pair.second)));
        assert!(tables.len() >= 2 * SHEET_PAIRS + 20);
        assert!(tables.iter().filter(|table| bounds(table) == Err(8)).count() >= 15);
        let bytes: usize = tables.iter().map(|table| bytes_of(table).len()).sum();
        assert!(bytes <= 60_000, "{bytes}");
    }
}
