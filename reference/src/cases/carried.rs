//! Tables about what a line carries: lines that are promised a given sum, exactly, and tables about full in all.

use super::make;
use crate::examples::{alike, link, nine_on, table_full, table_over, table_spread};
use crate::random::Random;
use crate::table::{Link, Table, CARRIED};

/// FULL, OVER, SPREAD and OVER on the other line.
pub fn named() -> Vec<Table> {
    vec![table_full(), table_over(), table_spread(), nine_on(1, 197)]
}

/// OVER, alone and with a fault that is checked before, or after; the last is FULL, with one.
pub fn oversold() -> [Table; 8] {
    let over = |change: fn(&mut Table)| {
        let mut table = table_over();
        change(&mut table);
        table
    };
    [
        over(|_| ()),
        over(|t| (t.lines, t.links[0].code) = (25, 8)),
        over(|t| (t.count, t.sizes[0]) = (257, 16_385)),
        over(|t| (t.links[8].code, t.links[8].number) = (8, 7)),
        over(|t| (t.links[7].number, t.links[8].jitter) = (6, 125_001)),
        over(|t| t.links[8].number = 7),
        over(|t| t.sizes[7] = 16_385),
        over(|t| (t.links[8].greatest, t.sizes[0]) = (196, 16_385)),
    ]
}

/// The most links of 1,538 that a line carries, of each code, and one more; of codes 5 to 7 it carries all. And the greatest
/// sum of a line.
pub fn of_1_538() -> Vec<Table> {
    let mut tables = Vec::new();
    for (code, most, lines) in [(0, 8, 1), (1, 16, 24), (2, 32, 6), (3, 65, 2), (4, 130, 13)] {
        tables.extend([alike(code, most, lines), alike(code, most + 1, lines)]);
    }
    tables.extend([alike(5, 256, 1), alike(7, 256, 24), alike(0, 256, 9)]);
    tables
}

/// Each of 24 lines is full, but for the last link of all, which has this length.
pub fn all_full(last: u16) -> Table {
    let of_line = |i: u16| if i < 192 { 1_538 } else { 196 };
    let mut links: Vec<Link> = (0..216).map(|i| link(i, (i % 24) as u8, 0, of_line(i))).collect();
    links[215].greatest = last;
    make::table_of(24, &links, [0; 8])
}

fn factor(code: u8) -> u64 {
    1 << (7 - code)
}

/// Codes and greatest lengths of links that are promised so much together, a multiple of the last code's factor; no code is
/// above the last.
fn promising(random: &mut Random, sum: u64, last: u8) -> Vec<(u8, u16)> {
    let mut found = Vec::new();
    let mut left = sum;
    while left > 1_538 * factor(last) {
        // Enough stays for one more link of the last code.
        let room = left - 84 * factor(last);
        let first = (0..=last).find(|code| 84 * factor(*code) <= room).expect("the last code");
        let code = random.from(first.into(), u64::from(last.min(first + 1))) as u8;
        let longest = (room / factor(code)).min(1_538);
        let greatest = match random.from(0, 1) {
            0 => longest,
            _ => random.from(84, longest),
        };
        found.push((code, greatest as u16));
        left -= greatest * factor(code);
    }
    found.push((last, (left / factor(last)) as u16));
    found
}

/// The links in any order, with numbers that rise.
pub fn numbered(random: &mut Random, mut links: Vec<Link>) -> Vec<Link> {
    for i in 1..links.len() {
        links.swap(i, random.below(i + 1));
    }
    let numbers = make::numbers(random, links.len());
    for (link, number) in links.iter_mut().zip(numbers) {
        link.number = number;
    }
    links
}

/// A line is promised 1,600,000 and so much more, by links of all codes; there are some links on other lines among them.
pub fn filled(random: &mut Random, more: u64) -> Table {
    let lines = random.pick(&[1, 2, 5, 24, 24]);
    let line = random.from(0, u64::from(lines) - 1) as u8;
    let used = make::priorities(random, 7);
    let mut links = Vec::new();
    for (code, greatest) in promising(random, CARRIED + more, 7) {
        let least = random.from(84, greatest.into()) as u16;
        let jitter = random.pick(&[0, 0, 1_000, 125_000]);
        links.push(Link { number: 0, line, priority: random.pick(&used), code, least, greatest, jitter });
    }
    for _ in 0..random.from(0, 4) {
        let other = Link { priority: random.pick(&used), ..make::link(random, 0, lines) };
        if other.line != line {
            links.push(other);
        }
    }
    let sizes = [(); 8].map(|()| make::size(random));
    make::table_of(lines, &numbered(random, links), sizes)
}

/// Some lines that are promised about 1,600,000 in all, or just that; codes are at most 2, and most jitters 0, so that there are
/// often holds where it is no more.
pub fn spread(random: &mut Random) -> Table {
    let lines = random.pick(&[1, 1, 2, 3, 24]);
    let unit = factor(2);
    let sum = match random.from(0, 4) {
        0 => CARRIED,
        1 => CARRIED + unit,
        2 => CARRIED - unit * random.from(1, 5_000),
        3 => CARRIED + unit * random.from(1, 5_000),
        _ => unit * random.from(100, 90_000),
    };
    let used = make::priorities(random, 7);
    let mut links = Vec::new();
    for (code, greatest) in promising(random, sum, 2) {
        let line = random.from(0, u64::from(lines) - 1) as u8;
        let priority = random.pick(&used);
        let jitter = if random.once_in(40) { random.from(0, 125_000) as u32 } else { 0 };
        links.push(Link { number: 0, line, priority, code, least: 84, greatest, jitter });
    }
    make::table_of(lines, &numbered(random, links), [0; 8])
}

#[cfg(test)]
mod tests {
    use super::*;
    use crate::table::{check, promised};

    #[test]
    fn lines_are_filled_to_the_last_byte() {
        let mut random = Random::new(1);
        for more in [0, 0, 0, 1, 1, 2, 127, 128, 100_000] {
            let table = filled(&mut random, more);
            let sums: Vec<u64> = (0..table.lines).map(|line| promised(table.members(), line)).collect();
            assert!(sums.contains(&(CARRIED + more)));
            assert_eq!(check(&table), if more == 0 { 0 } else { 23 });
        }
    }

    #[test]
    fn the_last_of_24_lines() {
        assert_eq!([196, 197].map(|last| check(&all_full(last))), [0, 23]);
        assert!((0..24).all(|line| promised(all_full(196).members(), line) == CARRIED));
    }
}
