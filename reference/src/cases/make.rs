//! Random tables that pass every check.

use crate::random::Random;
use crate::table::{promise, promised, Link, Table, CARRIED, MOST_LINKS};

/// A table with these links, on this many lines.
pub fn table_of(lines: u16, links: &[Link], sizes: [u32; 8]) -> Table {
    let mut all = [Link::default(); MOST_LINKS];
    all[..links.len()].copy_from_slice(links);
    Table { lines, count: links.len() as u16, links: all, sizes }
}

/// Numbers strictly rising.
pub fn numbers(random: &mut Random, many: usize) -> Vec<u16> {
    let mut found: Vec<u16> = Vec::new();
    while found.len() < many {
        let number = random.from(0, 65_535) as u16;
        if !found.contains(&number) {
            found.push(number);
        }
    }
    found.sort();
    found
}

/// A link within every range, often at an end of one.
pub fn link(random: &mut Random, number: u16, lines: u16) -> Link {
    let least = match random.from(0, 4) {
        0 => 84,
        1 => 1_538,
        _ => random.from(84, 1_538),
    };
    let greatest = match random.from(0, 4) {
        0 => least,
        1 => 1_538,
        _ => random.from(least, 1_538),
    };
    let jitter = match random.from(0, 4) {
        0 => 0,
        1 => 125_000,
        _ => random.from(0, 125_000),
    };
    Link {
        number,
        line: random.from(0, u64::from(lines) - 1) as u8,
        priority: random.from(0, 7) as u8,
        code: random.from(0, 7) as u8,
        least: least as u16,
        greatest: greatest as u16,
        jitter: jitter as u32,
    }
}

/// Some of the eight priorities: from one to `most` of them.
pub fn priorities(random: &mut Random, most: u64) -> Vec<u8> {
    let many = random.from(1, most) as usize;
    let mut left: Vec<u8> = (0..8).collect();
    while left.len() > many {
        let at = random.below(left.len());
        left.remove(at);
    }
    left
}

pub fn size(random: &mut Random) -> u32 {
    match random.from(0, 3) {
        0 => 0,
        1 => 16_384,
        _ => random.from(0, 16_384) as u32,
    }
}

/// Codes are raised until each line carries what it is promised: always that of the line's link that is promised most.
pub fn relieve(links: &mut [Link], lines: u16) {
    for line in 0..lines {
        while promised(links, line) > CARRIED {
            let on_it = links.iter_mut().filter(|v| u16::from(v.line) == line);
            on_it.max_by_key(|v| promise(v)).expect("a link of the line").code += 1;
        }
    }
}

/// A table with this many links that passes every check.
pub fn table(random: &mut Random, many: usize) -> Table {
    let lines = match random.from(0, 3) {
        0 => 1,
        1 => 24,
        _ => random.from(1, 24) as u16,
    };
    let mut links: Vec<Link> =
        numbers(random, many).into_iter().map(|number| link(random, number, lines)).collect();
    relieve(&mut links, lines);
    let sizes = [(); 8].map(|()| size(random));
    table_of(lines, &links, sizes)
}

#[cfg(test)]
mod tests {
    use super::*;
    use crate::examples;
    use crate::table::check;

    #[test]
    fn each_table_passes() {
        let mut random = Random::new(1);
        for many in [1, 9, 40, 100, 256] {
            for _ in 0..20 {
                assert_eq!(check(&table(&mut random, many)), 0);
            }
        }
    }

    /// Codes are raised no further than is needed.
    #[test]
    fn lines_that_are_relieved_stay_about_full() {
        let mut links: Vec<Link> = (0..40).map(|number| examples::link(number, 0, 0, 1_538)).collect();
        relieve(&mut links, 1);
        assert!((1_400_000..=CARRIED).contains(&promised(&links, 0)));
    }
}
