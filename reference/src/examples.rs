//! Tables that the paper's marked examples name, one whose bound takes 256 frames, those about what a line carries, and some
//! without bounds.

use crate::cases::make::table_of;
use crate::port::Arrival;
use crate::table::{Link, Table};

/// "All codes and jitter 0 unless named": a link of lengths 84 to `greatest`.
pub fn link(number: u16, line: u8, priority: u8, greatest: u16) -> Link {
    Link { number, line, priority, code: 0, least: 84, greatest, jitter: 0 }
}

/// "table E (two lines; link 1: line 0, priority 0, lengths 84 to 500; link 2: line 1, priority 1,
/// lengths 84 to 1,000; codes and jitter 0; sizes 2,000, 2,000, then 0)"
pub fn table_e() -> Table {
    table_of(2, &[link(1, 0, 0, 500), link(2, 1, 1, 1_000)], [2_000, 2_000, 0, 0, 0, 0, 0, 0])
}

/// 24 lines, with a link of 84 on each: links 0 to 22 may send 11 frames at once, link 23 three; on its line
/// link 24, whose frame of 1,538 they wait behind.
pub fn table_c() -> Table {
    let mut links: Vec<Link> = (0..24).map(|k| Link { jitter: 125_000, ..link(k, k as u8, 0, 84) }).collect();
    links[23].jitter = 25_000;
    links.push(Link { code: 7, ..link(24, 23, 1, 1_538) });
    table_of(24, &links, [16_384, 1_518, 0, 0, 0, 0, 0, 0])
}

/// Table C's 257 frames, in order of ticks: link 24's at 2,000, then 256 of 84 while it leaves.
pub fn filled_c() -> Vec<(u64, Arrival)> {
    let mut frames = vec![(2_000, Arrival { line: 23, number: 24, length: 1_538 })];
    for k in 0..11 {
        frames.extend((0..23).map(|line| (2_001 + 84 * k, Arrival { line, number: line, length: 84 })));
    }
    frames.extend((0..3).map(|k| (2_084 + 84 * k, Arrival { line: 23, number: 23, length: 84 })));
    frames.sort_by_key(|(tick, _)| *tick);
    frames
}

/// Two lines, and on one of them eight links of 1,538 and one of another length, priority 0: each 128 × L.
pub fn nine_on(line: u8, last: u16) -> Table {
    let mut links: Vec<Link> = (0..9).map(|number| link(number, line, 0, 1_538)).collect();
    links[8].greatest = last;
    table_of(2, &links, [3_075, 0, 0, 0, 0, 0, 0, 0])
}

/// FULL: line 0 is promised exactly 1,600,000.
pub fn table_full() -> Table {
    nine_on(0, 196)
}

/// OVER: a byte more in the last link.
pub fn table_over() -> Table {
    nine_on(0, 197)
}

/// SPREAD: FULL, and a link on the other line.
pub fn table_spread() -> Table {
    let full = table_full();
    let one_more = Link { code: 7, ..link(9, 1, 0, 84) };
    table_of(2, &[full.members(), &[one_more]].concat(), full.sizes)
}

/// So many links of 1,538, all of this code and on this line, the last of so many.
pub fn alike(code: u8, many: u16, lines: u16) -> Table {
    let line = lines as u8 - 1;
    let links: Vec<Link> = (0..many).map(|number| Link { code, ..link(number, line, 0, 1_538) }).collect();
    table_of(lines, &links, [0; 8])
}

/// A link of 1,538 that may send eleven frames at once: two of them have bounds together, three have none.
pub fn late(number: u16, line: u8) -> Link {
    Link { jitter: 125_000, ..link(number, line, 0, 1_538) }
}

/// J4: four such, each on a line of its own.
pub fn table_j4() -> Table {
    table_of(4, &[1, 2, 3, 4].map(|number| late(number, number as u8 - 1)), [0; 8])
}

/// J5: three such, with two of 84 among them and behind them.
pub fn table_j5() -> Table {
    let small = |number: u16| Link { code: 7, ..link(number, number as u8 - 1, 0, 84) };
    table_of(5, &[late(1, 0), small(2), late(3, 2), late(4, 3), small(5)], [0; 8])
}

/// 42 links of 1,538 and one of another length, code 7, on one line.
pub fn forty_three(last: u16) -> Table {
    let mut links: Vec<Link> = (0..43).map(|number| Link { code: 7, ..link(number, 0, 0, 1_538) }).collect();
    links[42].greatest = last;
    table_of(1, &links, [0; 8])
}

/// The 43 that have no bounds, with three late links before them (in place 0) or behind them (in place 43).
pub fn forty_six(place: usize) -> Table {
    let mut links = forty_three(941).members().to_vec();
    links.splice(place..place, [late(0, 0); 3]);
    for (link, number) in links.iter_mut().zip(1..) {
        link.number = number;
    }
    table_of(1, &links, [0; 8])
}
