//! Tables and lists of reports that are timed; the same in every run.

use crate::tables::{Link, Table};

pub const LINES: u64 = 12;

/// Numbers from a linear congruence.
pub struct Random(pub u64);

impl Random {
    fn below(&mut self, n: u64) -> u64 {
        self.0 = self.0.wrapping_mul(6_364_136_223_846_793_005).wrapping_add(1_442_695_040_888_963_407);
        (self.0 >> 33) % n
    }
}

fn table_of(lines: u16, count: u16, link: impl Fn(u16) -> Link) -> Table {
    let mut links = [Link::default(); 256];
    for (i, v) in (0..count).zip(links.iter_mut()) {
        *v = link(i);
    }
    Table { lines, count, links, sizes: [16_384; 8] }
}

/// 100 links on 12 lines, all priorities, lengths from 84 up to 974.
pub fn usual() -> Table {
    table_of(LINES as u16, 100, |i| Link {
        number: 17 * i + 3,
        line: (i % LINES as u16) as u8,
        priority: (i % 8) as u8,
        code: 0,
        least: 84,
        greatest: 84 + 10 * (i % 90),
        jitter: 60_000,
    })
}

/// 240 links on 24 lines, eight priorities; each link may send 11 frames at once.
pub fn many() -> Table {
    table_of(24, 240, |i| Link {
        number: i,
        line: (i % 24) as u8,
        priority: (i / 24 % 8) as u8,
        code: 0,
        least: 84,
        greatest: 84,
        jitter: 125_000,
    })
}

pub type Report = [u64; 5];

pub fn bytes_of(reports: &[Report]) -> Vec<u8> {
    reports.iter().flatten().flat_map(|number| number.to_le_bytes()).collect()
}

pub fn waits(n: u64) -> Vec<u8> {
    let reports: Vec<Report> = (0..n).map(|i| [0, 10 * i, 0, 0, 0]).collect();
    bytes_of(&reports)
}

/// The frame that follows on a line after a tick, of one of its links: with gaps that leave it 80 of 100 ticks of its share.
fn following(random: &mut Random, on: &[&Link], tick: u64) -> Report {
    let v = on[random.below(on.len() as u64) as usize];
    let length = u64::from(v.least) + random.below(u64::from(v.greatest - v.least) + 1);
    let gap = random.below(2 * (length * LINES * 100 / 80 - length) + 1);
    [1, tick + length + gap, v.line.into(), v.number.into(), length]
}

/// Frames in order of their ticks, which all together take about 80 of 100 ticks of the output.
pub fn frames(table: &Table, n: usize, random: &mut Random) -> Vec<Report> {
    let links = &table.links[..usize::from(table.count)];
    let on = |line: u64| links.iter().filter(|v| u64::from(v.line) == line).collect::<Vec<&Link>>();
    let lines: Vec<Vec<&Link>> = (0..LINES).map(on).collect();
    let mut next: Vec<Report> = lines.iter().map(|on| following(random, on, 0)).collect();
    let mut reports = Vec::new();
    for _ in 0..n {
        let line = (0..lines.len()).min_by_key(|&line| next[line][1]).expect("a line");
        reports.push(next[line]);
        next[line] = following(random, &lines[line], next[line][1]);
    }
    reports
}

pub fn load(table: &Table, n: usize) -> Vec<u8> {
    bytes_of(&frames(table, n, &mut Random(7)))
}

/// On `many`: so many frames of 84 bytes, 24 at a time, each 84 ticks after the last of its line; one of 24 has left when the next come.
pub fn filling(frames: u64) -> Vec<u8> {
    let reports: Vec<Report> = (0..frames).map(|i| [1, 84 * (i / 24 + 1), i % 24, i % 240, 84]).collect();
    bytes_of(&reports)
}

/// The same, and waits at the tick of the last frame, at which nothing leaves.
pub fn filled(frames: u64, n: usize) -> Vec<u8> {
    let wait = [0, 84 * ((frames - 1) / 24 + 1), 0, 0, 0];
    [filling(frames), bytes_of(&vec![wait; n])].concat()
}
