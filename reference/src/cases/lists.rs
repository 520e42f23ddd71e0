//! Random lists of reports, on random tables, and those made by hand: what the port is run on.

use super::{make, named_lists};
use crate::bounds::bounds;
use crate::memory::length_of;
use crate::port::{fresh, Arrival, Port, Report, LAST_TICK};
use crate::random::Random;
use crate::table::{bag, Link, Table};

/// A report, and the length of the list that it is lent.
pub struct Call {
    pub report: Report,
    pub list: usize,
}

pub struct List {
    pub table: Table,
    pub calls: Vec<Call>,
}

/// How many are random.
const LISTS: usize = 420;

/// Every list, in order.
pub fn all() -> Vec<List> {
    let mut random = Random::new(2_024_004);
    let mut lists: Vec<List> = (0..LISTS).map(|i| list(&mut random, i)).collect();
    lists.extend(named_lists::all());
    lists
}

/// How many reports the i-th list has: from 20 to 400, mostly few.
fn some_reports(random: &mut Random, i: usize) -> usize {
    match i % 40 {
        0 => 400,
        1 | 2 => random.from(100, 200) as usize,
        _ => random.from(20, 60) as usize,
    }
}

fn list(random: &mut Random, i: usize) -> List {
    let table = table(random, i);
    let wanted = some_reports(random, i);
    filled(random, table, wanted)
}

/// A list of so many reports; i tells the kind of table.
pub fn of_length(random: &mut Random, i: usize, wanted: usize) -> List {
    let table = table(random, i);
    filled(random, table, wanted)
}

fn filled(random: &mut Random, table: Table, wanted: usize) -> List {
    let port = fresh(&table).expect("a good table");
    let mut maker = Maker { random, port, calls: Vec::new(), wanted };
    while maker.calls.len() < wanted {
        maker.some_calls();
    }
    maker.calls.truncate(wanted);
    List { calls: maker.calls, table }
}

/// Tables of all sizes, with buffers below, at and above the bound.
fn table(random: &mut Random, i: usize) -> Table {
    let (links, lines, codes, jitter) = match i % 30 {
        0 if i < 120 => ((200, 256), (24, 24), (4, 7), 20_000),
        1..=4 => ((13, 40), (2, 24), (2, 7), 20_000),
        5..=9 => ((6, 12), (2, 24), (0, 7), 125_000),
        10..=14 => ((2, 8), (2, 8), (0, 1), 0),
        15..=17 => ((1, 4), (1, 2), (0, 7), 125_000),
        _ => ((2, 8), (1, 6), (0, 2), 15_000),
    };
    let lines = random.from(lines.0, lines.1) as u16;
    let many = random.from(links.0, links.1) as usize;
    let used = make::priorities(random, 8);
    let longest = random.pick(&[200, 600, 1_538]);
    let mut links = Vec::new();
    for number in make::numbers(random, many) {
        let greatest = random.from(84, longest) as u16;
        let between = random.from(84, u64::from(greatest)) as u16;
        links.push(Link {
            number,
            line: random.from(0, u64::from(lines) - 1) as u8,
            priority: random.pick(&used),
            code: random.from(codes.0, codes.1) as u8,
            least: random.pick(&[84, greatest, between]),
            greatest,
            jitter: random.from(0, jitter) as u32,
        });
    }
    make::relieve(&mut links, lines);
    let mut table = make::table_of(lines, &links, [16_384; 8]);
    size_buffers(random, &mut table);
    table
}

fn size_buffers(random: &mut Random, table: &mut Table) {
    let Ok(found) = bounds(table) else {
        return;
    };
    let way = random.from(0, 4);
    for p in 0..8 {
        let bound = found.bounds[p];
        let size = match way {
            0 => bound,
            1 => bound.saturating_sub(1),
            2 => bound + random.from(0, 1_000),
            3 => bound * random.from(30, 100) / 100,
            _ => random.pick(&[0, bound, bound + 1, bound / 2, 16_384]),
        };
        table.sizes[p] = size.min(16_384) as u32;
    }
}

/// Adds reports one by one, and runs them, to know where the port stands.
struct Maker<'a> {
    random: &'a mut Random,
    port: Port,
    calls: Vec<Call>,
    wanted: usize,
}

impl Maker<'_> {
    fn links(&self) -> &[Link] {
        self.port.table.members()
    }

    fn add(&mut self, tick: u64, frame: Option<Arrival>, list: usize) {
        let report = Report { tick, frame };
        let answer = self.port.report(&report, &mut vec![0; list]);
        assert_ne!(answer, Err(10));
        self.calls.push(Call { report, list });
    }

    /// With a list that is just long enough, or longer.
    fn tell(&mut self, tick: u64, frame: Option<Arrival>) {
        let more = self.random.pick(&[0, 0, 1, 2, 3, 10]);
        self.add(tick, frame, 3 * self.port.frames_held() + more);
    }

    /// The first tick at which a frame of this length can have arrived on the line.
    fn earliest(&self, line: u8, length: u64) -> u64 {
        self.port.clock.max(self.port.line_ticks[line as usize] + length)
    }

    fn some_calls(&mut self) {
        let done = self.calls.len();
        if done + 12 > self.wanted && self.random.once_in(12) {
            self.near_the_end_of_time();
            return;
        }
        match self.random.from(0, 20) {
            0..=6 => self.one_frame(),
            7..=9 => self.one_wait(),
            10..=12 => self.odd_frame(),
            13..=15 => self.refused(),
            16 => self.odd_numbers(),
            17 => self.brim(),
            _ => self.burst(),
        }
    }

    fn some_length(&mut self, link: &Link) -> u64 {
        match self.random.from(0, 3) {
            0 => u64::from(link.least),
            1 => self.random.from(u64::from(link.least), u64::from(link.greatest)),
            _ => u64::from(link.greatest),
        }
    }

    fn some_link(&mut self) -> Link {
        let i = self.random.below(self.port.table.count as usize);
        self.links()[i]
    }

    /// A frame that the filter lets through: as early as can be, a little later, or about a BAG later.
    fn one_frame(&mut self) {
        let link = self.some_link();
        let length = self.some_length(&link);
        let earliest = self.earliest(link.line, length);
        let b = bag(link.code);
        let tick = match self.random.from(0, 5) {
            0..=2 => earliest,
            3 => earliest + self.random.from(1, 300),
            4 => earliest.max(self.port.line_ticks[link.line as usize] + b),
            _ => earliest + self.random.from(b - 100, b + 1),
        };
        let frame = Arrival { line: link.line.into(), number: link.number.into(), length };
        self.tell(tick.min(LAST_TICK), Some(frame));
    }

    fn one_wait(&mut self) {
        let more = match self.random.from(0, 4) {
            0 => 0,
            1 => 1,
            2 => self.random.from(2, 2_000),
            3 => self.random.from(2_000, 30_000),
            _ => self.random.from(30_000, 3_000_000),
        };
        self.tell((self.port.clock + more).min(LAST_TICK), None);
    }

    /// A frame that the filter stops: another line, no such number, a length outside its limits.
    fn odd_frame(&mut self) {
        let link = self.some_link();
        let lines = u64::from(self.port.table.lines);
        let mut frame =
            Arrival { line: link.line.into(), number: link.number.into(), length: link.greatest.into() };
        match self.random.from(0, 4) {
            0 => frame.line = self.random.from(0, lines - 1),
            1 => frame.number = self.random.from(0, 65_535),
            2 => frame.number += 65_536,
            3 => frame.length = (u64::from(link.least) - 1).max(84),
            _ => frame.length = (u64::from(link.greatest) + 1).min(1_538),
        }
        let tick = self.earliest(frame.line as u8, frame.length);
        self.tell(tick.min(LAST_TICK), Some(frame));
    }

    /// A report that is refused with one of 11 to 16, or with the first of several.
    fn refused(&mut self) {
        let link = self.some_link();
        let clock = self.port.clock;
        let lines = u64::from(self.port.table.lines);
        let length = u64::from(link.greatest);
        let mut frame = Arrival { line: link.line.into(), number: link.number.into(), length };
        let mut tick = self.earliest(link.line, length);
        let mut list = 3 * self.port.frames_held();
        for _ in 0..self.random.pick(&[1, 1, 1, 2, 3]) {
            match self.random.from(0, 6) {
                0 => tick = self.random.pick(&[LAST_TICK + 1, LAST_TICK + 2, u64::MAX]),
                1 => tick = self.random.pick(&[clock.saturating_sub(1), clock / 2, 0]),
                2 => frame.line = self.random.pick(&[lines, lines + 1, 256, 65_536, u64::MAX]),
                3 => frame.length = self.random.pick(&[0, 83, 1_539, 65_536 + 100, u64::MAX]),
                4 => tick = clock.max((self.port.line_ticks[link.line as usize] + length).saturating_sub(1)),
                _ => list = self.random.from(0, (list as u64).saturating_sub(1)) as usize,
            }
        }
        let is_frame = self.random.from(0, 3) > 0;
        self.add(tick, is_frame.then_some(frame), list);
    }

    /// Numbers that have nothing to do with the table.
    fn odd_numbers(&mut self) {
        let tick = self.port.clock + self.random.from(0, 4_000);
        let frame = Arrival {
            line: self.random.from(0, 25),
            number: self.random.from(0, 70_000),
            length: self.random.from(60, 1_600),
        };
        let list = self.random.from(0, 30) as usize;
        self.add(tick, Some(frame), list);
    }

    /// The worst that can be asked of the port: all lines at once, each without a gap, every link as often
    /// as its credit allows and sometimes once more, behind a long frame of a low priority that has
    /// just begun.
    fn burst(&mut self) {
        let last = *self.port.line_ticks.iter().max().expect("a line");
        let quiet = self.random.pick(&[0, 10, 12_500, 200_000, 2_000_000]);
        let start = self.port.clock.max(last) + 1_600 + quiet;
        if start + 100_000 > LAST_TICK {
            return self.one_wait();
        }
        let blocking = self.links().iter().max_by_key(|v| (v.priority, v.greatest)).copied();
        let lines = self.port.table.lines as usize;
        let mut next = vec![start; lines];
        let mut events = Vec::new();
        if let Some(link) = blocking.filter(|_| self.random.once_in(2)) {
            events.push((start - 1, link));
            next[link.line as usize] = start - 1 + u64::from(link.greatest);
        }
        for link in self.shuffled() {
            for i in 0..self.often(&link, start) {
                let at = &mut next[link.line as usize];
                if i > 0 || *at > start {
                    *at += u64::from(link.greatest);
                }
                events.push((*at, link));
                *at = (*at).max(start + 1);
            }
        }
        events.sort_by_key(|(tick, _)| *tick);
        for (tick, link) in events {
            if self.calls.len() >= self.wanted {
                return;
            }
            let length = u64::from(link.greatest);
            let tick = tick.max(self.earliest(link.line, length));
            let frame = Arrival { line: link.line.into(), number: link.number.into(), length };
            self.tell(tick, Some(frame));
        }
        self.brim();
        for _ in 0..self.random.from(0, 2) {
            self.brink();
        }
    }

    /// A frame that takes the last byte of its buffer, or would need one more: of the first link tried that has such
    /// a length.
    fn brim(&mut self) {
        let more = self.random.from(0, 1);
        for link in self.shuffled().into_iter().take(12) {
            let tick = self.earliest(link.line, link.greatest.into());
            let mut port = self.port.clone();
            let mut list = vec![0; 3 * port.frames_held()];
            if port.report(&Report { tick, frame: None }, &mut list).is_err() {
                continue;
            }
            let p = usize::from(link.priority);
            let room = u64::from(port.table.sizes[p]) - port.queues[p].held();
            let length = length_of(room + more);
            if (u64::from(link.least)..=u64::from(link.greatest)).contains(&length) {
                let frame = Arrival { line: link.line.into(), number: link.number.into(), length };
                return self.tell(tick, Some(frame));
            }
        }
    }

    /// A wait up to the tick before one of the held frames leaves: there it has been held for longest.
    fn brink(&mut self) {
        let mut departures = vec![0; 3 * self.port.frames_held()];
        let later = Report { tick: (self.port.clock + 200_000).min(LAST_TICK), frame: None };
        let answer = self.port.clone().report(&later, &mut departures).expect("a list that is long enough");
        if answer.frames > 0 {
            let i = self.random.below(answer.frames as usize);
            self.tell(self.port.clock.max(departures[3 * i + 2] - 1), None);
        }
    }

    fn shuffled(&mut self) -> Vec<Link> {
        let mut links = self.links().to_vec();
        for i in 1..links.len() {
            links.swap(i, self.random.below(i + 1));
        }
        links
    }

    /// As many frames as the link's credit will allow at that tick, or one more; at most five.
    fn often(&mut self, link: &Link, tick: u64) -> u64 {
        let i = self.links().iter().position(|v| v.number == link.number).expect("a link of the table");
        let account = self.port.accounts[i];
        let b = bag(link.code);
        let credit = (b + u64::from(link.jitter)).min(account.credit + tick - account.tick);
        let more = u64::from(self.random.once_in(6));
        (credit / b + more).min(5)
    }

    /// A silence up to the last ticks of the clock, and frames there.
    fn near_the_end_of_time(&mut self) {
        let back = self.random.pick(&[0, 1, 600, 5_000]);
        if self.port.clock < LAST_TICK - back {
            self.tell(LAST_TICK - back, None);
        }
        for _ in 0..3 {
            self.one_frame();
        }
        self.tell(LAST_TICK, None);
    }
}
