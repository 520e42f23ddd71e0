//! Lists that run through two ports in a row.

use super::lists::{self, List};
use super::make;
use super::named_lists::list_of;
use super::onward::{onward, Onward};
use crate::batch::{on_record, whole_numbers};
use crate::examples::table_e;
use crate::next::{next, run, Departure, Turn};
use crate::port::{Arrival, Report};
use crate::random::Random;
use crate::record::Record;
use crate::replay::bytes_of;
use crate::table::{bag, Link, Table};

/// How many sharp lists are watched.
const SHARP: usize = 60;

/// How many lists of the cases are of the port's kind, and how many are sharp.
const LISTS: usize = 180;
const SHARP_LISTS: usize = 24;

/// A list for a first port, what is reported to a second, and the numbers of the departure lists of both.
#[derive(Clone)]
pub struct TwoPorts {
    pub table: Table,
    pub reports: Vec<Report>,
    pub rooms: [usize; 2],
    /// By how much the jitters of the rows are less than they should be.
    pub less: u32,
    pub onward: Onward,
}

impl TwoPorts {
    fn rows(&self) -> usize {
        self.table.count.into()
    }

    /// The second port's table.
    pub fn second(&self) -> Table {
        let mut table = self.onward.table.clone();
        for v in &mut table.links[..self.rows()] {
            v.jitter = v.jitter.saturating_sub(self.less);
        }
        table
    }

    /// The second port's table before the rows are put in.
    pub fn without_rows(&self) -> Table {
        let mut table = self.onward.table.clone();
        table.links[..self.rows()].fill(Link::default());
        table
    }
}

/// What a batch on a fresh port leaves.
pub struct Batch {
    pub answers: Vec<u64>,
    pub list: Vec<u64>,
    pub departures: usize,
    pub record: Record,
}

impl Batch {
    /// The reports to the fresh port of a table, which is lent a departure list of so many numbers.
    pub fn of(table: &Table, reports: &[Report], room: usize) -> Batch {
        let numbers: Vec<u64> = reports.iter().flat_map(|report| whole_numbers(&bytes_of(report))).collect();
        let mut record = Record::fresh(table).expect("a good table");
        let (mut answers, mut list) = (vec![0; 3 * reports.len()], vec![0; room]);
        let departures = on_record(&mut record, &numbers, &mut answers, &mut list).expect("reports");
        Batch { answers, list, departures, record }
    }

    pub fn departed(&self) -> Vec<Departure> {
        self.list.chunks(3).take(self.departures).map(|d| [d[0], d[1], d[2]]).collect()
    }
}

/// Every list, in order.
pub fn all() -> Vec<TwoPorts> {
    let mut random = Random::new(2_024_020);
    let mut lists = vec![two_hops(0), two_hops(1)];
    for _ in 0..SHARP_LISTS {
        let List { table, calls } = sharp(&mut random);
        let reports: Vec<Report> = calls.iter().map(|call| call.report).collect();
        let exact = through(&mut random, table, reports, 400).expect("rows");
        lists.extend([TwoPorts { less: 1, ..exact.clone() }, exact]);
    }
    lists.extend((100..).filter_map(|i| some_list(&mut random, i)).take(LISTS));
    lists
}

/// "Two hops": table E, then line 3 of 5 with the sizes of E.
fn two_hops(less: u32) -> TwoPorts {
    let frame = |tick, line, number, length| Report { tick, frame: Some(Arrival { line, number, length }) };
    let reports = vec![
        frame(1_000, 1, 2, 1_000),
        frame(1_001, 0, 1, 500),
        frame(13_501, 0, 1, 84),
        Report { tick: 20_000, frame: None },
    ];
    let mut table = next(&table_e(), 3, 5).expect("rows");
    table.sizes = table_e().sizes;
    let onward = Onward { line: 3, table, bounds: None, turns: vec![Turn::Departure; 3] };
    TwoPorts { table: table_e(), reports, rooms: [9, 9], less, onward }
}

/// A list of the port's kind, if there are rows for its table and some of its frames depart.
fn some_list(random: &mut Random, i: usize) -> Option<TwoPorts> {
    let wanted = random.from(8, 18) as usize;
    let List { table, calls } = lists::of_length(random, i, wanted);
    let reports: Vec<Report> = calls.iter().map(|call| call.report).filter(is_short).collect();
    let room = random.pick(&[30, 400, 400]);
    through(random, table, reports, room).filter(|two| two.onward.turns.len() > 4)
}

/// Whether line, number and length are of 1, 2 and 2 bytes.
fn is_short(report: &Report) -> bool {
    !report.frame.is_some_and(|f| f.line > 255 || f.number > 65_535 || f.length > 65_535)
}

/// The list, and a second port for its departures, with room for all of that or for some.
fn through(random: &mut Random, table: Table, reports: Vec<Report>, room: usize) -> Option<TwoPorts> {
    let departures = Batch::of(&table, &reports, room).departed();
    let onward = onward(random, &table, &departures).ok()?;
    let rooms = [room, random.pick(&[15, 60, 400, 400, 400])];
    Some(TwoPorts { table, reports, rooms, less: 0, onward })
}

/// A list, run: its departures.
pub fn departures(list: &List) -> Vec<Departure> {
    let calls: Vec<(Report, usize)> = list.calls.iter().map(|call| (call.report, call.list)).collect();
    run(&list.table, &calls).1
}

/// Lists for the first port: those of the port's cases, and sharp ones.
pub fn watched() -> Vec<List> {
    let mut random = Random::new(2_024_017);
    let mut all = lists::all();
    all.extend((0..SHARP).map(|_| sharp(&mut random)));
    all
}

/// A list in which each link in turn is held for its whole hold, and then not at all: with a jitter less by one its second
/// departure is policed. Each link has a line of its own, and sends no second frame while another is held.
pub fn sharp(random: &mut Random) -> List {
    let many = random.from(2, 6) as usize;
    let used = make::priorities(random, 4);
    let mut lines: Vec<u8> = (0..many as u8).collect();
    for i in 1..many {
        lines.swap(i, random.below(i + 1));
    }
    let mut links = Vec::new();
    for (number, line) in make::numbers(random, many).into_iter().zip(lines) {
        let greatest = random.from(84, 1_538) as u16;
        let least = random.from(84, greatest.into()) as u16;
        let (priority, code) = (random.pick(&used), random.from(0, 3) as u8);
        links.push(Link { number, line, priority, code, least, greatest, jitter: 0 });
    }
    let total: u64 = links.iter().map(|v| u64::from(v.greatest)).sum();
    for v in &mut links {
        v.jitter = random.from(0, bag(v.code) - total - 1) as u32;
    }
    let mut reports = Vec::new();
    for (i, v) in links.iter().enumerate() {
        reports.extend(held_longest(&links, v, 500_000 * (i as u64 + 1)));
    }
    list_of(make::table_of(many as u16, &links, [16_384; 8]), &reports)
}

/// The longest frame of a later priority begins; at the next tick all links of this priority and those before it have a
/// frame, this link the last. Its next comes as early as may be, and is as short.
fn held_longest(links: &[Link], v: &Link, tick: u64) -> Vec<Report> {
    let frame = |tick: u64, v: &Link, length: u16| Report {
        tick,
        frame: Some(Arrival { line: v.line.into(), number: v.number.into(), length: length.into() }),
    };
    let mut reports = Vec::new();
    let blocking = links.iter().filter(|w| w.priority > v.priority).max_by_key(|w| w.greatest);
    reports.extend(blocking.map(|w| frame(tick - 1, w, w.greatest)));
    for w in links.iter().filter(|w| w.priority <= v.priority && w.number != v.number) {
        reports.push(frame(tick, w, w.greatest));
    }
    reports.push(frame(tick, v, v.greatest));
    let again = tick + bag(v.code) - u64::from(v.jitter);
    reports.push(frame(again, v, v.least));
    reports.push(Report { tick: again + 10_000, frame: None });
    reports
}
