//! What is reported to a second port: the departures of a first, and frames of other lines among them.

use super::make;
use crate::bounds::{bounds, Bounds};
use crate::next::{next, Departure, Turn};
use crate::port::{Arrival, Report, LAST_TICK};
use crate::random::Random;
use crate::table::{Link, Table};

/// The second port: its table, which has the rows and further links behind them, with its bounds where it has some, and
/// what is reported to it.
#[derive(Clone)]
pub struct Onward {
    pub line: u64,
    pub table: Table,
    pub bounds: Option<Bounds>,
    pub turns: Vec<Turn>,
}

/// The second port of a table, for the departures of the first; or a refusal.
pub fn onward(random: &mut Random, table: &Table, departures: &[Departure]) -> Result<Onward, u32> {
    let lines = random.pick(&[1, 2, 3, 8, 24]);
    let line = random.from(0, lines - 1);
    let rows = next(table, line, lines)?;
    let mut links = rows.members().to_vec();
    let further = further_links(random, &rows, line);
    links.extend(&further);
    let mut table = make::table_of(rows.lines, &links, [0; 8]);
    let bounds = bounds(&table).ok();
    table.sizes = sizes(random, &bounds);
    let others = others(random, &further, departures);
    Ok(Onward { line, table, bounds, turns: merged(random, departures, others) })
}

/// Links of other lines than the chosen one, with numbers above those of the rows.
fn further_links(random: &mut Random, rows: &Table, chosen: u64) -> Vec<Link> {
    let last = rows.members().last().expect("a row").number;
    let room = u64::from(u16::MAX - last).min(256 - u64::from(rows.count)).min(4);
    let others: Vec<u8> = (0..rows.lines as u8).filter(|line| u64::from(*line) != chosen).collect();
    if others.is_empty() || room == 0 {
        return Vec::new();
    }
    let many = random.from(0, room);
    (1..=many)
        .map(|i| {
            let greatest = random.pick(&[84, 200, 700, 1_538]);
            Link {
                number: last + i as u16,
                line: random.pick(&others),
                priority: random.from(0, 7) as u8,
                code: random.from(0, 7) as u8,
                least: random.pick(&[84, greatest]),
                greatest,
                jitter: random.pick(&[0, 0, 900, 20_000]),
            }
        })
        .collect()
}

/// None, as many as the bounds ask for, more, or any.
fn sizes(random: &mut Random, bounds: &Option<Bounds>) -> [u32; 8] {
    let way = random.from(0, 5);
    match (way, bounds) {
        (0, _) => [0; 8],
        (1..=3, Some(found)) => found.bounds.map(|bound| bound.min(16_384) as u32),
        (4, _) => [16_384; 8],
        _ => [(); 8].map(|()| make::size(random)),
    }
}

/// Reports of other lines, most of them of further links, and waits, near the departures and in order of ticks.
fn others(random: &mut Random, further: &[Link], departures: &[Departure]) -> Vec<Report> {
    let mut reports = Vec::new();
    if departures.is_empty() {
        return reports;
    }
    for _ in 0..random.from(0, 3 + departures.len() as u64 / 2) {
        let [_, _, near] = random.pick(departures);
        let tick = (near + random.pick(&[0, 1, 84, 500, 1_500])).saturating_sub(random.from(0, 1_000));
        reports.push(Report { tick: tick.min(LAST_TICK), frame: other_frame(random, further) });
    }
    reports.sort_by_key(|report| report.tick);
    reports
}

/// A frame of a further link, rarely with a length outside its limits, a number of no link or a line that is not there;
/// or a wait.
fn other_frame(random: &mut Random, further: &[Link]) -> Option<Arrival> {
    if further.is_empty() || random.once_in(8) {
        return None;
    }
    let link = random.pick(further);
    let mut frame =
        Arrival { line: link.line.into(), number: link.number.into(), length: link.greatest.into() };
    match random.from(0, 19) {
        0 => frame.length = random.from(60, 1_600),
        1 => frame.number = random.from(0, 65_535),
        2 => frame.line = random.pick(&[24, 255]),
        _ => {}
    }
    Some(frame)
}

/// In order of ticks, on equal ticks in either order; then a wait until all may have left.
fn merged(random: &mut Random, departures: &[Departure], others: Vec<Report>) -> Vec<Turn> {
    let mut turns = Vec::new();
    let mut others = others.into_iter().peekable();
    for [_, _, tick] in departures {
        let mut is_before = |other: &Report| other.tick < *tick || other.tick == *tick && random.once_in(2);
        while let Some(other) = others.next_if(&mut is_before) {
            turns.push(Turn::Other(other));
        }
        turns.push(Turn::Departure);
    }
    turns.extend(others.map(Turn::Other));
    let last = departures.last().map_or(0, |[_, _, tick]| *tick);
    turns.push(Turn::Other(Report { tick: (last + 300_000).min(LAST_TICK), frame: None }));
    turns
}
