//! Port records that are fit, at every edge, or not fit, each in one way; and tables that have no fresh port.
//!
//! An array stands in a case as its last entry, the number of entries before the run of those at its end
//! (2 bytes), and these. A table record: lines (2 bytes), count (2), links (number 2, line 1, priority 1, code 1, least
//! 2, greatest 2, jitter 4), sizes (4 each). A port record: clock (8), sender (kind 1, priority 1, start 8), the table,
//! line ticks (8), accounts (credit 8, tick 8), counts (8; 1,024 of them, link i's four from 4 × i on, each in the place of
//! its verdict), the count of unknown numbers (8), and for each priority count (2), mark (4), frames (number 2,
//! length 2, arrival 8).

use super::lists::Call;
use super::make::table_of;
use crate::examples::{link, nine_on, table_full, table_over, table_spread};
use crate::memory::occupied;
use crate::port::{Account, Arrival, Report, FULL_COUNT, LAST_TICK, MOST_FRAMES};
use crate::record::{Entry, Record};
use crate::table::{bag, Link, Table};

fn put_array<T: PartialEq>(bytes: &mut Vec<u8>, array: &[T], entry: impl Fn(&T) -> Vec<u8>) {
    let last = array.last().expect("no array is empty");
    let given = array.iter().rposition(|one| one != last).map_or(0, |i| i + 1);
    bytes.extend(entry(last));
    bytes.extend((given as u16).to_le_bytes());
    bytes.extend(array[..given].iter().flat_map(entry));
}

fn link_bytes(v: &Link) -> Vec<u8> {
    let mut bytes = v.number.to_le_bytes().to_vec();
    bytes.extend([v.line, v.priority, v.code]);
    bytes.extend(v.least.to_le_bytes());
    bytes.extend(v.greatest.to_le_bytes());
    bytes.extend(v.jitter.to_le_bytes());
    bytes
}

fn frame_bytes(frame: &Entry) -> Vec<u8> {
    let mut bytes = frame.number.to_le_bytes().to_vec();
    bytes.extend(frame.length.to_le_bytes());
    bytes.extend(frame.arrival.to_le_bytes());
    bytes
}

pub fn table_bytes(table: &Table) -> Vec<u8> {
    let mut bytes = table.lines.to_le_bytes().to_vec();
    bytes.extend(table.count.to_le_bytes());
    put_array(&mut bytes, &table.links, link_bytes);
    bytes.extend(table.sizes.iter().flat_map(|size| size.to_le_bytes()));
    bytes
}

pub fn record_bytes(record: &Record) -> Vec<u8> {
    let mut bytes = record.clock.to_le_bytes().to_vec();
    let (priority, start) = record.sender.unwrap_or((0, 0));
    bytes.extend([u8::from(record.sender.is_some()), priority]);
    bytes.extend(start.to_le_bytes());
    bytes.extend(table_bytes(&record.table));
    put_array(&mut bytes, &record.line_ticks, |tick| tick.to_le_bytes().to_vec());
    put_array(&mut bytes, &record.accounts, |a| [a.credit.to_le_bytes(), a.tick.to_le_bytes()].concat());
    put_array(&mut bytes, &record.counts, |count| count.to_le_bytes().to_vec());
    bytes.extend(record.unknown.to_le_bytes());
    for queue in &record.queues {
        bytes.extend(queue.count.to_le_bytes());
        bytes.extend(queue.mark.to_le_bytes());
        put_array(&mut bytes, &queue.frames, frame_bytes);
    }
    bytes
}

const WILD_LINK: Link = Link {
    number: u16::MAX,
    line: u8::MAX,
    priority: u8::MAX,
    code: u8::MAX,
    least: u16::MAX,
    greatest: 0,
    jitter: u32::MAX,
};

const WILD_FRAME: Entry = Entry { number: 999, length: u16::MAX, arrival: u64::MAX };

const CLOCK: u64 = 50_000;

fn frame(number: u16, length: u16, arrival: u64) -> Entry {
    Entry { number, length, arrival }
}

/// The queue holds these frames, and has held no more; the rest of its array stays.
fn queue(record: &mut Record, p: usize, frames: &[Entry]) {
    let queue = &mut record.queues[p];
    queue.count = frames.len() as u16;
    queue.frames[..frames.len()].copy_from_slice(frames);
    queue.mark = frames.iter().map(|frame| occupied(frame.length.into()) as u32).sum();
}

/// A port at tick 50,000: link 1 being sent since 49,900, link 3 behind it, links 2 and 7 waiting; link 5 has none.
fn busy() -> Record {
    let links = [
        link(1, 0, 0, 500),
        link(2, 1, 1, 1_000),
        Link { least: 100, jitter: 7, ..link(3, 2, 0, 500) },
        Link { code: 3, ..link(5, 2, 6, 700) },
        Link { code: 7, jitter: 125_000, ..link(7, 3, 7, 1_538) },
    ];
    let table = table_of(4, &links, [2_000, 2_000, 0, 0, 0, 0, 900, 16_384]);
    let mut record = Record::fresh(&table).expect("a good table");
    record.clock = CLOCK;
    queue(&mut record, 0, &[frame(1, 500, 49_900), frame(3, 100, 49_950)]);
    queue(&mut record, 1, &[frame(2, 84, 48_000), frame(2, 1_000, 49_000)]);
    queue(&mut record, 7, &[frame(7, 1_538, 47_000)]);
    record.sender = Some((0, 49_900));
    record.line_ticks[..4].copy_from_slice(&[49_900, 49_000, 49_950, 47_000]);
    for (i, account) in record.accounts[..5].iter_mut().enumerate() {
        *account = Account { credit: 1_000 * i as u64, tick: 49_000 + i as u64 };
    }
    record.counts[..20].copy_from_slice(&std::array::from_fn::<u64, 20, _>(|i| 101 + 7 * i as u64));
    record.unknown = 41;
    record
}

fn busy_with(change: impl Fn(&mut Record)) -> Record {
    let mut record = busy();
    change(&mut record);
    record
}

/// The record with nothing being sent.
fn idle_with(change: impl Fn(&mut Record)) -> Record {
    busy_with(|r| {
        r.sender = None;
        change(r);
    })
}

/// The frame of 500 bytes at the head of queue 0 arrived and started at these ticks.
fn send(record: &mut Record, arrival: u64, start: u64) {
    record.queues[0].frames[0].arrival = arrival;
    record.sender = Some((0, start));
}

/// Queue 7 with this many frames of 84 bytes that arrived at these ticks, the first and the rest.
fn many(record: &mut Record, frames: usize, first: u64, rest: u64) {
    record.table.links[4].least = 84;
    let mut queued = vec![frame(7, 84, rest); frames];
    queued[0].arrival = first;
    queue(record, 7, &queued);
}

/// What stands behind each count is wild.
fn wild_behind(record: &mut Record) {
    let lines = usize::from(record.table.lines);
    let count = usize::from(record.table.count);
    record.table.links[count..].fill(WILD_LINK);
    record.line_ticks[lines..].fill(u64::MAX);
    record.accounts[count..].fill(Account { credit: u64::MAX, tick: u64::MAX });
    record.counts[4 * count..].fill(u64::MAX);
    for queue in &mut record.queues {
        let count = usize::from(queue.count);
        queue.frames[count..].fill(WILD_FRAME);
    }
}

/// 24 lines, 256 links, 256 frames in each queue, each of the link in this place of its priority and with this arrival
/// tick; every other tick is the clock.
fn full_of(clock: u64, frames: impl Fn(usize) -> (usize, u64)) -> Record {
    let one = |i: usize| Link {
        code: (i / 24 % 8) as u8,
        ..link(200 * i as u16, (i % 24) as u8, (i / 32) as u8, 1_538)
    };
    let links: Vec<Link> = (0..256).map(one).collect();
    let table = table_of(24, &links, [16_384; 8]);
    let mut record = Record::fresh(&table).expect("a good table");
    record.clock = clock;
    for p in 0..8 {
        let queued: [Entry; 256] = std::array::from_fn(|i| {
            let (place, arrival) = frames(i);
            frame(200 * (32 * p + place) as u16, 84, arrival)
        });
        queue(&mut record, p, &queued);
    }
    record.line_ticks.fill(clock);
    record.accounts.iter_mut().for_each(|account| account.tick = clock);
    record
}

/// A port with nine links on this line, which is full if the last is of 196: link 0 is being sent, and two frames are behind it.
fn of_nine(line: u8, last: u16) -> Record {
    let mut record = Record::fresh(&nine_on(line, 196)).expect("a good table");
    record.clock = CLOCK;
    queue(&mut record, 0, &[frame(0, 1_538, 48_900), frame(7, 1_000, 49_900), frame(8, 84, CLOCK)]);
    record.sender = Some((0, 48_900));
    record.line_ticks[usize::from(line)] = CLOCK;
    record.table.links[8].greatest = last;
    record
}

/// The full port with another table.
fn of_nine_and(change: impl Fn(&mut Table)) -> Record {
    let mut record = of_nine(0, 196);
    change(&mut record.table);
    record
}

/// The ninth link has a byte less, and a tenth, of code 7, takes up to 128 in its place.
fn tenth(table: &mut Table, greatest: u16) {
    table.links[8].greatest = 195;
    table.links[9] = Link { code: 7, ..link(9, 0, 0, greatest) };
    table.count = 10;
}

/// Every tick is the clock, and the ticks of the clock end.
fn full() -> Record {
    full_of(LAST_TICK, |_| (31, LAST_TICK))
}

/// No two neighbours are alike in any array, so that all stand in the case: none is longer.
fn full_of_unlike() -> Record {
    let mut record = full_of(CLOCK, |i| (i % 32, CLOCK - 255 + i as u64));
    for (i, tick) in (0..).zip(&mut record.line_ticks) {
        *tick = CLOCK - i;
    }
    for (i, account) in (0..).zip(&mut record.accounts) {
        account.tick = CLOCK - i;
    }
    for (i, count) in (0..).zip(&mut record.counts) {
        *count = FULL_COUNT - 1_024 + i;
    }
    record.unknown = 41;
    record
}

/// The last of everything: records that are fit.
fn edges() -> Vec<Record> {
    vec![
        busy(),
        idle_with(|_| ()),
        busy_with(wild_behind),
        idle_with(|r| many(r, 195, 47_000, 48_000)),
        idle_with(|r| many(r, 255, 47_000, 48_000)),
        idle_with(|r| many(r, 256, 47_000, 48_000)),
        idle_with(|r| many(r, 256, CLOCK, CLOCK)),
        busy_with(|r| r.queues[1].frames[1].arrival = CLOCK),
        busy_with(|r| r.queues[1].frames[1].arrival = 48_000),
        // Frames of 500 and 100 bytes occupy 560.
        busy_with(|r| r.table.sizes[0] = 560),
        busy_with(|r| r.table.sizes[0] = 599),
        busy_with(|r| r.queues[0].mark = 599),
        busy_with(|r| r.queues[0].mark = 2_000),
        busy_with(|r| r.table.sizes[1] = 1_044),
        busy_with(|r| r.table.sizes[7] = 1_518),
        busy_with(|r| r.queues[2].mark = 0),
        busy_with(|r| r.queues[6].mark = 900),
        busy_with(|r| r.accounts[0].credit = 12_500),
        busy_with(|r| r.accounts[2].credit = 12_507),
        busy_with(|r| r.accounts[4].credit = 1_725_000),
        busy_with(|r| r.accounts[4].tick = CLOCK),
        busy_with(|r| r.line_ticks[0] = CLOCK),
        busy_with(|r| r.line_ticks[3] = CLOCK),
        busy_with(|r| send(r, 49_899, 49_900)),
        busy_with(|r| send(r, 0, CLOCK - 1)),
        busy_with(|r| {
            send(r, CLOCK - 1, CLOCK - 1);
            r.queues[0].frames[1].arrival = CLOCK;
        }),
        busy_with(|r| send(r, CLOCK - 499, CLOCK - 499)),
        busy_with(|r| r.sender = Some((7, 48_999))),
        busy_with(|r| r.sender = Some((1, 49_999))),
        idle_with(|r| r.clock = LAST_TICK),
        busy_with(|r| {
            send(r, 0, LAST_TICK - 499);
            r.clock = LAST_TICK;
        }),
        full(),
        full_of_unlike(),
        busy_with(|r| r.counts[..20].fill(FULL_COUNT)),
        busy_with(|r| r.unknown = FULL_COUNT),
        of_nine_and(|t| t.links[9] = link(9, 0, 0, 1_538)),
        of_nine_and(|t| *t = table_spread()),
        of_nine_and(|t| tenth(t, 128)),
    ]
}

fn wrong_link(change: impl Fn(&mut Link)) -> Record {
    busy_with(|r| change(&mut r.table.links[3]))
}

/// "its table passes 3 to 6", not so; or 23.
fn wrong_tables() -> Vec<Record> {
    vec![
        busy_with(|r| r.table.lines = 0),
        busy_with(|r| r.table.lines = 25),
        busy_with(|r| r.table.lines = u16::MAX),
        busy_with(|r| r.table.count = 0),
        busy_with(|r| r.table.count = 257),
        busy_with(|r| r.table.count = u16::MAX),
        busy_with(|r| r.table.count = 6),
        busy_with(|r| r.table.lines = 3),
        wrong_link(|v| v.line = 4),
        wrong_link(|v| v.priority = 8),
        wrong_link(|v| v.code = 8),
        wrong_link(|v| v.jitter = 125_001),
        wrong_link(|v| v.least = 83),
        wrong_link(|v| v.least = 701),
        wrong_link(|v| v.greatest = 1_539),
        wrong_link(|v| v.number = 3),
        wrong_link(|v| v.number = 7),
        busy_with(|r| r.table.sizes[0] = 16_385),
        busy_with(|r| r.table.sizes[7] = u32::MAX),
        of_nine(0, 197),
        of_nine(1, 197),
        of_nine_and(|t| *t = Table { sizes: [16_385; 8], ..table_over() }),
        of_nine_and(|t| *t = number_and_line()),
        of_nine_and(|t| tenth(t, 129)),
    ]
}

/// OVER with a number that is there already.
fn number_and_line() -> Table {
    let mut table = table_over();
    table.links[8].number = 7;
    table
}

/// Queues that are not fit: their counts and frames.
fn wrong_queues() -> Vec<Record> {
    vec![
        idle_with(|r| {
            many(r, 256, 47_000, 48_000);
            r.queues[7].count = 257;
        }),
        busy_with(|r| r.queues[3].count = 257),
        busy_with(|r| r.queues[3].count = u16::MAX),
        busy_with(|r| r.queues[0].count = 3),
        busy_with(|r| r.queues[0].frames[1].number = 4),
        busy_with(|r| r.queues[0].frames[1].number = 0),
        busy_with(|r| r.queues[0].frames[1].number = 2),
        busy_with(|r| {
            wild_behind(r);
            r.table.links[5] = link(9, 0, 0, 500);
            r.queues[0].frames[1].number = 9;
        }),
        busy_with(|r| r.queues[0].frames[1].length = 99),
        busy_with(|r| {
            r.queues[0].frames[1].length = 501;
            r.queues[0].mark = 1_001;
        }),
        busy_with(|r| r.queues[1].frames[0].arrival = 49_001),
        busy_with(|r| r.queues[1].frames[1].arrival = 47_999),
        busy_with(|r| r.queues[1].frames[1].arrival = CLOCK + 1),
        busy_with(|r| r.queues[7].frames[0].arrival = u64::MAX),
        idle_with(|r| many(r, 256, 48_001, 48_000)),
        idle_with(|r| {
            many(r, 256, 47_000, 48_000);
            r.queues[7].frames[255].arrival = CLOCK + 1;
        }),
    ]
}

/// "each held sum ≤ mark ≤ size", not so.
fn wrong_marks() -> Vec<Record> {
    vec![
        busy_with(|r| r.queues[0].mark = 559),
        busy_with(|r| r.queues[1].mark = 1_043),
        busy_with(|r| r.queues[7].mark = 1_517),
        busy_with(|r| r.queues[7].mark = 0),
        idle_with(|r| {
            many(r, 256, 47_000, 48_000);
            r.queues[7].mark = 16_383;
        }),
        idle_with(|r| {
            many(r, 256, 47_000, 48_000);
            r.table.sizes[7] = 16_383;
        }),
        busy_with(|r| r.queues[0].mark = 2_001),
        busy_with(|r| r.queues[2].mark = 1),
        busy_with(|r| r.queues[6].mark = 901),
        busy_with(|r| r.queues[7].mark = u32::MAX),
        busy_with(|r| r.table.sizes[0] = 559),
    ]
}

/// "clock ≤ 2^48 − 1", "line and credit ticks ≤ clock; credit ≤ B + J", not so.
fn wrong_ticks() -> Vec<Record> {
    vec![
        idle_with(|r| r.clock = LAST_TICK + 1),
        idle_with(|r| r.clock = u64::MAX),
        busy_with(|r| r.line_ticks[0] = CLOCK + 1),
        busy_with(|r| r.line_ticks[3] = u64::MAX),
        busy_with(|r| r.accounts[0].tick = CLOCK + 1),
        busy_with(|r| r.accounts[4].tick = u64::MAX),
        busy_with(|r| r.accounts[0].credit = 12_501),
        busy_with(|r| r.accounts[2].credit = 12_508),
        busy_with(|r| r.accounts[3].credit = bag(3) + 1),
        busy_with(|r| r.accounts[4].credit = u64::MAX),
    ]
}

/// "a frame being sent heads its queue, arrived by its start, and start < clock < start + length", not so.
fn wrong_senders() -> Vec<Record> {
    vec![
        busy_with(|r| r.sender = Some((2, 49_900))),
        busy_with(|r| r.sender = Some((8, 49_900))),
        busy_with(|r| r.sender = Some((255, 49_900))),
        busy_with(|r| r.sender = Some((1, 47_999))),
        busy_with(|r| send(r, 49_900, 49_899)),
        busy_with(|r| send(r, 49_900, CLOCK)),
        busy_with(|r| send(r, 49_900, u64::MAX)),
        busy_with(|r| send(r, 49_500, 49_500)),
        busy_with(|r| send(r, 0, 0)),
    ]
}

/// "Fitness requires all counts to be at most 2^52.", not so.
fn wrong_counts() -> Vec<Record> {
    vec![
        busy_with(|r| r.counts[0] = FULL_COUNT + 1),
        busy_with(|r| r.counts[9] = 1 << 63),
        busy_with(|r| r.counts[19] = FULL_COUNT + 1),
        busy_with(|r| r.counts[19] = u64::MAX),
        busy_with(|r| r.unknown = FULL_COUNT + 1),
        busy_with(|r| r.unknown = u64::MAX),
    ]
}

/// Records that are not fit, each in one way.
fn unfit() -> Vec<Record> {
    let mut records = wrong_tables();
    records.extend(wrong_queues());
    records.extend(wrong_marks());
    records.extend(wrong_ticks());
    records.extend(wrong_senders());
    records.extend(wrong_counts());
    records.push(everything_wild());
    records
}

fn everything_wild() -> Record {
    let mut record = busy();
    record.clock = u64::MAX;
    record.table.lines = u16::MAX;
    record.table.count = u16::MAX;
    record.table.links.fill(WILD_LINK);
    record.table.sizes.fill(u32::MAX);
    record.line_ticks.fill(u64::MAX);
    record.accounts.fill(Account { credit: u64::MAX, tick: u64::MAX });
    record.counts.fill(u64::MAX);
    record.unknown = u64::MAX;
    record.sender = Some((255, u64::MAX));
    for queue in &mut record.queues {
        queue.count = u16::MAX;
        queue.mark = u32::MAX;
        queue.frames.fill(WILD_FRAME);
    }
    record
}

/// A wait at the clock; and reports that would be refused otherwise too.
pub fn calls_at(clock: u64) -> Vec<Call> {
    let wild = Arrival { line: u64::MAX, number: u64::MAX, length: u64::MAX };
    vec![
        Call { report: Report { tick: clock, frame: None }, list: 3 * 8 * MOST_FRAMES + 3 },
        Call { report: Report { tick: u64::MAX, frame: Some(wild) }, list: 0 },
        Call { report: Report { tick: clock, frame: None }, list: 0 },
    ]
}

/// The same, then frames of each link, and waits until nothing is held; the list is just long enough.
fn calls_after(record: &Record) -> Vec<Call> {
    let mut calls = calls_at(record.clock);
    let mut port = record.port().expect("counts within the arrays");
    let mut tell = |tick: u64, frame: Option<Arrival>| {
        let report = Report { tick: tick.min(LAST_TICK), frame };
        let list = 3 * port.frames_held();
        let answer = port.report(&report, &mut vec![0; list]);
        assert_ne!(answer, Err(10), "a record of the edges is not fit");
        calls.push(Call { report, list });
    };
    let links = &record.table.members()[..5];
    for (i, v) in links.iter().enumerate() {
        let frame = Arrival { line: v.line.into(), number: v.number.into(), length: v.greatest.into() };
        tell(record.clock + 600 * (i as u64 + 1), Some(frame));
    }
    for more in [3_700, 6_000, 40_000] {
        tell(record.clock + more, None);
    }
    calls
}

/// 255 frames leave room for 64 bytes, and 256 for none: a frame that fits or does not, by a byte, and a wait until all
/// have left.
fn brimful() -> Vec<(Record, Vec<Call>)> {
    let mut cases = Vec::new();
    for (frames, length) in [(195, 84), (254, 148), (254, 149), (255, 84), (255, 85), (256, 84)] {
        let record = idle_with(|r| {
            many(r, frames, 47_000, 48_000);
            r.accounts[4].credit = 1_725_000;
        });
        let last = Some(Arrival { line: 3, number: 7, length });
        let reports =
            [Report { tick: CLOCK + 10, frame: last }, Report { tick: CLOCK + 24_000, frame: None }];
        let calls = reports.map(|report| Call { report, list: 3 * 8 * MOST_FRAMES });
        cases.push((record, calls.into()));
    }
    cases
}

/// Every record with its reports. Each fit one comes twice: with a wait alone, after which it is as it was, and with
/// more.
pub fn all() -> Vec<(Record, Vec<Call>)> {
    let mut cases = Vec::new();
    for record in edges() {
        cases.push((record.clone(), calls_at(record.clock)));
        let calls = calls_after(&record);
        cases.push((record, calls));
    }
    cases.extend(brimful());
    for record in unfit() {
        let calls = calls_at(record.clock);
        cases.push((record, calls));
    }
    cases
}

/// Tables that have no fresh port, and some with wild entries behind their counts that have one.
pub fn tables() -> Vec<Table> {
    let mut tables: Vec<Table> = wrong_tables().into_iter().map(|record| record.table).collect();
    tables.push(busy_with(wild_behind).table);
    tables.push(full().table);
    tables.push(everything_wild().table);
    tables.push(table_full());
    tables.push(table_spread());
    tables
}

#[cfg(test)]
mod tests {
    use super::*;
    use crate::port::{DROPPED, STORED};

    fn first_answer(record: &Record) -> Result<u64, u32> {
        let call = &calls_at(record.clock)[0];
        record.clone().report(&call.report, &mut vec![0; call.list]).map(|answer| answer.verdict)
    }

    #[test]
    fn each_edge_is_fit() {
        for (i, record) in edges().iter().enumerate() {
            assert_eq!(first_answer(record), Ok(0), "edge {i}");
        }
    }

    #[test]
    fn the_last_bytes() {
        let mut verdicts = Vec::new();
        for (mut record, calls) in brimful() {
            let answer = record.report(&calls[0].report, &mut vec![0; calls[0].list]);
            verdicts.push(answer.expect("accepted").verdict);
        }
        assert_eq!(verdicts, [STORED, STORED, DROPPED, STORED, DROPPED, DROPPED]);
    }

    /// As many bytes as a record can have: an array's last entry, how many are given, and all but one.
    #[test]
    fn the_longest_record() {
        let array = |entries: usize, bytes: usize| bytes + 2 + (entries - 1) * bytes;
        let table = 4 + array(256, 13) + 32;
        let port = 18 + table + array(24, 8) + array(256, 16) + array(1_024, 8) + 8;
        let most = port + 8 * (6 + array(MOST_FRAMES, 12));
        assert_eq!((most, record_bytes(&full_of_unlike()).len()), (40_518, most));
    }

    #[test]
    fn each_other_is_not() {
        for (i, record) in unfit().iter().enumerate() {
            assert_eq!(first_answer(record), Err(10), "record {i}");
        }
    }
}
