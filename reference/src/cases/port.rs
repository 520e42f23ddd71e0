//! The cases of the port: lists of reports on fresh ports and on records handed in, and every answer.
//!
//! Standard input is a run of cases: form (1 byte; 1 a table record, whose fresh port is taken, 2 a port record),
//! length (2 bytes, little-endian), and as many bytes (`port_records` has their form); number of reports
//! (2 bytes), the reports at 35 bytes each: form (1 byte; 0 a wait, 1 a frame), length of the lent list in numbers
//! (2 bytes), then tick, line, number and length (8 bytes each; of a wait only the tick counts). Every number of a
//! lent list is FILLED before the report.
//!
//! Standard output has a line for each case and each report. `fresh REFUSED SUM`, or `record`, begins a case; SUM
//! is that of the port handed out. Then for each report `refused N SUM` or `accepted VERDICT FRAMES BYTES SUM`,
//! where SUM is the FNV-1a of the whole list afterwards, each number as 8 bytes, little-endian. Behind the
//! reports `end CLOCK SUM`, then held bytes and mark of each priority; SUM is that of the record's numbers, in
//! the order of `state_of`, entries of a queue behind its count among them where no report was accepted. And behind it
//! `counts REFUSED FLAG TOTAL UNKNOWN SUM`: of the call for sums on that record its refusal, 1 if there is a grand total and 0
//! else, and the total; the record's count of unknown numbers; and the FNV-1a of the call's 256 sums, each as 8 bytes,
//! little-endian. Where there is no total it is 0; where the call is refused, and behind the table's count, the sums are 0.

use super::count_records;
use super::lists::{self, Call, List};
use super::port_records::{self, record_bytes, table_bytes};
use super::table::fnv;
use super::Cases;
use crate::bounds::bounds;
use crate::memory::occupied;
use crate::port::{Report, Sums, STORED};
use crate::record::{Queue, Record};
use crate::table::{Link, Table, MOST_LINKS};
use crate::watch::{watch_counts, Entry, Watch};

const FILLED: u64 = 0xA5A5_A5A5_A5A5_A5A5;

pub fn fnv_of_numbers(numbers: &[u64]) -> u32 {
    let bytes: Vec<u8> = numbers.iter().flat_map(|number| number.to_le_bytes()).collect();
    fnv(&bytes)
}

pub fn numbers_of_table(table: &Table) -> Vec<u64> {
    let mut numbers = vec![u64::from(table.lines), u64::from(table.count)];
    for v in &table.links {
        numbers.extend([v.number, v.least, v.greatest].map(u64::from));
        numbers.extend([v.line, v.priority, v.code].map(u64::from));
        numbers.push(v.jitter.into());
    }
    numbers.extend(table.sizes.map(u64::from));
    numbers
}

/// The clock; the table; for each priority count and mark, then each frame's number, length and arrival, up to
/// the count or all of them; 0 if idle, else 1, priority and start; the ticks of all lines; credit and tick of all
/// links; all 1,024 counts, and that of unknown numbers.
pub fn state_of(record: &Record, whole: bool) -> u32 {
    let mut numbers = vec![record.clock];
    numbers.extend(numbers_of_table(&record.table));
    for queue in &record.queues {
        numbers.extend([u64::from(queue.count), u64::from(queue.mark)]);
        let frames = if whole { &queue.frames } else { queue.queued() };
        for frame in frames {
            numbers.extend([u64::from(frame.number), u64::from(frame.length), frame.arrival]);
        }
    }
    match record.sender {
        Some((priority, start)) => numbers.extend([1, u64::from(priority), start]),
        None => numbers.push(0),
    }
    numbers.extend(record.line_ticks);
    for account in &record.accounts {
        numbers.extend([account.credit, account.tick]);
    }
    numbers.extend(record.counts);
    numbers.push(record.unknown);
    fnv_of_numbers(&numbers)
}

fn end_line(record: &Record, whole: bool) -> String {
    let mut line = format!("end {} {}", record.clock, state_of(record, whole));
    for queue in &record.queues {
        let held: u64 = queue.queued().iter().map(|frame| occupied(frame.length.into())).sum();
        line += &format!(" {held} {}", queue.mark);
    }
    line + "\n"
}

/// "A call on a fit record (else 10) gives each link's sum, and a grand total, unknown numbers included."
fn counts_line(record: &Record, answer: &Result<Sums, u32>) -> String {
    let mut sums = [0; MOST_LINKS];
    let (refused, total) = match answer {
        Ok(answer) => {
            sums[..answer.links.len()].copy_from_slice(&answer.links);
            (0, answer.total)
        }
        Err(refusal) => (*refusal, None),
    };
    let flag = u8::from(total.is_some());
    let sum = fnv_of_numbers(&sums);
    format!("counts {refused} {flag} {} {} {sum}\n", total.unwrap_or(0), record.unknown)
}

/// Runs a report, and gives its line beside what a watch sees of it.
fn run(record: &mut Record, call: &Call) -> (String, Entry) {
    let mut lent = vec![FILLED; call.list];
    let answer = record.report(&call.report, &mut lent);
    let sum = fnv_of_numbers(&lent);
    let (line, freed) = match answer {
        Ok(a) => (format!("accepted {} {} {} {sum}\n", a.verdict, a.frames, a.bytes), a.frames as usize),
        Err(refusal) => (format!("refused {refusal} {sum}\n"), 0),
    };
    let departures = lent[..3 * freed].chunks(3).map(|d| [d[0], d[1], d[2]]).collect();
    (line, Entry { report: call.report, answer, departures })
}

fn put_calls(stdin: &mut Vec<u8>, calls: &[Call]) {
    stdin.extend((calls.len() as u16).to_le_bytes());
    for call in calls {
        stdin.push(u8::from(call.report.frame.is_some()));
        stdin.extend((call.list as u16).to_le_bytes());
        stdin.extend(call.report.tick.to_le_bytes());
        let [line, number, length] = match call.report.frame {
            Some(frame) => [frame.line, frame.number, frame.length],
            None => [0, 0, 0],
        };
        for value in [line, number, length] {
            stdin.extend(value.to_le_bytes());
        }
    }
}

/// What happened, for a person to read.
#[derive(Default)]
struct Tally {
    reports: usize,
    verdicts: [usize; 4],
    waits: usize,
    refused: [usize; 17],
    /// Accepted reports on ports that would not be fit in wire bytes.
    unfit_in_wire_bytes: usize,
    /// Stored frames that would be dropped in wire bytes.
    dropped_in_wire_bytes: usize,
    /// Calls for sums with a grand total, with none, and refused.
    sums: [usize; 3],
    /// The bytes of the longest record.
    longest: usize,
}

fn wire_bytes(queue: &Queue) -> u64 {
    queue.queued().iter().map(|frame| u64::from(frame.length)).sum()
}

/// Whether a queue's wire bytes exceed its mark.
fn marked_below_wire_bytes(record: &Record) -> bool {
    record.queues.iter().any(|queue| wire_bytes(queue) > queue.mark.into())
}

/// Whether the wire bytes of the link's queue exceed its size.
fn sized_below_wire_bytes(record: &Record, number: u64) -> bool {
    let link = record.table.members().iter().find(|v| u64::from(v.number) == number);
    let p = usize::from(link.expect("a link of the table").priority);
    wire_bytes(&record.queues[p]) > record.table.sizes[p].into()
}

impl Tally {
    fn count(&mut self, entry: &Entry) {
        self.reports += 1;
        match (entry.answer, entry.report.frame) {
            (Err(refusal), _) => self.refused[refusal as usize] += 1,
            (Ok(_), None) => self.waits += 1,
            (Ok(answer), Some(_)) => self.verdicts[answer.verdict as usize] += 1,
        }
    }

    fn count_sums(&mut self, answer: &Result<Sums, u32>) {
        let kind = match answer {
            Ok(Sums { total: Some(_), .. }) => 0,
            Ok(Sums { total: None, .. }) => 1,
            Err(_) => 2,
        };
        self.sums[kind] += 1;
    }

    /// An accepted report: the record afterwards, and whether it was marked below its wire bytes before.
    fn count_accepted(&mut self, entry: &Entry, was_marked_below: bool, record: &Record) {
        self.unfit_in_wire_bytes += usize::from(was_marked_below);
        if let (Ok(answer), Some(frame)) = (entry.answer, entry.report.frame) {
            let is_stored = answer.verdict == STORED;
            self.dropped_in_wire_bytes +=
                usize::from(is_stored && sized_below_wire_bytes(record, frame.number));
        }
    }
}

/// The cases while they are made.
struct Maker {
    cases: Cases,
    tally: Tally,
}

impl Maker {
    fn put(&mut self, form: u8, bytes: &[u8]) {
        self.cases.stdin.push(form);
        self.cases.stdin.extend(u16::try_from(bytes.len()).expect("two bytes").to_le_bytes());
        self.cases.stdin.extend(bytes);
        self.tally.longest = self.tally.longest.max(bytes.len());
    }

    fn say(&mut self, line: &str) {
        self.cases.stdout.extend(line.as_bytes());
    }

    fn fresh_case(&mut self, table: &Table, calls: &[Call]) {
        self.put(1, &table_bytes(table));
        match Record::fresh(table) {
            Ok(record) => {
                self.say(&format!("fresh 0 {}\n", state_of(&record, true)));
                self.run(record, calls);
            }
            Err(refusal) => {
                let nothing = Record::blank(blank_table());
                self.say(&format!("fresh {refusal} {}\n", state_of(&nothing, true)));
                self.run(nothing, calls);
            }
        }
    }

    fn record_case(&mut self, record: &Record, calls: &[Call]) {
        self.put(2, &record_bytes(record));
        self.say("record\n");
        self.run(record.clone(), calls);
    }

    fn run(&mut self, mut record: Record, calls: &[Call]) {
        put_calls(&mut self.cases.stdin, calls);
        let mut accepted = false;
        for call in calls {
            let was_marked_below = marked_below_wire_bytes(&record);
            let (line, entry) = run(&mut record, call);
            self.tally.count(&entry);
            if entry.answer.is_ok() {
                self.tally.count_accepted(&entry, was_marked_below, &record);
                accepted = true;
            }
            self.say(&line);
        }
        self.say(&end_line(&record, !accepted));
        let sums = record.sums();
        self.tally.count_sums(&sums);
        self.say(&counts_line(&record, &sums));
    }
}

/// "no table": what stands beside a refusal.
fn blank_table() -> Table {
    Table { lines: 0, count: 0, links: [Link::default(); MOST_LINKS], sizes: [0; 8] }
}

fn made() -> Maker {
    let cases = Cases { stdin: Vec::new(), stdout: Vec::new(), summary: String::new() };
    let mut maker = Maker { cases, tally: Tally::default() };
    let lists = lists::all();
    for List { table, calls } in &lists {
        maker.fresh_case(table, calls);
    }
    let tables = port_records::tables();
    for table in &tables {
        maker.fresh_case(table, &port_records::calls_at(0));
    }
    let records = port_records::all();
    let counted = count_records::all();
    for (record, calls) in records.iter().chain(&counted) {
        maker.record_case(record, calls);
    }
    let tally = &maker.tally;
    maker.cases.summary = format!(
        "lists: {}; wrong tables: {}; records: {}, and {} about counts; reports: {}; stored, filtered, policed, dropped: {:?}; waits: {}; \
         refused 10 to 16: {:?}; too much in wire bytes: {} stored, {} ports; sums with a total, with none, refused: {:?}; \
         longest record: {} bytes\n",
        lists.len(),
        tables.len(),
        records.len(),
        counted.len(),
        tally.reports,
        tally.verdicts,
        tally.waits,
        &tally.refused[10..],
        tally.dropped_in_wire_bytes,
        tally.unfit_in_wire_bytes,
        tally.sums,
        tally.longest
    );
    maker
}

pub fn cases() -> Cases {
    made().cases
}

/// Watches demand 3 on every list whose table has bounds, and the counts on every list: what was seen, or the first breach.
pub fn watch() -> Result<String, String> {
    let lists = lists::all();
    let (mut watched, mut reached, mut counted) = (0, 0, 0);
    for (i, list) in lists.iter().enumerate() {
        let in_list = |breach: String| format!("list {i}, {breach}");
        if let Some(is_reached) = watch_bounds(list).map_err(in_list)? {
            watched += 1;
            reached += usize::from(is_reached);
        }
        let calls: Vec<(Report, usize)> = list.calls.iter().map(|call| (call.report, call.list)).collect();
        counted += watch_counts(&list.table, &calls).map_err(in_list)?;
    }
    Ok(format!(
        "lists watched: {watched}, with no breach; a buffer reached its bound in {reached}\n\
         lists counted: {}, with {counted} accepted frame reports, and no breach\n",
        lists.len()
    ))
}

/// Demand 3 on a list: whether a buffer reached its bound, or the first breach; None where there are no bounds.
fn watch_bounds(list: &List) -> Result<Option<bool>, String> {
    let Ok(found) = bounds(&list.table) else {
        return Ok(None);
    };
    let mut watch = Watch::new(&list.table, &found);
    let mut record = Record::fresh(&list.table).expect("a good table");
    for (k, call) in list.calls.iter().enumerate() {
        let (_, entry) = run(&mut record, call);
        let port = record.port().expect("counts within the arrays");
        watch
            .take(&entry)
            .and_then(|()| watch.compare(&port))
            .map_err(|breach| format!("report {k}: {breach}"))?;
    }
    Ok(Some(watch.reached() > 0))
}

#[cfg(test)]
mod tests {
    use super::*;

    #[test]
    fn demand_3_and_the_counts_hold_on_every_list() {
        assert_eq!(watch().err(), None);
    }

    #[test]
    fn there_are_lists_of_each_kind() {
        let Maker { cases, tally } = made();
        let text = String::from_utf8(cases.stdout).expect("plain text");
        for number in 10..=16 {
            assert!(
                text.lines().filter(|line| line.starts_with(&format!("refused {number} "))).count() >= 100
            );
        }
        for verdict in 0..=3 {
            assert!(
                text.lines().filter(|line| line.starts_with(&format!("accepted {verdict} "))).count() >= 100
            );
        }
        assert!(text.lines().filter(|line| line.starts_with("fresh 23 ")).count() >= 4);
        assert!(tally.dropped_in_wire_bytes >= 500 && tally.unfit_in_wire_bytes >= 5_000);
        let lengths: Vec<usize> = lists::all().iter().map(|list| list.calls.len()).collect();
        assert!(lengths.iter().all(|many| (10..=400).contains(many)));
        assert!(lengths.iter().filter(|many| **many >= 20).count() >= 420);
        assert!(tally.sums.iter().all(|many| *many >= 100));
        assert_eq!(tally.longest, 40_518);
    }
}
