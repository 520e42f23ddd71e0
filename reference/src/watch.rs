//! Demand 3, watched: "The words of demand 3 go by the reports and their answers." And windows: no buffer is as full as its
//! bound sooner than its window after a quiet moment. And counts, by the reports and their answers too.

use crate::bounds::Bounds;
use crate::memory::occupied;
use crate::port::{Answer, Frame, Port, Report, DROPPED, FILTERED, FULL_COUNT, POLICED, STORED};
use crate::record::Record;
use crate::table::{bag, Link, Table};
use std::collections::BTreeMap;

/// A report, what was answered, and its departures: number, length, tick freed.
pub struct Entry {
    pub report: Report,
    pub answer: Result<Answer, u32>,
    pub departures: Vec<[u64; 3]>,
}

/// What the reports and answers so far tell.
pub struct Watch<'a> {
    table: &'a Table,
    bounds: &'a Bounds,
    /// The held frames, oldest first.
    held: Vec<Frame>,
    /// "What it has held are these sums at the start, where they are 0, and after each report": the most.
    most: [u64; 8],
    /// For each p the last quiet tick: no frame of priority 0 to p was held then, or before an arrival at it.
    quiet: [u64; 8],
    /// For each link, the ticks of "its frames in accepted reports that the filter lets through, in order".
    ticks: Vec<Vec<u64>>,
}

impl<'a> Watch<'a> {
    pub fn new(table: &'a Table, bounds: &'a Bounds) -> Watch<'a> {
        let ticks = vec![Vec::new(); table.count as usize];
        Watch { table, bounds, held: Vec::new(), most: [0; 8], quiet: [0; 8], ticks }
    }

    fn place(&self, number: u64) -> Option<usize> {
        self.table.members().iter().position(|v| u64::from(v.number) == number)
    }

    fn priority(&self, number: u64) -> Option<usize> {
        self.place(number).map(|i| usize::from(self.table.links[i].priority))
    }

    fn held_of(&self, p: usize) -> Vec<Frame> {
        self.held.iter().filter(|frame| self.priority(frame.number) == Some(p)).copied().collect()
    }

    /// Nothing comes or goes at this tick before now.
    fn look(&mut self, tick: u64) {
        let highest = self.held.iter().filter_map(|frame| self.priority(frame.number)).min().unwrap_or(8);
        self.quiet[..highest].fill(tick);
    }

    /// Takes one more report, and says what it breaks.
    pub fn take(&mut self, entry: &Entry) -> Result<(), String> {
        // "A report is accepted if it is not refused."
        let Ok(answer) = entry.answer else {
            return Ok(());
        };
        for departure in &entry.departures {
            self.leave(departure)?;
        }
        self.look(entry.report.tick);
        self.arrive(&entry.report, answer.verdict)?;
        self.holds(entry.report.tick)
    }

    /// "its departures come first: each takes away the oldest held frame of its number"
    fn leave(&mut self, departure: &[u64; 3]) -> Result<(), String> {
        let [number, length, freed] = *departure;
        let Some(at) = self.held.iter().position(|frame| frame.number == number) else {
            return Err(format!("a frame of {number} left, and none was held"));
        };
        let frame = self.held.remove(at);
        if frame.length != length {
            return Err(format!("a frame of {number} left with {length} bytes, and had {}", frame.length));
        }
        self.look(freed);
        Ok(())
    }

    /// "Then its frame, if stored, is held." "A frame passed the police check if its report was accepted
    /// with a verdict other than 1 and 2."
    fn arrive(&mut self, report: &Report, verdict: u64) -> Result<(), String> {
        let Some(frame) = report.frame else {
            return Ok(());
        };
        if verdict == FILTERED {
            return Ok(());
        }
        let Some(i) = self.place(frame.number) else {
            return Err(format!("a frame of {} was let through, and there is no such link", frame.number));
        };
        let link = &self.table.links[i];
        let p = usize::from(link.priority);
        self.ticks[i].push(report.tick);
        match verdict {
            STORED => {
                self.held.push(Frame { number: frame.number, length: frame.length, arrival: report.tick });
                Ok(())
            }
            POLICED if keeps(link, &self.ticks[i]) => {
                Err(format!("link {} keeps BAG and jitter, and was policed at {}", frame.number, report.tick))
            }
            DROPPED if u64::from(self.table.sizes[p]) >= self.bounds.bounds[p] => {
                Err(format!("a frame of {} that passed was dropped at {}", frame.number, report.tick))
            }
            _ => Ok(()),
        }
    }

    /// No buffer holds more than its bound; and no frame stored at t is held after an accepted report at
    /// t plus the hold of its priority or later.
    fn holds(&mut self, tick: u64) -> Result<(), String> {
        for p in 0..8 {
            let frames = self.held_of(p);
            // "A buffer's held bytes are the sum of the lengths of the held frames of its priority": each less 20.
            let bytes: u64 = frames.iter().map(|frame| occupied(frame.length)).sum();
            if bytes > self.bounds.bounds[p] {
                return Err(format!("priority {p} holds {bytes} at {tick}"));
            }
            if bytes > 0 && bytes == self.bounds.bounds[p] && tick < self.quiet[p] + self.bounds.windows[p] {
                return Err(format!(
                    "priority {p} holds {bytes}, its bound, at {tick}, sooner than its window"
                ));
            }
            if frames.iter().any(|frame| tick >= frame.arrival + self.bounds.holds[p]) {
                return Err(format!("priority {p} holds a frame for too long at {tick}"));
            }
            self.most[p] = self.most[p].max(bytes);
        }
        Ok(())
    }

    /// Each queue is the held frames of its priority, and each mark the most that its buffer has held.
    pub fn compare(&self, port: &Port) -> Result<(), String> {
        for p in 0..8 {
            if port.queues[p].frames != self.held_of(p) {
                return Err(format!("queue {p} is not what is held"));
            }
            if port.queues[p].mark != self.most[p] {
                return Err(format!("mark {p} is not the most that was held"));
            }
        }
        Ok(())
    }

    /// How many used buffers have held as much as their bound.
    pub fn reached(&self) -> usize {
        (0..8).filter(|p| self.most[*p] > 0 && self.most[*p] == self.bounds.bounds[*p]).count()
    }
}

/// "the i-th and (i + j)-th at least j × B − J ticks apart, for all i and j from 1"
fn keeps(link: &Link, ticks: &[u64]) -> bool {
    let b = bag(link.code);
    let jitter = u64::from(link.jitter);
    (0..ticks.len()).all(|i| (1..ticks.len() - i).all(|j| ticks[i + j] - ticks[i] + jitter >= j as u64 * b))
}

/// "For every list of reports from a fresh port, each count is the number of accepted frame reports it stands for, none
/// reaches 2^52, and the grand total is the number of all of them."
pub struct Counted<'a> {
    table: &'a Table,
    /// How many accepted frame reports there were of each number and verdict.
    accepted: BTreeMap<(u64, u64), u64>,
}

impl<'a> Counted<'a> {
    pub fn new(table: &'a Table) -> Counted<'a> {
        Counted { table, accepted: BTreeMap::new() }
    }

    /// Takes one more report; what is refused and a wait are no accepted frame reports.
    pub fn take(&mut self, report: &Report, answer: &Result<Answer, u32>) {
        if let (Some(frame), Ok(answer)) = (report.frame, answer) {
            *self.accepted.entry((frame.number, answer.verdict)).or_insert(0) += 1;
        }
    }

    /// The accepted frame reports whose number and verdict are such.
    fn sum(&self, is_such: impl Fn(u64, u64) -> bool) -> u64 {
        self.accepted
            .iter()
            .filter(|((number, verdict), _)| is_such(*number, *verdict))
            .map(|(_, many)| many)
            .sum()
    }

    fn is_unknown(&self, number: u64) -> bool {
        self.table.members().iter().all(|v| u64::from(v.number) != number)
    }

    /// All accepted frame reports.
    pub fn all(&self) -> u64 {
        self.sum(|_, _| true)
    }

    /// Whether a record has these counts and these sums.
    pub fn compare(&self, record: &Record) -> Result<(), String> {
        for (v, counts) in self.table.members().iter().zip(record.counts.chunks(4)) {
            let number = u64::from(v.number);
            for (verdict, count) in (0..).zip(counts) {
                let accepted = self.accepted.get(&(number, verdict)).copied().unwrap_or(0);
                is_counted(&format!("link {number}, verdict {verdict}"), *count, accepted)?;
            }
        }
        is_counted("unknown numbers", record.unknown, self.sum(|number, _| self.is_unknown(number)))?;
        self.compare_sums(record)
    }

    fn compare_sums(&self, record: &Record) -> Result<(), String> {
        let sums = record.sums().map_err(|refusal| format!("the sums are refused with {refusal}"))?;
        let members = self.table.members();
        let of_link = |v: &Link| self.sum(|number, _| number == u64::from(v.number));
        if !members.iter().map(of_link).eq(sums.links) {
            return Err("a link's sum is not the number of its accepted frame reports".into());
        }
        if sums.total != Some(self.all()) {
            return Err(format!("the grand total is {:?} of {}", sums.total, self.all()));
        }
        Ok(())
    }
}

fn is_counted(what: &str, count: u64, accepted: u64) -> Result<(), String> {
    if count != accepted || count >= FULL_COUNT {
        return Err(format!("{what}: a count of {count} for {accepted} accepted frame reports"));
    }
    Ok(())
}

/// The reports in order to the fresh port of the table, each lent a list of so many numbers: how many frame reports are
/// accepted, or the first breach.
pub fn watch_counts(table: &Table, calls: &[(Report, usize)]) -> Result<u64, String> {
    let mut record = Record::fresh(table).expect("a good table");
    let mut counted = Counted::new(table);
    counted.compare(&record)?;
    for (k, (report, list)) in calls.iter().enumerate() {
        let answer = record.report(report, &mut vec![0; *list]);
        counted.take(report, &answer);
        counted.compare(&record).map_err(|breach| format!("report {k}: {breach}"))?;
    }
    Ok(counted.all())
}

#[cfg(test)]
mod tests {
    use super::*;
    use crate::bounds::bounds;
    use crate::cases::make::table_of;
    use crate::examples::{link, table_e};
    use crate::port::Arrival;

    fn entry(tick: u64, number: u64, length: u64, verdict: u64, departures: &[[u64; 3]]) -> Entry {
        let line = number - 1;
        let bytes = departures.iter().map(|d| occupied(d[1])).sum();
        Entry {
            report: Report { tick, frame: Some(Arrival { line, number, length }) },
            answer: Ok(Answer { verdict, frames: departures.len() as u64, bytes }),
            departures: departures.to_vec(),
        }
    }

    fn watched(table: &Table, entries: &[Entry]) -> Result<(), String> {
        let found = bounds(table).expect("a table with bounds");
        let mut watch = Watch::new(table, &found);
        entries.iter().try_for_each(|entry| watch.take(entry))
    }

    #[test]
    fn what_is_as_demanded() {
        let first = entry(1_000, 1, 500, STORED, &[]);
        let second = entry(13_500, 1, 500, STORED, &[[1, 500, 1_500]]);
        assert_eq!(watched(&table_e(), &[first, second]), Ok(()));
    }

    #[test]
    fn each_breach_is_seen() {
        let first = || entry(1_000, 1, 500, STORED, &[]);
        let none_held = [first(), entry(13_500, 1, 500, STORED, &[[2, 500, 1_500]])];
        assert!(watched(&table_e(), &none_held).is_err());
        let other_length = [first(), entry(13_500, 1, 500, STORED, &[[1, 499, 1_500]])];
        assert!(watched(&table_e(), &other_length).is_err());
        let too_much = [first(), entry(1_500, 1, 84, STORED, &[])];
        assert!(watched(&table_e(), &too_much).is_err());
        let at_the_bound = [entry(1_000, 1, 415, STORED, &[]), entry(1_300, 1, 105, STORED, &[])];
        assert!(watched(&table_e(), &at_the_bound).is_ok());
        let above = [entry(1_000, 1, 415, STORED, &[]), entry(1_300, 1, 106, STORED, &[])];
        assert!(watched(&table_e(), &above).is_err());
        let still_held = [first(), entry(2_499, 2, 1_000, STORED, &[])];
        assert!(watched(&table_e(), &still_held).is_err());
        let just_held = [first(), entry(2_498, 2, 1_000, STORED, &[])];
        assert!(watched(&table_e(), &just_held).is_ok());
        assert!(watched(&table_e(), &[entry(1_000, 1, 500, DROPPED, &[])]).is_err());
        let mut small = table_e();
        small.sizes[0] = 479;
        assert!(watched(&small, &[entry(1_000, 1, 500, DROPPED, &[])]).is_ok());
        small.sizes[0] = 480;
        assert!(watched(&small, &[entry(1_000, 1, 500, DROPPED, &[])]).is_err());
        assert!(watched(&table_e(), &[entry(1_000, 1, 500, POLICED, &[])]).is_err());
        let keeping = [first(), entry(13_500, 1, 500, POLICED, &[[1, 500, 1_500]])];
        assert!(watched(&table_e(), &keeping).is_err());
        let breaking = [first(), entry(13_499, 1, 500, POLICED, &[[1, 500, 1_500]])];
        assert!(watched(&table_e(), &breaking).is_ok());
    }

    /// With jitter 12,001 the bound is 960, two frames of 500, and its window 499.
    #[test]
    fn a_window_is_watched() {
        let late = Link { jitter: 12_001, ..link(1, 0, 0, 500) };
        let table = table_of(1, &[late], [960, 0, 0, 0, 0, 0, 0, 0]);
        let first = || entry(1_000, 1, 500, STORED, &[]);
        assert!(watched(&table, &[first(), entry(1_499, 1, 500, STORED, &[])]).is_ok());
        assert!(watched(&table, &[first(), entry(1_498, 1, 500, STORED, &[])]).is_err());
        let after_quiet = |tick| {
            let left = [[1, 500, 1_500]];
            [first(), entry(20_000, 1, 500, STORED, &left), entry(tick, 1, 500, STORED, &[])]
        };
        assert!(watched(&table, &after_quiet(20_499)).is_ok());
        assert!(watched(&table, &after_quiet(20_498)).is_err());
    }

    #[test]
    fn keeping() {
        let late = Link { jitter: 100, ..link(1, 0, 0, 500) };
        assert!(keeps(&late, &[]));
        assert!(keeps(&late, &[5, 12_405, 25_000]));
        assert!(!keeps(&late, &[5, 12_404]));
        assert!(!keeps(&late, &[5, 12_405, 24_804]));
    }

    /// E's port after two frames of link 1, one of an unknown number and one that is refused; and what is seen of them.
    fn counted(table: &Table) -> (Counted<'_>, Record) {
        let mut record = Record::fresh(table).expect("a good table");
        let mut counted = Counted::new(table);
        for (tick, number) in [(1_000, 1), (1_500, 1), (1_500, 1), (2_000, 9)] {
            let report = Report { tick, frame: Some(Arrival { line: 0, number, length: 500 }) };
            let answer = record.report(&report, &mut [0; 6]);
            counted.take(&report, &answer);
        }
        (counted, record)
    }

    #[test]
    fn what_is_counted() {
        let table = table_e();
        let (counted, record) = counted(&table);
        assert_eq!((counted.compare(&record), counted.all()), (Ok(()), 3));
    }

    #[test]
    fn each_wrong_count_is_seen() {
        let table = table_e();
        let (counted, record) = counted(&table);
        for place in 0..8 {
            let mut other = record.clone();
            other.counts[place] += 1;
            assert!(counted.compare(&other).is_err());
        }
        for unknown in [0, 2, FULL_COUNT, FULL_COUNT + 1] {
            assert!(counted.compare(&Record { unknown, ..record.clone() }).is_err());
        }
        let mut moved = record.clone();
        moved.counts[1] += 1;
        moved.unknown -= 1;
        assert!(counted.compare(&moved).is_err());
        let mut behind = record.clone();
        behind.counts[8] = u64::MAX;
        assert!(counted.compare(&behind).is_ok());
    }

    #[test]
    fn a_list_is_counted() {
        let frame = |tick, number| Report { tick, frame: Some(Arrival { line: 0, number, length: 84 }) };
        let wait = Report { tick: 5_000, frame: None };
        let calls = [(frame(1_000, 1), 0), (frame(1_083, 1), 3), (frame(1_084, 2), 3), (wait, 3)];
        assert_eq!(watch_counts(&table_e(), &calls), Ok(2));
    }
}
