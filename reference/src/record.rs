//! A port record as it can be handed in: whole arrays, with counts that say how much of each is meant.

use crate::port::{self, Account, Answer, Frame, Port, Report, Sending, Sums, MOST_FRAMES};
use crate::table::{Table, MOST_LINKS};

pub const MOST_LINES: usize = 24;

#[derive(Clone, Copy, Debug, Default, PartialEq, Eq)]
pub struct Entry {
    pub number: u16,
    pub length: u16,
    pub arrival: u64,
}

#[derive(Clone, Copy, Debug, PartialEq, Eq)]
pub struct Queue {
    pub count: u16,
    pub mark: u32,
    pub frames: [Entry; MOST_FRAMES],
}

#[derive(Clone, Debug, PartialEq, Eq)]
pub struct Record {
    pub table: Table,
    pub clock: u64,
    /// Eight of them.
    pub queues: Vec<Queue>,
    /// Priority and start; None: idle.
    pub sender: Option<(u8, u64)>,
    pub line_ticks: [u64; MOST_LINES],
    pub accounts: [Account; MOST_LINKS],
    /// "for each virtual link, four counts, one per verdict": link i's from 4 × i on, each in the place of its verdict.
    pub counts: [u64; 4 * MOST_LINKS],
    /// "and one count for frames with an unknown number"
    pub unknown: u64,
}

impl Queue {
    /// The frames before the count; as many as there are where the count is past the array.
    pub fn queued(&self) -> &[Entry] {
        &self.frames[..MOST_FRAMES.min(self.count.into())]
    }

    fn meant(&self) -> port::Queue {
        let frame = |entry: &Entry| Frame {
            number: entry.number.into(),
            length: entry.length.into(),
            arrival: entry.arrival,
        };
        port::Queue { frames: self.queued().iter().map(frame).collect(), mark: self.mark.into() }
    }

    fn put(&mut self, queue: &port::Queue) {
        self.count = queue.frames.len() as u16;
        self.mark = queue.mark as u32;
        for (place, frame) in self.frames.iter_mut().zip(&queue.frames) {
            *place =
                Entry { number: frame.number as u16, length: frame.length as u16, arrival: frame.arrival };
        }
    }
}

impl Record {
    /// Nothing held, and every entry blank.
    pub fn blank(table: Table) -> Record {
        Record {
            table,
            clock: 0,
            queues: vec![Queue { count: 0, mark: 0, frames: [Entry::default(); MOST_FRAMES] }; 8],
            sender: None,
            line_ticks: [0; MOST_LINES],
            accounts: [Account { credit: 0, tick: 0 }; MOST_LINKS],
            counts: [0; 4 * MOST_LINKS],
            unknown: 0,
        }
    }

    pub fn fresh(table: &Table) -> Result<Record, u32> {
        let port = port::fresh(table)?;
        let mut record = Record::blank(table.clone());
        record.put(&port);
        Ok(record)
    }

    /// What the counts speak of; none where one is past its array.
    pub fn port(&self) -> Option<Port> {
        let lines = usize::from(self.table.lines);
        let count = usize::from(self.table.count);
        if lines > MOST_LINES
            || count > MOST_LINKS
            || self.queues.iter().any(|q| usize::from(q.count) > MOST_FRAMES)
        {
            return None;
        }
        Some(Port {
            table: self.table.clone(),
            clock: self.clock,
            queues: std::array::from_fn(|p| self.queues[p].meant()),
            sending: self.sender.map(|(priority, start)| Sending { priority: priority.into(), start }),
            line_ticks: self.line_ticks[..lines].to_vec(),
            accounts: self.accounts[..count].to_vec(),
            counts: self.counts.chunks(4).take(count).map(|c| [c[0], c[1], c[2], c[3]]).collect(),
            unknown: self.unknown,
        })
    }

    /// The port takes its places; entries behind its counts stay.
    fn put(&mut self, port: &Port) {
        self.clock = port.clock;
        for (place, queue) in self.queues.iter_mut().zip(&port.queues) {
            place.put(queue);
        }
        self.sender = port.sending.map(|sending| (sending.priority as u8, sending.start));
        self.line_ticks[..port.line_ticks.len()].copy_from_slice(&port.line_ticks);
        self.accounts[..port.accounts.len()].copy_from_slice(&port.accounts);
        self.counts[..4 * port.counts.len()].copy_from_slice(&port.counts.concat());
        self.unknown = port.unknown;
    }

    /// A record with a count past its array is not fit.
    pub fn report(&mut self, report: &Report, list: &mut [u64]) -> Result<Answer, u32> {
        let mut port = self.port().ok_or(10u32)?;
        let answer = port.report(report, list)?;
        self.put(&port);
        Ok(answer)
    }
    /// A record with a count past its array is not fit.
    pub fn sums(&self) -> Result<Sums, u32> {
        self.port().ok_or(10u32)?.sums()
    }
}

#[cfg(test)]
mod tests {
    use super::*;
    use crate::examples::table_e;
    use crate::port::Arrival;

    fn unknown(tick: u64) -> Report {
        Report { tick, frame: Some(Arrival { line: 0, number: 9, length: 84 }) }
    }

    fn filtered(tick: u64) -> Report {
        Report { tick, frame: Some(Arrival { line: 0, number: 2, length: 84 }) }
    }

    /// Entries behind the table's count are not looked at, stay as found, and are no part of a sum.
    #[test]
    fn counts_behind_the_count_of_links() {
        let mut record = Record::fresh(&table_e()).expect("a good table");
        record.counts[8..].fill(u64::MAX);
        for tick in [100, 200, 300] {
            record.report(&filtered(tick), &mut []).expect("accepted");
        }
        record.report(&unknown(400), &mut []).expect("accepted");
        assert_eq!(record.counts[..8], [0, 0, 0, 0, 0, 3, 0, 0]);
        assert!(record.counts[8..].iter().all(|count| *count == u64::MAX));
        assert_eq!(record.unknown, 1);
        assert_eq!(record.sums(), Ok(Sums { links: vec![0, 3], total: Some(4) }));
    }

    #[test]
    fn a_count_of_links_past_the_array() {
        let mut record = Record::fresh(&table_e()).expect("a good table");
        record.table.count = 257;
        assert_eq!(record.sums(), Err(10));
        assert_eq!(record.report(&unknown(100), &mut []), Err(10));
        assert_eq!(record.unknown, 0);
    }
}
