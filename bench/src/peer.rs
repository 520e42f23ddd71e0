//! The batch in plain Rust on flat arrays: rings of 256 slots, three numbers a slot, in one array; nothing is copied.

use crate::tables::{read, Table, FULL_COUNT, UNKEPT};
use std::hint::black_box;

const SLOTS: u64 = 256;
const LAST_TICK: u64 = (1 << 48) - 1;

/// Where frames with an unknown number are counted: behind five words a link.
const UNKNOWN: usize = 5 * 256;

/// Of a link: line, priority, BAG, BAG and jitter, least and greatest length.
type Plan = [u64; 6];

struct Port {
    lines: u64,
    count: usize,
    numbers: [u16; 256],
    plans: [Plan; 256],
    sizes: [u64; 8],
    /// Number, length and arrival of each slot, ring after ring.
    frames: [u64; 3 * 8 * SLOTS as usize],
    heads: [u64; 8],
    counts: [u64; 8],
    held: [u64; 8],
    marks: [u64; 8],
    ticks: [u64; 24],
    credits: [u64; 256],
    since: [u64; 256],
    /// Five words a link, of which the first four count its verdicts.
    counted: [u64; UNKNOWN + 1],
    clock: u64,
    sending: Option<(usize, u64)>,
    frames_held: u64,
}

fn number_at(bytes: &[u8], i: usize) -> u64 {
    u64::from_le_bytes(bytes[8 * i..8 * i + 8].try_into().expect("eight bytes"))
}

fn put_row(bytes: &mut [u8], row: [u64; 3]) {
    for (place, number) in bytes.chunks_exact_mut(8).zip(row) {
        place.copy_from_slice(&number.to_le_bytes());
    }
}

fn slot(p: usize, place: u64) -> usize {
    3 * (SLOTS as usize * p + (place % SLOTS) as usize)
}

impl Port {
    fn fresh(t: &Table) -> Port {
        let plan = |i: usize| {
            let v = &t.links[i];
            let bag = 12_500u64 << v.code.min(7);
            let (line, priority) = (u64::from(v.line), u64::from(v.priority));
            [line, priority, bag, bag + u64::from(v.jitter), u64::from(v.least), u64::from(v.greatest)]
        };
        let plans = std::array::from_fn(plan);
        Port {
            lines: u64::from(t.lines),
            count: usize::from(t.count),
            numbers: std::array::from_fn(|i| t.links[i].number),
            plans,
            sizes: t.sizes.map(u64::from),
            frames: [0; 3 * 8 * SLOTS as usize],
            heads: [0; 8],
            counts: [0; 8],
            held: [0; 8],
            marks: [0; 8],
            ticks: [0; 24],
            credits: plans.map(|plan| plan[3]),
            since: [0; 256],
            counted: [0; UNKNOWN + 1],
            clock: 0,
            sending: None,
            frames_held: 0,
        }
    }

    fn refusal(&self, [form, tick, line, _, length]: [u64; 5], room: usize) -> u64 {
        if tick > LAST_TICK {
            return 11;
        }
        if tick < self.clock {
            return 12;
        }
        if form == 1 {
            if line >= self.lines {
                return 13;
            }
            if !(84..=1_538).contains(&length) {
                return 14;
            }
            if tick < self.ticks[line as usize] + length {
                return 15;
            }
        }
        if (room as u64) < 3 * self.frames_held {
            return 16;
        }
        0
    }

    /// How many frames leave; their rows go to the list.
    fn advance(&mut self, time: u64, list: &mut [u8]) -> u64 {
        let mut tick = self.clock;
        let mut left = 0;
        loop {
            if self.sending.is_none() && tick < time {
                self.sending = self.counts.iter().position(|&n| n > 0).map(|p| (p, tick));
            }
            let Some((p, start)) = self.sending else { break };
            let at = slot(p, self.heads[p]);
            let (number, length) = (self.frames[at], self.frames[at + 1]);
            if time < start + length {
                break;
            }
            put_row(&mut list[24 * left..24 * left + 24], [number, length, start + length]);
            self.heads[p] = (self.heads[p] + 1) % SLOTS;
            self.counts[p] -= 1;
            self.held[p] -= length - u64::from(UNKEPT);
            self.sending = None;
            tick = start + length;
            left += 1;
        }
        self.clock = time;
        self.frames_held -= left as u64;
        left as u64
    }

    fn place(&self, number: u64) -> Option<usize> {
        let wanted = u16::try_from(number).ok()?;
        self.numbers[..self.count].binary_search(&wanted).ok()
    }

    /// A full count rises no more.
    fn count(&mut self, word: usize) {
        let count = &mut self.counted[word];
        if *count < FULL_COUNT {
            *count += 1;
        }
    }

    /// Not inlined, so that a wait does not pay for what a frame needs.
    #[inline(never)]
    fn judge(&mut self, time: u64, line: u64, number: u64, length: u64) -> u64 {
        self.ticks[line as usize] = time;
        let Some(i) = self.place(number) else {
            self.count(UNKNOWN);
            return 1;
        };
        let verdict = self.verdict(i, time, line, number, length);
        self.count(5 * i + verdict as usize);
        verdict
    }

    fn verdict(&mut self, i: usize, time: u64, line: u64, number: u64, length: u64) -> u64 {
        let [on, priority, bag, full, least, greatest] = self.plans[i];
        if on != line || length < least || greatest < length {
            return 1;
        }
        let credit = full.min(self.credits[i] + time - self.since[i]);
        self.since[i] = time;
        if credit < bag {
            self.credits[i] = credit;
            return 2;
        }
        self.credits[i] = credit - bag;
        self.store(priority as usize, time, number, length)
    }

    fn store(&mut self, p: usize, time: u64, number: u64, length: u64) -> u64 {
        let held = self.held[p] + length - u64::from(UNKEPT);
        if held > self.sizes[p] {
            return 3;
        }
        let at = slot(p, self.heads[p] + self.counts[p]);
        self.frames[at..at + 3].copy_from_slice(&[number, length, time]);
        self.counts[p] += 1;
        self.held[p] = held;
        self.marks[p] = self.marks[p].max(held);
        self.frames_held += 1;
        0
    }

    fn report(&mut self, report: [u64; 5], list: &mut [u8]) -> [u64; 3] {
        let refused = self.refusal(report, list.len() / 8);
        if refused != 0 {
            return [refused, 0, 0];
        }
        let [form, tick, line, number, length] = report;
        let left = self.advance(tick, list);
        let verdict = if form == 1 { self.judge(tick, line, number, length) } else { 0 };
        [0, verdict, left]
    }
}

/// As fenuschia_batch: the file's refusals, 19, 20, then the reports.
pub fn batch(file: &[u8], reports: &[u8], answers: &mut [u8], departures: &mut [u8]) -> u32 {
    let table = match read(file) {
        Ok(table) => table,
        Err(refusal) => return refusal,
    };
    if reports.len() % 40 != 0 || reports.chunks_exact(40).any(|report| number_at(report, 0) > 1) {
        return 19;
    }
    if answers.len() / 8 < 3 * (reports.len() / 40) {
        return 20;
    }
    let mut port = Port::fresh(&table);
    let mut at = 0;
    for (report, answer) in reports.chunks_exact(40).zip(answers.chunks_exact_mut(24)) {
        let row = port.report(std::array::from_fn(|i| number_at(report, i)), &mut departures[at..]);
        put_row(answer, row);
        at += 24 * row[2] as usize;
    }
    // The counts are kept, though nothing reads them here.
    black_box(&port);
    0
}
