//! The paper's "The tick machine": the port, tick by tick; fitness; refusals 10 to 16; verdicts, and how many of each.

use crate::memory::occupied;
use crate::table::{bag, check, Link, Table};

/// "A port clock runs from 0 to 2^48 − 1."
pub const LAST_TICK: u64 = (1 << 48) - 1;

/// "A buffer may now contain 256 frames, and fitness allows a queue as many."
pub const MOST_FRAMES: usize = 256;

/// "a count at 2^52 rises no more"
pub const FULL_COUNT: u64 = 1 << 52;

pub const FILTERED: u64 = 1;
pub const POLICED: u64 = 2;
pub const DROPPED: u64 = 3;
pub const STORED: u64 = 0;

/// "stored frames (number, length, arrival tick)"
#[derive(Clone, Copy, Debug, PartialEq, Eq)]
pub struct Frame {
    pub number: u64,
    pub length: u64,
    pub arrival: u64,
}

/// "for each priority a queue of stored frames .. and its mark"
#[derive(Clone, Debug, Default, PartialEq, Eq)]
pub struct Queue {
    pub frames: Vec<Frame>,
    pub mark: u64,
}

impl Queue {
    /// "Held bytes, marks, sizes, the dropped verdict, bytes freed .. all count so": a frame's length less 20.
    pub fn held(&self) -> u64 {
        self.frames.iter().map(|frame| occupied(frame.length)).sum()
    }
}

/// "the frame being sent with its start tick": it "heads its queue", so its priority names it.
#[derive(Clone, Copy, Debug, PartialEq, Eq)]
pub struct Sending {
    pub priority: usize,
    pub start: u64,
}

/// "for each virtual link a credit and its tick"
#[derive(Clone, Copy, Debug, PartialEq, Eq)]
pub struct Account {
    pub credit: u64,
    pub tick: u64,
}

#[derive(Clone, Debug, PartialEq, Eq)]
pub struct Port {
    pub table: Table,
    pub clock: u64,
    pub queues: [Queue; 8],
    /// None: idle.
    pub sending: Option<Sending>,
    pub line_ticks: Vec<u64>,
    pub accounts: Vec<Account>,
    /// "for each virtual link, four counts, one per verdict": each in the place of its verdict.
    pub counts: Vec<[u64; 4]>,
    /// "and one count for frames with an unknown number"
    pub unknown: u64,
}

/// "A wait report advances to T. A frame report (tick T, line, number, length)".
#[derive(Clone, Copy, Debug, PartialEq, Eq)]
pub struct Report {
    pub tick: u64,
    pub frame: Option<Arrival>,
}

#[derive(Clone, Copy, Debug, PartialEq, Eq)]
pub struct Arrival {
    pub line: u64,
    pub number: u64,
    pub length: u64,
}

/// "the answer of each report: verdict (0 for a wait), frames freed, bytes freed"
#[derive(Clone, Copy, Debug, PartialEq, Eq)]
pub struct Answer {
    pub verdict: u64,
    pub frames: u64,
    pub bytes: u64,
}

/// "each link's sum, and a grand total, unknown numbers included"; None: it "has no grand total".
#[derive(Clone, Debug, PartialEq, Eq)]
pub struct Sums {
    pub links: Vec<u64>,
    pub total: Option<u64>,
}

/// "three each: number, length, tick freed"
type Departure = [u64; 3];

fn full_credit(link: &Link) -> u64 {
    bag(link.code) + u64::from(link.jitter)
}

fn within_limits(link: &Link, length: u64) -> bool {
    u64::from(link.least) <= length && length <= u64::from(link.greatest)
}

/// "Fresh: clock, ticks and marks 0, queues empty, idle, credit B + J." "fresh port: 3 to 6", with 23 before 6. Every count
/// is 0.
pub fn fresh(table: &Table) -> Result<Port, u32> {
    let refusal = check(table);
    if refusal != 0 {
        return Err(refusal);
    }
    let accounts = table.members().iter().map(|v| Account { credit: full_credit(v), tick: 0 }).collect();
    Ok(Port {
        table: table.clone(),
        clock: 0,
        queues: Default::default(),
        sending: None,
        line_ticks: vec![0; table.lines as usize],
        accounts,
        counts: vec![[0; 4]; table.count as usize],
        unknown: 0,
    })
}

impl Port {
    /// Where the link of this number stands in the table.
    fn place(&self, number: u64) -> Option<usize> {
        self.table.members().iter().position(|v| u64::from(v.number) == number)
    }

    pub fn frames_held(&self) -> usize {
        self.queues.iter().map(|queue| queue.frames.len()).sum()
    }

    /// "A port record is fit if its table passes 3 to 6; clock ≤ 2^48 − 1; .." "a port with such a table is not fit": one that
    /// meets 23.
    pub fn is_fit(&self) -> bool {
        check(&self.table) == 0
            && self.clock <= LAST_TICK
            && (0..8).all(|p| self.queue_is_fit(p))
            && self.line_ticks.iter().all(|tick| *tick <= self.clock)
            && self.accounts_are_fit()
            && self.sending_is_fit()
            && self.counts_are_fit()
    }

    /// "fitness allows a queue as many", 256 frames; "queued frames name links of their priority within length
    /// limits, arrival ticks rise or stay equal and are ≤ clock; each held sum ≤ mark ≤ size"
    fn queue_is_fit(&self, p: usize) -> bool {
        let queue = &self.queues[p];
        let frames = &queue.frames;
        frames.len() <= MOST_FRAMES
            && frames.iter().all(|frame| self.frame_is_fit(frame, p))
            && frames.windows(2).all(|pair| pair[0].arrival <= pair[1].arrival)
            && queue.held() <= queue.mark
            && queue.mark <= u64::from(self.table.sizes[p])
    }

    fn frame_is_fit(&self, frame: &Frame, p: usize) -> bool {
        let Some(i) = self.place(frame.number) else {
            return false;
        };
        let link = &self.table.links[i];
        usize::from(link.priority) == p && within_limits(link, frame.length) && frame.arrival <= self.clock
    }

    /// "line and credit ticks ≤ clock; credit ≤ B + J"
    fn accounts_are_fit(&self) -> bool {
        self.table
            .members()
            .iter()
            .zip(&self.accounts)
            .all(|(link, account)| account.tick <= self.clock && account.credit <= full_credit(link))
    }

    /// "a frame being sent heads its queue, arrived by its start, and start < clock < start + length"
    fn sending_is_fit(&self) -> bool {
        let Some(Sending { priority, start }) = self.sending else {
            return true;
        };
        let Some(frame) = self.queues.get(priority).and_then(|queue| queue.frames.first()) else {
            return false;
        };
        frame.arrival <= start && start < self.clock && self.clock < start + frame.length
    }

    /// Every count of a link, and that of the frames with an unknown number.
    fn all_counts(&self) -> Vec<u64> {
        let mut counts = self.counts.concat();
        counts.push(self.unknown);
        counts
    }

    /// "Fitness requires all counts to be at most 2^52."
    fn counts_are_fit(&self) -> bool {
        self.all_counts().iter().all(|count| *count <= FULL_COUNT)
    }

    /// "Advance to T, for each tick m from clock to T − 1". Where nothing is held, idle ticks are passed
    /// in one step.
    fn advance(&mut self, to: u64) -> Vec<Departure> {
        let mut left = Vec::new();
        while self.clock < to {
            if self.frames_held() == 0 {
                self.clock = to;
            } else {
                left.extend(self.tick());
            }
        }
        left
    }

    /// "if idle and a frame waits, the oldest of the highest waiting priority starts at m; one byte
    /// leaves. A frame started at m is freed at m + length."
    fn tick(&mut self) -> Option<Departure> {
        let m = self.clock;
        self.clock = m + 1;
        if self.sending.is_none() {
            let waiting = (0..8).find(|p| !self.queues[*p].frames.is_empty());
            self.sending = waiting.map(|priority| Sending { priority, start: m });
        }
        let Sending { priority, start } = self.sending?;
        let frame = self.queues[priority].frames[0];
        if self.clock < start + frame.length {
            return None;
        }
        self.queues[priority].frames.remove(0);
        self.sending = None;
        Some([frame.number, frame.length, self.clock])
    }

    /// The rows of the table of refusals for a report, in order; 0 for an accepted one.
    fn refusal(&self, report: &Report, list: usize) -> u32 {
        if !self.is_fit() {
            return 10;
        }
        if report.tick > LAST_TICK {
            return 11;
        }
        if report.tick < self.clock {
            return 12;
        }
        if let Some(frame) = report.frame {
            if frame.line >= u64::from(self.table.lines) {
                return 13;
            }
            if !(84..=1_538).contains(&frame.length) {
                return 14;
            }
            if report.tick < self.line_ticks[frame.line as usize] + frame.length {
                return 15;
            }
        }
        if list < 3 * self.frames_held() {
            return 16;
        }
        0
    }

    /// "filtered (1): no such number, another line, or a length outside its limits": else the link's place.
    fn filter(&self, frame: &Arrival) -> Option<usize> {
        let i = self.place(frame.number)?;
        let link = &self.table.links[i];
        let passes = u64::from(link.line) == frame.line && within_limits(link, frame.length);
        passes.then_some(i)
    }

    /// "policed (2): credit becomes the smaller of B + J and credit + T − its tick, its tick becomes T, and
    /// credit is below B"; "otherwise B is taken off".
    fn charge(&mut self, i: usize, tick: u64) -> bool {
        let link = &self.table.links[i];
        let account = &mut self.accounts[i];
        account.credit = full_credit(link).min(account.credit + tick - account.tick);
        account.tick = tick;
        if account.credit < bag(link.code) {
            return false;
        }
        account.credit -= bag(link.code);
        true
    }

    /// "A frame report .. sets the line's tick to T, then gives a verdict".
    fn judge(&mut self, tick: u64, frame: &Arrival) -> u64 {
        self.line_ticks[frame.line as usize] = tick;
        let Some(i) = self.filter(frame) else {
            return FILTERED;
        };
        if !self.charge(i, tick) {
            return POLICED;
        }
        let p = usize::from(self.table.links[i].priority);
        let queue = &mut self.queues[p];
        // "dropped (3): .. held bytes + length exceed the size", where "the dropped verdict" counts length less 20
        if queue.held() + occupied(frame.length) > u64::from(self.table.sizes[p]) {
            return DROPPED;
        }
        // "stored (0): otherwise; queued last, and the mark rises to the held bytes if they are more"
        queue.frames.push(Frame { number: frame.number, length: frame.length, arrival: tick });
        queue.mark = queue.mark.max(queue.held());
        STORED
    }

    /// "A frame of a known number on another line counts as filtered under that number." "In a record handed in, a count at
    /// 2^52 rises no more".
    fn count(&mut self, number: u64, verdict: u64) {
        let count = match self.place(number) {
            Some(i) => &mut self.counts[i][verdict as usize],
            None => &mut self.unknown,
        };
        if *count < FULL_COUNT {
            *count += 1;
        }
    }

    /// A frame's verdict, which is counted.
    fn take(&mut self, tick: u64, frame: &Arrival) -> u64 {
        let verdict = self.judge(tick, frame);
        self.count(frame.number, verdict);
        verdict
    }

    /// A report: refused, with port and list as they were, or answered, with the departures at the start
    /// of the list: "the rest of the list stays".
    pub fn report(&mut self, report: &Report, list: &mut [u64]) -> Result<Answer, u32> {
        let refusal = self.refusal(report, list.len());
        if refusal != 0 {
            return Err(refusal);
        }
        let left = self.advance(report.tick);
        for (place, departure) in list.chunks_exact_mut(3).zip(&left) {
            place.copy_from_slice(departure);
        }
        let verdict = match &report.frame {
            Some(frame) => self.take(report.tick, frame),
            None => 0,
        };
        let bytes = left.iter().map(|[_, length, _]| occupied(*length)).sum();
        Ok(Answer { verdict, frames: left.len() as u64, bytes })
    }

    /// "A call on a fit record (else 10) gives each link's sum, and a grand total, unknown numbers included."
    pub fn sums(&self) -> Result<Sums, u32> {
        if !self.is_fit() {
            return Err(10);
        }
        let links = self.counts.iter().map(|four| four.iter().sum()).collect();
        Ok(Sums { links, total: self.total() })
    }

    /// "a record with such a count has no grand total": one at 2^52.
    fn total(&self) -> Option<u64> {
        let counts = self.all_counts();
        let none_is_full = counts.iter().all(|count| *count != FULL_COUNT);
        none_is_full.then(|| counts.iter().sum())
    }
}

#[cfg(test)]
mod tests {
    use super::*;
    use crate::cases::make::table_of;
    use crate::examples::{filled_c, link, nine_on, table_c, table_e, table_full, table_over};

    struct Run {
        port: Port,
        departures: Vec<Departure>,
    }

    impl Run {
        fn of(table: &Table) -> Run {
            Run { port: fresh(table).expect("a good table"), departures: Vec::new() }
        }

        fn tell(&mut self, report: Report) -> Result<Answer, u32> {
            let mut list = vec![7; 3 * self.port.frames_held() + 2];
            let answer = self.port.report(&report, &mut list)?;
            let end = 3 * answer.frames as usize;
            self.departures.extend(list[..end].chunks(3).map(|d| [d[0], d[1], d[2]]));
            assert!(list[end..].iter().all(|number| *number == 7));
            Ok(answer)
        }

        fn verdict(&mut self, tick: u64, line: u64, number: u64, length: u64) -> Result<u64, u32> {
            let frame = Some(Arrival { line, number, length });
            self.tell(Report { tick, frame }).map(|answer| answer.verdict)
        }

        fn wait(&mut self, tick: u64) -> Result<Answer, u32> {
            self.tell(Report { tick, frame: None })
        }
    }

    #[test]
    fn c() {
        let mut run = Run::of(&table_e());
        assert_eq!(run.verdict(1_000, 1, 2, 1_000), Ok(STORED));
        assert_eq!(run.verdict(1_001, 0, 1, 500), Ok(STORED));
        assert_eq!(run.wait(5_000), Ok(Answer { verdict: 0, frames: 2, bytes: 1_460 }));
        assert_eq!(run.departures, [[2, 1_000, 2_000], [1, 500, 2_500]]);
        assert_eq!([0, 1].map(|p| run.port.queues[p].mark), [480, 980]);
    }

    #[test]
    fn d_and_r() {
        let mut run = Run::of(&table_e());
        assert_eq!(run.verdict(1_000, 1, 2, 1_000), Ok(STORED));
        assert_eq!(run.verdict(1_000, 0, 1, 500), Ok(STORED));
        assert_eq!(run.wait(3_000), Ok(Answer { verdict: 0, frames: 2, bytes: 1_460 }));
        assert_eq!(run.departures, [[1, 500, 1_500], [2, 1_000, 2_500]]);
    }

    #[test]
    fn e_f_and_o() {
        let mut run = Run::of(&table_e());
        assert_eq!(run.verdict(1_001, 0, 1, 500), Ok(STORED));
        let mut later = Run { port: run.port.clone(), departures: Vec::new() };
        assert_eq!(later.verdict(13_501, 0, 1, 500), Ok(STORED));
        assert_eq!(run.verdict(13_500, 0, 1, 500), Ok(POLICED));
        assert_eq!(run.verdict(14_000, 0, 1, 500), Ok(STORED));
    }

    #[test]
    fn m_and_n() {
        let links = [0, 1, 2].map(|number| link(number, number as u8, 0, 200));
        let mut run = Run::of(&table_of(3, &links, [500, 0, 0, 0, 0, 0, 0, 0]));
        assert_eq!(run.verdict(1_000, 0, 0, 200), Ok(STORED));
        assert_eq!(run.verdict(1_100, 1, 1, 200), Ok(STORED));
        assert_eq!(run.verdict(1_150, 2, 2, 200), Ok(DROPPED));
        assert_eq!(run.verdict(2_000, 2, 2, 200), Ok(POLICED));
    }

    /// With two of 200 held, 360 in all: 140 more fit a size of 500, 141 do not.
    #[test]
    fn a_frame_that_just_fits() {
        for (length, verdict) in [(160, STORED), (161, DROPPED)] {
            let links = [0, 1, 2].map(|number| link(number, number as u8, 0, 200));
            let mut run = Run::of(&table_of(3, &links, [500, 0, 0, 0, 0, 0, 0, 0]));
            assert_eq!(run.verdict(1_000, 0, 0, 200), Ok(STORED));
            assert_eq!(run.verdict(1_100, 1, 1, 200), Ok(STORED));
            assert_eq!(run.verdict(1_150, 2, 2, length), Ok(verdict));
            assert_eq!(run.port.queues[0].mark, if verdict == STORED { 500 } else { 360 });
        }
    }

    #[test]
    fn e_at_its_bound() {
        for (size, verdict) in [(480, STORED), (479, DROPPED)] {
            let mut table = table_e();
            table.sizes[0] = size;
            assert_eq!(Run::of(&table).verdict(1_000, 0, 1, 500), Ok(verdict));
            assert_eq!(Run::of(&table).verdict(1_000, 0, 1, 499), Ok(STORED));
        }
    }

    /// Every pair of lengths, and a third frame: as early as the line can bring them, no more than 359 are held
    /// of a bound of 399.
    #[test]
    fn g_does_not_reach_its_bound() {
        let links = [0, 1, 2].map(|number| link(number, 0, 0, 200));
        let table = table_of(1, &links, [399, 0, 0, 0, 0, 0, 0, 0]);
        let mut most = 0;
        for first in 84..=200 {
            for second in 84..=200 {
                for third in [84, 115, 116, 199, 200] {
                    let mut run = Run::of(&table);
                    let mut tick = 1_000;
                    for (number, length) in [first, second, third].into_iter().enumerate() {
                        tick += length;
                        assert_eq!(run.verdict(tick, 0, number as u64, length), Ok(STORED));
                    }
                    most = most.max(run.port.queues[0].mark);
                }
            }
        }
        assert_eq!(most, 359);
    }

    /// The largest size has room for as many of the shortest frames, and for no more.
    #[test]
    fn most_frames_fill_the_largest_size() {
        assert_eq!(MOST_FRAMES, 256);
        assert_eq!(MOST_FRAMES as u64 * occupied(84), 16_384);
    }

    #[test]
    fn c_takes_256_frames() {
        let mut run = Run::of(&table_c());
        for (tick, frame) in filled_c() {
            assert_eq!(run.tell(Report { tick, frame: Some(frame) }).map(|a| a.verdict), Ok(STORED));
        }
        assert_eq!(run.port.clock, 2_841);
        let queue = &run.port.queues[0];
        assert_eq!((queue.frames.len(), queue.held(), queue.mark), (256, 16_384, 16_384));
        assert!(run.port.is_fit());
        assert_eq!(run.wait(3_538), Ok(Answer { verdict: 0, frames: 1, bytes: 1_518 }));
        let last = 3_538 + 84 * 256;
        assert_eq!(run.wait(last - 1).map(|answer| answer.frames), Ok(255));
        assert_eq!(run.wait(last), Ok(Answer { verdict: 0, frames: 1, bytes: 64 }));
        assert_eq!(run.departures.len(), 257);
    }

    #[test]
    fn p() {
        let mut run = Run::of(&table_e());
        assert_eq!(run.verdict(1_000, 0, 9, 500), Ok(FILTERED));
        assert_eq!(run.verdict(1_499, 0, 1, 500), Err(15));
        assert_eq!(run.verdict(1_500, 0, 1, 500), Ok(STORED));
    }

    #[test]
    fn q() {
        let mut table = table_e();
        table.links[0].least = 100;
        let mut run = Run::of(&table);
        assert_eq!(run.verdict(2_000, 0, 1, 99), Ok(FILTERED));
        assert_eq!(run.verdict(4_000, 0, 1, 501), Ok(FILTERED));
        assert_eq!(run.verdict(6_000, 1, 1, 500), Ok(FILTERED));
        assert_eq!(run.verdict(8_000, 0, 3, 500), Ok(FILTERED));
        assert_eq!(run.verdict(9_000, 0, 65_537, 500), Ok(FILTERED));
        assert_eq!(run.verdict(9_999, 0, 1, 500), Ok(STORED));
    }

    #[test]
    fn s() {
        let mut run = Run::of(&table_e());
        assert_eq!(run.verdict(0, 2, 1, 83), Err(13));
        assert_eq!(run.verdict(0, 0, 1, 83), Err(14));
        assert_eq!(run.verdict(1_000, 0, 1, 500), Ok(STORED));
        let mut port = run.port;
        let early = Report { tick: 1_499, frame: Some(Arrival { line: 0, number: 1, length: 500 }) };
        assert_eq!(port.report(&early, &mut []), Err(15));
        let wait = Report { tick: 1_499, frame: None };
        assert_eq!(port.report(&wait, &mut [0, 0]), Err(16));
        assert_eq!(port.report(&wait, &mut [0, 0, 0]).map(|answer| answer.frames), Ok(0));
        assert_eq!(port.report(&Report { tick: 1_498, frame: None }, &mut []), Err(12));
        assert_eq!(port.report(&Report { tick: 1 << 48, frame: None }, &mut []), Err(11));
    }

    #[test]
    fn t() {
        let bags = [12_500, 25_000, 50_000, 100_000, 200_000, 400_000, 800_000, 1_600_000];
        assert_eq!([0, 1, 2, 3, 4, 5, 6, 7].map(bag), bags);
        assert!((8..=255).all(|code| bag(code) == 1_600_000));
    }

    #[test]
    fn u() {
        let links = [link(1, 0, 0, 500), link(2, 1, 1, 500), link(3, 2, 1, 500)];
        let mut run = Run::of(&table_of(3, &links, [5_000; 8]));
        assert_eq!(run.verdict(1_000, 1, 2, 500), Ok(STORED));
        assert_eq!(run.verdict(1_000, 2, 3, 500), Ok(STORED));
        assert_eq!(run.verdict(1_500, 0, 1, 500), Ok(STORED));
        run.wait(9_000).expect("accepted");
        assert_eq!(run.departures, [[2, 500, 1_500], [1, 500, 2_000], [3, 500, 2_500]]);
    }

    #[test]
    fn silence_to_the_last_tick() {
        let mut run = Run::of(&table_e());
        run.wait(LAST_TICK - 500).expect("accepted");
        assert_eq!(run.verdict(LAST_TICK - 500, 0, 1, 500), Ok(STORED));
        assert_eq!(run.wait(LAST_TICK), Ok(Answer { verdict: 0, frames: 1, bytes: 480 }));
        assert_eq!(run.wait(LAST_TICK + 1), Err(11));
    }

    /// A port at clock 1,100: link 1 being sent since 1,000, link 3 behind it, and link 2 waiting.
    fn busy() -> Port {
        let links = [link(1, 0, 0, 500), link(2, 1, 1, 1_000), link(3, 2, 0, 500)];
        let mut run = Run::of(&table_of(3, &links, [2_000, 2_000, 0, 0, 0, 0, 0, 0]));
        assert_eq!(run.verdict(1_000, 0, 1, 500), Ok(STORED));
        assert_eq!(run.verdict(1_020, 2, 3, 500), Ok(STORED));
        assert_eq!(run.verdict(1_050, 1, 2, 1_000), Ok(STORED));
        run.wait(1_100).expect("accepted");
        assert_eq!(run.port.sending, Some(Sending { priority: 0, start: 1_000 }));
        run.port
    }

    fn send(port: &mut Port, priority: usize, arrival: u64, start: u64) {
        port.queues[priority].frames[0].arrival = arrival;
        port.sending = Some(Sending { priority, start });
    }

    fn fit_after(change: impl Fn(&mut Port)) -> bool {
        let mut port = busy();
        change(&mut port);
        let before = port.clone();
        let mut list = [9; 3 * 8 * MOST_FRAMES];
        let answer = port.report(&Report { tick: before.clock, frame: None }, &mut list);
        assert_eq!(port, before);
        assert_eq!(list, [9; 3 * 8 * MOST_FRAMES]);
        match answer {
            Ok(answer) => {
                assert_eq!(answer, Answer { verdict: 0, frames: 0, bytes: 0 });
                true
            }
            Err(refusal) => {
                assert_eq!(refusal, 10);
                false
            }
        }
    }

    fn full_queue(port: &mut Port, frames: usize) {
        port.table.links[1].least = 84;
        port.table.sizes[1] = 16_384;
        port.queues[1].frames = vec![Frame { number: 2, length: 84, arrival: 1_100 }; frames];
        port.queues[1].mark = 16_384.min(64 * frames as u64);
    }

    #[test]
    fn records_that_are_not_fit() {
        assert!(!fit_after(|p| p.table.sizes[7] = 16_385));
        assert!(!fit_after(|p| p.table.lines = 0));
        assert!(!fit_after(|p| p.clock = LAST_TICK + 1));
        assert!(!fit_after(|p| full_queue(p, 257)));
        assert!(!fit_after(|p| p.queues[0].frames[1].number = 2));
        assert!(!fit_after(|p| p.queues[0].frames[1].number = 65_537));
        assert!(!fit_after(|p| p.queues[0].frames[1].length = 83));
        assert!(!fit_after(|p| p.queues[0].frames[1].length = 501));
        assert!(!fit_after(|p| p.queues[1].frames[0].arrival = 1_101));
        assert!(!fit_after(|p| p.queues[0].frames[1].arrival = 999));
        assert!(!fit_after(|p| p.queues[0].mark = 959));
        assert!(!fit_after(|p| p.queues[0].mark = 2_001));
        assert!(!fit_after(|p| p.table.sizes[0] = 959));
        assert!(!fit_after(|p| p.queues[5].mark = 1));
        assert!(!fit_after(|p| p.line_ticks[1] = 1_101));
        assert!(!fit_after(|p| p.accounts[1].tick = 1_101));
        assert!(!fit_after(|p| p.accounts[1].credit = 12_501));
        assert!(!fit_after(|p| p.sending = Some(Sending { priority: 2, start: 1_000 })));
        assert!(!fit_after(|p| p.sending = Some(Sending { priority: 8, start: 1_000 })));
        assert!(!fit_after(|p| send(p, 1, 1_050, 1_049)));
        assert!(!fit_after(|p| send(p, 0, 1_000, 1_100)));
        assert!(!fit_after(|p| send(p, 0, 600, 600)));
        assert!(!fit_after(|p| send(p, 0, 600, u64::MAX)));
        assert!(!fit_after(|p| p.counts[0][0] = FULL_COUNT + 1));
        assert!(!fit_after(|p| p.counts[2][3] = u64::MAX));
        assert!(!fit_after(|p| p.unknown = FULL_COUNT + 1));
    }

    #[test]
    fn a_fresh_port_of_an_oversold_line() {
        assert_eq!([table_over(), nine_on(1, 197)].map(|table| fresh(&table)), [Err(23), Err(23)]);
        assert!(fresh(&table_full()).is_ok());
    }

    /// With a frame being sent and one behind it, all fit but for the last link's length.
    #[test]
    fn a_port_with_an_oversold_line() {
        let mut run = Run::of(&table_full());
        assert_eq!(run.verdict(1_538, 0, 0, 1_538), Ok(STORED));
        assert_eq!(run.verdict(2_000, 0, 8, 196), Ok(STORED));
        let mut port = run.port;
        let mut list = [9; 6];
        let wait = Report { tick: 2_000, frame: None };
        assert_eq!(port.report(&wait, &mut list).map(|answer| answer.frames), Ok(0));
        port.table = table_over();
        let before = port.clone();
        assert_eq!(port.report(&wait, &mut list), Err(10));
        assert_eq!(port.report(&Report { tick: u64::MAX, frame: None }, &mut []), Err(10));
        assert_eq!((port, list), (before, [9; 6]));
    }

    /// Frames and what comes of each; counts of stored, filtered, policed and dropped frames.
    #[test]
    fn counts_that_add_up() {
        let mut run = Run::of(&table_e());
        assert_eq!(run.port.sums(), Ok(Sums { links: vec![0, 0], total: Some(0) }));
        assert_eq!(run.verdict(1_001, 0, 1, 500), Ok(STORED));
        assert_eq!(run.verdict(13_500, 0, 1, 500), Ok(POLICED));
        assert_eq!(run.verdict(13_900, 1, 1, 300), Ok(FILTERED));
        assert_eq!(run.verdict(14_001, 0, 1, 501), Ok(FILTERED));
        assert_eq!(run.verdict(14_200, 0, 9, 84), Ok(FILTERED));
        assert_eq!(run.verdict(14_300, 0, 65_537, 84), Ok(FILTERED));
        assert_eq!(run.verdict(14_310, 0, 1, 84), Err(15));
        assert!(run.wait(15_000).is_ok());
        assert_eq!(run.verdict(15_000, 7, 1, 84), Err(13));
        assert_eq!(run.verdict(16_000, 1, 2, 1_000), Ok(STORED));
        assert_eq!(run.port.counts, [[1, 2, 1, 0], [1, 0, 0, 0]]);
        assert_eq!(run.port.unknown, 2);
        assert_eq!(run.port.sums(), Ok(Sums { links: vec![4, 1], total: Some(7) }));
    }

    #[test]
    fn dropped_frames_count() {
        let mut table = table_e();
        table.sizes[0] = 479;
        let mut run = Run::of(&table);
        assert_eq!(run.verdict(1_000, 0, 1, 500), Ok(DROPPED));
        assert_eq!((&run.port.counts[..], run.port.unknown), (&[[0, 0, 0, 1], [0; 4]][..], 0));
    }

    /// Both wrong, the line and the length; and what is of no link: 3 stands behind the count.
    #[test]
    fn filtered_under_its_number_or_unknown() {
        let mut table = table_e();
        table.links[2] = link(3, 0, 0, 500);
        let mut run = Run::of(&table);
        assert_eq!(run.verdict(2_000, 1, 1, 1_538), Ok(FILTERED));
        assert_eq!(run.verdict(4_000, 0, 2, 1_001), Ok(FILTERED));
        for (i, number) in [0, 3, 65_538, (1 << 32) + 1, u64::MAX].into_iter().enumerate() {
            assert_eq!(run.verdict(6_000 + 100 * i as u64, 0, number, 84), Ok(FILTERED));
        }
        assert_eq!(run.port.counts, [[0, 1, 0, 0], [0, 1, 0, 0]]);
        assert_eq!(run.port.unknown, 5);
    }

    /// A run on table E whose counts are not 0.
    fn counted(counts: [[u64; 4]; 2], unknown: u64) -> Run {
        let mut run = Run::of(&table_e());
        run.port.counts = counts.to_vec();
        run.port.unknown = unknown;
        run
    }

    #[test]
    fn a_count_at_2_52() {
        let last = (1 << 52) - 1;
        let mut run = counted([[last, 0, 0, 0], [0; 4]], 0);
        assert_eq!(run.port.sums(), Ok(Sums { links: vec![last, 0], total: Some(last) }));
        for tick in [20_000, 40_000] {
            assert_eq!(run.verdict(tick, 0, 1, 500), Ok(STORED));
            assert_eq!(run.port.counts, [[1 << 52, 0, 0, 0], [0; 4]]);
            assert_eq!(run.port.sums(), Ok(Sums { links: vec![1 << 52, 0], total: None }));
        }
        assert_eq!(run.port.queues[0].frames.len(), 1);
        let mut above = counted([[(1 << 52) + 1, 0, 0, 0], [0; 4]], 0);
        assert_eq!(above.port.sums(), Err(10));
        assert_eq!(above.verdict(20_000, 0, 1, 500), Err(10));
        assert_eq!(above.wait(20_000), Err(10));
    }

    #[test]
    fn each_count_has_its_end() {
        for place in 0..9 {
            let with = |value: u64| {
                let mut all = [0; 9];
                all[place] = value;
                counted([[all[0], all[1], all[2], all[3]], [all[4], all[5], all[6], all[7]]], all[8]).port
            };
            assert_eq!(with((1 << 52) - 1).sums().map(|sums| sums.total), Ok(Some((1 << 52) - 1)));
            assert_eq!(with(1 << 52).sums().map(|sums| sums.total), Ok(None));
            assert_eq!(with((1 << 52) + 1).sums(), Err(10));
            assert_eq!(with(u64::MAX).sums(), Err(10));
        }
    }

    #[test]
    fn unknown_numbers_at_2_52() {
        let mut run = counted([[0; 4]; 2], 1 << 52);
        assert_eq!(run.verdict(1_000, 0, 9, 84), Ok(FILTERED));
        assert_eq!(run.port.unknown, 1 << 52);
        assert_eq!(run.port.sums(), Ok(Sums { links: vec![0, 0], total: None }));
    }

    #[test]
    fn the_greatest_total_of_e() {
        let last = (1 << 52) - 1;
        let mut run = counted([[last; 4]; 2], last);
        assert_eq!(run.port.sums(), Ok(Sums { links: vec![4 * last; 2], total: Some(9 * last) }));
        assert_eq!(run.verdict(1_000, 1, 2, 84), Ok(STORED));
        assert_eq!(run.port.sums(), Ok(Sums { links: vec![4 * last, 4 * last + 1], total: None }));
    }

    /// Waits and refused reports count nothing; the call is refused where a report is.
    #[test]
    fn sums_of_a_record_that_is_not_fit() {
        let mut port = busy();
        assert_eq!(port.sums(), Ok(Sums { links: vec![1; 3], total: Some(3) }));
        port.accounts[1].tick = 1_101;
        assert_eq!(port.sums(), Err(10));
    }

    #[test]
    fn records_that_are_fit_at_an_edge() {
        assert!(fit_after(|_| ()));
        assert!(fit_after(|p| p.sending = None));
        assert!(fit_after(|p| full_queue(p, 255)));
        assert!(fit_after(|p| full_queue(p, 256)));
        assert!(fit_after(|p| p.queues[1].frames[0].arrival = 1_100));
        assert!(fit_after(|p| p.queues[0].frames[1].arrival = 1_000));
        assert!(fit_after(|p| p.table.sizes[0] = 960));
        assert!(fit_after(|p| p.queues[0].mark = 961));
        assert!(fit_after(|p| p.queues[0].mark = 2_000));
        assert!(fit_after(|p| p.accounts[1].credit = 12_500));
        assert!(fit_after(|p| p.line_ticks[1] = 1_100));
        assert!(fit_after(|p| p.accounts[1].tick = 1_100));
        assert!(fit_after(|p| send(p, 1, 1_050, 1_050)));
        assert!(fit_after(|p| send(p, 0, 1_000, 1_099)));
        assert!(fit_after(|p| send(p, 0, 601, 601)));
        assert!(fit_after(|p| {
            p.sending = None;
            p.clock = LAST_TICK;
        }));
        assert!(fit_after(|p| p.counts.fill([FULL_COUNT; 4])));
        assert!(fit_after(|p| p.unknown = FULL_COUNT));
    }
}
