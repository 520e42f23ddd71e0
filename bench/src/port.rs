//! A report with its fitness check: a wait on a port with so many queued frames, and a frame on a port that holds the one
//! before it. The product, in a program of its own that makes four reports in a row, over and over, beside a plain Rust
//! port that is lent and not copied.

use crate::tables::{carried, file_of, promise, Table, FULL_COUNT, UNKEPT};
use crate::traffic;
use std::hint::black_box;
use std::io::Write;
use std::process::{Command, Stdio};
use std::time::Instant;

const REPORTS: u64 = 40_000;
const FRAME: u64 = 84;

/// Seconds that the program takes, and the frames that it says are queued.
fn product(file: &[u8], frames: u64, waits: u64, reports: u64) -> (f64, u64) {
    let start = Instant::now();
    let mut child = Command::new(concat!(env!("CARGO_MANIFEST_DIR"), "/../crates/port_bench/out/port_bench"))
        .stdin(Stdio::piped())
        .stdout(Stdio::piped())
        .spawn()
        .expect("bench/run builds it");
    let input = child.stdin.as_mut().expect("piped");
    for part in [&frames.to_le_bytes()[..], &waits.to_le_bytes()[..], &reports.to_le_bytes()[..], file] {
        input.write_all(part).expect("it reads all");
    }
    let output = child.wait_with_output().expect("it ends").stdout;
    (start.elapsed().as_secs_f64(), String::from_utf8_lossy(&output).trim().parse().unwrap_or(0))
}

#[derive(Clone, Copy)]
struct Frame {
    number: u16,
    length: u16,
    arrival: u64,
}

struct Queue {
    mark: u32,
    frames: Vec<Frame>,
}

struct Port {
    table: Table,
    clock: u64,
    queues: [Queue; 8],
    line_ticks: [u64; 24],
    accounts: [(u64, u64); 256],
    /// Of each link, one per verdict.
    counts: [[u64; 4]; 256],
    /// Of frames with an unknown number.
    unknown: u64,
}

/// A full count rises no more.
fn count(one: &mut u64) {
    if *one < FULL_COUNT {
        *one += 1;
    }
}

impl Port {
    fn with(table: Table, each: [usize; 8]) -> Port {
        let queue = |p: usize| {
            let v = table.links.iter().find(|v| usize::from(v.priority) == p).expect("every priority has one");
            let frame = Frame { number: v.number, length: FRAME as u16, arrival: 0 };
            Queue { mark: 16_384, frames: vec![frame; each[p]] }
        };
        let queues = std::array::from_fn(queue);
        let accounts = [(137_500, 0); 256];
        Port { table, clock: 0, queues, line_ticks: [0; 24], accounts, counts: [[0; 4]; 256], unknown: 0 }
    }

    fn fit(&self) -> bool {
        let count = usize::from(self.table.count);
        let links = &self.table.links[..count];
        let rising = links.windows(2).all(|w| w[0].number < w[1].number);
        let mut promised = [0; 24];
        let ranges = links.iter().all(|v| {
            let good = v.line < 24 && v.priority < 8 && v.code < 8 && v.least <= v.greatest;
            if good {
                promised[usize::from(v.line)] += promise(v);
            }
            good
        });
        let queues = self.queues.iter().enumerate().all(|(p, q)| self.queue_fit(p, q));
        let lines = self.line_ticks.iter().all(|&t| t <= self.clock);
        let accounts = self.accounts[..count].iter().all(|a| a.0 <= 137_500 && a.1 <= self.clock);
        let counts = self.unknown <= FULL_COUNT && self.counts[..count].iter().flatten().all(|&n| n <= FULL_COUNT);
        rising && ranges && carried(&promised) && queues && lines && accounts && counts
    }

    fn queue_fit(&self, p: usize, q: &Queue) -> bool {
        let links = &self.table.links[..usize::from(self.table.count)];
        let mut low = 0;
        let each = q.frames.iter().all(|f| {
            let ordered = low <= f.arrival && f.arrival <= self.clock;
            low = f.arrival;
            let named = links.binary_search_by_key(&f.number, |v| v.number);
            ordered
                && named.is_ok_and(|i| {
                    let v = &links[i];
                    usize::from(v.priority) == p && v.least <= f.length && f.length <= v.greatest
                })
        });
        let held: u32 = q.frames.iter().map(|f| u32::from(f.length - UNKEPT)).sum();
        each && q.frames.len() <= 256 && held <= q.mark && q.mark <= self.table.sizes[p]
    }

    fn refused(&self, tick: u64, list: &[u64]) -> bool {
        let held: usize = self.queues.iter().map(|q| q.frames.len()).sum();
        !self.fit() || tick < self.clock || list.len() < 3 * held
    }

    /// A wait at the clock: everything is tested, and nothing leaves.
    fn wait(&mut self, tick: u64, list: &mut [u64]) -> bool {
        let accepted = !self.refused(tick, list);
        if accepted {
            self.clock = tick;
        }
        accepted
    }

    /// A frame, by when the one before it has wholly left; true if it is stored.
    fn frame(&mut self, tick: u64, line: u64, number: u64, length: u64, list: &mut [u64]) -> bool {
        if self.refused(tick, list) || tick < self.line_ticks[line as usize] + length {
            return false;
        }
        for q in &mut self.queues {
            if let Some(f) = q.frames.pop() {
                list[..3].copy_from_slice(&[u64::from(f.number), u64::from(f.length), tick]);
            }
        }
        self.clock = tick;
        self.line_ticks[line as usize] = tick;
        let Some(i) = self.place(number) else {
            count(&mut self.unknown);
            return false;
        };
        let verdict = self.judge(i, tick, line, length);
        count(&mut self.counts[i][verdict]);
        verdict == 0
    }

    fn place(&self, number: u64) -> Option<usize> {
        let wanted = u16::try_from(number).ok()?;
        let links = &self.table.links[..usize::from(self.table.count)];
        links.binary_search_by_key(&wanted, |v| v.number).ok()
    }

    /// The verdict on a frame of this link.
    fn judge(&mut self, i: usize, tick: u64, line: u64, length: u64) -> usize {
        let v = self.table.links[i];
        if u64::from(v.line) != line || length < u64::from(v.least) || u64::from(v.greatest) < length {
            return 1;
        }
        let account = &mut self.accounts[i];
        account.0 = (12_500 + u64::from(v.jitter)).min(account.0 + tick - account.1);
        account.1 = tick;
        if account.0 < 12_500 {
            return 2;
        }
        account.0 -= 12_500;
        let queue = &mut self.queues[usize::from(v.priority)];
        let held = length as u32 - u32::from(UNKEPT) + queue.frames.iter().map(|f| u32::from(f.length - UNKEPT)).sum::<u32>();
        if held > self.table.sizes[usize::from(v.priority)] {
            return 3;
        }
        queue.frames.push(Frame { number: v.number, length: length as u16, arrival: tick });
        queue.mark = queue.mark.max(held);
        0
    }
}

fn peer(each: [usize; 8]) -> f64 {
    let mut port = Port::with(traffic::many(), each);
    let mut list = vec![0; 6_144];
    let start = Instant::now();
    for _ in 0..REPORTS {
        assert!(black_box(&mut port).wait(0, black_box(&mut list)));
    }
    start.elapsed().as_secs_f64() / REPORTS as f64
}

fn peer_of_frames() -> f64 {
    let mut port = Port::with(traffic::many(), [0; 8]);
    let mut list = vec![0; 6_144];
    let start = Instant::now();
    for i in 0..REPORTS {
        assert!(black_box(&mut port).frame(FRAME * (i + 1), i % 24, i % 240, FRAME, black_box(&mut list)));
    }
    start.elapsed().as_secs_f64() / REPORTS as f64
}

/// The least time of a report, and the frames that are queued at the end.
fn least(call: impl Fn(u64) -> (f64, u64)) -> (f64, u64) {
    let (base, queued) = call(4);
    let times: Vec<f64> = (0..5).map(|_| call(REPORTS).0 - base).collect();
    (times.into_iter().fold(f64::MAX, f64::min) / REPORTS as f64, queued)
}

fn line(what: &str, ours: f64, theirs: f64) {
    println!("{:<44} {:>9.0} ns {:>9.0} ns {:>7.2}", what, ours * 1e9, theirs * 1e9, ours / theirs);
}

pub fn run() {
    let file = file_of(&traffic::many());
    println!("{:<44} {:>12} {:>12} {:>7}", "a report with the fitness check", "product", "peer", "ratio");
    // some have left by the last arrival, and none was dropped: 0, 100 and 1,000 are queued
    for frames in [0, 104, 1_043] {
        let (ours, queued) = least(|waits| product(&file, frames, waits, 0));
        line(&format!("  a wait, {queued} frames queued"), ours, peer([queued as usize / 8; 8]));
    }
    let (ours, _) = least(|reports| product(&file, 0, 0, reports));
    line("  a frame, the one before it leaves", ours, peer_of_frames());
}
