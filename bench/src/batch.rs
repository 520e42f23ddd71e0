//! A batch through the C call, beside plain Rust on flat arrays and beside the single calls on a port by value. What the three leave is
//! compared byte by byte first.

use crate::measure::{median, time};
use crate::tables::file_of;
use crate::{peer, traffic};
use std::hint::black_box;

extern "C" {
    fn fenuschia_batch(f: *const u8, fl: usize, r: *const u8, rl: usize, a: *mut u8, al: usize, d: *mut u8, dl: usize) -> u32;
    fn bench_single_calls(f: *const u8, fl: usize, r: *const u8, rl: usize, a: *mut u8, al: usize, d: *mut u8, dl: usize) -> u32;
}

fn product(f: &[u8], r: &[u8], a: &mut [u8], d: &mut [u8]) -> u32 {
    unsafe { fenuschia_batch(f.as_ptr(), f.len(), r.as_ptr(), r.len(), a.as_mut_ptr(), a.len(), d.as_mut_ptr(), d.len()) }
}

fn by_value(f: &[u8], r: &[u8], a: &mut [u8], d: &mut [u8]) -> u32 {
    unsafe { bench_single_calls(f.as_ptr(), f.len(), r.as_ptr(), r.len(), a.as_mut_ptr(), a.len(), d.as_mut_ptr(), d.len()) }
}

type Call = fn(&[u8], &[u8], &mut [u8], &mut [u8]) -> u32;

const ROUNDS: usize = 201;

/// The single calls are slow: they take part in one round of so many.
const EACH: usize = 20;

const REPORTS: u64 = 10_000;

/// A call and the lists that it is lent.
struct Side {
    call: Call,
    answers: Vec<u8>,
    departures: Vec<u8>,
}

impl Side {
    fn new(call: Call, reports: &[u8]) -> Side {
        let many = reports.len() / 40;
        Side { call, answers: vec![0xA5; 24 * many + 5], departures: vec![0xA5; 24 * (many + 2_048) + 5] }
    }

    fn run(&mut self, file: &[u8], reports: &[u8]) -> u32 {
        (self.call)(black_box(file), black_box(reports), &mut self.answers, &mut self.departures)
    }

    fn seconds(&mut self, file: &[u8], reports: &[u8]) -> f64 {
        time(1, &mut || {
            black_box(self.run(file, reports));
        })
    }
}

/// Median seconds of the product, the peer and the single calls.
fn medians(file: &[u8], reports: &[u8]) -> [f64; 3] {
    let mut sides = [product, peer::batch, by_value].map(|call| Side::new(call, reports));
    for side in &mut sides {
        assert_eq!(side.run(file, reports), 0);
    }
    for side in &sides[1..] {
        assert!(side.answers == sides[0].answers && side.departures == sides[0].departures, "the sides differ");
    }
    let mut times = [(); 3].map(|()| Vec::new());
    for round in 0..ROUNDS {
        for (i, side) in sides.iter_mut().enumerate() {
            if i < 2 || round % EACH == 0 {
                times[i].push(side.seconds(file, reports));
            }
        }
    }
    times.map(median)
}

fn line(what: &str, seconds: [f64; 3], reports: u64) {
    let [ours, theirs, single] = seconds.map(|s| s / reports as f64 * 1e9);
    println!(
        "{:<44} {:>9.1} ns {:>9.1} ns {:>7.2} {:>9.0} ns {:>6.0}",
        what, ours, theirs, ours / theirs, single, single / ours
    );
}

pub fn run() {
    println!(
        "{:<44} {:>12} {:>12} {:>7} {:>12} {:>6}",
        "a report of a batch", "product", "peer", "ratio", "single calls", "faster"
    );
    let (usual, many) = (traffic::usual(), traffic::many());
    let usual_file = file_of(&usual);
    let frames = traffic::load(&usual, REPORTS as usize);
    line("  10,000 frames, 100 links, 12 lines, 80 %", medians(&usual_file, &frames), REPORTS);
    line("  10,000 waits, nothing queued", medians(&usual_file, &traffic::waits(REPORTS)), REPORTS);
    // of 1,043 frames some have left by the last arrival, and none was dropped: 1,000 are queued
    let many_file = file_of(&many);
    let whole = medians(&many_file, &traffic::filled(1_043, REPORTS as usize));
    let filling = medians(&many_file, &traffic::filling(1_043));
    line("  10,000 waits behind 1,043 frames, whole", whole, REPORTS + 1_043);
    line("    the waits, 1,000 frames queued", [0, 1, 2].map(|i| whole[i] - filling[i]), REPORTS);
}
