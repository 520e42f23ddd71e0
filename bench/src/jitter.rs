//! How much jitter is left to a link: the call beside the bound calculation of the same file, of which it takes 17, cut short where a size is broken.

use crate::bounds::{busy, holds, large, product, table};
use crate::measure::{median, time};
use crate::tables::{file_of, Table};
use std::hint::black_box;

extern "C" {
    fn bench_jitter(file: *const u8, length: usize, number: u64) -> u64;
}

fn left(file: &[u8], number: u64) -> u64 {
    unsafe { bench_jitter(file.as_ptr(), file.len(), number) }
}

/// The most bound calculations' time that a call may take.
const MOST: f64 = 20.0;

const ROUNDS: usize = 15;

/// Of the links each eighth is timed.
const STEP: usize = 8;

/// Medians for these links, in turns with the bound calculation: of the link that is the median, and of the longest.
fn case(what: &str, t: &Table) {
    let file = file_of(t);
    let h = holds(t);
    println!("  {what}: holds {} to {}", h.iter().min().unwrap(), h.iter().max().unwrap());
    let mut links = Vec::new();
    for v in t.links[..usize::from(t.count)].iter().step_by(STEP) {
        let (mut calls, mut sizings) = (Vec::new(), Vec::new());
        for _ in 0..ROUNDS {
            calls.push(time(1, &mut || {
                black_box(left(black_box(&file), v.number.into()));
            }));
            sizings.push(time(1, &mut || {
                black_box(product(black_box(&file)));
            }));
        }
        links.push((median(calls), median(sizings)));
    }
    links.sort_by(|a, b| (a.0 / a.1).total_cmp(&(b.0 / b.1)));
    for (which, (call, sizing)) in [("median", links[links.len() / 2]), ("longest", links[links.len() - 1])] {
        let ratio = call / sizing;
        let says = if ratio <= MOST { "at most 20" } else { "MORE THAN 20" };
        let label = format!("  the {which} of {} links", links.len());
        println!("{label:<44} {:>9.2} us {:>9.2} us {ratio:>7.2} {says}", call * 1e6, sizing * 1e6);
    }
}

/// Links of every priority on 24 lines, all sizes above the bounds.
fn spread() -> Table {
    table(24, 256, |i| (i % 24, i % 8, 2 + i % 6, 84 + i % 60, 480 * i))
}

pub fn run() {
    println!("the jitter left to a link of 256, beside one bound calculation");
    case("24 lines, nothing fits", &large());
    case("24 lines, all fits", &spread());
    case("one line, all fits", &busy());
}
