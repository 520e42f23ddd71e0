//! The handful that breaks a table: the call beside the bound calculation of a large table that has bounds, since without them it
//! ends early; and beside the same removal by the same test in plain Rust.

use crate::bounds::{frames_by_shift, large, links, product, table};
use crate::measure::{median, time};
use crate::tables::{file_of, read, Table};
use std::hint::black_box;

extern "C" {
    fn bench_core(file: *const u8, length: usize) -> u64;
}

/// How many links remain; 0 with a refusal.
fn remaining(file: &[u8]) -> u64 {
    unsafe { bench_core(file.as_ptr(), file.len()) }
}

/// The most bound calculations' time that a call may take, and the most seconds.
const MOST: f64 = 256.0;

const LONGEST: f64 = 1.0;

const ROUNDS: usize = 15;

/// Whether for some window all links together send no more than it takes: then there are bounds.
fn has_bounds(t: &Table) -> bool {
    let mut last = 0;
    while last < 65_536 {
        let n: u64 = links(t).iter().map(|v| u64::from(v.greatest) * frames_by_shift(v, last)).sum();
        if n <= last + 1 {
            return true;
        }
        last = n - 1;
    }
    false
}

/// The links of the table that remain, tried for removal in their order.
fn reduce(t: &mut Table) {
    let mut at = 0;
    while at < usize::from(t.count) {
        let tried = t.links[at];
        t.links.copy_within(at + 1.., at);
        t.count -= 1;
        if has_bounds(t) {
            t.links.copy_within(at..255, at + 1);
            t.links[at] = tried;
            t.count += 1;
            at += 1;
        }
    }
}

fn peer(file: &[u8]) -> u64 {
    let Ok(mut t) = read(file) else { return 0 };
    if has_bounds(&t) {
        return 0;
    }
    reduce(&mut t);
    t.count.into()
}

/// Medians of the call, of the bound calculation of the large table and of the peer, in turns.
fn medians(file: &[u8], large: &[u8]) -> (f64, f64, f64) {
    let (mut calls, mut sizings, mut peers) = (Vec::new(), Vec::new(), Vec::new());
    for _ in 0..ROUNDS {
        calls.push(time(1, &mut || {
            black_box(remaining(black_box(file)));
        }));
        sizings.push(time(1, &mut || {
            black_box(product(black_box(large)));
        }));
        peers.push(time(1, &mut || {
            black_box(peer(black_box(file)));
        }));
    }
    (median(calls), median(sizings), median(peers))
}

fn case(what: &str, t: &Table, large: &[u8]) {
    let file = file_of(t);
    let kept = remaining(&file);
    assert_eq!(kept, peer(&file));
    println!("  {what}: {kept} remain");
    let (call, sizing, same) = medians(&file, large);
    let row = |label: &str, other: f64, says: &str| {
        println!("{label:<44} {:>9.2} us {:>9.2} us {:>7.2}{says}", call * 1e6, other * 1e6, call / other);
    };
    let many = if call / sizing <= MOST {
        "at most 256 bound calculations"
    } else {
        "MORE THAN 256 BOUND CALCULATIONS"
    };
    let long = if call <= LONGEST { "at most one second" } else { "MORE THAN ONE SECOND" };
    row("  beside one bound calculation", sizing, &format!(" {many}, {long}"));
    row("  beside the same method", same, "");
}

/// Three links that have no bounds, behind as many small ones as there is room for.
fn three_last() -> Table {
    table(24, 256, |i| if i < 253 { (i % 20, i % 8, 7, 84, 0) } else { (i - 253 + 20, 0, 0, 1_538, 125_000) })
}

/// 256 links of a frame each, 65,537 bytes: one more than the ticks of the longest hold.
fn all_at_once(lines: usize) -> Table {
    table(lines as u16, 256, |i| (i % lines, i % 8, 7, if i == 255 { 257 } else { 256 }, 0))
}

/// 256 links on one line with three frames each, 65,538 bytes: by lines each step towards a hold is less than a frame.
fn one_line() -> Table {
    table(1, 256, |i| (0, 0, 2, if i < 170 { 85 } else { 86 }, 84_000))
}

/// 256 links with two frames each, the second ones one after another: each step towards a hold is one frame, or two.
fn one_by_one() -> Table {
    table(24, 256, |i| (i % 24, i % 8, 3, if i == 255 { 129 } else { 128 }, 67_500 - 128 * i))
}

/// 256 links of the least length, of 1 and 8 ms, each frame in a slot of its own: of the tables that were searched for long climbs, the
/// longest that has a rule.
fn slot_by_slot() -> Table {
    table(24, 256, |i| {
        let (line, priority, late) = (i % 24, i % 8, i.saturating_sub(66));
        if i < 66 {
            (line, priority, 0, 84, (4_636 + 12_500 - 84 * i) % 12_500)
        } else {
            (line, priority, 3, 84, 61_592 - 84 * (late + 66 * (late.saturating_sub(1) / 82)))
        }
    })
}

pub fn run() {
    println!("the handful of 256 links that breaks the table");
    let large = file_of(&large());
    case("three heavy links, the last", &three_last(), &large);
    case("24 lines, without jitter", &all_at_once(24), &large);
    case("one line, without jitter", &all_at_once(1), &large);
    case("one line, with jitter", &one_line(), &large);
    case("24 lines, frame by frame", &one_by_one(), &large);
    case("24 lines, slot by slot", &slot_by_slot(), &large);
}
