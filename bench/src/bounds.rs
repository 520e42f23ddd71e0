//! Bounds, holds and windows, and the sheet: the product beside the literal formulas and beside the same method in plain Rust.

use crate::measure::{compare, once};
use crate::tables::{file_of, read, Link, Table, UNKEPT};
use std::hint::black_box;

extern "C" {
    fn bench_sizing(file: *const u8, length: usize) -> u64;
    fn bench_sheet(file: *const u8, length: usize) -> u64;
}

pub fn product(file: &[u8]) -> u64 {
    unsafe { bench_sizing(file.as_ptr(), file.len()) }
}

fn product_sheet(file: &[u8]) -> u64 {
    unsafe { bench_sheet(file.as_ptr(), file.len()) }
}

const BAGS: [u64; 8] = [12_500, 25_000, 50_000, 100_000, 200_000, 400_000, 800_000, 1_600_000];

fn frames(v: &Link, w: u64) -> u64 {
    1 + (w + u64::from(v.jitter)) / BAGS[usize::from(v.code)]
}

/// The same by a division by the first BAG, since each BAG is the one before, doubled.
pub fn frames_by_shift(v: &Link, w: u64) -> u64 {
    1 + (((w + u64::from(v.jitter)) / BAGS[0]) >> v.code)
}

pub fn links(t: &Table) -> &[Link] {
    &t.links[..usize::from(t.count)]
}

fn longest(t: &Table, low: u8, high: u8) -> u64 {
    links(t).iter().filter(|v| low <= v.priority && v.priority <= high).map(|v| u64::from(v.greatest)).max().unwrap_or(0)
}

/// The sum of bytes of the members of each line, and their greatest length, both in lengths less `off`.
#[derive(Clone, Copy)]
struct Loads {
    sums: [u64; 24],
    tops: [u64; 24],
}

fn loads(t: &Table, low: u8, high: u8, off: u64, w: u64, frames: impl Fn(&Link, u64) -> u64) -> Loads {
    let mut l = Loads { sums: [0; 24], tops: [0; 24] };
    for v in links(t).iter().filter(|v| low <= v.priority && v.priority <= high) {
        let (k, x) = (usize::from(v.line), u64::from(v.greatest) - off);
        l.sums[k] += x * frames(v, w);
        l.tops[k] = l.tops[k].max(x);
    }
    l
}

fn total(l: &Loads, lines: u16, w: u64) -> u64 {
    (0..usize::from(lines)).map(|k| l.sums[k].min(w + l.tops[k])).sum()
}

fn arrivals(t: &Table, low: u8, high: u8, off: u64, w: u64, frames: impl Fn(&Link, u64) -> u64) -> u64 {
    total(&loads(t, low, high, off, w, frames), t.lines, w)
}

/// Bound, hold and window of each priority.
#[derive(Clone, Copy, Debug, Default, PartialEq)]
struct Limits {
    bound: u64,
    hold: u64,
    window: u64,
}

fn sum(rows: &[Limits; 8]) -> u64 {
    rows.iter().map(|r| r.bound + r.hold + r.window).sum()
}

/// The literal formulas: for each priority, for each w in turn, A anew by one pass over all links and one over all lines.
fn literal(t: &Table) -> Option<[Limits; 8]> {
    let mut rows = [Limits::default(); 8];
    for (p, row) in (0..8).zip(&mut rows) {
        let b = longest(t, p + 1, 7).saturating_sub(1);
        row.hold = (1..=65_536).find(|w| b + arrivals(t, 0, p, 0, w - 1, frames) <= *w)?;
        let m = longest(t, p, p);
        if m == 0 {
            continue;
        }
        for w in 0..row.hold {
            let other = arrivals(t, 0, p, 0, w, frames) - w.saturating_sub(b) + m - 1;
            let amount = arrivals(t, p, p, UNKEPT.into(), w, frames).min(other);
            if amount > row.bound {
                (row.bound, row.window) = (amount, w);
            }
        }
    }
    Some(rows)
}

/// The same method: climb to the hold; stretches in which no N changes; a cap; bisection on the slope.
fn fast(t: &Table) -> Option<[Limits; 8]> {
    let mut rows = [Limits::default(); 8];
    for (p, row) in (0..8).zip(&mut rows) {
        let b = longest(t, p + 1, 7).saturating_sub(1);
        row.hold = climb(t, p, b)?;
        let m = longest(t, p, p);
        if m > 0 {
            (row.bound, row.window) = peak(t, p, b, m, row.hold - 1);
        }
    }
    Some(rows)
}

fn climb(t: &Table, p: u8, b: u64) -> Option<u64> {
    let mut last = 0;
    while last < 65_536 {
        let n = b + arrivals(t, 0, p, 0, last, frames_by_shift);
        if n <= last + 1 {
            return Some(last + 1);
        }
        last = n - 1;
    }
    None
}

/// The greatest amount, and the first w at which it occurs.
fn peak(t: &Table, p: u8, b: u64, m: u64, last: u64) -> (u64, u64) {
    let (mut best, mut window, mut w) = (0, 0, 0);
    while w <= last {
        let (own, up) = (loads(t, p, p, UNKEPT.into(), w, frames_by_shift), loads(t, 0, p, 0, w, frames_by_shift));
        let until = steady(t, p, w).min(last);
        let by = |w: u64, sent: u64| {
            total(&own, t.lines, w).min(total(&up, t.lines, w).saturating_sub(sent.saturating_sub(b)) + m - 1)
        };
        if by(until, w) > best {
            let (mut low, mut high) = (w, until);
            while low < high {
                let mid = (low + high) / 2;
                if by(mid, mid) < by(mid + 1, mid + 1) {
                    low = mid + 1;
                } else {
                    high = mid;
                }
            }
            let amount = by(low, low);
            if amount > best {
                (best, window) = (amount, low);
            }
        }
        w = until + 1;
    }
    (best, window)
}

fn steady(t: &Table, high: u8, w: u64) -> u64 {
    let until = |v: &Link| frames_by_shift(v, w) * BAGS[usize::from(v.code)] - u64::from(v.jitter) - 1;
    links(t).iter().filter(|v| v.priority <= high).map(until).min().unwrap_or(65_535).min(65_535)
}

/// A table of n links: number i has the line, priority, code, greatest length and jitter that `of` gives.
pub fn table(lines: u16, n: usize, of: impl Fn(usize) -> (usize, usize, usize, usize, usize)) -> Table {
    let mut links = [Link::default(); 256];
    for (i, v) in links.iter_mut().enumerate().take(n) {
        let (line, priority, code, greatest, jitter) = of(i);
        *v = Link {
            number: i as u16,
            line: line as u8,
            priority: priority as u8,
            code: code as u8,
            least: 84,
            greatest: greatest as u16,
            jitter: jitter as u32,
        };
    }
    Table { lines, count: n as u16, links, sizes: [16_384; 8] }
}

pub fn holds(t: &Table) -> Vec<u64> {
    (0..8).filter_map(|p| climb(t, p, longest(t, p + 1, 7).saturating_sub(1))).collect()
}

fn case(what: &str, t: &Table, calls: usize, with_literal: bool) {
    let file = file_of(t);
    let same = read(&file).ok().and_then(|t| fast(&t));
    assert_eq!(Some(product(&file)), same.as_ref().map(sum));
    assert_eq!(product_sheet(&file), byte_sum(&sheet(&file)));
    let h = holds(t);
    println!("{what}: holds {} to {}", h.iter().min().unwrap(), h.iter().max().unwrap());
    if with_literal {
        let (slow, rows) = once(|| literal(t));
        assert_eq!(rows, same);
        let (quick, _) = once(|| product(&file));
        println!("{:<44} {:>9.2} ms {:>9.2} ms {:>7.4}", "  beside the literal formulas", quick * 1e3, slow * 1e3, quick / slow);
    }
    compare(
        "  beside the same method",
        calls,
        || {
            black_box(product(black_box(&file)));
        },
        || {
            black_box(read(black_box(&file)).ok().and_then(|t| fast(&t)));
        },
    );
    compare(
        "  the sheet beside the same method",
        calls,
        || {
            black_box(product_sheet(black_box(&file)));
        },
        || {
            black_box(byte_sum(&sheet(black_box(&file))));
        },
    );
}

/// The sheet of a file, or `refused N`.
fn sheet(file: &[u8]) -> String {
    match read(file).and_then(|t| Ok(printed(&fast(&t).ok_or(8u32)?, &t.sizes))) {
        Ok(text) => text,
        Err(number) => format!("refused {number}\n"),
    }
}

fn printed(rows: &[Limits; 8], sizes: &[u32; 8]) -> String {
    let mut text = String::from("priority bound hold window size spare fill\n");
    for (p, (row, &size)) in rows.iter().zip(sizes).enumerate() {
        let spare = i64::from(size) - row.bound as i64;
        text += &format!("{p} {} {} {} {size} {spare} ", row.bound, row.hold, row.window);
        match size {
            0 => text.push_str("-\n"),
            _ => text += &format!("{}\n", (1_000 * row.bound).div_ceil(u64::from(size))),
        }
    }
    text
}

fn byte_sum(text: &str) -> u64 {
    text.bytes().map(u64::from).sum()
}

/// A large table whose eight holds all lie above 50,000: 147 links of priority 0, the others small, codes and jitters mixed.
pub fn large() -> Table {
    let mut x = 164u64.wrapping_mul(0x9E37_79B9_7F4A_7C15) | 1;
    let mut next = |n: usize| {
        x ^= x << 13;
        x ^= x >> 7;
        x ^= x << 17;
        (x % n as u64) as usize
    };
    let (first, length, small, slow) = (100 + next(80), 150 + next(300), 84 + next(3), next(4));
    let row = |i: usize| {
        let urgent = i < first;
        let priority = if urgent { 0 } else { 1 + (i - first) % 7 };
        let code = if urgent { 2 + next(3) } else { 3 + slow + next(4).min(4 - slow) };
        let greatest = if urgent { length + next(100) } else { small };
        (i % 24, priority, code.min(7), greatest, next(if urgent { 60_000 } else { 125_000 }))
    };
    let rows: Vec<_> = (0..256).map(row).collect();
    table(24, 256, |i| rows[i])
}

/// As many links on one line.
pub fn busy() -> Table {
    table(1, 256, |i| (0, i % 8, 3 + i % 5, 90 + i % 120, 400 * i))
}

pub fn run() {
    case("256 links on 24 lines", &large(), 1, true);
    let usual = table(12, 100, |i| (i % 12, i % 8, i % 8, 84 + 3 * (i % 40), 500 * (i % 9)));
    case("100 links on 12 lines", &usual, 10, true);
    case("256 links on one line", &busy(), 1, true);
}
