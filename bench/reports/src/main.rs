//! `reports FOLDER N` writes table and reports to the folder, N of them: what bench/replay times.

#[path = "../../src/tables.rs"]
#[allow(dead_code)]
mod tables;
#[path = "../../src/traffic.rs"]
#[allow(dead_code)]
mod traffic;

use tables::Table;
use traffic::{bytes_of, frames, Random};

/// Frames, with a wait behind each ninth, at the middle of the ticks to the next.
fn recording(table: &Table, n: usize) -> Vec<u8> {
    let frames = frames(table, n, &mut Random(11));
    let mut reports = Vec::new();
    for (i, pair) in frames.windows(2).enumerate() {
        reports.push(pair[0]);
        if i % 9 == 8 {
            reports.push([0, pair[0][1] + (pair[1][1] - pair[0][1]) / 2, 0, 0, 0]);
        }
    }
    reports.truncate(n);
    bytes_of(&reports)
}

fn main() -> std::io::Result<()> {
    let words: Vec<String> = std::env::args().collect();
    let many = words.get(2).and_then(|n| n.parse().ok()).expect("usage: reports FOLDER N");
    let table = traffic::usual();
    std::fs::write(format!("{}/table", words[1]), tables::file_of(&table))?;
    std::fs::write(format!("{}/reports", words[1]), recording(&table, many))
}
