//! The case of the program replay: a table file, a file of reports, and what is printed. The program reads 200 reports
//! at a time, and this file has more than twice as many.

use super::make::table_of;
use super::Files;
use crate::examples::link;
use crate::port::{Arrival, Report, LAST_TICK};
use crate::random::Random;
use crate::replay::{bytes_of, replay};
use crate::table::{self, Link, Table};

/// Three lines, and links that share a priority, a line, or neither; priority 3 has no room for its link.
fn table() -> Table {
    let links = [
        link(10, 0, 0, 500),
        Link { least: 100, jitter: 1_000, ..link(20, 1, 0, 1_538) },
        Link { code: 1, ..link(30, 1, 1, 1_000) },
        Link { jitter: 12_500, ..link(40, 2, 1, 600) },
        Link { code: 7, ..link(65_535, 2, 3, 700) },
    ];
    table_of(3, &links, [1_860, 1_160, 0, 679, 0, 0, 0, 16_384])
}

fn wait(tick: u64) -> Report {
    Report { tick, frame: None }
}

fn frame(tick: u64, line: u64, number: u64, length: u64) -> Report {
    Report { tick, frame: Some(Arrival { line, number, length }) }
}

/// Each verdict, departures of none, one and several frames, and the refusals 11 to 15.
fn each_answer() -> Vec<Report> {
    vec![
        wait(0),
        frame(83, 0, 10, 84),
        frame(84, 0, 10, 84),
        frame(1_000, 1, 30, 1_000),
        frame(1_001, 0, 10, 500),
        frame(13_000, 0, 10, 500),
        frame(13_500, 0, 10, 500),
        frame(13_500, 2, 40, 600),
        frame(13_499, 1, 20, 1_538),
        frame(14_000, 0, 11, 84),
        frame(14_083, 0, 10, 84),
        frame(14_100, 1, 20, 1_538),
        frame(14_100, 2, 40, 600),
        frame(14_183, 2, 40, 84),
        frame(14_184, 2, 40, 84),
        wait(14_185),
        frame(15_700, 1, 10, 500),
        frame(15_800, 1, 20, 99),
        frame(15_900, 2, 65_535, 701),
        frame(16_600, 2, 65_535, 700),
        frame(17_500, 2, 65_535, 700),
        frame(17_500, 3, 10, 500),
        frame(17_500, 0, 10, 83),
        frame(17_500, 0, 10, 1_539),
        frame(17_500, u64::MAX, u64::MAX, u64::MAX),
        wait(17_499),
        wait(LAST_TICK + 1),
        frame(u64::MAX, 0, 10, 500),
        frame(30_000, 0, 10, 500),
        frame(30_000, 1, 30, 1_000),
        frame(30_000, 2, 40, 200),
        wait(32_000),
    ]
}

/// Two waits, a frame of no link and one of each link, in a BAG of the shortest code: too often for two of the links.
/// The last frames come together, so that some are held when the next round begins.
fn round(random: &mut Random, start: u64) -> Vec<Report> {
    vec![
        wait(start + random.from(0, 300)),
        wait(start + random.from(400, 3_000)),
        frame(start + 9_000, 2, 65_535, 700),
        frame(start + 9_500, 0, 11, 84),
        frame(start + 10_700, 1, 20, random.from(100, 1_538)),
        frame(start + 12_200, 2, 40, random.from(84, 600)),
        frame(start + 12_250, 0, 10, random.from(300, 500)),
        frame(start + 12_300, 1, 30, random.from(500, 1_000)),
    ]
}

fn rounds() -> Vec<Report> {
    let mut random = Random::new(2_024_011);
    (0..52).flat_map(|i| round(&mut random, 40_000 + 12_500 * i)).collect()
}

fn end_of_time() -> Vec<Report> {
    let last = LAST_TICK;
    vec![
        wait(last - 1_000),
        frame(last - 500, 0, 65_546, 500),
        frame(last, 0, 10, 500),
        frame(last, 1, 20, 1_400),
        frame(last, 1, 20, 1_400),
        frame(last, 2, 40, 600),
    ]
}

fn reports() -> Vec<Report> {
    [each_answer(), rounds(), end_of_time()].concat()
}

/// The files of the program's folder.
pub fn files() -> Files {
    let table = table::bytes_of(&table());
    let reports: Vec<u8> = reports().iter().flat_map(bytes_of).collect();
    let stdout = replay(&table, &reports).into_bytes();
    let args = b"table\nreports\n".to_vec();
    vec![("args", args), ("data/table", table), ("data/reports", reports), ("stdout", stdout)]
}

#[cfg(test)]
mod tests {
    use super::*;
    use crate::port::{fresh, MOST_FRAMES};

    /// "200 reports": what the program reads at a time.
    const PART: usize = 200;

    #[test]
    fn frames_are_held_from_part_to_part() {
        let reports = reports();
        assert!(reports.len() > 2 * PART);
        let mut port = fresh(&table()).expect("a good table");
        let mut list = [0; 3 * 8 * MOST_FRAMES];
        for (i, report) in reports.iter().enumerate() {
            assert!(i == 0 || i % PART != 0 || port.frames_held() > 1, "{i}");
            let _ = port.report(report, &mut list);
        }
    }

    /// Some buffers hold more wire bytes than their size, and two are filled to their last byte.
    #[test]
    fn buffers_hold_more_than_their_size_in_wire_bytes() {
        let mut port = fresh(&table()).expect("a good table");
        let mut above = 0;
        for report in reports() {
            let _ = port.report(&report, &mut [0; 3 * 8 * MOST_FRAMES]);
            let wire_bytes = |p: usize| port.queues[p].frames.iter().map(|frame| frame.length).sum::<u64>();
            above += (0..8).filter(|p| wire_bytes(*p) > port.table.sizes[*p].into()).count();
        }
        assert!(above > 0);
        assert_eq!([0, 1].map(|p| port.queues[p].mark), [1_860, 1_160]);
    }

    #[test]
    fn there_is_each_kind_of_answer() {
        let files = files();
        let text = String::from_utf8(files[3].1.clone()).expect("plain text");
        for begins in ["0 0", "0 1", "0 3", "1 ", "2 ", "3 "] {
            assert!(text.contains(&format!("\naccepted {begins}")), "{begins}");
        }
        for number in 11..=15 {
            assert!(text.contains(&format!("\nrefused {number}\n")), "{number}");
        }
    }

    /// By the lines of the answers: the grand total is the number of accepted frame reports.
    #[test]
    fn the_counts_add_up() {
        let text = String::from_utf8(files()[3].1.clone()).expect("plain text");
        let answers = text.lines().zip(reports());
        let accepted = answers.filter(|(line, r)| line.starts_with("accepted ") && r.frame.is_some()).count();
        assert!(accepted > 300);
        assert!(text.ends_with(&format!("\ntotal {accepted}\n")));
        assert!(text.lines().any(|line| line.starts_with("unknown ") && line != "unknown 0"));
    }
}
