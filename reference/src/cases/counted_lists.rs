//! Lists of reports for the counts: the issue's, frames that the filter stops in every way, and each verdict for the first and
//! the last of many links.

use super::lists::List;
use super::make::table_of;
use super::named_lists::{frame, list_of, told, wait};
use crate::examples::{link, table_e};
use crate::port::{fresh, Report};
use crate::table::{Link, Table};

/// Every list, in order.
pub fn all() -> Vec<List> {
    vec![counts_that_add_up(), stopped(), of_no_link(), of_many_links()]
}

/// "After a rig day the crew wants to see where the frames went": frames of each kind on table E, two of them refused.
fn counts_that_add_up() -> List {
    let reports = [
        frame(1_001, 0, 1, 500),
        frame(13_500, 0, 1, 500),
        frame(13_900, 1, 1, 300),
        frame(14_001, 0, 1, 501),
        frame(14_200, 0, 9, 84),
        frame(14_300, 0, 65_537, 84),
        frame(14_310, 0, 1, 84),
        wait(15_000),
        frame(15_000, 7, 1, 84),
        frame(16_000, 1, 2, 1_000),
    ];
    let table = table_e();
    let mut port = fresh(&table).expect("a good table");
    List { calls: told(&mut port, &reports).0, table }
}

/// Each link's frames on other lines, of lengths outside its limits, and both; and some that it lets through.
fn stopped() -> List {
    let links = [
        Link { least: 100, ..link(1, 0, 0, 500) },
        Link { least: 700, ..link(2, 1, 1, 700) },
        Link { least: 100, ..link(7, 2, 1, 1_000) },
        Link { least: 100, ..link(65_535, 2, 7, 500) },
    ];
    let table = table_of(3, &links, [480, 680, 0, 0, 0, 0, 0, 480]);
    let mut reports = Vec::new();
    for (i, v) in (0..).zip(&links) {
        let (own, other) = (u64::from(v.line), (u64::from(v.line) + 1) % 3);
        let [number, least, greatest] = [v.number, v.least, v.greatest].map(u64::from);
        let frames = [
            (own, greatest),
            (own, greatest + 1),
            (own, least - 1),
            (other, greatest),
            (other, greatest + 1),
            (other, least - 1),
            (own, least),
        ];
        for (k, (line, length)) in (0..).zip(frames) {
            reports.push(frame(50_000 * i + 2_000 * (k + 1), line, number, length));
        }
    }
    list_of(table, &reports)
}

/// Unknown numbers: beside those of links, a bit above them, and those of entries behind the count.
fn of_no_link() -> List {
    let links = [link(1, 0, 0, 500), link(300, 1, 1, 500), link(65_534, 1, 1, 500)];
    let mut table = table_of(2, &links, [480, 480, 0, 0, 0, 0, 0, 0]);
    table.links[3] = link(65_535, 0, 0, 500);
    let mut numbers = vec![0, 2, 44, 299, 301, 65_533, 65_535, 65_536, u64::MAX, u64::MAX - 1, 1 << 63];
    for bit in [16, 17, 31, 32, 33, 63] {
        numbers.extend(links.iter().map(|v| u64::from(v.number) + (1 << bit)));
    }
    let mut reports = Vec::new();
    for (i, number) in (0..).zip(numbers) {
        let tick = 1_000 * (i + 1);
        reports.push(frame(tick, i % 2, number, [84, 500, 501][i as usize % 3]));
    }
    reports.extend([frame(50_000, 0, 1, 500), frame(50_000, 1, 300, 500), wait(52_000)]);
    list_of(table, &reports)
}

/// 256 links, whose buffers have room for one frame of 84 bytes and for none that is longer.
pub fn many_links() -> Table {
    let one = |i: u16| link(200 * i, (i % 24) as u8, (i % 8) as u8, 500);
    let links: Vec<Link> = (0..256).map(one).collect();
    table_of(24, &links, [64; 8])
}

/// Of a link of which nothing passed for a BAG, with room for 84 bytes and no more: stored, policed, filtered for its length and
/// its line, a frame of no link, and dropped. It takes 30,000 ticks.
pub fn round(table: &Table, v: &Link, start: u64) -> Vec<Report> {
    let (line, number) = (u64::from(v.line), u64::from(v.number));
    let other = (line + 1) % u64::from(table.lines);
    vec![
        frame(start + 2_000, line, number, 84),
        frame(start + 4_000, line, number, 84),
        frame(start + 6_000, line, number, u64::from(v.greatest) + 1),
        frame(start + 8_000, other, number, 84),
        frame(start + 10_000, line, number + 65_536, 84),
        frame(start + 16_000, line, number, 85),
    ]
}

/// The first two links, the last two, and two in the middle.
fn of_many_links() -> List {
    let table = many_links();
    let mut reports = Vec::new();
    for (i, k) in (0..).zip([255, 0, 128, 254, 127, 1, 0, 255]) {
        reports.extend(round(&table, &table.links[k], 30_000 * i));
    }
    list_of(table, &reports)
}

#[cfg(test)]
mod tests {
    use super::*;
    use crate::port::{Port, Sums};

    fn after(list: &List) -> Port {
        let mut port = fresh(&list.table).expect("a good table");
        for call in &list.calls {
            let _ = port.report(&call.report, &mut vec![0; call.list]);
        }
        port
    }

    #[test]
    fn the_issues_list() {
        let port = after(&counts_that_add_up());
        assert_eq!((&port.counts[..], port.unknown), (&[[1, 2, 1, 0], [1, 0, 0, 0]][..], 2));
        assert_eq!(port.sums(), Ok(Sums { links: vec![4, 1], total: Some(7) }));
    }

    /// There is no room for the longest frame of link 7.
    #[test]
    fn what_is_stopped_counts_under_its_number() {
        let port = after(&stopped());
        let stored = [1, 5, 1, 0];
        let counts = [stored, stored, [0, 5, 1, 1], stored];
        assert_eq!((&port.counts[..], port.unknown), (&counts[..], 0));
    }

    #[test]
    fn what_is_of_no_link() {
        let port = after(&of_no_link());
        let stored = [1, 0, 0, 0];
        assert_eq!((&port.counts[..], port.unknown), (&[stored, stored, [0; 4]][..], 29));
    }

    #[test]
    fn each_verdict_of_many_links() {
        let port = after(&of_many_links());
        let counts = |i: usize| match i {
            0 | 255 => [2, 4, 2, 2],
            1 | 127 | 128 | 254 => [1, 2, 1, 1],
            _ => [0; 4],
        };
        assert!((0..256).all(|i| port.counts[i] == counts(i)));
        assert_eq!((port.unknown, port.sums().map(|sums| sums.total)), (8, Ok(Some(48))));
    }
}
