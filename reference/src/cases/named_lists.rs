//! Lists of reports made by hand: table C filled to the last byte of its buffer, frames at the last byte of a size, and a line
//! that is full; and those for the counts.

use super::counted_lists;
use super::lists::{Call, List};
use super::make::table_of;
use crate::examples::{filled_c, link, table_c, table_e, table_full};
use crate::port::{fresh, Answer, Arrival, Port, Report};
use crate::table::Table;

/// Every list, in order.
pub fn all() -> Vec<List> {
    let mut lists = vec![c_filled(16_384), c_filled(16_383)];
    for sizes in [[480, 980], [479, 980], [480, 979], [479, 979]] {
        lists.push(e_sized(sizes));
    }
    lists.push(brimful());
    lists.push(full_line());
    lists.extend(counted_lists::all());
    lists
}

pub fn wait(tick: u64) -> Report {
    Report { tick, frame: None }
}

pub fn frame(tick: u64, line: u64, number: u64, length: u64) -> Report {
    Report { tick, frame: Some(Arrival { line, number, length }) }
}

/// The reports in order to this port, each lent a list that is just long enough; and what is answered.
pub fn told(port: &mut Port, reports: &[Report]) -> (Vec<Call>, Vec<Result<Answer, u32>>) {
    let mut calls = Vec::new();
    let mut answers = Vec::new();
    for report in reports {
        let list = 3 * port.frames_held();
        answers.push(port.report(report, &mut vec![0; list]));
        calls.push(Call { report: *report, list });
    }
    (calls, answers)
}

/// The reports in order to a fresh port, which accepts them all.
pub fn list_of(table: Table, reports: &[Report]) -> List {
    let mut port = fresh(&table).expect("a good table");
    let (calls, answers) = told(&mut port, reports);
    assert!(answers.iter().all(Result::is_ok), "a report is refused");
    List { table, calls }
}

/// Table C with this size of priority 0: its 257 frames, a frame too many of links 22 and 23, and waits until all have left.
fn c_filled(size: u32) -> List {
    let mut table = table_c();
    table.sizes[0] = size;
    let mut reports: Vec<Report> =
        filled_c().into_iter().map(|(tick, frame)| Report { tick, frame: Some(frame) }).collect();
    reports.push(wait(2_841));
    reports.push(frame(2_925, 22, 22, 84));
    reports.push(frame(2_925, 23, 23, 84));
    let last = 3_538 + 84 * 256;
    for tick in [3_537, 3_538, 3_622, 12_000, last - 85, last - 1, last, last + 1] {
        reports.push(wait(tick));
    }
    list_of(table, &reports)
}

/// Table E with these sizes, a BAG at a time: frames at and just below their greatest lengths, the long one first.
fn e_sized(sizes: [u32; 2]) -> List {
    let mut table = table_e();
    table.sizes[..2].copy_from_slice(&sizes);
    let lengths = [(500, 1_000), (499, 1_000), (500, 999), (499, 999), (84, 1_000), (500, 84), (500, 1_000)];
    let mut reports = Vec::new();
    for (i, (one, two)) in (0..).zip(lengths) {
        let start = 1_000 + 12_500 * i;
        reports.extend([frame(start, 1, 2, two), frame(start + 1, 0, 1, one), wait(start + 5_000)]);
    }
    list_of(table, &reports)
}

/// Three lines and a size of 900: the last of two or three frames takes the last byte, or would need one more.
fn brimful() -> List {
    let links = [0, 1, 2].map(|number| link(number, number as u8, 0, 500));
    let table = table_of(3, &links, [900, 0, 0, 0, 0, 0, 0, 0]);
    let lengths = [
        vec![500, 440],
        vec![500, 441],
        vec![440, 500],
        vec![441, 500],
        vec![500, 84, 376],
        vec![500, 84, 377],
        vec![84, 376, 500],
        vec![84, 377, 500],
        vec![500, 439, 84],
        vec![320, 320, 320],
        vec![320, 321, 320],
    ];
    let mut reports = Vec::new();
    for (i, lengths) in (0..).zip(lengths) {
        let start = 1_000 + 12_500 * i;
        for (k, length) in (0..).zip(lengths) {
            reports.push(frame(start + 10 * k, k, k, length));
        }
        reports.push(wait(start + 2_000));
    }
    list_of(table, &reports)
}

/// FULL for three of its BAGs: each link's longest frame, one behind the other with no tick between them.
fn full_line() -> List {
    let table = table_full();
    let mut reports = Vec::new();
    let mut tick = 0;
    for _ in 0..3 {
        for v in table.members() {
            tick += u64::from(v.greatest);
            reports.push(frame(tick, 0, v.number.into(), v.greatest.into()));
        }
    }
    reports.push(wait(tick + 1_538));
    list_of(table, &reports)
}

#[cfg(test)]
mod tests {
    use super::*;
    use crate::port::{DROPPED, POLICED, STORED};

    /// The verdicts of the frames of a list.
    fn verdicts(list: &List) -> Vec<u64> {
        let mut port = fresh(&list.table).expect("a good table");
        let mut found = Vec::new();
        for call in &list.calls {
            let answer = port.report(&call.report, &mut vec![0; call.list]).expect("accepted");
            found.extend(call.report.frame.map(|_| answer.verdict));
        }
        assert_eq!(port.frames_held(), 0);
        found
    }

    #[test]
    fn the_last_frame_of_c() {
        let mut expected = vec![STORED; 257];
        expected.extend([POLICED, POLICED]);
        assert_eq!(verdicts(&c_filled(16_384)), expected);
        expected[256] = DROPPED;
        assert_eq!(verdicts(&c_filled(16_383)), expected);
    }

    #[test]
    fn all_of_a_full_line_are_stored() {
        assert_eq!(verdicts(&full_line()), [STORED; 27]);
        assert_eq!(full_line().calls[26].report.tick, 3 * 12_500);
    }

    #[test]
    fn the_last_byte_of_a_size() {
        assert_eq!(verdicts(&e_sized([480, 980])), [STORED; 14]);
        let short = |v: u64| if v == 1 { DROPPED } else { STORED };
        assert_eq!(verdicts(&e_sized([479, 980])), [0, 1, 0, 0, 0, 1, 0, 0, 0, 0, 0, 1, 0, 1].map(short));
        assert_eq!(verdicts(&e_sized([480, 979])), [1, 0, 1, 0, 0, 0, 0, 0, 1, 0, 0, 0, 1, 0].map(short));
        let two = [0, 0, 0, 1, 0, 0, 0, 1, 0, 0, 0, 0, 0, 1, 0, 0, 0, 0, 0, 1].map(short);
        let three = [0, 0, 1, 0, 0, 0, 0, 0, 1].map(short);
        assert_eq!(verdicts(&brimful()), [&two[..], &three[..]].concat());
    }
}
