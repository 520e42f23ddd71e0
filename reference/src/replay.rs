//! What the program replay prints: a line for each report of a file, then held bytes and mark of each priority, then the counts.

use crate::port::{fresh, Arrival, Port, Report, MOST_FRAMES};
use crate::table;

/// A file that is no run of reports.
const NO_REPORTS: u32 = 19;

/// "five 8-byte little-endian numbers each: form (0 wait, 1 frame), tick, line, number, length"
pub const REPORT_BYTES: usize = 40;

fn report_of(bytes: &[u8]) -> Result<Report, u32> {
    let number = |i: usize| u64::from_le_bytes(bytes[8 * i..8 * i + 8].try_into().expect("eight bytes"));
    let frame = match number(0) {
        0 => None,
        1 => Some(Arrival { line: number(2), number: number(3), length: number(4) }),
        _ => return Err(NO_REPORTS),
    };
    Ok(Report { tick: number(1), frame })
}

/// "a file that is no multiple of 40 bytes, or has another form in it": 19.
pub fn reports_of(file: &[u8]) -> Result<Vec<Report>, u32> {
    let reports = file.chunks_exact(REPORT_BYTES);
    if !reports.remainder().is_empty() {
        return Err(NO_REPORTS);
    }
    reports.map(report_of).collect()
}

/// The bytes of a report in a file of reports; a wait's last three numbers count for nothing.
pub fn bytes_of(report: &Report) -> Vec<u8> {
    let numbers = match report.frame {
        Some(frame) => [1, report.tick, frame.line, frame.number, frame.length],
        None => [0, report.tick, 7, 7, 7],
    };
    numbers.iter().flat_map(|number| number.to_le_bytes()).collect()
}

fn line_of(port: &mut Port, report: &Report) -> String {
    let mut list = [0; 3 * 8 * MOST_FRAMES];
    let answer = match port.report(report, &mut list) {
        Ok(answer) => answer,
        Err(refusal) => return format!("refused {refusal}\n"),
    };
    let mut line = format!("accepted {} {} {}", answer.verdict, answer.frames, answer.bytes);
    for departure in list.chunks(3).take(answer.frames as usize) {
        line += &format!(" {}:{}:{}", departure[0], departure[1], departure[2]);
    }
    line + "\n"
}

/// "After a rig day the crew wants to see where the frames went": a line for each link, with its counts and their sum, then
/// the count of unknown numbers and the grand total, or `-` where there is none.
fn counts_of(port: &Port) -> Result<String, u32> {
    let sums = port.sums()?;
    let mut text = String::from("number stored filtered policed dropped sum\n");
    for ((v, counts), sum) in port.table.members().iter().zip(&port.counts).zip(&sums.links) {
        let [stored, filtered, policed, dropped] = counts;
        text += &format!("{} {stored} {filtered} {policed} {dropped} {sum}\n", v.number);
    }
    let total = sums.total.map_or("-".to_string(), |total| total.to_string());
    Ok(text + &format!("unknown {}\ntotal {total}\n", port.unknown))
}

fn lines_of(table: &[u8], file: &[u8]) -> Result<String, u32> {
    let table = table::read(table)?;
    let mut port = fresh(&table)?;
    let mut text = String::new();
    for report in reports_of(file)? {
        text += &line_of(&mut port, &report);
    }
    text += "priority held mark\n";
    for (p, queue) in port.queues.iter().enumerate() {
        text += &format!("{p} {} {}\n", queue.held(), queue.mark);
    }
    Ok(text + &counts_of(&port)?)
}

/// All that is printed for a table file and a file of reports.
pub fn replay(table: &[u8], reports: &[u8]) -> String {
    match lines_of(table, reports) {
        Ok(text) => text,
        Err(refusal) => format!("refused {refusal}\n"),
    }
}

#[cfg(test)]
mod tests {
    use super::*;
    use crate::examples::{table_e, table_over};
    use crate::port::FULL_COUNT;

    const END: &str =
        "2 0 0\n3 0 0\n4 0 0\n5 0 0\n6 0 0\n7 0 0\nnumber stored filtered policed dropped sum\n";

    fn frame(tick: u64, number: u64, length: u64) -> Vec<u8> {
        bytes_of(&Report { tick, frame: Some(Arrival { line: number - 1, number, length }) })
    }

    #[test]
    fn c() {
        let table = table::bytes_of(&table_e());
        let wait = bytes_of(&Report { tick: 5_000, frame: None });
        let reports = [frame(1_000, 2, 1_000), frame(1_001, 1, 500), wait].concat();
        let answers = "accepted 0 0 0\naccepted 0 0 0\naccepted 0 2 1460 2:1000:2000 1:500:2500\n";
        let counts = "1 1 0 0 0 1\n2 1 0 0 0 1\nunknown 0\ntotal 2\n";
        let expected = format!("{answers}priority held mark\n0 0 480\n1 0 980\n{END}{counts}");
        assert_eq!(replay(&table, &reports), expected);
        let none = "1 0 0 0 0 0\n2 0 0 0 0 0\nunknown 0\ntotal 0\n";
        assert_eq!(replay(&table, &[]), format!("priority held mark\n0 0 0\n1 0 0\n{END}{none}"));
    }

    #[test]
    fn counts_that_add_up() {
        let on = |tick, line, number, length| {
            bytes_of(&Report { tick, frame: Some(Arrival { line, number, length }) })
        };
        let reports = [
            on(1_001, 0, 1, 500),
            on(13_500, 0, 1, 500),
            on(13_900, 1, 1, 300),
            on(14_001, 0, 1, 501),
            on(14_200, 0, 9, 84),
            on(14_300, 0, 65_537, 84),
            on(14_310, 0, 1, 84),
            bytes_of(&Report { tick: 15_000, frame: None }),
            on(15_000, 7, 1, 84),
            on(16_000, 1, 2, 1_000),
        ];
        let printed = replay(&table::bytes_of(&table_e()), &reports.concat());
        let counts = "1 1 2 1 0 4\n2 1 0 0 0 1\nunknown 2\ntotal 7\n";
        assert!(printed.ends_with(&format!("priority held mark\n0 0 480\n1 980 980\n{END}{counts}")));
    }

    #[test]
    fn no_grand_total() {
        let mut port = fresh(&table_e()).expect("a good table");
        port.counts[1][2] = FULL_COUNT;
        let counts = format!("1 0 0 0 0 0\n2 0 0 {FULL_COUNT} 0 {FULL_COUNT}\nunknown 0\ntotal -\n");
        let text = counts_of(&port).expect("a fit record");
        assert_eq!(text, format!("number stored filtered policed dropped sum\n{counts}"));
    }

    #[test]
    fn refusals() {
        let table = table::bytes_of(&table_e());
        let good = frame(1_000, 2, 1_000);
        let mut other = good.clone();
        other[0] = 2;
        assert_eq!(replay(&table, &[&good, &other[..]].concat()), "refused 19\n");
        other[0] = 1;
        other[7] = 1;
        assert_eq!(replay(&table, &other), "refused 19\n");
        assert_eq!(replay(&table, &good[..39]), "refused 19\n");
        assert_eq!(replay(&table[1..], &good[..39]), "refused 2\n");
        assert_eq!(replay(&table::bytes_of(&table_over()), &good[..39]), "refused 23\n");
    }
}
