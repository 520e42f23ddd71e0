//! A batch: reports in numbers on a port record, or in bytes on the fresh port of a table file; and what the examples in
//! C and Rust print.

use crate::port::{Report, MOST_FRAMES};
use crate::record::Record;
use crate::replay::{reports_of, REPORT_BYTES};
use crate::table;

/// "20, answer list too short for three numbers a report"
const NO_ROOM_FOR_ANSWERS: u32 = 20;

/// "in the other two only whole numbers count"
pub fn whole_numbers(bytes: &[u8]) -> Vec<u64> {
    bytes.chunks_exact(8).map(|eight| u64::from_le_bytes(eight.try_into().expect("eight bytes"))).collect()
}

pub fn bytes_of_numbers(numbers: &[u64]) -> Vec<u8> {
    numbers.iter().flat_map(|number| number.to_le_bytes()).collect()
}

/// The reports; or 19, then 20: "both before the first report, in that order".
fn reports_with_room(reports: &[u8], answers: usize) -> Result<Vec<Report>, u32> {
    let reports = reports_of(reports)?;
    if answers < 3 * reports.len() {
        return Err(NO_ROOM_FOR_ANSWERS);
    }
    Ok(reports)
}

/// "Port, answers and departures equal those of the single calls in that order, each lent the rest of the list." Gives
/// how many departures were written.
fn run(record: &mut Record, reports: &[Report], answers: &mut [u64], list: &mut [u64]) -> usize {
    let mut departures = 0;
    for (i, report) in reports.iter().enumerate() {
        let answer = match record.report(report, &mut list[3 * departures..]) {
            Ok(answer) => [0, answer.verdict, answer.frames],
            Err(refusal) => [refusal.into(), 0, 0],
        };
        answers[3 * i..3 * i + 3].copy_from_slice(&answer);
        departures += answer[2] as usize;
    }
    departures
}

/// The call on a port record: how many departures were written; or 19 or 20, with everything as found.
pub fn on_record(
    record: &mut Record,
    reports: &[u64],
    answers: &mut [u64],
    list: &mut [u64],
) -> Result<usize, u32> {
    let reports = reports_with_room(&bytes_of_numbers(reports), answers.len())?;
    Ok(run(record, &reports, answers, list))
}

/// "the call takes a table file, starts from its fresh port and returns a refusal or 0; refusals of the file come before
/// all others"
pub fn on_file(file: &[u8], reports: &[u8], answers: &mut [u8], departures: &mut [u8]) -> Result<(), u32> {
    let mut record = Record::fresh(&table::read(file)?)?;
    let mut answer_numbers = whole_numbers(answers);
    let mut list = whole_numbers(departures);
    let reports = reports_with_room(reports, answer_numbers.len())?;
    run(&mut record, &reports, &mut answer_numbers, &mut list);
    answers[..8 * answer_numbers.len()].copy_from_slice(&bytes_of_numbers(&answer_numbers));
    departures[..8 * list.len()].copy_from_slice(&bytes_of_numbers(&list));
    Ok(())
}

/// A line for each three numbers.
pub fn rows(numbers: &[u64]) -> String {
    numbers.chunks_exact(3).map(|n| format!("{} {} {}\n", n[0], n[1], n[2])).collect()
}

/// How many departures are behind these answers.
pub fn departures_of(answers: &[u64]) -> usize {
    answers.chunks_exact(3).map(|answer| answer[2] as usize).sum()
}

/// What the examples print: `refused N`; or the answers, then the departures. The lists have room for three numbers a
/// report, and for all frames that a port can hold besides.
pub fn printed(file: &[u8], reports: &[u8]) -> String {
    let many = reports.len() / REPORT_BYTES;
    let mut answers = vec![0; 24 * many];
    let mut departures = vec![0; 24 * (many + 8 * MOST_FRAMES)];
    if let Err(refusal) = on_file(file, reports, &mut answers, &mut departures) {
        return format!("refused {refusal}\n");
    }
    let answers = whole_numbers(&answers);
    let written = 3 * departures_of(&answers);
    rows(&answers) + &rows(&whole_numbers(&departures)[..written])
}

#[cfg(test)]
mod tests {
    use super::*;
    use crate::examples::{table_e, table_full, table_over};

    /// What stands in a lent list before the call.
    const FOUND: u8 = 0xA5;
    const FOUND_8: u64 = 0xA5A5_A5A5_A5A5_A5A5;

    const R: [[u64; 5]; 3] = [[1, 1_000, 1, 2, 1_000], [1, 1_001, 0, 1, 500], [0, 5_000, 9, 9, 9]];

    fn wait(tick: u64) -> [u64; 5] {
        [0, tick, u64::MAX, u64::MAX, u64::MAX]
    }

    fn of_link_1(tick: u64, length: u64) -> [u64; 5] {
        [1, tick, 0, 1, length]
    }

    struct Lent {
        answers: Vec<u8>,
        departures: Vec<u8>,
    }

    impl Lent {
        fn of(answers: usize, departures: usize) -> Lent {
            Lent { answers: vec![FOUND; answers], departures: vec![FOUND; departures] }
        }

        fn call(&mut self, file: &[u8], reports: &[u8]) -> Result<(), u32> {
            on_file(file, reports, &mut self.answers, &mut self.departures)
        }

        fn is_as_found(&self) -> bool {
            self.answers.iter().chain(&self.departures).all(|byte| *byte == FOUND)
        }
    }

    fn e() -> Vec<u8> {
        table::bytes_of(&table_e())
    }

    /// The answers and the departure list, with so many bytes of room for departures.
    fn answered(reports: &[[u64; 5]], departures: usize) -> (Vec<u64>, Vec<u8>) {
        let mut lent = Lent::of(24 * reports.len(), departures);
        assert_eq!(lent.call(&e(), &bytes_of_numbers(&reports.concat())), Ok(()));
        (whole_numbers(&lent.answers), lent.departures)
    }

    fn refused(file: &[u8], reports: &[u8], answers: usize) -> u32 {
        let mut lent = Lent::of(answers, 48);
        let refusal = lent.call(file, reports).expect_err("a refusal");
        assert!(lent.is_as_found());
        refusal
    }

    #[test]
    fn r_with_48_bytes_and_with_47() {
        let (answers, list) = answered(&R, 48);
        assert_eq!(answers, [0, 0, 0, 0, 0, 0, 0, 0, 2]);
        assert_eq!(whole_numbers(&list), [2, 1_000, 2_000, 1, 500, 2_500]);
        let (answers, list) = answered(&R, 47);
        assert_eq!(answers, [0, 0, 0, 0, 0, 0, 16, 0, 0]);
        assert_eq!(list, [FOUND; 47]);
    }

    #[test]
    fn the_rest_of_a_list_of_47_bytes() {
        let reports = [of_link_1(1_000, 500), wait(5_000), of_link_1(20_000, 400), wait(30_000)];
        let (answers, list) = answered(&reports, 47);
        assert_eq!(answers, [0, 0, 0, 0, 0, 1, 0, 0, 0, 16, 0, 0]);
        assert_eq!(whole_numbers(&list), [1, 500, 1_500, FOUND_8, FOUND_8]);
        assert_eq!(list[40..], [FOUND; 7]);
    }

    #[test]
    fn a_batch_goes_on_after_a_refused_report() {
        let reports = [wait(100), wait(50), of_link_1(1_000, 500), of_link_1(1_000, 500), wait(1_500)];
        let (answers, list) = answered(&reports, 24);
        assert_eq!(answers, [0, 0, 0, 12, 0, 0, 0, 0, 0, 15, 0, 0, 0, 0, 1]);
        assert_eq!(whole_numbers(&list), [1, 500, 1_500]);
    }

    #[test]
    fn refusals_in_order() {
        let good = bytes_of_numbers(&R.concat());
        for form in [2, 1 << 32, 1 << 63, u64::MAX] {
            let mut reports = R;
            reports[2][0] = form;
            let reports = bytes_of_numbers(&reports.concat());
            assert_eq!(refused(&e(), &reports, 72), 19);
            assert_eq!(refused(&e(), &reports, 71), 19);
        }
        assert_eq!(refused(&e(), &good, 71), 20);
        assert_eq!(refused(&e(), &good[..119], 72), 19);
        assert_eq!(refused(&e()[1..], &good[..39], 72), 2);
        assert_eq!(refused(&e()[..79], &good[..39], 0), 1);
        let over = table::bytes_of(&table_over());
        assert_eq!([refused(&over, &good, 72), refused(&over, &good[..39], 0)], [23; 2]);
        assert_eq!(refused(&table::bytes_of(&table_full()), &good[..39], 0), 19);
    }

    #[test]
    fn no_reports() {
        for (answers, departures) in [(0, 0), (7, 7), (24, 48)] {
            let mut lent = Lent::of(answers, departures);
            assert_eq!(lent.call(&e(), &[]), Ok(()));
            assert!(lent.is_as_found());
        }
        assert_eq!(printed(&e(), &[]), "");
    }

    #[test]
    fn nothing_is_cut() {
        let reports = [
            [1, 1_000, 0, 65_537, 500],
            [1, 1_500, 0, (1 << 32) + 1, 500],
            [1, 2_000, 0, 1, 66_036],
            [1, 2_000, 256, 1, 500],
            [1, 2_000, 1 << 32, 1, 500],
            [1, 1 << 48, 0, 1, 500],
            wait(u64::MAX),
        ];
        let (answers, list) = answered(&reports, 0);
        assert_eq!(answers, [0, 1, 0, 0, 1, 0, 14, 0, 0, 13, 0, 0, 13, 0, 0, 11, 0, 0, 11, 0, 0]);
        assert!(list.is_empty());
    }

    #[test]
    fn what_is_behind_stays() {
        let mut lent = Lent::of(72 + 9, 48 + 9);
        assert_eq!(lent.call(&e(), &bytes_of_numbers(&R.concat())), Ok(()));
        assert_eq!(whole_numbers(&lent.departures)[..6], [2, 1_000, 2_000, 1, 500, 2_500]);
        assert_eq!(lent.answers[72..], [FOUND; 9]);
        assert_eq!(lent.departures[48..], [FOUND; 9]);
    }

    #[test]
    fn two_batches_are_one() {
        let numbers = R.concat();
        for k in 0..=3 {
            let mut record = Record::fresh(&table_e()).expect("a good table");
            let (mut answers, mut list) = ([7; 9], [7; 7]);
            let (first, second) = numbers.split_at(5 * k);
            let many = on_record(&mut record, first, &mut answers, &mut list).expect("accepted");
            let more = on_record(&mut record, second, &mut answers[3 * k..], &mut list[3 * many..]);
            assert_eq!(more.map(|more| many + more), Ok(2));
            assert_eq!(answers, [0, 0, 0, 0, 0, 0, 0, 0, 2]);
            assert_eq!(list, [2, 1_000, 2_000, 1, 500, 2_500, 7]);
        }
    }

    #[test]
    fn a_record_that_is_not_fit() {
        let mut record = Record::fresh(&table_e()).expect("a good table");
        record.clock = 1 << 48;
        let before = record.clone();
        let (mut answers, mut list) = ([7; 10], [7; 6]);
        assert_eq!(on_record(&mut record, &R.concat(), &mut answers, &mut list), Ok(0));
        assert_eq!(answers, [10, 0, 0, 10, 0, 0, 10, 0, 0, 7]);
        assert_eq!(list, [7; 6]);
        assert_eq!(record, before);
        assert_eq!(on_record(&mut record, &R.concat()[..14], &mut answers, &mut list), Err(19));
        assert_eq!(on_record(&mut record, &R.concat(), &mut answers[..8], &mut list), Err(20));
    }

    #[test]
    fn lines() {
        let reports = bytes_of_numbers(&R.concat());
        assert_eq!(printed(&e(), &reports), "0 0 0\n0 0 0\n0 0 2\n2 1000 2000\n1 500 2500\n");
        assert_eq!(printed(&e(), &reports[1..]), "refused 19\n");
        assert_eq!(printed(&[], &reports), "refused 1\n");
    }
}
