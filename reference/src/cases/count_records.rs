//! Port records whose counts are at 2^52, just below, or above; and records with any counts, and reports behind them.

use super::counted_lists::{many_links, round};
use super::lists::{self, Call, List};
use super::make::table_of;
use super::named_lists::{frame, told};
use crate::examples::{link, table_e};
use crate::port::{Report, DROPPED, FILTERED, FULL_COUNT, POLICED, STORED};
use crate::random::Random;
use crate::record::Record;
use crate::table::{Table, MOST_LINKS};

/// How many records have random counts.
const RANDOM: usize = 140;

/// Where the count of unknown numbers stands: behind those of all links.
const UNKNOWN: usize = 4 * MOST_LINKS;

type Case = (Record, Vec<Call>);

/// Every record with its reports.
pub fn all() -> Vec<Case> {
    let mut cases: Vec<Case> = of_the_issue().into();
    cases.extend(of_few_links());
    cases.extend(of_many_links());
    cases.extend(behind());
    cases.extend(all_alike());
    cases.extend(random());
    cases
}

fn put(record: &mut Record, place: usize, count: u64) {
    match record.counts.get_mut(place) {
        Some(found) => *found = count,
        None => record.unknown = count,
    }
}

/// The fresh port of the table, with these counts in these places.
fn with(table: &Table, counts: &[(usize, u64)]) -> Record {
    let mut record = Record::fresh(table).expect("a good table");
    for (place, count) in counts {
        put(&mut record, *place, *count);
    }
    record
}

/// The record with these reports.
fn case(record: Record, reports: &[Report]) -> Case {
    let mut port = record.port().expect("counts within the arrays");
    let calls = told(&mut port, reports).0;
    (record, calls)
}

/// A wait, which counts nothing.
const WAIT: [Report; 1] = [Report { tick: 0, frame: None }];

/// "link 1's stored count at 2^52 − 1": nothing more, one more stored, two more. 2^52 + 1: "refused with 10".
fn of_the_issue() -> [Case; 6] {
    let stored = [frame(20_000, 0, 1, 500), frame(40_000, 0, 1, 500)];
    let e = table_e();
    let last = FULL_COUNT - 1;
    let nine = [0, 1, 2, 3, 4, 5, 6, 7, UNKNOWN].map(|place| (place, last));
    [
        case(with(&e, &[(0, last)]), &WAIT),
        case(with(&e, &[(0, last)]), &stored[..1]),
        case(with(&e, &[(0, last)]), &stored),
        case(with(&e, &[(0, FULL_COUNT + 1)]), &stored),
        case(with(&e, &nine), &WAIT),
        case(with(&e, &nine), &stored[..1]),
    ]
}

/// E, whose buffers have room for one frame of 84 bytes and for none that is longer.
fn small_e() -> Table {
    Table { sizes: [64, 64, 0, 0, 0, 0, 0, 0], ..table_e() }
}

/// The reports up to the first that counts in this place.
fn up_to_one(table: &Table, place: usize) -> Vec<Report> {
    let reports = round(table, &table.links[place / 4 % MOST_LINKS], 0);
    if place == UNKNOWN {
        return reports[4..5].to_vec();
    }
    match place as u64 % 4 {
        STORED => reports[..1].to_vec(),
        FILTERED => reports[2..3].to_vec(),
        POLICED => reports[..2].to_vec(),
        DROPPED => reports[5..].to_vec(),
        _ => unreachable!("four verdicts"),
    }
}

/// Reports of each verdict of the place's link and of no link, twice.
fn twice_each(table: &Table, place: usize) -> Vec<Report> {
    let v = &table.links[place / 4 % MOST_LINKS];
    [round(table, v, 0), round(table, v, 30_000)].concat()
}

/// Every count of two links and that of unknown numbers.
fn of_few_links() -> Vec<Case> {
    let table = small_e();
    let mut cases = Vec::new();
    for place in [0, 1, 2, 3, 4, 5, 6, 7, UNKNOWN] {
        for count in [FULL_COUNT - 2, FULL_COUNT - 1, FULL_COUNT] {
            let record = with(&table, &[(place, count)]);
            cases.push(case(record.clone(), &WAIT));
            cases.push(case(record.clone(), &up_to_one(&table, place)));
            cases.push(case(record, &twice_each(&table, place)));
        }
        for count in [FULL_COUNT + 1, 1 << 53, 1 << 63, u64::MAX] {
            cases.push(case(with(&table, &[(place, count)]), &up_to_one(&table, place)));
        }
    }
    cases
}

/// Every count of the first and the last of 256 links, and that of unknown numbers.
fn of_many_links() -> Vec<Case> {
    let table = many_links();
    let mut cases = Vec::new();
    for place in [0, 1, 2, 3, 1_020, 1_021, 1_022, 1_023, UNKNOWN] {
        for count in [FULL_COUNT - 1, FULL_COUNT] {
            cases.push(case(with(&table, &[(place, count)]), &twice_each(&table, place)));
        }
        cases.push(case(with(&table, &[(place, FULL_COUNT + 1)]), &up_to_one(&table, place)));
    }
    cases
}

/// Reports of each verdict of the table's first and last link and of no link.
fn first_and_last(table: &Table) -> Vec<Report> {
    let members = table.members();
    let (first, last) = (&members[0], &members[members.len() - 1]);
    [round(table, first, 0), round(table, last, 30_000)].concat()
}

/// What stands behind the table's count is not looked at, stays as found, and is no part of a sum.
fn behind() -> Vec<Case> {
    let one = table_of(2, &[link(1, 0, 0, 500)], [64, 0, 0, 0, 0, 0, 0, 0]);
    let most = Table { count: 255, ..many_links() };
    let mut cases = Vec::new();
    for table in [one, small_e(), most] {
        let count = 4 * usize::from(table.count);
        let mut wild = with(&table, &[(0, 3), (count - 1, 5), (UNKNOWN, 7)]);
        wild.counts[count..].fill(u64::MAX);
        cases.push(case(wild.clone(), &WAIT));
        let mut records = vec![wild];
        for found in [FULL_COUNT - 1, FULL_COUNT, FULL_COUNT + 1] {
            records.push(with(&table, &[(count, found)]));
        }
        records.push(with(&table, &[(count - 1, FULL_COUNT), (count, FULL_COUNT)]));
        cases.extend(records.into_iter().map(|record| case(record, &first_and_last(&table))));
    }
    cases
}

/// All counts at 2^52 − 1, the greatest grand total; all at 2^52; and one of them by one more, or by one less.
fn all_alike() -> Vec<Case> {
    let mut cases = Vec::new();
    for table in [small_e(), many_links()] {
        let last = 4 * usize::from(table.count) - 1;
        let filled = |count: u64| {
            let mut record = with(&table, &[(UNKNOWN, count)]);
            record.counts[..=last].fill(count);
            record
        };
        let mut records = vec![filled(FULL_COUNT - 1), filled(FULL_COUNT), filled(FULL_COUNT + 1)];
        for place in [0, last, UNKNOWN] {
            for (count, other) in [(FULL_COUNT - 1, FULL_COUNT), (FULL_COUNT, FULL_COUNT - 1)] {
                let mut record = filled(count);
                put(&mut record, place, other);
                records.push(record);
            }
        }
        for record in records {
            cases.push(case(record.clone(), &WAIT));
            cases.push(case(record, &first_and_last(&table)));
        }
    }
    cases
}

fn some_count(random: &mut Random) -> u64 {
    match random.from(0, 5) {
        0 => random.from(0, 9),
        1 => random.from(FULL_COUNT - 3, FULL_COUNT - 1),
        _ => random.from(0, FULL_COUNT - 1),
    }
}

/// One of so many places, or, now and then, that of unknown numbers.
fn some_place(random: &mut Random, places: usize) -> usize {
    if random.once_in(3) {
        return UNKNOWN;
    }
    random.below(places)
}

/// Random counts; some of them are at 2^52, or one, or none; now and then one is above.
fn count_randomly(random: &mut Random, record: &mut Record) {
    let places = 4 * usize::from(record.table.count);
    record.counts[..places].fill_with(|| some_count(random));
    record.counts[places..].fill(random.pick(&[0, 7, u64::MAX]));
    record.unknown = some_count(random);
    for _ in 0..random.pick(&[0, 0, 0, 1, places]) {
        put(record, some_place(random, places), FULL_COUNT);
    }
    if random.once_in(10) {
        put(record, some_place(random, places), random.pick(&[FULL_COUNT + 1, 1 << 60, u64::MAX]));
    }
}

/// Ports after some random reports, with other counts, and further reports.
fn random() -> Vec<Case> {
    let mut random = Random::new(2_024_107);
    let mut cases = Vec::new();
    for i in 0..RANDOM {
        let before = random.from(0, 12) as usize;
        let wanted = before + random.from(1, 14) as usize;
        let List { table, mut calls } = lists::of_length(&mut random, i, wanted);
        let mut record = Record::fresh(&table).expect("a good table");
        for call in calls.drain(..before) {
            let _ = record.report(&call.report, &mut vec![0; call.list]);
        }
        count_randomly(&mut random, &mut record);
        cases.push((record, calls));
    }
    cases
}

#[cfg(test)]
mod tests {
    use super::*;

    /// The record after its reports.
    fn after((record, calls): &Case) -> Record {
        let mut record = record.clone();
        for call in calls {
            let _ = record.report(&call.report, &mut vec![0; call.list]);
        }
        record
    }

    fn at(record: &Record, place: usize) -> u64 {
        *record.counts.get(place).unwrap_or(&record.unknown)
    }

    #[test]
    fn the_issues_records() {
        let totals = of_the_issue().map(|case| after(&case).sums().map(|sums| (sums.links[0], sums.total)));
        let last = FULL_COUNT - 1;
        let expected = [
            Ok((last, Some(last))),
            Ok((FULL_COUNT, None)),
            Ok((FULL_COUNT, None)),
            Err(10),
            Ok((4 * last, Some(9 * last))),
            Ok((4 * last + 1, None)),
        ];
        assert_eq!(totals, expected);
    }

    #[test]
    fn up_to_one_counts_one_in_its_place() {
        for table in [small_e(), many_links()] {
            for place in [0, 1, 2, 3, 4, 5, 6, 7, UNKNOWN] {
                let record = after(&case(with(&table, &[]), &up_to_one(&table, place)));
                assert_eq!(at(&record, place), 1, "{place}");
            }
        }
    }

    #[test]
    fn twice_each_counts_all_of_a_link() {
        let table = many_links();
        for place in [0, 1_023] {
            let record = after(&case(with(&table, &[]), &twice_each(&table, place)));
            let first = place / 4 * 4;
            assert_eq!(record.counts[first..first + 4], [2, 4, 2, 2]);
            assert_eq!((record.unknown, record.sums().map(|sums| sums.total)), (2, Ok(Some(12))));
        }
    }

    /// A count at 2^52 stays there while the others rise.
    #[test]
    fn no_count_rises_above() {
        for case in all() {
            if case.0.sums().is_ok() {
                let record = after(&case);
                let places = 4 * usize::from(record.table.count);
                assert!(record.counts[..places].iter().all(|count| *count <= FULL_COUNT));
                assert!(record.unknown <= FULL_COUNT);
                assert!((0..places).all(|i| case.0.counts[i] <= record.counts[i]));
                assert_eq!(record.counts[places..], case.0.counts[places..]);
            }
        }
    }

    #[test]
    fn random_records_are_of_each_kind() {
        let sums: Vec<_> = random().iter().map(|case| after(case).sums()).collect();
        let refused = sums.iter().filter(|sums| sums.is_err()).count();
        let with_total = sums.iter().flatten().filter(|sums| sums.total.is_some()).count();
        let without = RANDOM - refused - with_total;
        assert!(refused >= 10 && with_total >= 40 && without >= 40, "{refused} {with_total} {without}");
    }
}
