//! The batches: the examples, lists of every awkward length, numbers that would be cut, traffic, port records.

use super::lists::{self, Call, List};
use super::{count_records, named_lists, port_records};
use crate::batch::{bytes_of_numbers, on_file, whole_numbers};
use crate::examples::{table_e, table_over};
use crate::port::LAST_TICK;
use crate::random::Random;
use crate::record::Record;
use crate::replay::{bytes_of, REPORT_BYTES};
use crate::table;

pub enum Start {
    File(Vec<u8>),
    Record(Record),
}

/// A batch, the bytes of the lists that it is lent, and how many reports the first of two calls takes.
pub struct Batch {
    pub start: Start,
    pub reports: Vec<u8>,
    pub answers: usize,
    pub departures: usize,
    pub first: usize,
}

type Numbers = [u64; 5];

/// Every batch, in order.
pub fn all() -> Vec<Batch> {
    let mut batches = named();
    batches.extend(lent_lengths());
    batches.extend(report_lengths());
    batches.extend(forms());
    batches.extend(files());
    batches.extend(cut_numbers());
    batches.extend(none());
    batches.extend(traffic());
    batches.extend(records());
    batches
}

fn wait(tick: u64) -> Numbers {
    [0, tick, u64::MAX, 1, 500]
}

fn frame(tick: u64, line: u64, number: u64, length: u64) -> Numbers {
    [1, tick, line, number, length]
}

fn e() -> Vec<u8> {
    table::bytes_of(&table_e())
}

/// "R = frame(1000, line 1, number 2, 1000), frame(1001, 0, 1, 500), wait 5000"
fn r() -> Vec<Numbers> {
    vec![frame(1_000, 1, 2, 1_000), frame(1_001, 0, 1, 500), wait(5_000)]
}

/// "Link 1 500@1000, wait 5000, 400@20000, wait 30000"
fn two_of_link_1() -> Vec<Numbers> {
    vec![frame(1_000, 0, 1, 500), wait(5_000), frame(20_000, 0, 1, 400), wait(30_000)]
}

/// "Waits 100, 50, then link 1 500@1000 twice, wait 1500"
fn refused_between() -> Vec<Numbers> {
    vec![wait(100), wait(50), frame(1_000, 0, 1, 500), frame(1_000, 0, 1, 500), wait(1_500)]
}

fn bytes(reports: &[Numbers]) -> Vec<u8> {
    bytes_of_numbers(&reports.concat())
}

/// On table E, with room for all answers, and so many bytes for departures.
fn on_e(reports: &[Numbers], departures: usize) -> Batch {
    let start = Start::File(e());
    Batch {
        start,
        reports: bytes(reports),
        answers: 24 * reports.len(),
        departures,
        first: reports.len() / 2,
    }
}

fn with_form(mut reports: Vec<Numbers>, i: usize, form: u64) -> Vec<Numbers> {
    reports[i][0] = form;
    reports
}

fn named() -> Vec<Batch> {
    let third = |form: u64| with_form(r(), 2, form);
    vec![
        on_e(&r(), 48),
        on_e(&r(), 47),
        on_e(&two_of_link_1(), 47),
        on_e(&refused_between(), 24),
        on_e(&third(2), 48),
        on_e(&third(1 << 32), 48),
        Batch { answers: 71, ..on_e(&r(), 48) },
        Batch { answers: 71, ..on_e(&third(2), 48) },
        Batch {
            start: Start::File(e()[..79].to_vec()),
            reports: bytes(&r())[..39].to_vec(),
            ..on_e(&r(), 48)
        },
    ]
}

/// Departure lists of 0 to 60 bytes, and answer lists up to and behind what is needed.
fn lent_lengths() -> Vec<Batch> {
    let mut batches = Vec::new();
    for departures in 0..=60 {
        batches.push(on_e(&r(), departures));
        batches.push(on_e(&two_of_link_1(), departures));
    }
    for answers in [0, 1, 8, 23, 24, 25, 47, 48, 63, 64, 65, 70, 73, 79, 80, 81, 95, 96, 97, 150] {
        for first in [0, 1, 3] {
            batches.push(Batch { answers, first, ..on_e(&r(), 55) });
        }
    }
    batches
}

/// The first bytes of R, and what is longer.
fn report_lengths() -> Vec<Batch> {
    let longer = [bytes(&r()), vec![1; 50]].concat();
    let lengths =
        [1, 5, 7, 8, 9, 32, 39, 40, 41, 45, 48, 79, 80, 81, 88, 119, 121, 124, 125, 128, 144, 159, 160];
    let cut = |length: usize| Batch {
        reports: longer[..length].to_vec(),
        answers: 24 * 4,
        first: 2,
        ..on_e(&r(), 48)
    };
    lengths.map(cut).into()
}

/// Unknown forms, wherever they stand; and both 19 and 20.
fn forms() -> Vec<Batch> {
    let mut batches = Vec::new();
    for form in [2, 3, 255, 256, 257, 1 << 16, 1 << 32, (1 << 32) + 1, 1 << 63, u64::MAX] {
        for i in 0..3 {
            let answers = [72, 71, 0][i];
            batches.push(Batch { answers, first: i, ..on_e(&with_form(r(), i, form), 48) });
        }
    }
    batches
}

/// Table E's file with another byte.
fn changed(at: usize, byte: u8) -> Vec<u8> {
    let mut file = e();
    file[at] = byte;
    file
}

/// Files that are refused with 1 to 7 or 23, before reports that are none and lists that are too short.
fn files() -> Vec<Batch> {
    let longer = [e(), vec![0]].concat();
    let over = table::bytes_of(&table_over());
    let over_and_cut = over[..over.len() - 36].to_vec();
    let files = [
        vec![],
        e()[..79].to_vec(),
        e()[..8].to_vec(),
        changed(0, 7),
        changed(10, 3),
        changed(4, 25),
        changed(6, 0),
        changed(14, 2),
        changed(16, 8),
        changed(18, 83),
        changed(30, 1),
        changed(30, 0),
        changed(50, 1),
        changed(78, 1),
        longer,
        over,
        over_and_cut,
    ];
    let mut batches = Vec::new();
    for file in files {
        for (reports, answers) in [(r(), 72), (with_form(r(), 0, 2), 72), (r(), 71), (vec![], 0)] {
            let start = Start::File(file.clone());
            batches.push(Batch { start, answers, ..on_e(&reports, 48) });
        }
        let reports = bytes(&r())[..39].to_vec();
        batches.push(Batch { start: Start::File(file), reports, ..on_e(&r(), 48) });
    }
    batches
}

/// Each field of a frame that would be stored, a bit above its own; the frame itself before and behind. A filtered frame
/// takes the line's tick.
fn cut_numbers() -> Vec<Batch> {
    let good = frame(1_000, 0, 1, 500);
    let mut batches = Vec::new();
    for bit in [8, 15, 16, 31, 32, 47, 48, 63] {
        let more = |i: usize| {
            let mut numbers = good;
            numbers[i] += 1 << bit;
            numbers
        };
        let reports = [more(2), more(4), wait(good[1] + (1 << bit)), good, more(1), more(3), wait(3_000)];
        batches.push(Batch { first: 3, ..on_e(&reports[..2], 48) });
        batches.push(Batch { first: 3, ..on_e(&reports[3..], 71) });
        batches
            .push(Batch { first: 3, ..on_e(&[more(3), more(2), frame(1_500, 0, 1, 500), wait(3_000)], 71) });
        batches.push(on_e(&reports, 100));
    }
    let ticks = [LAST_TICK - 1, LAST_TICK, LAST_TICK + 1, u64::MAX, LAST_TICK];
    batches.push(on_e(&ticks.map(wait), 0));
    batches.push(on_e(&ticks.map(|tick| frame(tick, 0, 1, 500)), 48));
    batches.push(on_e(&[frame(1_000, 256, 1, 66_036), frame(1_000, 0, 65_537, 66_036), wait(1 << 48)], 0));
    batches
        .push(on_e(&[[1, u64::MAX, u64::MAX, u64::MAX, u64::MAX], [0, 0, u64::MAX, u64::MAX, u64::MAX]], 0));
    batches
}

/// No reports: 0, with all as found.
fn none() -> Vec<Batch> {
    let lengths = [(0, 0), (0, 48), (5, 3), (24, 24), (77, 61)];
    lengths.map(|(answers, departures)| Batch { answers, ..on_e(&[], departures) }).into()
}

/// How many reports the i-th random batch has: 1 to 500, mostly few.
fn some_reports(random: &mut Random, i: usize) -> usize {
    match i % 40 {
        0 => 500,
        1..=4 => random.from(100, 260) as usize,
        5..=12 => random.from(30, 90) as usize,
        _ => random.from(1, 25) as usize,
    }
}

/// Random lists of reports, and those made by hand.
fn traffic() -> Vec<Batch> {
    let mut random = Random::new(2_024_104);
    let mut batches = Vec::new();
    for i in 0..160 {
        let wanted = some_reports(&mut random, i);
        let list = lists::of_length(&mut random, i, wanted);
        batches.push(batch_of(&mut random, &list));
    }
    for list in named_lists::all() {
        batches.push(batch_of(&mut random, &list));
        let long_enough = 24 * list.calls.len() + 24 * 100;
        batches.push(Batch { departures: long_enough, ..batch_of(&mut random, &list) });
    }
    batches
}

fn batch_of(random: &mut Random, list: &List) -> Batch {
    let file = table::bytes_of(&list.table);
    let mut reports: Vec<Numbers> = Vec::new();
    for call in &list.calls {
        let numbers: Numbers = whole_numbers(&bytes_of(&call.report)).try_into().expect("five numbers");
        if random.once_in(12) && list.calls.len() < 480 {
            reports.push(odd(random, numbers));
        }
        reports.push(numbers);
    }
    reports.truncate(500);
    if random.once_in(20) {
        let i = random.below(reports.len());
        reports[i][0] = random.pick(&[2, 1 << 8, 1 << 32, 1 << 63]);
    }
    let many = reports.len();
    let reports = bytes(&reports);
    let departures = some_departures(random, &file, &reports);
    let answers = match random.from(0, 19) {
        0 => 24 * many - random.from(1, 24) as usize,
        1..=7 => 24 * many + random.from(1, 60) as usize,
        _ => 24 * many,
    };
    Batch { start: Start::File(file), reports, answers, departures, first: random.below(many + 1) }
}

/// The report with a number that is too large for its field, or a tick that is none.
fn odd(random: &mut Random, mut numbers: Numbers) -> Numbers {
    let i = random.pick(&[1, 2, 3, 4]);
    let bit = random.pick(&[8, 16, 32, 48, 63]);
    numbers[i] = match random.from(0, 2) {
        0 => numbers[i].wrapping_add(1 << bit),
        1 => random.pick(&[0, 1, 256, 65_537, 66_036, (1 << 32) + 1, 1 << 48, u64::MAX]),
        _ => numbers[i].saturating_sub(1),
    };
    numbers
}

/// Room for all departures, for those that there are, for a byte less, or for few; with and without an odd tail.
fn some_departures(random: &mut Random, file: &[u8], reports: &[u8]) -> usize {
    let many = reports.len() / REPORT_BYTES;
    let mut answers = vec![0; 24 * many];
    let _ = on_file(file, reports, &mut answers, &mut vec![0; 24 * many]);
    let answers = whole_numbers(&answers);
    let is_stored =
        |i: &usize| whole_numbers(reports)[5 * i] == 1 && answers[3 * i] == 0 && answers[3 * i + 1] == 0;
    let needed = 24 * (0..many).filter(is_stored).count();
    match random.from(0, 7) {
        0 | 1 => needed,
        2 => needed.saturating_sub(1),
        3 => needed + random.from(1, 40) as usize,
        4 => needed / 2 + random.from(0, 30) as usize,
        5 => random.from(0, 80) as usize,
        _ => 24 * many,
    }
}

/// Those about counts with few links, and every fourth of the others.
fn counted_records() -> Vec<(Record, Vec<Call>)> {
    let mut others = 0;
    let mut records = count_records::all();
    records.retain(|(record, _)| {
        others += usize::from(record.table.count > 24);
        record.table.count <= 24 || others % 4 == 0
    });
    records
}

/// Port records handed in, fit and not, with their reports in a batch; the lists are long enough, and each record that is
/// not fit is lent a short one too.
fn records() -> Vec<Batch> {
    let mut batches = Vec::new();
    let records = port_records::all().into_iter().chain(counted_records());
    for (i, (record, calls)) in records.enumerate() {
        let reports: Vec<u8> = calls.iter().flat_map(|call| bytes_of(&call.report)).collect();
        let longest = calls.iter().map(|call| call.list).max().unwrap_or(0);
        let departures = [8 * (longest + 3 * calls.len()), 24][usize::from(i % 5 == 4)];
        let answers = 24 * calls.len() + [0, 8, 16][i % 3];
        let first = i % (calls.len() + 1);
        batches.push(Batch { start: Start::Record(record), reports, answers, departures, first });
    }
    batches
}
