//! Table files: good ones at every edge, and ones damaged in one to three places.

use super::{carried, make};
use crate::examples::{link, table_full, table_over};
use crate::random::Random;
use crate::table::{bytes_of, Link, Table};

/// Where the records of a file with `n` links begin.
fn link_at(i: usize) -> usize {
    8 + 18 * i
}

fn sizes_at(n: usize) -> usize {
    8 + 18 * n
}

/// Every file of the cases, in order.
pub fn all() -> Vec<Vec<u8>> {
    let mut random = Random::new(2_024_001);
    let mut files = vec![Vec::new()];
    files.extend(good_edges(&mut random));
    files.extend(truncated(&mut random));
    files.extend(wrong_heads(&mut random));
    files.extend(wrong_counts(&mut random));
    files.extend(wrong_links(&mut random));
    files.extend(wrong_numbers(&mut random));
    files.extend(wrong_sizes(&mut random));
    files.extend(trailing(&mut random));
    files.extend(wrong_at_the_end(&mut random));
    files.extend(no_tables(&mut random));
    files.extend(random_damage(&mut random));
    files.extend(lines_about_full(&mut random));
    files.extend(oversold_and_more(&mut random));
    files
}

fn put(file: &[u8], at: usize, bytes: &[u8]) -> Vec<u8> {
    let mut changed = file.to_vec();
    changed[at..at + bytes.len()].copy_from_slice(bytes);
    changed
}

fn put_two(file: &[u8], at: usize, value: u16) -> Vec<u8> {
    put(file, at, &value.to_le_bytes())
}

fn put_four(file: &[u8], at: usize, value: u32) -> Vec<u8> {
    put(file, at, &value.to_le_bytes())
}

fn plain(number: u16) -> Link {
    Link { number, line: 0, priority: 0, code: 0, least: 84, greatest: 1_538, jitter: 0 }
}

/// Good input at every edge.
fn good_edges(random: &mut Random) -> Vec<Vec<u8>> {
    let mut tables: Vec<Table> = Vec::new();
    for changed in [
        Link { number: 0, ..plain(0) },
        Link { number: 65_535, ..plain(0) },
        Link { priority: 7, ..plain(1) },
        Link { code: 7, ..plain(1) },
        Link { greatest: 84, ..plain(1) },
        Link { least: 1_538, ..plain(1) },
        Link { least: 700, greatest: 700, ..plain(1) },
        Link { jitter: 125_000, ..plain(1) },
        Link { jitter: 124_999, ..plain(1) },
        Link { jitter: 1, ..plain(1) },
    ] {
        tables.push(make::table_of(1, &[changed], [0; 8]));
        tables.push(make::table_of(24, &[changed], [16_384; 8]));
    }
    for lines in [1, 2, 23, 24] {
        let last = Link { line: lines as u8 - 1, ..plain(9) };
        tables.push(make::table_of(lines, &[plain(8), last], [100; 8]));
    }
    for p in 0..8 {
        let mut sizes = [0; 8];
        sizes[p] = 16_384;
        tables.push(make::table_of(3, &[plain(5)], sizes));
        sizes[p] = 1;
        tables.push(make::table_of(3, &[plain(5)], sizes));
    }
    tables.push(make::table_of(1, &[plain(0), plain(1), plain(65_534), plain(65_535)], [9; 8]));
    for many in [1, 2, 3, 17, 64, 128, 255, 256, 256] {
        tables.push(make::table(random, many));
    }
    let mut largest = make::table(random, 256);
    largest.lines = 24;
    largest.links[0].number = 0;
    largest.links[255] = Link { line: 23, number: 65_535, ..largest.links[255] };
    largest.sizes = [16_384; 8];
    tables.push(largest);
    tables.iter().map(bytes_of).collect()
}

/// Truncation in each field; and at the edges of records in a large file.
fn truncated(random: &mut Random) -> Vec<Vec<u8>> {
    let mut files = Vec::new();
    for many in [1, 3] {
        let file = bytes_of(&make::table(random, many));
        for length in 0..file.len() {
            files.push(file[..length].to_vec());
        }
    }
    let file = bytes_of(&make::table(random, 256));
    for length in [link_at(1), link_at(100) + 3, link_at(255), sizes_at(256), file.len() - 1] {
        files.push(file[..length].to_vec());
    }
    files
}

/// Each wrong kind and length, with the body there, cut off, and absent.
fn wrong_heads(random: &mut Random) -> Vec<Vec<u8>> {
    let mut files = Vec::new();
    let file = bytes_of(&make::table(random, 2));
    let heads = [(0, 6, 1), (link_at(0), 16, 2), (link_at(1), 16, 2), (sizes_at(2), 34, 3)];
    for (at, length, kind) in heads {
        for wrong in [0, 1, length - 2, length - 1, length + 1, length + 2, length << 8, 65_535] {
            let changed = put_two(&file, at, wrong);
            files.push(changed[..at + 4].to_vec());
            files.push(changed[..at + 3].to_vec());
            files.push(changed);
        }
        for wrong in [0, 1, 2, 3, 4, kind << 8, kind + 256, 65_535] {
            if wrong != kind {
                let changed = put_two(&file, at + 2, wrong);
                files.push(changed[..at + 4].to_vec());
                files.push(changed[..at + 5].to_vec());
                files.push(changed[..at + 3].to_vec());
                files.push(changed);
            }
        }
        files.push(put(&file, at, &[kind as u8, 0, length as u8, 0]));
        files.push(put(&file, at, &[0, length as u8, 0, kind as u8]));
    }
    // A record too few and one too many for the count.
    for many in [1, 2, 3, 20] {
        let file = bytes_of(&make::table(random, many));
        files.push(put_two(&file, 6, many as u16 + 1));
        if many > 1 {
            files.push(put_two(&file, 6, many as u16 - 1));
        }
    }
    files
}

/// Counts 0 and too large, alone and with what comes later wrong too.
fn wrong_counts(random: &mut Random) -> Vec<Vec<u8>> {
    let mut files = Vec::new();
    let file = bytes_of(&make::table(random, 2));
    for lines in [0, 25, 26, 255, 256, 257, 65_535] {
        files.push(put_two(&file, 4, lines));
        files.push(put_two(&file, 4, lines)[..8].to_vec());
        files.push(put_two(&file, 4, lines)[..7].to_vec());
        files.push(put_two(&put_two(&file, 4, lines), link_at(0), 99));
    }
    for count in [0, 257, 258, 512, 65_280, 65_535] {
        files.push(put_two(&file, 6, count));
        files.push(put_two(&file, 6, count)[..8].to_vec());
        files.push(put_two(&put_two(&file, 6, count), 4, 0));
    }
    let full = bytes_of(&make::table(random, 256));
    files.push(put_two(&full, 6, 257));
    files.push(put_two(&full, 6, 255));
    files
}

/// What makes a link's body wrong: the place in the record, and the bytes there.
fn link_faults(lines: u16) -> Vec<(usize, Vec<u8>)> {
    let mut faults = Vec::new();
    for line in [lines as u8, lines as u8 + 1, 128, 255] {
        faults.push((6, vec![line]));
    }
    for byte in [8, 9, 16, 255] {
        faults.push((7, vec![byte]));
        faults.push((8, vec![byte]));
    }
    for zero in [1, 2, 128, 255] {
        faults.push((9, vec![zero]));
    }
    for least in [0u16, 1, 82, 83] {
        faults.push((10, least.to_le_bytes().to_vec()));
    }
    for greatest in [1_539u16, 1_540, 32_768, 65_535] {
        faults.push((12, greatest.to_le_bytes().to_vec()));
    }
    for (least, greatest) in [(85u16, 84u16), (1_538, 1_537), (701, 700), (83, 83), (1_539, 1_539), (0, 0)] {
        faults.push((10, [least.to_le_bytes(), greatest.to_le_bytes()].concat()));
    }
    for jitter in [125_001u32, 125_002, 1 << 24, u32::MAX] {
        faults.push((14, jitter.to_le_bytes().to_vec()));
    }
    faults
}

/// Each field of a link one out of range at either end and further out: in the first link, in the
/// last, and with an equal number beside it.
fn wrong_links(random: &mut Random) -> Vec<Vec<u8>> {
    let mut files = Vec::new();
    for (many, places) in [(1, vec![0]), (4, vec![0, 2, 3])] {
        let mut table = make::table(random, many);
        table.lines = 24;
        for lines in [1, 24] {
            for i in 0..many {
                table.links[i].line = random.from(0, lines - 1) as u8;
            }
            table.lines = lines as u16;
            let file = bytes_of(&table);
            for i in &places {
                for (offset, bytes) in link_faults(table.lines) {
                    let changed = put(&file, link_at(*i) + offset, &bytes);
                    if *i > 0 && random.once_in(4) {
                        files.push(put_two(&changed, link_at(*i) + 4, table.links[*i - 1].number));
                    }
                    files.push(changed);
                }
            }
        }
    }
    files
}

/// Equal and falling numbers.
fn wrong_numbers(random: &mut Random) -> Vec<Vec<u8>> {
    let mut files = Vec::new();
    for many in [2, 3, 5, 30] {
        let table = make::table(random, many);
        let file = bytes_of(&table);
        for i in 1..many {
            let before = table.links[i - 1].number;
            for number in [before, before.saturating_sub(1), 0, before.wrapping_add(1).swap_bytes()] {
                files.push(put_two(&file, link_at(i) + 4, number));
            }
        }
    }
    let largest = make::table_of(1, &[plain(65_535), plain(65_535)], [0; 8]);
    files.push(bytes_of(&largest));
    files.push(bytes_of(&make::table_of(1, &[plain(65_535), plain(0)], [0; 8])));
    files.push(bytes_of(&make::table_of(1, &[plain(0), plain(0)], [0; 8])));
    files.push(bytes_of(&make::table_of(1, &[plain(255), plain(256)], [0; 8])));
    files.push(bytes_of(&make::table_of(1, &[plain(256), plain(255)], [0; 8])));
    files
}

/// Each size out of range, alone and with bytes left behind it.
fn wrong_sizes(random: &mut Random) -> Vec<Vec<u8>> {
    let mut files = Vec::new();
    let file = bytes_of(&make::table(random, 2));
    for p in 0..8 {
        for size in [16_385, 16_386, 32_768, 65_536, 1 << 24, u32::MAX] {
            let changed = put_four(&file, sizes_at(2) + 4 + 4 * p, size);
            if p % 3 == 0 {
                files.push([&changed[..], &[0]].concat());
            }
            files.push(changed);
        }
    }
    files
}

/// Bytes left after kind 3, up to files past 4,653 bytes.
fn trailing(random: &mut Random) -> Vec<Vec<u8>> {
    let mut files = Vec::new();
    for many in [1, 2, 9, 40] {
        let file = bytes_of(&make::table(random, many));
        for more in [1, 2, 3, 4, 18, 36, 80] {
            files.push([&file[..], &vec![0; more]].concat());
            files.push([&file[..], &file[..more.min(file.len())]].concat());
        }
    }
    let full = bytes_of(&make::table(random, 256));
    for more in [1, 2, 48, 300] {
        files.push([&full[..], &vec![0xFF; more]].concat());
    }
    files
}

/// The largest table, with a fault in its last link or its last size.
fn wrong_at_the_end(random: &mut Random) -> Vec<Vec<u8>> {
    let table = make::table(random, 256);
    let file = bytes_of(&table);
    vec![
        put(&file, link_at(255) + 9, &[1]),
        put_two(&file, link_at(255) + 4, table.links[254].number),
        put_two(&file, link_at(255) + 2, 3),
        put_four(&file, sizes_at(256) + 4 + 28, 16_385),
    ]
}

/// Bytes that are no table from the start.
fn no_tables(random: &mut Random) -> Vec<Vec<u8>> {
    let mut files = Vec::new();
    for _ in 0..60 {
        let length = random.from(0, 120) as usize;
        files.push((0..length).map(|_| random.from(0, 255) as u8).collect());
        files.push((0..length).map(|_| random.from(0, 3) as u8).collect());
    }
    for length in [4, 8, 44, 62, 4_652] {
        files.push(vec![0; length]);
        files.push(vec![0xFF; length]);
    }
    files
}

/// How many links a random table has: mostly few.
fn some_links(random: &mut Random) -> usize {
    match random.from(0, 99) {
        0..=84 => random.from(1, 6) as usize,
        85..=97 => random.from(7, 24) as usize,
        _ => random.from(25, 60) as usize,
    }
}

/// Random tables, damaged in none to three places.
fn random_damage(random: &mut Random) -> Vec<Vec<u8>> {
    let mut files = Vec::new();
    for i in 0..1_300 {
        let many = some_links(random);
        let mut file = bytes_of(&make::table(random, many));
        for _ in 0..i % 4 {
            file = damaged(random, file, many);
        }
        files.push(file);
    }
    files
}

/// One place damaged. After a cut or an insertion a later damage may hit any field.
fn damaged(random: &mut Random, file: Vec<u8>, many: usize) -> Vec<u8> {
    if file.len() < link_at(many) + 36 {
        return file;
    }
    let i = random.below(many);
    match random.from(0, 12) {
        0 => {
            let length = random.below(file.len());
            file[..length].to_vec()
        }
        1 => put(&file, random.below(8), &[random.from(0, 255) as u8]),
        2 => put(&file, link_at(i) + random.below(4), &[random.from(0, 40) as u8]),
        3..=5 => {
            let faults = link_faults(24);
            let (offset, bytes) = faults[random.below(faults.len())].clone();
            put(&file, link_at(i) + offset, &bytes)
        }
        6 => put_two(&file, link_at(i) + 4, random.from(0, 65_535) as u16),
        7 => swapped_links(file, i, random.below(many)),
        8 => put(&file, sizes_at(many) + random.below(4), &[random.from(0, 40) as u8]),
        9 => {
            let size = random.pick(&[16_385, 65_536, 16_384 + 256, u32::MAX]);
            put_four(&file, sizes_at(many) + 4 + 4 * random.below(8), size)
        }
        10 => {
            let mut longer = file;
            for _ in 0..random.from(1, 20) {
                longer.push(random.from(0, 255) as u8);
            }
            longer
        }
        11 => {
            let mut other = file;
            let at = random.below(other.len());
            other.remove(at);
            other
        }
        _ => {
            let mut other = file;
            let at = random.below(other.len());
            other.insert(at, random.from(0, 255) as u8);
            other
        }
    }
}

fn swapped_links(file: Vec<u8>, i: usize, j: usize) -> Vec<u8> {
    let first = file[link_at(i)..link_at(i) + 18].to_vec();
    let second = file[link_at(j)..link_at(j) + 18].to_vec();
    put(&put(&file, link_at(i), &second), link_at(j), &first)
}

/// Lines that carry what they are promised, to the last byte, and lines that do not.
fn lines_about_full(random: &mut Random) -> Vec<Vec<u8>> {
    let mut tables = carried::named();
    tables.extend(carried::of_1_538());
    tables.extend([carried::all_full(196), carried::all_full(197)]);
    for more in [0, 0, 0, 0, 0, 0, 1, 1, 1, 1, 2, 127, 128, 40_000, 1_600_000] {
        tables.push(carried::filled(random, more));
    }
    tables.iter().map(bytes_of).collect()
}

/// FULL and OVER with a fault in the size record or behind it; OVER with a tenth link, which is good or is not; and oversold
/// lines with faults anywhere.
fn oversold_and_more(random: &mut Random) -> Vec<Vec<u8>> {
    let mut files = Vec::new();
    for table in [table_full(), table_over()] {
        let file = bytes_of(&table);
        let at = sizes_at(9);
        files.extend([at, at + 1, at + 3, at + 4, file.len() - 1].map(|length| file[..length].to_vec()));
        files.extend([put_two(&file, at, 35), put_two(&file, at + 2, 2)]);
        files.extend([0, 7].map(|p| put_four(&file, at + 4 + 4 * p, 16_385)));
        files.push([&file[..], &[0]].concat());
    }
    let nine = table_over();
    let ten = make::table_of(2, &[nine.members(), &[link(9, 1, 0, 84)]].concat(), nine.sizes);
    let file = bytes_of(&ten);
    let at = link_at(9);
    files.extend([at, at + 3, at + 17].map(|length| file[..length].to_vec()));
    files.extend([put_two(&file, at, 17), put_two(&file, at + 2, 3), put_two(&file, at + 4, 8)]);
    for (offset, bytes) in link_faults(2).into_iter().step_by(4) {
        files.push(put(&file, at + offset, &bytes));
    }
    files.push(file);
    for i in 0..40 {
        let more = random.pick(&[1, 128, 60_000]);
        let table = carried::filled(random, more);
        let (file, many) = (bytes_of(&table), table.count.into());
        files.push(if i % 2 == 0 { damaged_behind(random, file, many) } else { damaged(random, file, many) });
    }
    files
}

/// The size record cut, with another head or with a size out of range; or bytes behind it.
fn damaged_behind(random: &mut Random, file: Vec<u8>, many: usize) -> Vec<u8> {
    let at = sizes_at(many);
    match random.from(0, 3) {
        0 => file[..at + random.below(36)].to_vec(),
        1 => put(&file, at + random.below(4), &[random.from(40, 255) as u8]),
        2 => put_four(&file, at + 4 + 4 * random.below(8), 16_385),
        _ => [file, vec![0; 18]].concat(),
    }
}
