//! The paper's "Virtual links and the table file": checks, reader, writer.

pub const MOST_LINKS: usize = 256;

/// "A virtual link v has a number (16 bits), a line, a priority, a BAG code k from 0 to 7, least and
/// greatest length (the greatest is L), and jitter J in ticks."
#[derive(Clone, Copy, Debug, Default, PartialEq, Eq)]
pub struct Link {
    pub number: u16,
    pub line: u8,
    pub priority: u8,
    pub code: u8,
    pub least: u16,
    pub greatest: u16,
    pub jitter: u32,
}

/// A table record. Only the first `count` links are part of the table.
#[derive(Clone, Debug, PartialEq, Eq)]
pub struct Table {
    pub lines: u16,
    pub count: u16,
    pub links: [Link; MOST_LINKS],
    pub sizes: [u32; 8],
}

impl Table {
    /// "Entries of a record behind its counts are no part of a table": the entries before the count.
    pub fn members(&self) -> &[Link] {
        &self.links[..self.count as usize]
    }
}

/// "definition and code take 12,500 × 2^code"; a code above 7, which meets 4, has the BAG of 7.
pub fn bag(code: u8) -> u64 {
    12_500 * 2_u64.pow(u32::from(code.min(7)))
}

/// "line count (2 bytes, 1 to 24); virtual link count n (2 bytes, 1 to 256)"
fn counts_in_range(lines: u16, count: u16) -> bool {
    (1..=24).contains(&lines) && (1..=256).contains(&count)
}

/// "line (1, below the line count), priority (1, 0 to 7), BAG code (1), .. jitter (4, 0 to 125,000).
/// 84 ≤ least ≤ greatest ≤ 1,538."
fn link_in_range(link: &Link, lines: u16) -> bool {
    u16::from(link.line) < lines
        && link.priority <= 7
        && link.code <= 7
        && link.jitter <= 125_000
        && 84 <= link.least
        && link.least <= link.greatest
        && link.greatest <= 1_538
}

/// "eight buffer sizes, 4 bytes each, 0 to 16,384"
fn sizes_in_range(sizes: &[u32; 8]) -> bool {
    sizes.iter().all(|size| *size <= 16_384)
}

/// "numbers strictly rising": the first has none before it.
fn is_above(number: u16, previous: Option<u16>) -> bool {
    match previous {
        Some(before) => number > before,
        None => true,
    }
}

/// The ticks of the longest BAG, and so the bytes that a line carries in one.
pub const CARRIED: u64 = 1_600_000;

/// "L × 2^(7 − code)": what a link is promised of that, L being its greatest length on the wire. The code is at most 7.
pub fn promise(link: &Link) -> u64 {
    u64::from(link.greatest) * 2_u64.pow(7 - u32::from(link.code))
}

/// "the sum over its links", those of this line.
pub fn promised(links: &[Link], line: u16) -> u64 {
    links.iter().filter(|link| u16::from(link.line) == line).map(promise).sum()
}

/// "A line promised more than it carries": one of so many lines whose sum "exceeds 1,600,000".
pub fn is_oversold(links: &[Link], lines: u16) -> bool {
    (0..lines).any(|line| promised(links, line) > CARRIED)
}

/// The first of 3, 4, 5, 23 and 6 that a table record meets, in the order of the file, or 0.
pub fn check(table: &Table) -> u32 {
    if !counts_in_range(table.lines, table.count) {
        return 3;
    }
    let mut previous = None;
    for link in table.members() {
        if !link_in_range(link, table.lines) {
            return 4;
        }
        if !is_above(link.number, previous) {
            return 5;
        }
        previous = Some(link.number);
    }
    if is_oversold(table.members(), table.lines) {
        return 23;
    }
    if !sizes_in_range(&table.sizes) {
        return 6;
    }
    0
}

fn two(bytes: &[u8], at: usize) -> u16 {
    u16::from_le_bytes([bytes[at], bytes[at + 1]])
}

fn four(bytes: &[u8], at: usize) -> u32 {
    u32::from_le_bytes([bytes[at], bytes[at + 1], bytes[at + 2], bytes[at + 3]])
}

/// A record is "a 2-byte length of all that follows in the record, a 2-byte kind, a body". Gives the body
/// and the bytes not yet read. "Each record: fewer than 4 bytes remain: 1; then kind or length not the
/// one due: 2; then body past the end of the file: 1."
fn record(rest: &[u8], kind: u16, length: u16) -> Result<(&[u8], &[u8]), u32> {
    if rest.len() < 4 {
        return Err(1);
    }
    if two(rest, 0) != length || two(rest, 2) != kind {
        return Err(2);
    }
    let end = 2 + length as usize;
    if rest.len() < end {
        return Err(1);
    }
    Ok((&rest[4..end], &rest[end..]))
}

/// "number (2), line (1), priority (1), BAG code (1), zero (1), least length (2), greatest length (2),
/// jitter (4)"
fn link_of(body: &[u8]) -> Link {
    Link {
        number: two(body, 0),
        line: body[2],
        priority: body[3],
        code: body[4],
        least: two(body, 6),
        greatest: two(body, 8),
        jitter: four(body, 10),
    }
}

/// The table of a file, or the first refusal of 1 to 7 and 23: "23, a line oversold, after the last virtual link's record and
/// before any check of the size record".
pub fn read(file: &[u8]) -> Result<Table, u32> {
    let (body, mut rest) = record(file, 1, 6)?;
    let mut table = Table {
        lines: two(body, 0),
        count: two(body, 2),
        links: [Link::default(); MOST_LINKS],
        sizes: [0; 8],
    };
    if !counts_in_range(table.lines, table.count) {
        return Err(3);
    }
    let mut previous = None;
    for i in 0..table.count as usize {
        let (body, behind) = record(rest, 2, 16)?;
        let link = link_of(body);
        let zero = body[5];
        if !link_in_range(&link, table.lines) || zero != 0 {
            return Err(4);
        }
        if !is_above(link.number, previous) {
            return Err(5);
        }
        table.links[i] = link;
        previous = Some(link.number);
        rest = behind;
    }
    if is_oversold(table.members(), table.lines) {
        return Err(23);
    }
    let (body, rest) = record(rest, 3, 34)?;
    for p in 0..8 {
        table.sizes[p] = four(body, 4 * p);
    }
    if !sizes_in_range(&table.sizes) {
        return Err(6);
    }
    if !rest.is_empty() {
        return Err(7);
    }
    Ok(table)
}

/// The bytes of a table, with no check: "The file is a run of records, little-endian".
pub fn bytes_of(table: &Table) -> Vec<u8> {
    let mut file = Vec::new();
    record_start(&mut file, 6, 1);
    file.extend(table.lines.to_le_bytes());
    file.extend(table.count.to_le_bytes());
    for link in table.members() {
        record_start(&mut file, 16, 2);
        file.extend(link.number.to_le_bytes());
        file.extend([link.line, link.priority, link.code, 0]);
        file.extend(link.least.to_le_bytes());
        file.extend(link.greatest.to_le_bytes());
        file.extend(link.jitter.to_le_bytes());
    }
    record_start(&mut file, 34, 3);
    for size in table.sizes {
        file.extend(size.to_le_bytes());
    }
    file
}

fn record_start(file: &mut Vec<u8>, length: u16, kind: u16) {
    file.extend(length.to_le_bytes());
    file.extend(kind.to_le_bytes());
}

/// "writer: 3 to 6, then output below 44 + 18 × n: 9", with 23 before 6. "The writer's answer is the bytes written,
/// 44 + 18 × n; bytes after them stay."
pub fn write(table: &Table, output: &mut [u8]) -> Result<usize, u32> {
    let refusal = check(table);
    if refusal != 0 {
        return Err(refusal);
    }
    let needed = 44 + 18 * table.count as usize;
    if output.len() < needed {
        return Err(9);
    }
    output[..needed].copy_from_slice(&bytes_of(table));
    Ok(needed)
}

#[cfg(test)]
mod tests {
    use super::*;
    use crate::examples::{alike, nine_on, table_full, table_over, table_spread};

    fn link(number: u16) -> Link {
        Link { number, line: 0, priority: 0, code: 0, least: 84, greatest: 1_538, jitter: 0 }
    }

    fn table(given: &[Link]) -> Table {
        let mut links = [Link::default(); MOST_LINKS];
        links[..given.len()].copy_from_slice(given);
        Table { lines: 1, count: given.len() as u16, links, sizes: [16_384; 8] }
    }

    fn with(change: impl Fn(&mut Table)) -> Table {
        let mut changed = table(&[link(3), link(7)]);
        change(&mut changed);
        changed
    }

    fn file() -> Vec<u8> {
        bytes_of(&table(&[link(3), link(7)]))
    }

    fn changed(at: usize, byte: u8) -> Result<Table, u32> {
        let mut file = file();
        file[at] = byte;
        read(&file)
    }

    #[test]
    fn a_file_byte_by_byte() {
        let mut one = table(&[Link {
            number: 0x0102,
            line: 1,
            priority: 7,
            code: 6,
            least: 0x0103,
            greatest: 0x0204,
            jitter: 0x0001_0305,
        }]);
        one.lines = 2;
        one.sizes = [0, 1, 2, 3, 4, 5, 6, 0x0304];
        let mut expected = vec![6, 0, 1, 0, 2, 0, 1, 0];
        expected.extend([16, 0, 2, 0, 2, 1, 1, 7, 6, 0, 3, 1, 4, 2, 5, 3, 1, 0]);
        expected.extend([34, 0, 3, 0, 0, 0, 0, 0, 1, 0, 0, 0, 2, 0, 0, 0, 3, 0, 0, 0]);
        expected.extend([4, 0, 0, 0, 5, 0, 0, 0, 6, 0, 0, 0, 4, 3, 0, 0]);
        assert_eq!(bytes_of(&one), expected);
        assert_eq!(read(&expected), Ok(one));
    }

    #[test]
    fn every_prefix_is_refused_with_1() {
        let file = file();
        for length in 0..file.len() {
            assert_eq!(read(&file[..length]), Err(1));
        }
        assert_eq!(read(&file), Ok(table(&[link(3), link(7)])));
    }

    #[test]
    fn kinds_and_lengths() {
        for start in [0, 8, 26, 44] {
            for at in start..start + 4 {
                assert_eq!(changed(at, 77), Err(2));
            }
        }
        assert_eq!(read(&[6, 0, 2, 0]), Err(2));
        assert_eq!(read(&[6, 0, 1, 0]), Err(1));
        assert_eq!(read(&[7, 0, 1]), Err(1));
    }

    #[test]
    fn fields_of_a_file() {
        for (at, byte) in [(4, 0), (4, 25), (6, 0), (7, 2)] {
            assert_eq!(changed(at, byte), Err(3));
        }
        for (at, byte) in [(14, 1), (15, 8), (16, 8), (17, 1), (18, 83), (20, 3), (25, 1)] {
            assert_eq!(changed(at, byte), Err(4));
        }
        assert_eq!(changed(30, 3), Err(5));
        assert_eq!(changed(30, 2), Err(5));
        for p in 0..8 {
            assert_eq!(changed(48 + 4 * p, 1), Err(6));
        }
        let mut longer = file();
        longer.push(0);
        assert_eq!(read(&longer), Err(7));
    }

    #[test]
    fn more_links_counted_than_there_are() {
        assert_eq!(changed(6, 3), Err(2));
        assert_eq!(changed(6, 1), Err(2));
    }

    #[test]
    fn checks_of_a_record() {
        assert_eq!(check(&with(|_| ())), 0);
        for lines in [0, 25, 65_535] {
            assert_eq!(check(&with(|t| t.lines = lines)), 3);
        }
        for count in [0, 257, 65_535] {
            assert_eq!(check(&with(|t| t.count = count)), 3);
        }
        assert_eq!(check(&with(|t| t.links[1].line = 1)), 4);
        assert_eq!(check(&with(|t| t.links[1].priority = 8)), 4);
        assert_eq!(check(&with(|t| t.links[1].code = 8)), 4);
        assert_eq!(check(&with(|t| t.links[1].least = 83)), 4);
        assert_eq!(check(&with(|t| t.links[1].greatest = 1_539)), 4);
        assert_eq!(check(&with(|t| t.links[1].greatest = 83)), 4);
        assert_eq!(check(&with(|t| t.links[1].jitter = 125_001)), 4);
        assert_eq!(check(&with(|t| t.links[1].number = 3)), 5);
        assert_eq!(check(&with(|t| t.links[1].number = 2)), 5);
        assert_eq!(check(&with(|t| t.sizes[7] = 16_385)), 6);
        assert_eq!(check(&with(|t| t.links[2].line = 99)), 0);
    }

    #[test]
    fn the_writer_and_its_output() {
        let good = with(|_| ());
        let mut short = [0xA5; 79];
        assert_eq!(write(&good, &mut short), Err(9));
        assert_eq!(short, [0xA5; 79]);
        let mut longer = [0xA5; 82];
        assert_eq!(write(&good, &mut longer), Ok(80));
        assert_eq!(longer[..80], file());
        assert_eq!(longer[80..], [0xA5; 2]);
        let mut empty = [];
        assert_eq!(write(&with(|t| t.sizes[0] = 99_999), &mut empty), Err(6));
    }

    /// What a record meets, and the file of it.
    fn both(table: &Table) -> [u32; 2] {
        [check(table), read(&bytes_of(table)).err().unwrap_or(0)]
    }

    #[test]
    fn what_a_line_carries() {
        assert_eq!(promised(table_full().members(), 0), 1_600_000);
        assert_eq!(promised(table_over().members(), 0), 1_600_128);
        assert_eq!([table_full(), table_over()].map(|t| both(&t)), [[0; 2], [23; 2]]);
        assert_eq!([nine_on(1, 196), nine_on(1, 197)].map(|t| both(&t)), [[0; 2], [23; 2]]);
        assert_eq!(both(&table_spread()), [0; 2]);
        for (code, most) in [(0, 8), (1, 16), (2, 32), (3, 65), (4, 130)] {
            for lines in [1, 24] {
                assert_eq!(both(&alike(code, most, lines)), [0; 2], "{code}");
                assert_eq!(both(&alike(code, most + 1, lines)), [23; 2], "{code}");
            }
        }
        assert_eq!([5, 7].map(|code| both(&alike(code, 256, 1))), [[0; 2]; 2]);
    }

    /// L is the greatest length, and entries behind the count promise nothing.
    #[test]
    fn what_is_summed() {
        let with_last = |change: fn(&mut Table)| {
            let mut table = table_over();
            change(&mut table);
            check(&table)
        };
        assert_eq!(with_last(|t| t.links[8].least = 197), 23);
        assert_eq!(with_last(|t| t.links[8].code = 1), 0);
        assert_eq!(with_last(|t| t.links[8].line = 1), 0);
        assert_eq!(with_last(|t| t.count = 8), 0);
        let mut full = table_full();
        full.links[9] = full.links[0];
        assert_eq!(check(&full), 0);
    }

    /// 23 stands between the links and the sizes, in a record and in a file.
    #[test]
    fn the_place_of_23() {
        let sizes_at = 8 + 18 * 9;
        for (table, refusals) in [(table_over(), [23; 6]), (table_full(), [1, 1, 1, 2, 6, 7])] {
            let file = bytes_of(&table);
            let with = |at: usize, byte: u8| {
                let mut changed = file.clone();
                changed[at] = byte;
                changed
            };
            let files = [
                file[..sizes_at].to_vec(),
                file[..sizes_at + 3].to_vec(),
                file[..file.len() - 1].to_vec(),
                with(sizes_at + 2, 4),
                bytes_of(&Table { sizes: [16_385; 8], ..table.clone() }),
                [&file[..], &[0]].concat(),
            ];
            assert_eq!(files.map(|file| read(&file).err().unwrap_or(0)), refusals);
        }
        let large = |table: Table| check(&Table { sizes: [16_385; 8], ..table });
        assert_eq!([large(table_full()), large(table_over())], [6, 23]);
    }

    /// A link behind the one that goes over: cut, of another kind, out of range, of a number that is there; and a good one.
    #[test]
    fn a_tenth_link() {
        let mut ten = table_over();
        ten.count = 10;
        let with = |change: fn(&mut Link)| {
            let mut table = ten.clone();
            table.links[9] = Link { line: 1, ..link(9) };
            change(&mut table.links[9]);
            table
        };
        let file = bytes_of(&with(|_| ()));
        let link_at = 8 + 18 * 9;
        assert_eq!(read(&file[..link_at]), Err(1));
        assert_eq!(read(&file[..link_at + 17]), Err(1));
        assert_eq!(read(&[&file[..link_at], &[16, 0, 3, 0], &file[link_at + 4..]].concat()), Err(2));
        assert_eq!(both(&with(|v| v.code = 8)), [4; 2]);
        assert_eq!(both(&with(|v| v.number = 8)), [5; 2]);
        assert_eq!(both(&with(|_| ())), [23; 2]);
    }

    #[test]
    fn the_writer_and_23() {
        for (table, short, long) in
            [(table_over(), Err(23), Err(23)), (table_full(), Err(9), Ok(44 + 18 * 9))]
        {
            assert_eq!(write(&table, &mut [0; 43 + 18 * 9]), short);
            assert_eq!(write(&table, &mut [0; 44 + 18 * 9]), long);
        }
    }
}
