//! The table in plain Rust: its record, reader and writer.

/// What a buffer does not keep of a frame's length: held bytes and A_p take lengths less this.
pub const UNKEPT: u16 = 20;

/// A count of frames that rises no more.
pub const FULL_COUNT: u64 = 1 << 52;

#[derive(Clone, Copy, Default)]
pub struct Link {
    pub number: u16,
    pub line: u8,
    pub priority: u8,
    pub code: u8,
    pub least: u16,
    pub greatest: u16,
    pub jitter: u32,
}

pub struct Table {
    pub lines: u16,
    pub count: u16,
    pub links: [Link; 256],
    pub sizes: [u32; 8],
}

fn two(b: &[u8], at: usize) -> u16 {
    u16::from_le_bytes([b[at], b[at + 1]])
}

fn four(b: &[u8], at: usize) -> u32 {
    u32::from_le_bytes([b[at], b[at + 1], b[at + 2], b[at + 3]])
}

fn header(rest: &[u8], kind: u16, length: u16) -> Result<(), u32> {
    if rest.len() < 4 {
        return Err(1);
    }
    if two(rest, 0) != length || two(rest, 2) != kind {
        return Err(2);
    }
    if rest.len() < 2 + usize::from(length) {
        return Err(1);
    }
    Ok(())
}

fn link_check(v: &Link, lines: u16, previous: Option<u16>) -> Result<(), u32> {
    let fits = u16::from(v.line) < lines && v.priority <= 7 && v.code <= 7 && v.jitter <= 125_000;
    if !fits || v.least < 84 || v.least > v.greatest || v.greatest > 1_538 {
        return Err(4);
    }
    if previous.is_some_and(|p| v.number <= p) {
        return Err(5);
    }
    Ok(())
}

/// What a link is promised of the bytes that its line carries in the longest BAG. Its code is at most 7.
pub fn promise(v: &Link) -> u32 {
    u32::from(v.greatest) << (7 - v.code)
}

/// Whether each line carries what its links are promised.
pub fn carried(promised: &[u32; 24]) -> bool {
    promised.iter().all(|&sum| sum <= 1_600_000)
}

fn lines_check(promised: &[u32; 24]) -> Result<(), u32> {
    if carried(promised) { Ok(()) } else { Err(23) }
}

fn counts_check(lines: u16, count: u16) -> Result<(), u32> {
    if (1..=24).contains(&lines) && (1..=256).contains(&count) { Ok(()) } else { Err(3) }
}

fn sizes_check(sizes: &[u32; 8]) -> Result<(), u32> {
    if sizes.iter().all(|&s| s <= 16_384) { Ok(()) } else { Err(6) }
}

pub fn read(file: &[u8]) -> Result<Table, u32> {
    header(file, 1, 6)?;
    let (lines, count) = (two(file, 4), two(file, 6));
    counts_check(lines, count)?;
    let mut links = [Link::default(); 256];
    let mut rest = &file[8..];
    let mut promised = [0; 24];
    let mut previous = None;
    for link in links.iter_mut().take(usize::from(count)) {
        header(rest, 2, 16)?;
        *link = Link {
            number: two(rest, 4),
            line: rest[6],
            priority: rest[7],
            code: rest[8],
            least: two(rest, 10),
            greatest: two(rest, 12),
            jitter: four(rest, 14),
        };
        if rest[9] != 0 {
            return Err(4);
        }
        link_check(link, lines, previous)?;
        promised[usize::from(link.line)] += promise(link);
        previous = Some(link.number);
        rest = &rest[18..];
    }
    lines_check(&promised)?;
    header(rest, 3, 34)?;
    let mut sizes = [0; 8];
    for (p, size) in sizes.iter_mut().enumerate() {
        *size = four(rest, 4 + 4 * p);
    }
    sizes_check(&sizes)?;
    if rest.len() > 36 {
        return Err(7);
    }
    Ok(Table { lines, count, links, sizes })
}

fn check(t: &Table) -> Result<(), u32> {
    counts_check(t.lines, t.count)?;
    let mut promised = [0; 24];
    let mut previous = None;
    for v in &t.links[..usize::from(t.count)] {
        link_check(v, t.lines, previous)?;
        promised[usize::from(v.line)] += promise(v);
        previous = Some(v.number);
    }
    lines_check(&promised)?;
    sizes_check(&t.sizes)
}

fn put(out: &mut [u8], at: &mut usize, bytes: &[u8]) {
    out[*at..*at + bytes.len()].copy_from_slice(bytes);
    *at += bytes.len();
}

pub fn write(t: &Table, out: &mut [u8]) -> Result<usize, u32> {
    check(t)?;
    let length = 44 + 18 * usize::from(t.count);
    if out.len() < length {
        return Err(9);
    }
    let mut at = 0;
    for n in [6, 1, t.lines, t.count] {
        put(out, &mut at, &n.to_le_bytes());
    }
    for v in &t.links[..usize::from(t.count)] {
        for n in [16, 2, v.number] {
            put(out, &mut at, &n.to_le_bytes());
        }
        put(out, &mut at, &[v.line, v.priority, v.code, 0]);
        put(out, &mut at, &v.least.to_le_bytes());
        put(out, &mut at, &v.greatest.to_le_bytes());
        put(out, &mut at, &v.jitter.to_le_bytes());
    }
    for n in [34u16, 3] {
        put(out, &mut at, &n.to_le_bytes());
    }
    for size in t.sizes {
        put(out, &mut at, &size.to_le_bytes());
    }
    Ok(length)
}

/// The file of a table that passes.
pub fn file_of(t: &Table) -> Vec<u8> {
    let mut out = vec![0; 44 + 18 * usize::from(t.count)];
    write(t, &mut out).expect("it passes");
    out
}
