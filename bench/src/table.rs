//! Reading a table file of 256 links, and reading it and writing it again.

use crate::measure::compare;
use crate::tables::{file_of, read, write, Link, Table};
use std::hint::black_box;

extern "C" {
    fn fenuschia_read(file: *const u8, length: usize) -> u32;
    fn fenuschia_write(file: *const u8, length: usize, out: *mut u8, room: usize) -> u32;
}

fn product_refusal(file: &[u8]) -> u32 {
    unsafe { fenuschia_read(file.as_ptr(), file.len()) }
}

fn product_copy(file: &[u8], out: &mut [u8]) -> u32 {
    unsafe { fenuschia_write(file.as_ptr(), file.len(), out.as_mut_ptr(), out.len()) }
}

fn peer_refusal(file: &[u8]) -> u32 {
    match read(file) {
        Ok(t) => {
            black_box(&t);
            0
        }
        Err(n) => n,
    }
}

fn peer_copy(file: &[u8], out: &mut [u8]) -> u32 {
    read(file).and_then(|t| write(&t, out)).err().unwrap_or(0)
}

/// A table of 256 links on 24 lines.
fn file_of_256() -> Vec<u8> {
    let mut links = [Link::default(); 256];
    for (i, v) in links.iter_mut().enumerate() {
        *v = Link {
            number: 3 * i as u16,
            line: (i % 24) as u8,
            priority: (i % 8) as u8,
            code: (i / 8 % 8) as u8,
            least: 84,
            greatest: 200 + 5 * i as u16,
            jitter: 400 * i as u32,
        };
    }
    file_of(&Table { lines: 24, count: 256, links, sizes: [16_384; 8] })
}

/// The file with line 0 oversold: each of its eleven links of 1,538 and code 0.
fn oversold(file: &[u8]) -> Vec<u8> {
    let mut changed = file.to_vec();
    for at in (0..256).step_by(24).map(|i| 8 + 18 * i) {
        changed[at + 8] = 0;
        changed[at + 12..at + 14].copy_from_slice(&1_538u16.to_le_bytes());
    }
    changed
}

pub fn run() {
    let file = file_of_256();
    let (mut ours, mut theirs) = (vec![0xA5; 4_700], vec![0xA5; 4_700]);
    assert_eq!(product_refusal(&file), 0);
    let over = oversold(&file);
    assert_eq!([product_refusal(&over), peer_refusal(&over)], [23; 2]);
    for cut in [0, 3, 7, 100, file.len() - 1] {
        assert_eq!(product_refusal(&file[..cut]), peer_refusal(&file[..cut]));
        assert_eq!(product_copy(&file[..cut], &mut ours), peer_copy(&file[..cut], &mut theirs));
        assert_eq!(product_copy(&file, &mut ours[..cut]), 9);
        assert!(ours == theirs);
    }
    assert_eq!(product_copy(&file, &mut ours), 0);
    assert_eq!(peer_copy(&file, &mut theirs), 0);
    assert!(ours == theirs && ours[..file.len()] == file[..]);
    compare(
        "read a file of 256 links",
        200,
        || {
            black_box(product_refusal(black_box(&file)));
        },
        || {
            black_box(peer_refusal(black_box(&file)));
        },
    );
    compare(
        "read it and write it again",
        200,
        || {
            black_box(product_copy(black_box(&file), &mut ours));
        },
        || {
            black_box(peer_copy(black_box(&file), &mut theirs));
        },
    );
}
