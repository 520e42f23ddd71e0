//! The case of the program jitter_left: five links, whose jitters break a size. With less jitter of one of two of
//! them the table fits; the other three can do nothing about it.

use super::make::table_of;
use super::Files;
use crate::examples::link;
use crate::jitter::printed;
use crate::table::{bytes_of, Link, Table};

fn table() -> Table {
    let links = [
        Link { jitter: 26_000, ..link(3, 0, 0, 350) },
        link(7, 0, 1, 700),
        Link { jitter: 12_000, code: 1, ..link(20, 1, 0, 400) },
        Link { jitter: 50_000, code: 2, ..link(300, 2, 0, 500) },
        Link { jitter: 3_000, code: 5, ..link(65_535, 2, 5, 1_538) },
    ];
    table_of(3, &links, [2_000, 1_400, 0, 0, 0, 2_000, 0, 1])
}

/// The files of the program's folder; it has no arguments.
pub fn files() -> Files {
    let table = bytes_of(&table());
    let stdout = printed(&table, None).into_bytes();
    vec![("stdin", table), ("stdout", stdout)]
}
