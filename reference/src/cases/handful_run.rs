//! The case of the program handful: eight links, of which four remain.

use super::make::table_of;
use super::Files;
use crate::examples::link;
use crate::overload::printed;
use crate::table::{bytes_of, Link, Table};

fn table() -> Table {
    let links = [
        Link { jitter: 90_000, ..link(3, 0, 0, 350) },
        Link { jitter: 125_000, ..link(7, 0, 1, 1_538) },
        Link { jitter: 12_000, code: 1, ..link(20, 1, 0, 400) },
        Link { jitter: 120_000, least: 300, ..link(21, 2, 3, 1_500) },
        Link { jitter: 90_000, code: 2, ..link(300, 2, 0, 1_538) },
        Link { code: 7, ..link(4_000, 3, 5, 84) },
        Link { jitter: 125_000, code: 1, least: 1_538, ..link(40_000, 3, 7, 1_538) },
        Link { jitter: 30_000, code: 5, ..link(65_535, 2, 5, 1_538) },
    ];
    table_of(5, &links, [2_000, 1_400, 0, 0, 0, 2_000, 0, 1])
}

/// The files of the program's folder; it has no arguments.
pub fn files() -> Files {
    let table = bytes_of(&table());
    let stdout = printed(&table).into_bytes();
    vec![("stdin", table), ("stdout", stdout)]
}
