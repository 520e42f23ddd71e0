//! The case of the program next_table: table E, for line 3 of 5, with no sizes.

use super::Files;
use crate::examples::table_e;
use crate::next::printed;
use crate::table::bytes_of;

/// The files of the program's folder.
pub fn files() -> Files {
    let table = bytes_of(&table_e());
    let stdout = printed(&table, 3, 5, &[0; 8]);
    vec![("args", b"3\n5\n".to_vec()), ("stdin", table), ("stdout", stdout)]
}
