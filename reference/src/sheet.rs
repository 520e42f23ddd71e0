//! The paper's "The printed sheet".

use crate::bounds::{bounds, Bounds};
use crate::table::{read, Table};

/// "The program sheet reads a table file on standard input (at most 4,653 bytes of it), and prints
/// `refused N`, or a header and eight lines".
pub fn sheet(input: &[u8]) -> String {
    let file = &input[..input.len().min(4_653)];
    match lines(file) {
        Ok(text) => text,
        Err(refusal) => format!("refused {refusal}\n"),
    }
}

fn lines(file: &[u8]) -> Result<String, u32> {
    let table = read(file)?;
    let found = bounds(&table)?;
    let mut text = String::from("priority bound hold window size spare fill\n");
    for p in 0..8 {
        text += &line(&table, &found, p);
    }
    Ok(text)
}

/// "priority, bound, hold, size, spare = size − bound, which may be below zero, and fill =
/// 1000 × bound / size rounded up; where size is 0 fill is `-`"; "a column named window between hold and
/// size".
fn line(table: &Table, found: &Bounds, p: usize) -> String {
    let bound = found.bounds[p];
    let hold = found.holds[p];
    let window = found.windows[p];
    let size = u64::from(table.sizes[p]);
    let spare = size as i64 - bound as i64;
    let fill = if size == 0 { "-".to_string() } else { (1_000 * bound).div_ceil(size).to_string() };
    format!("{p} {bound} {hold} {window} {size} {spare} {fill}\n")
}

#[cfg(test)]
mod tests {
    use super::*;
    use crate::examples::{table_e, table_full, table_over, table_spread};
    use crate::table::bytes_of;

    #[test]
    fn the_sheet_of_table_e() {
        let expected = "\
priority bound hold window size spare fill
0 480 1499 0 2000 1520 240
1 980 1500 0 2000 1020 490
2 0 1500 0 0 0 -
3 0 1500 0 0 0 -
4 0 1500 0 0 0 -
5 0 1500 0 0 0 -
6 0 1500 0 0 0 -
7 0 1500 0 0 0 -
";
        assert_eq!(sheet(&bytes_of(&table_e())), expected);
    }

    #[test]
    fn spare_below_zero_and_fill_rounded_up() {
        let mut table = table_e();
        table.sizes = [479, 981, 0, 7, 0, 0, 0, 0];
        let text = sheet(&bytes_of(&table));
        assert!(text.contains("\n0 480 1499 0 479 -1 1003\n"));
        assert!(text.contains("\n1 980 1500 0 981 1 999\n"));
        assert!(text.contains("\n3 0 1500 0 7 7 0\n"));
    }

    #[test]
    fn what_is_refused() {
        assert_eq!(sheet(b""), "refused 1\n");
        let mut long = bytes_of(&table_e());
        long.resize(9_000, 0);
        assert_eq!(sheet(&long), "refused 7\n");
        assert_eq!(sheet(&bytes_of(&table_over())), "refused 23\n");
        assert_eq!(sheet(&bytes_of(&table_spread())), "refused 8\n");
        assert!(sheet(&bytes_of(&table_full())).contains("\n0 3075 12500 1557 3075 0 1000\n"));
    }
}
