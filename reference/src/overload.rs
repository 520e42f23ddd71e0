//! "The handful that breaks the table": links of it that have no bounds together, and have them without any one.

use crate::bounds::has_bounds;
use crate::cases::make::table_of;
use crate::table::{check, promised, read, Link, Table, CARRIED};

/// "Line count and sizes are kept."
fn of_these(table: &Table, links: &[Link]) -> Table {
    table_of(table.lines, links, table.sizes)
}

/// The links but the one of this number.
fn without(links: &[Link], number: u16) -> Vec<Link> {
    links.iter().filter(|v| v.number != number).copied().collect()
}

/// "Links are tried for removal in table order, each against those still kept, and the answer is what remains." "26, the table
/// has bounds, after its own checks."
pub fn handful(table: &Table) -> Result<Table, u32> {
    match check(table) {
        0 if has_bounds(table) => Err(26),
        0 => Ok(of_these(table, &remaining(table))),
        refusal => Err(refusal),
    }
}

fn remaining(table: &Table) -> Vec<Link> {
    let mut kept = table.members().to_vec();
    for v in table.members() {
        let others = without(&kept, v.number);
        if !has_bounds(&of_these(table, &others)) {
            kept = others;
        }
    }
    kept
}

/// "1,000 × the kept links' sum of L × 2^(7 − code) / 1,600,000, rounded up"
pub fn sold(table: &Table, line: u16) -> u64 {
    (1_000 * promised(table.members(), line)).div_ceil(CARRIED)
}

/// Whether the links are some of the table's, in their order.
fn is_selection(table: &Table, links: &[Link]) -> bool {
    let mut left = table.members().iter();
    links.iter().all(|v| left.any(|of_table| of_table == v))
}

/// What the statement says of a selection, with no search: it "still has no bounds, while leaving out any one of them gives a
/// table that has".
fn is_handful(table: &Table, links: &[Link], has: fn(&Table) -> bool) -> Result<(), String> {
    if has(&of_these(table, links)) {
        return Err("the selection has bounds".to_string());
    }
    match links.iter().find(|v| !has(&of_these(table, &without(links, v.number)))) {
        Some(v) => Err(format!("without link {} there are no bounds either", v.number)),
        None => Ok(()),
    }
}

/// "in table order": a link is in the answer exactly if those of the answer before it and all of the table behind it have
/// bounds.
fn is_in_order(table: &Table, links: &[Link], has: fn(&Table) -> bool) -> Result<(), String> {
    for (i, v) in table.members().iter().enumerate() {
        let mut others: Vec<Link> = links.iter().filter(|kept| kept.number < v.number).copied().collect();
        others.extend(&table.members()[i + 1..]);
        if has(&of_these(table, &others)) != links.contains(v) {
            return Err(format!("link {} says otherwise", v.number));
        }
    }
    Ok(())
}

/// Holds an answer of a table that passes its checks against the statement, asking `has` what has bounds. Gives how many
/// tables were asked for.
pub fn tried(table: &Table, answer: &Result<Table, u32>, has: fn(&Table) -> bool) -> Result<usize, String> {
    let kept = match answer {
        Err(26) if has(table) => return Ok(1),
        Ok(kept) if !has(table) => kept,
        _ => return Err(format!("refused {}", answer.as_ref().err().unwrap_or(&0))),
    };
    let links = kept.members();
    if *kept != of_these(table, links) || !is_selection(table, links) {
        return Err("it is no selection".to_string());
    }
    is_handful(table, links, has)?;
    is_in_order(table, links, has)?;
    Ok(2 + links.len() + table.members().len())
}

/// "BAG in ms, that is 2^code"
fn line(v: &Link) -> String {
    let bag = 2_u32.pow(v.code.into());
    format!("{} {} {} {bag} {} {} {}\n", v.number, v.line, v.priority, v.least, v.greatest, v.jitter)
}

fn answered(file: &[u8]) -> Result<String, u32> {
    let kept = handful(&read(file)?)?;
    let links: String = kept.members().iter().map(line).collect();
    let lines: String = (0..kept.lines).map(|line| format!("{line} {}\n", sold(&kept, line))).collect();
    Ok(format!("number line priority bag least greatest jitter\n{links}line sold\n{lines}"))
}

/// What the program handful prints: a line for each link that is kept, then one for each line of the table, or `refused N`. It
/// reads "at most 4,653 bytes".
pub fn printed(input: &[u8]) -> String {
    let file = &input[..input.len().min(4_653)];
    answered(file).unwrap_or_else(|refusal| format!("refused {refusal}\n"))
}

/// Answers that are wrong, each by a slip.
#[cfg(test)]
pub mod slips {
    use super::*;
    use crate::bounds::bounds;

    /// What remains where these selections are left out in turn, each against those still kept.
    fn after(table: &Table, turns: &[&[Link]]) -> Vec<Link> {
        let mut kept = table.members().to_vec();
        for turn in turns {
            let others: Vec<Link> = kept.iter().filter(|v| !turn.contains(v)).copied().collect();
            if !has_bounds(&of_these(table, &others)) {
                kept = others;
            }
        }
        kept
    }

    fn reverse_order(table: &Table) -> Vec<Link> {
        after(table, &table.members().chunks(1).rev().collect::<Vec<_>>())
    }

    fn two_at_a_time(table: &Table) -> Vec<Link> {
        after(table, &table.members().chunks(2).collect::<Vec<_>>())
    }

    fn against_the_whole(table: &Table) -> Vec<Link> {
        let all = table.members();
        let stays = |v: &&Link| has_bounds(&of_these(table, &without(all, v.number)));
        all.iter().filter(stays).copied().collect()
    }

    fn up_to_the_first_that_stays(table: &Table) -> Vec<Link> {
        let first = remaining(table)[0];
        table.members().iter().skip_while(|v| **v != first).copied().collect()
    }

    fn the_removed(table: &Table) -> Vec<Link> {
        let kept = remaining(table);
        table.members().iter().filter(|v| !kept.contains(v)).copied().collect()
    }

    /// Bounds that break a size count as none.
    fn by_sizes(table: &Table) -> Vec<Link> {
        let fits = |links: &[Link]| {
            let of = of_these(table, links);
            bounds(&of).is_ok_and(|found| (0..8).all(|p| found.bounds[p] <= of.sizes[p].into()))
        };
        let mut kept = table.members().to_vec();
        for v in table.members() {
            let others = without(&kept, v.number);
            if !others.is_empty() && !fits(&others) {
                kept = others;
            }
        }
        kept
    }

    pub type Slip = (&'static str, fn(&Table) -> Vec<Link>);

    pub const SLIPS: [Slip; 5] = [
        ("reverse order", reverse_order),
        ("two at a time", two_at_a_time),
        ("against the whole table", against_the_whole),
        ("up to the first that stays", up_to_the_first_that_stays),
        ("the removed", the_removed),
    ];

    pub const BY_SIZES: fn(&Table) -> Vec<Link> = by_sizes;

    /// The answer of a slip.
    pub fn answer(table: &Table, slip: fn(&Table) -> Vec<Link>) -> Result<Table, u32> {
        Ok(of_these(table, &slip(table)))
    }
}

#[cfg(test)]
mod tests {
    use super::slips::{answer, BY_SIZES, SLIPS};
    use super::*;
    use crate::bounds::holds;
    use crate::cases::{carried, handful_tables};
    use crate::examples::{
        forty_six, forty_three, late, link, table_c, table_e, table_full, table_j4, table_j5, table_over,
        table_spread,
    };
    use crate::random::Random;
    use crate::table::bytes_of;

    /// The numbers of what remains.
    fn numbers(table: &Table) -> Result<Vec<u16>, u32> {
        handful(table).map(|kept| kept.members().iter().map(|v| v.number).collect())
    }

    fn with(table: Table, change: impl Fn(&mut Table)) -> Table {
        let mut table = table;
        change(&mut table);
        table
    }

    #[test]
    fn j4_and_j5() {
        assert_eq!(numbers(&table_j4()), Ok(vec![2, 3, 4]));
        assert_eq!(numbers(&table_j5()), Ok(vec![1, 3, 4]));
        let kept = handful(&table_j4()).expect("an answer");
        assert_eq!(kept, table_of(4, &table_j4().members()[1..], [0; 8]));
        assert_eq!(numbers(&with(table_j4(), |t| t.links[2].jitter = 0)), Ok(vec![1, 2, 4]));
    }

    /// Line count and sizes are kept, and sizes play no part.
    #[test]
    fn what_is_kept_of_the_record() {
        let sizes = [16_384, 1, 2, 3, 4, 5, 6, 7];
        let table = with(table_j5(), |t| (t.lines, t.sizes) = (24, sizes));
        let kept = handful(&table).expect("an answer");
        assert_eq!((kept.lines, kept.count, kept.sizes), (24, 3, sizes));
        assert_eq!(numbers(&table), Ok(vec![1, 3, 4]));
    }

    #[test]
    fn three_and_forty_three() {
        assert_eq!(numbers(&forty_six(0)), Ok((4..=46).collect()));
        assert_eq!(numbers(&forty_six(43)), Ok(vec![44, 45, 46]));
        assert_eq!(numbers(&forty_three(941)), Ok((0..43).collect()));
        assert_eq!(numbers(&forty_three(940)), Err(26));
    }

    /// SPREAD needs each of its links: FULL has bounds, and so have any eight of its nine links with the one on the other line.
    #[test]
    fn tables_that_other_requests_name() {
        assert_eq!(numbers(&table_spread()), Ok((0..10).collect()));
        for table in [table_full(), table_c(), table_e(), with(table_e(), |t| t.sizes = [0; 8])] {
            assert_eq!(numbers(&table), Err(26));
        }
    }

    /// The table's own checks, in their order, then 26.
    #[test]
    fn the_order_of_refusals() {
        let faults: [(fn(&mut Table), u32); 5] = [
            (|t| (t.lines, t.links[1].code) = (0, 8), 3),
            (|t| (t.links[1].code, t.links[2].number) = (8, 0), 4),
            (|t| (t.links[1].number, t.sizes[0]) = (1, 16_385), 5),
            (|t| *t = Table { sizes: [16_385; 8], ..table_over() }, 23),
            (|t| t.sizes[7] = 16_385, 6),
        ];
        for (fault, refusal) in faults {
            assert_eq!(
                [table_j4(), table_e()].map(|t| numbers(&with(t, fault))),
                [Err(refusal), Err(refusal)]
            );
        }
        for count in [0, 257, 65_535] {
            assert_eq!(numbers(&with(table_j4(), |t| t.count = count)), Err(3));
        }
        assert!(carried::oversold().iter().all(|t| numbers(t) == Err(check(t))));
    }

    /// Entries behind the count take no bounds away, are not kept, and are not sold.
    #[test]
    fn entries_behind_the_count() {
        assert_eq!(
            [2, 3].map(|count| numbers(&with(table_j4(), |t| t.count = count))),
            [Err(26), Ok(vec![1, 2, 3])]
        );
        let table = with(table_j5(), |t| t.links[5] = late(6, 0));
        assert_eq!(handful(&table), handful(&table_j5()));
        assert_eq!((0..5).map(|line| sold(&table, line)).collect::<Vec<_>>(), [124, 1, 124, 124, 1]);
    }

    /// What is sold of line 1 by a link of this code and greatest length.
    fn sold_by(code: u8, greatest: u16) -> u64 {
        sold(&table_of(2, &[Link { code, ..link(1, 1, 0, greatest) }], [0; 8]), 1)
    }

    /// A thousandth is 1,600: 100 of code 3, 200 of code 4, 400 of code 5.
    #[test]
    fn sold_is_rounded_up() {
        assert_eq!([99, 100, 101].map(|greatest| sold_by(3, greatest)), [1, 1, 2]);
        assert_eq!([199, 200, 201, 400, 401].map(|greatest| sold_by(4, greatest)), [1, 1, 2, 2, 3]);
        assert_eq!([84, 400, 401].map(|greatest| sold_by(5, greatest)), [1, 1, 2]);
        assert_eq!([84, 1_538].map(|greatest| sold_by(7, greatest)), [1, 1]);
        assert_eq!(
            [(0, 1_538), (0, 84), (1, 84)].map(|(code, greatest)| sold_by(code, greatest)),
            [124, 7, 4]
        );
        assert_eq!([0, 1].map(|line| sold(&table_full(), line)), [1_000, 0]);
        assert_eq!(sold(&with(table_full(), |t| t.links[8].greatest = 195), 0), 1_000);
        assert_eq!(sold(&with(table_full(), |t| t.links[8].greatest = 183), 0), 999);
        let kept = handful(&table_spread()).expect("an answer");
        assert_eq!([0, 1].map(|line| sold(&kept, line)), [1_000, 1]);
    }

    /// It is the greatest length that is sold, and each line's own.
    #[test]
    fn what_is_sold() {
        let links = [Link { least: 1_000, ..link(1, 0, 0, 1_000) }, link(2, 0, 5, 600), link(3, 2, 0, 600)];
        let table = table_of(4, &links, [0; 8]);
        assert_eq!([0, 1, 2, 3].map(|line| sold(&table, line)), [128, 0, 48, 0]);
    }

    /// One link has bounds, and so have two.
    #[test]
    fn three_links_at_least() {
        let worst = [late(1, 0), late(2, 0)];
        let found = [1, 2].map(|many| holds(&table_of(1, &worst[..many], [0; 8])).map(|found| found[7]));
        assert_eq!(found, [Ok(18_456), Ok(43_064)]);
        let mut random = Random::new(2_024_116);
        let mut many = Vec::new();
        for table in handful_tables::drawn(&mut random, 12) {
            many.push(handful(&table).expect("an answer").count);
        }
        assert!(many.iter().all(|many| *many >= 3) && many.contains(&3) && many.contains(&4));
    }

    /// Each slip's answer is seen on many drawn tables, whoever is asked what has bounds; and on none is the right one found wrong.
    #[test]
    fn wrong_answers_are_seen() {
        let mut random = Random::new(2_024_117);
        let tables = handful_tables::drawn(&mut random, 12);
        let mut seen = [0; 5];
        for table in &tables {
            let right = handful(table);
            assert!(tried(table, &right, has_bounds).is_ok_and(|many| many >= 8));
            for ((name, slip), seen) in SLIPS.iter().zip(&mut seen) {
                let wrong = answer(table, *slip);
                assert_eq!(tried(table, &wrong, has_bounds).is_ok(), wrong == right, "{name}");
                *seen += usize::from(wrong != right);
            }
        }
        assert!(tables.len() >= 60 && seen.iter().all(|many| *many >= 15), "{seen:?}");
    }

    /// The slips on the examples, by the formulas alone.
    #[test]
    fn wrong_answers_for_the_examples() {
        let by_formulas = |table: &Table| holds(table).is_ok();
        let said = |table: &Table, wrong: Result<Table, u32>| tried(table, &wrong, by_formulas);
        assert_eq!(said(&table_j4(), handful(&table_j4())), Ok(9));
        assert_eq!(said(&table_e(), Err(26)), Ok(1));
        for (name, slip) in SLIPS {
            let is_seen = |table: &Table| said(table, answer(table, slip)).is_err();
            assert!([table_j4(), table_j5()].iter().any(is_seen), "{name}");
        }
        for wrong in [Err(26), Err(8), Err(3), Ok(table_j4()), Ok(table_e())] {
            assert!(said(&table_j4(), wrong).is_err());
        }
        let no_sizes = with(table_e(), |t| t.sizes = [0; 8]);
        assert_eq!(BY_SIZES(&no_sizes).len(), 1);
        assert!(said(&no_sizes, answer(&no_sizes, BY_SIZES)).is_err() && said(&no_sizes, Err(8)).is_err());
    }

    /// Another record for the right links: in another order, with other sizes or lines, something behind them, or a link changed.
    #[test]
    fn another_record_is_seen() {
        let right = handful(&table_j5()).expect("an answer");
        let changes: [fn(&mut Table); 6] = [
            |t| t.links.swap(0, 1),
            |t| t.sizes[0] = 1,
            |t| t.lines = 6,
            |t| t.links[3] = t.links[2],
            |t| t.links[0].least = 85,
            |t| t.count = 2,
        ];
        for change in changes {
            assert!(tried(&table_j5(), &Ok(with(right.clone(), change)), has_bounds).is_err());
        }
    }

    #[test]
    fn what_is_printed() {
        let head = "number line priority bag least greatest jitter\n";
        assert_eq!(
            printed(&bytes_of(&table_j4())),
            format!(
                "{head}2 1 0 1 84 1538 125000\n3 2 0 1 84 1538 125000\n4 3 0 1 84 1538 125000\n\
                 line sold\n0 0\n1 124\n2 124\n3 124\n"
            )
        );
        assert_eq!(
            printed(&bytes_of(&table_j5())),
            format!(
                "{head}1 0 0 1 84 1538 125000\n3 2 0 1 84 1538 125000\n4 3 0 1 84 1538 125000\n\
                 line sold\n0 124\n1 0\n2 124\n3 124\n4 0\n"
            )
        );
        let mixed = with(table_j4(), |t| {
            (t.links[2].code, t.links[2].priority) = (1, 5);
            (t.links[3].code, t.links[3].least) = (1, 100);
        });
        let text = printed(&bytes_of(&mixed));
        assert!(text.contains("\n3 2 5 2 84 1538 125000\n4 3 0 2 100 1538 125000\nline sold\n0 124\n"));
        let full = printed(&bytes_of(&forty_three(941)));
        assert!(
            full.starts_with(&format!("{head}0 0 0 128 84 1538 0\n"))
                && full.ends_with("\nline sold\n0 41\n")
        );
        assert!(printed(&bytes_of(&table_spread())).ends_with("9 1 0 128 84 84 0\nline sold\n0 1000\n1 1\n"));
    }

    #[test]
    fn what_is_refused() {
        let e = bytes_of(&with(table_e(), |t| t.sizes = [0; 8]));
        assert_eq!(printed(&e), "refused 26\n");
        assert_eq!(printed(b""), "refused 1\n");
        assert_eq!(printed(&bytes_of(&table_over())), "refused 23\n");
        let j4 = bytes_of(&table_j4());
        assert!((0..j4.len()).all(|length| printed(&j4[..length]) == "refused 1\n"));
        assert_eq!(printed(&[&j4[..], &[0]].concat()), "refused 7\n");
        assert_eq!(printed(&[&j4[..], &[0; 9_000]].concat()), "refused 7\n");
        for (at, byte, refusal) in [(0, 5, 2), (4, 0, 3), (16, 8, 4), (30, 1, 5), (86, 1, 6)] {
            let mut damaged = j4.clone();
            damaged[at] = byte;
            assert_eq!(printed(&damaged), format!("refused {refusal}\n"), "{at}");
        }
    }
}
