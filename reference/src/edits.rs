//! "Edits that cannot surprise the cabin": what two tables must have to do with each other, and what is then true of their
//! bounds. Each hypothesis is a test on the two tables as they are, however the second was made.

use crate::bounds::{bounds, Bounds};
use crate::table::{check, Link, Table};

/// Two tables: before an edit, and after it.
pub struct Pair {
    pub name: String,
    pub first: Table,
    pub second: Table,
}

/// A part of a hypothesis, and whether two tables meet it.
pub type Part = (&'static str, bool);

/// The parts that are not met.
pub fn unmet(parts: &[Part]) -> Vec<&'static str> {
    parts.iter().filter(|(_, is_met)| !is_met).map(|(part, _)| *part).collect()
}

fn are_met(parts: &[Part]) -> bool {
    unmet(parts).is_empty()
}

/// "State this for two tables that pass their own checks."
fn own_checks(first: &Table, second: &Table) -> Part {
    ("their own checks", check(first) == 0 && check(second) == 0)
}

/// "all links of priority 0 to p"
fn links_to(table: &Table, p: u8) -> Vec<Link> {
    table.members().iter().filter(|v| v.priority <= p).copied().collect()
}

/// "the greatest L below them in priority", or none.
fn greatest_below(table: &Table, p: u8) -> Option<u16> {
    table.members().iter().filter(|v| v.priority > p).map(|v| v.greatest).max()
}

/// "if they agree on .. all links of priority 0 to p, and on the greatest L below them in priority". The line count is left
/// out: these links stand on lines below both counts, and "A line without members adds 0."
pub fn agreement(first: &Table, second: &Table, p: u8) -> [Part; 3] {
    [
        own_checks(first, second),
        ("the same links of 0 to p", links_to(first, p) == links_to(second, p)),
        ("the same greatest L below", greatest_below(first, p) == greatest_below(second, p)),
    ]
}

/// "if the second differs from the first only by some larger L or larger jitter": link by link. Sizes are left out.
pub fn enlargement(first: &Table, second: &Table) -> [Part; 10] {
    let each = |is_so: fn(&Link, &Link) -> bool| {
        first.members().iter().zip(second.members()).all(|(before, after)| is_so(before, after))
    };
    [
        own_checks(first, second),
        ("the same line count", first.lines == second.lines),
        ("as many links", first.count == second.count),
        ("the same numbers", each(|before, after| after.number == before.number)),
        ("the same lines", each(|before, after| after.line == before.line)),
        ("the same priorities", each(|before, after| after.priority == before.priority)),
        ("the same codes", each(|before, after| after.code == before.code)),
        ("the same least lengths", each(|before, after| after.least == before.least)),
        ("no smaller L", each(|before, after| after.greatest >= before.greatest)),
        ("no smaller jitter", each(|before, after| after.jitter >= before.jitter)),
    ]
}

/// Whether each link of the first table has one in the second that is such.
fn each_has(first: &Table, second: &Table, is_such: fn(&Link, &Link) -> bool) -> bool {
    first.members().iter().all(|before| second.members().iter().any(|after| is_such(before, after)))
}

/// Links are added anywhere, and none is changed or taken away. The line count is left out.
pub fn addition(first: &Table, second: &Table) -> [Part; 2] {
    let is_there = each_has(first, second, |before, after| after == before);
    [own_checks(first, second), ("each link of the first", is_there)]
}

/// The same link, or one that differs only by a larger L or a larger jitter.
fn is_larger(before: &Link, after: &Link) -> bool {
    let lessened = Link { greatest: before.greatest, jitter: before.jitter, ..*after };
    lessened == *before && after.greatest >= before.greatest && after.jitter >= before.jitter
}

/// Both: links are added anywhere, and some of the first's have a larger L or a larger jitter.
pub fn growth(first: &Table, second: &Table) -> [Part; 2] {
    let is_there = each_has(first, second, is_larger);
    [own_checks(first, second), ("each link of the first, or a larger one", is_there)]
}

/// Bounds, holds and windows, or what the table is refused with.
pub type Found = Result<Bounds, u32>;

/// Bound, hold and window.
fn three(found: &Bounds, p: usize) -> [u64; 3] {
    [found.bounds[p], found.holds[p], found.windows[p]]
}

/// The first priority below `end` where what was found before and after is not so.
fn all_so(
    end: u8,
    first: &Bounds,
    second: &Bounds,
    is_so: fn([u64; 3], [u64; 3]) -> bool,
) -> Result<(), String> {
    for p in 0..usize::from(end) {
        let (before, after) = (three(first, p), three(second, p));
        if !is_so(before, after) {
            return Err(format!("priority {p} has {before:?} and then {after:?}"));
        }
    }
    Ok(())
}

/// "then bounds and holds of 0 to p agree", and windows.
pub fn same_to(first: &Bounds, second: &Bounds, p: u8) -> Result<(), String> {
    all_so(p + 1, first, second, |before, after| after == before)
}

/// "no bound and no hold is smaller in it. If the first of such a pair has no bounds, neither has the second."
pub fn no_better(first: &Found, second: &Found) -> Result<(), String> {
    match (first, second) {
        (Ok(first), Ok(second)) => {
            all_so(8, first, second, |before, after| after[0] >= before[0] && after[1] >= before[1])
        }
        (Ok(_) | Err(8), Err(8)) => Ok(()),
        _ => Err(format!("the first table has {first:?} and the second {second:?}")),
    }
}

/// What was seen of a pair.
#[derive(Clone, Copy, Debug, Default, PartialEq, Eq)]
pub struct Seen {
    /// To how many p the two agree, where both have bounds.
    pub agreed: usize,
    pub other_line_count: bool,
    pub larger: bool,
    pub added: bool,
    /// Larger, or added, or both; what follows is of these alone.
    pub grown: bool,
    /// Whether the first, and the second, has no bounds.
    pub without: [bool; 2],
    /// A bound or a hold is greater in the second.
    pub rose: bool,
    /// A window is smaller in it.
    pub window_fell: bool,
}

/// To how many p the pair agrees; for each of them, that bounds, holds and windows do.
fn agreed(pair: &Pair, first: &Bounds, second: &Bounds) -> Result<usize, String> {
    let mut many = 0;
    for p in 0..8 {
        if are_met(&agreement(&pair.first, &pair.second, p)) {
            same_to(first, second, p)
                .map_err(|breach| format!("{}: they agree to {p}, and {breach}", pair.name))?;
            many += 1;
        }
    }
    Ok(many)
}

/// Each statement whose hypothesis the pair meets, for what was found of the two tables.
fn judged(pair: &Pair, first: &Found, second: &Found) -> Result<Seen, String> {
    let Pair { name, first: before, second: after } = pair;
    let mut seen = Seen {
        other_line_count: before.lines != after.lines,
        larger: are_met(&enlargement(before, after)),
        added: are_met(&addition(before, after)),
        grown: are_met(&growth(before, after)),
        ..Seen::default()
    };
    for (what, is_so) in [("larger", seen.larger), ("links are added", seen.added), ("grown", seen.grown)] {
        if is_so {
            no_better(first, second).map_err(|breach| format!("{name}: {what}, and {breach}"))?;
        }
    }
    if seen.grown {
        seen.without = [first.is_err(), second.is_err()];
    }
    if let (Ok(first), Ok(second)) = (first, second) {
        seen.agreed = agreed(pair, first, second)?;
        let is_any = |is_so: fn([u64; 3], [u64; 3]) -> bool| {
            seen.grown && (0..8).any(|p| is_so(three(first, p), three(second, p)))
        };
        seen.rose = is_any(|before, after| after[0] > before[0] || after[1] > before[1]);
        seen.window_fell = is_any(|before, after| after[2] < before[2]);
    }
    Ok(seen)
}

/// What was seen of the pair, or the first statement that is false of it.
pub fn look(pair: &Pair) -> Result<Seen, String> {
    judged(pair, &bounds(&pair.first), &bounds(&pair.second))
}

#[cfg(test)]
mod tests {
    use super::*;
    use crate::examples::{table_e, table_full, table_spread};

    /// E, and E with link 2 of 1,001.
    fn larger() -> Pair {
        let mut second = table_e();
        second.links[1].greatest = 1_001;
        Pair { name: "longer".into(), first: table_e(), second }
    }

    /// What is said of the pair where this is found of its second table.
    fn said(pair: &Pair, change: impl Fn(&mut Bounds)) -> Result<Seen, String> {
        let mut found = bounds(&pair.second).expect("a table with bounds");
        change(&mut found);
        judged(pair, &bounds(&pair.first), &Ok(found))
    }

    #[test]
    fn a_smaller_bound_or_hold_is_seen() {
        let pair = larger();
        assert_eq!(look(&pair), said(&pair, |_| ()));
        let breach = said(&pair, |found| found.bounds[1] = 979).expect_err("a breach");
        assert_eq!(breach, "longer: larger, and priority 1 has [980, 1500, 0] and then [979, 1501, 0]");
        for p in 0..8 {
            assert!(said(&pair, |found| found.holds[p] = 1_498).is_err());
            let same = bounds(&pair.first).expect("a table with bounds");
            assert!(said(&pair, |found| found.holds[p] = same.holds[p]).is_ok());
        }
    }

    #[test]
    fn another_bound_hold_or_window_is_seen() {
        let mut pair = larger();
        pair.name = "lower".into();
        pair.second.links[1] = Link { priority: 5, greatest: 1_000, ..pair.second.links[1] };
        assert_eq!(said(&pair, |_| ()).map(|seen| (seen.agreed, seen.grown)), Ok((1, false)));
        let breach = said(&pair, |found| found.holds[0] = 1_500).expect_err("a breach");
        assert_eq!(
            breach,
            "lower: they agree to 0, and priority 0 has [480, 1499, 0] and then [480, 1500, 0]"
        );
        assert!(said(&pair, |found| found.bounds[0] = 481).is_err());
        assert!(said(&pair, |found| found.windows[0] = 1).is_err());
        assert!(said(&pair, |found| found.bounds[1] = 1).is_ok());
    }

    /// FULL has bounds; with a link on the other line it has none.
    #[test]
    fn bounds_that_are_gained_are_seen() {
        let gaining = Pair { name: "more".into(), first: table_spread(), second: table_spread() };
        assert!(look(&gaining).is_ok_and(|seen| seen.grown && seen.without == [true; 2]));
        assert!(judged(&gaining, &Err(8), &bounds(&table_full())).is_err());
        assert!(judged(&gaining, &Err(8), &Err(4)).is_err());
        let losing = Pair { name: "less".into(), first: table_full(), second: table_spread() };
        assert!(look(&losing).is_ok_and(|seen| seen.added && !seen.larger && seen.without == [false, true]));
    }

    /// "the greatest L below them": none is another than any.
    #[test]
    fn none_below() {
        assert_eq!([0, 1].map(|p| greatest_below(&table_e(), p)), [Some(1_000), None]);
        assert_eq!([0, 1].map(|p| links_to(&table_e(), p).len()), [1, 2]);
    }
}
