//! Pairs of tables made by hand: those with known figures, those where a part of a hypothesis is wanting, and those at the
//! edge of having bounds.

use super::bounds::forty_three;
use super::make::table_of;
use crate::edits::Pair;
use crate::examples::{link, table_e, table_full, table_spread};
use crate::table::{Link, Table};

fn with(mut table: Table, change: impl Fn(&mut Table)) -> Table {
    change(&mut table);
    table
}

/// E with its link 2 changed.
fn e_with(change: impl Fn(&mut Link)) -> Table {
    with(table_e(), |table| change(&mut table.links[1]))
}

/// E and a second link of priority 0.
fn e_and_one() -> Table {
    table_of(2, &[table_e().members(), &[link(3, 0, 0, 84)]].concat(), table_e().sizes)
}

/// O: "one link of 500, line 0, priority 0", with this jitter.
fn o(jitter: u32) -> Table {
    table_of(1, &[Link { jitter, ..link(1, 0, 0, 500) }], [960, 0, 0, 0, 0, 0, 0, 0])
}

/// Three links of 200, on these of three lines.
fn three_on(lines: [u8; 3]) -> Table {
    let links = [1, 2, 3].map(|number| link(number, lines[usize::from(number) - 1], 0, 200));
    table_of(3, &links, [540, 0, 0, 0, 0, 0, 0, 0])
}

/// On one line a link of 300 whose second frame is due at 500, one of 200, and one of each of these lengths.
fn due(others: &[u16]) -> Table {
    let mut links = vec![Link { jitter: 12_000, ..link(1, 0, 0, 300) }, link(2, 0, 0, 200)];
    links.extend((3..).zip(others).map(|(number, greatest)| link(number, 0, 0, *greatest)));
    table_of(1, &links, [599, 0, 0, 0, 0, 0, 0, 0])
}

/// SPREAD, the link of its other line alone at priority 0.
fn spread_below() -> Table {
    with(table_spread(), |table| table.links[..9].iter_mut().for_each(|v| v.priority = 1))
}

/// The first and the last link of that.
fn one_below() -> Table {
    let links = spread_below().links;
    table_of(2, &[links[0], links[9]], [64, 1_518, 0, 0, 0, 0, 0, 0])
}

/// Every pair, in order.
pub fn all() -> Vec<Pair> {
    let e = table_e;
    let longer = |i: usize| with(table_spread(), |table| table.links[i].greatest += 1);
    let pairs = [
        ("E, then link 2 at 5 with jitter", e(), e_with(|v| (v.priority, v.jitter) = (5, 125_000))),
        ("E, then link 2 of 1,001", e(), e_with(|v| v.greatest = 1_001)),
        ("O of 12,001, then 12,500", o(12_001), o(12_500)),
        ("due, then link 3 of 200", due(&[100]), due(&[200])),
        ("due, then one more of 200", due(&[100]), due(&[100, 200])),
        ("E, then one more at 0", e(), e_and_one()),
        ("E, then one line", e(), with(e(), |table| table.lines = 1)),
        ("E, then 24 lines", e(), with(e(), |table| table.lines = 24)),
        ("O of 12,001, then 12,000", o(12_001), o(12_000)),
        ("E, then link 2 of 999", e(), e_with(|v| v.greatest = 999)),
        ("three lines, then one", three_on([0, 1, 2]), three_on([0, 0, 0])),
        ("E, then link 2 at 5", e(), e_with(|v| v.priority = 5)),
        ("O of 12,500, then code 1", o(12_500), with(o(12_500), |table| table.links[0].code = 1)),
        ("E, then without link 2", e(), with(e(), |table| table.count = 1)),
        ("E of 83, then of 84", e_with(|v| v.greatest = 83), e_with(|v| v.greatest = 84)),
        ("no link, then E", with(e(), |table| table.count = 0), e()),
        ("one below, then SPREAD", one_below(), spread_below()),
        ("43 links, 940, then 941", forty_three(940), forty_three(941)),
        ("43 links, 941, then 942", forty_three(941), forty_three(942)),
        ("FULL, then a tick", table_full(), with(table_full(), |table| table.links[0].jitter = 1)),
        ("FULL, then SPREAD", table_full(), table_spread()),
        ("SPREAD, then longer", table_spread(), longer(9)),
        ("SPREAD, then oversold", table_spread(), longer(8)),
    ];
    pairs.into_iter().map(|(name, first, second)| Pair { name: name.into(), first, second }).collect()
}

#[cfg(test)]
mod tests {
    use super::*;
    use crate::bounds::{bounds, unchecked, Bounds};
    use crate::edits::{
        addition, agreement, enlargement, growth, look, no_better, same_to, unmet, Found, Seen,
    };

    fn named(name: &str) -> Pair {
        all().into_iter().find(|pair| pair.name == name).expect("a pair of this name")
    }

    /// What was found of both tables.
    fn both(name: &str) -> [Found; 2] {
        let pair = named(name);
        [bounds(&pair.first), bounds(&pair.second)]
    }

    /// Bound, hold and window of this priority in both.
    fn threes(name: &str, p: usize) -> [[u64; 3]; 2] {
        both(name).map(|found| {
            let found = found.expect("a table with bounds");
            [found.bounds[p], found.holds[p], found.windows[p]]
        })
    }

    fn seen(name: &str) -> Seen {
        look(&named(name)).expect("no breach")
    }

    /// What a pair lacks to agree to p.
    fn lacks_to(name: &str, p: u8) -> Vec<&'static str> {
        let pair = named(name);
        unmet(&agreement(&pair.first, &pair.second, p))
    }

    #[test]
    fn link_2_at_priority_5_with_jitter() {
        let name = "E, then link 2 at 5 with jitter";
        assert_eq!(threes(name, 0), [[480, 1_499, 0]; 2]);
        assert_eq!(lacks_to(name, 0), [""; 0]);
        assert_eq!(lacks_to(name, 1), ["the same links of 0 to p", "the same greatest L below"]);
        assert_eq!(seen(name), Seen { agreed: 1, ..Seen::default() });
        let all_eight = Bounds {
            bounds: [480, 0, 0, 0, 0, 2_499, 0, 0],
            holds: [1_499, 1_499, 1_499, 1_499, 1_499, 11_500, 11_500, 11_500],
            windows: [0, 0, 0, 0, 0, 1_519, 0, 0],
        };
        assert_eq!(both(name)[1], Ok(all_eight));
    }

    #[test]
    fn link_2_of_1_001() {
        let name = "E, then link 2 of 1,001";
        assert_eq!(threes(name, 0), [[480, 1_499, 0], [480, 1_500, 0]]);
        assert_eq!(threes(name, 1), [[980, 1_500, 0], [981, 1_501, 0]]);
        assert_eq!(seen(name), Seen { larger: true, grown: true, rose: true, ..Seen::default() });
    }

    /// By a larger jitter, by a larger L, and by a link that is added.
    #[test]
    fn windows_that_fall() {
        let fallen = Seen { grown: true, window_fell: true, ..Seen::default() };
        let jitter = "O of 12,001, then 12,500";
        assert_eq!(threes(jitter, 0), [[960, 1_000, 499], [960, 1_000, 480]]);
        assert_eq!(seen(jitter), Seen { larger: true, ..fallen });
        let length = "due, then link 3 of 200";
        assert_eq!(threes(length, 0), [[599, 900, 500], [599, 1_000, 319]]);
        assert_eq!(seen(length), Seen { larger: true, rose: true, ..fallen });
        let link = "due, then one more of 200";
        assert_eq!(threes(link, 0), [[599, 900, 500], [599, 1_100, 319]]);
        assert_eq!(seen(link), Seen { added: true, rose: true, ..fallen });
    }

    #[test]
    fn another_line_count_changes_nothing() {
        let name = "E, then 24 lines";
        assert_eq!(both(name)[0], both(name)[1]);
        let same = Seen { agreed: 8, other_line_count: true, ..Seen::default() };
        assert_eq!(seen(name), Seen { added: true, grown: true, ..same });
    }

    /// The parts of "they agree": where one alone is wanting, the conclusion is false of what the formulas give.
    #[test]
    fn each_part_of_agreement_is_needed() {
        for (name, p, part) in [
            ("E, then link 2 of 1,001", 0, "the same greatest L below"),
            ("E, then one more at 0", 0, "the same links of 0 to p"),
            ("E, then one line", 1, "their own checks"),
        ] {
            assert_eq!(lacks_to(name, p), [part]);
            let pair = named(name);
            let [first, second] = [pair.first, pair.second].map(|table| unchecked(&table).expect("holds"));
            assert!(same_to(&first, &second, p).is_err(), "{name}");
        }
        assert_eq!(threes("E, then one more at 0", 0), [[480, 1_499, 0], [544, 1_583, 64]]);
        let one_line = named("E, then one line").second;
        let found = unchecked(&one_line).expect("holds");
        assert_eq!((found.bounds[1], found.holds[1], bounds(&one_line)), (0, 500, Err(4)));
    }

    /// The same of "differs only by some larger L or larger jitter".
    #[test]
    fn each_part_of_enlargement_is_needed() {
        for (name, part) in [
            ("O of 12,001, then 12,000", "no smaller jitter"),
            ("E, then link 2 of 999", "no smaller L"),
            ("three lines, then one", "the same lines"),
            ("E, then link 2 at 5", "the same priorities"),
            ("O of 12,500, then code 1", "the same codes"),
            ("E, then without link 2", "as many links"),
            ("E of 83, then of 84", "their own checks"),
        ] {
            let pair = named(name);
            assert_eq!(unmet(&enlargement(&pair.first, &pair.second)), [part]);
            let [first, second] = both(name);
            assert!(no_better(&first, &second).is_err(), "{name}");
        }
        assert_eq!(threes("O of 12,001, then 12,000", 0), [[960, 1_000, 499], [480, 500, 0]]);
        assert_eq!(threes("E, then link 2 of 999", 0), [[480, 1_499, 0], [480, 1_498, 0]]);
        assert_eq!(threes("E, then link 2 of 999", 1), [[980, 1_500, 0], [979, 1_499, 0]]);
        assert_eq!(threes("three lines, then one", 0), [[540, 600, 0], [399, 600, 219]]);
        assert_eq!(threes("E, then link 2 at 5", 1), [[980, 1_500, 0], [0, 1_499, 0]]);
        assert_eq!(threes("O of 12,500, then code 1", 0), [[960, 1_000, 480], [480, 500, 0]]);
        assert_eq!(threes("E, then without link 2", 1), [[980, 1_500, 0], [0, 500, 0]]);
        assert_eq!(both("E of 83, then of 84")[0], Err(4));
    }

    /// The same of links that are added.
    #[test]
    fn each_part_of_addition_is_needed() {
        for (name, part, grown) in [
            ("E, then without link 2", "each link of the first", "each link of the first, or a larger one"),
            ("no link, then E", "their own checks", "their own checks"),
        ] {
            let pair = named(name);
            assert_eq!(unmet(&addition(&pair.first, &pair.second)), [part]);
            assert_eq!(unmet(&growth(&pair.first, &pair.second)), [grown]);
            let [first, second] = both(name);
            assert!(no_better(&first, &second).is_err(), "{name}");
        }
        assert_eq!(both("no link, then E")[0], Err(3));
    }

    /// "Both with bounds": neither hypothesis gives them to the second.
    #[test]
    fn bounds_that_the_second_has_not() {
        let below = "one below, then SPREAD";
        assert_eq!(lacks_to(below, 0), [""; 0]);
        assert_eq!((both(below)[0].is_ok(), both(below)[1]), (true, Err(8)));
        let longer = both("43 links, 940, then 941");
        assert_eq!(longer.map(|found| found.map(|found| found.holds[0])), [Ok(65_536), Err(8)]);
        for (name, larger) in
            [("43 links, 940, then 941", true), ("FULL, then a tick", true), ("FULL, then SPREAD", false)]
        {
            let lost = Seen { grown: true, without: [false, true], ..Seen::default() };
            assert_eq!(seen(name), Seen { larger, added: !larger, ..lost });
        }
    }

    #[test]
    fn bounds_that_neither_has() {
        for name in ["43 links, 941, then 942", "SPREAD, then longer"] {
            assert_eq!(both(name), [Err(8); 2]);
            assert_eq!(seen(name), Seen { larger: true, grown: true, without: [true; 2], ..Seen::default() });
        }
        assert_eq!(both("SPREAD, then oversold"), [Err(8), Err(23)]);
        assert_eq!(seen("SPREAD, then oversold"), Seen::default());
    }
}
