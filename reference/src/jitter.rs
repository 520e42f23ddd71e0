//! "How much jitter is left": the greatest jitter of a link with which the table still fits its sizes.

use crate::bounds::bound_of;
use crate::random::Random;
use crate::table::{check, read, Table};
use std::collections::BTreeSet;

/// "the greatest jitter from 0 to 125,000"
pub const MOST_JITTER: u32 = 125_000;

/// The digits of a jitter, from the first to the last.
const STEPS: [u32; 6] = [100_000, 10_000, 1_000, 100, 10, 1];

/// Where the link of this number stands, if there is one.
pub fn place_of(table: &Table, number: u64) -> Option<usize> {
    table.members().iter().position(|v| u64::from(v.number) == number)
}

/// "the table, that jitter put in"
pub fn with_jitter(table: &Table, index: usize, jitter: u32) -> Table {
    let mut changed = table.clone();
    changed.links[index].jitter = jitter;
    changed
}

/// Whether priority p has a hold, and a bound of at most its size.
fn is_sized(table: &Table, p: u8) -> bool {
    let size = u64::from(table.sizes[usize::from(p)]);
    bound_of(table, p).is_some_and(|bound| bound <= size)
}

/// "the table, that jitter put in, has bounds and each is at most the table's size for it": one priority after the other, up
/// to the first that has no hold or breaks its size.
pub fn fits(table: &Table, index: usize, jitter: u32) -> bool {
    let changed = with_jitter(table, index, jitter);
    (0..8).all(|p| is_sized(&changed, p))
}

/// "the greatest jitter from 0 to 125,000 with which the table .. has bounds and each is at most the table's size for it":
/// digit by digit, each as great as it may be. "24, no such link number, after the table's own checks; 25, exactly if no
/// jitter in the range fits."
pub fn jitter_left(table: &Table, number: u64) -> Result<u32, u32> {
    match check(table) {
        0 => greatest(table, place_of(table, number).ok_or(24_u32)?).ok_or(25),
        refusal => Err(refusal),
    }
}

fn greatest(table: &Table, index: usize) -> Option<u32> {
    if !fits(table, index, 0) {
        return None;
    }
    let mut found = 0;
    for step in STEPS {
        while found + step <= MOST_JITTER && fits(table, index, found + step) {
            found += step;
        }
    }
    Some(found)
}

/// How many jitters are tried next to an answer on either side, and how many are drawn on either side.
pub struct Pains {
    pub near: u32,
    pub drawn: u32,
}

/// The jitters that an answer is tried with: the ends of the range, all that are near the answer, and some that are drawn below
/// it and above it. No answer counts as one below 0.
fn chosen(answer: Option<u32>, pains: &Pains, random: &mut Random) -> BTreeSet<u32> {
    let first_above = answer.map_or(0, |jitter| jitter + 1);
    let mut jitters = BTreeSet::from([0, MOST_JITTER]);
    jitters.extend(first_above.saturating_sub(pains.near + 1)..first_above);
    jitters.extend((first_above..first_above + pains.near).filter(|jitter| *jitter <= MOST_JITTER));
    for _ in 0..pains.drawn {
        if first_above > 0 {
            jitters.insert(random.from(0, u64::from(first_above - 1)) as u32);
        }
        if first_above <= MOST_JITTER {
            jitters.insert(random.from(first_above.into(), MOST_JITTER.into()) as u32);
        }
    }
    jitters
}

/// Holds an answer of a table that passes its checks against the definition, with no search: every jitter tried fits if it is
/// at most the answer, and "every larger jitter in the range lacks bounds or breaks some size". Gives how many were tried.
pub fn tried(
    table: &Table,
    number: u64,
    answer: Result<u32, u32>,
    pains: &Pains,
    random: &mut Random,
) -> Result<usize, String> {
    let (index, answer) = match (place_of(table, number), answer) {
        (Some(index), Ok(jitter)) if jitter <= MOST_JITTER => (index, Some(jitter)),
        (Some(index), Err(25)) => (index, None),
        (None, Err(24)) => return Ok(0),
        _ => return Err(format!("link {number} has {answer:?}")),
    };
    let jitters = chosen(answer, pains, random);
    for jitter in &jitters {
        let is_due = answer.is_some_and(|greatest| *jitter <= greatest);
        if fits(table, index, *jitter) != is_due {
            return Err(format!("link {number} has {answer:?}, and {jitter} says otherwise"));
        }
    }
    Ok(jitters.len())
}

/// A line of the program's sheet: "number, the link's jitter in the table, then the greatest that fits, `-` where none does".
fn line(table: &Table, index: usize) -> String {
    let link = table.members()[index];
    let left = greatest(table, index).map_or("-".to_string(), |jitter| jitter.to_string());
    format!("{} {} {left}\n", link.number, link.jitter)
}

/// What the program says of one link, or of all.
fn answered(file: &[u8], number: Option<u64>) -> Result<String, u32> {
    let table = read(file)?;
    match number {
        Some(number) => Ok(format!("{}\n", jitter_left(&table, number)?)),
        None => {
            let lines: String = (0..table.members().len()).map(|index| line(&table, index)).collect();
            Ok(format!("number jitter greatest\n{lines}"))
        }
    }
}

/// What the program jitter_left prints: the jitter of the link of this number, or a line for each link, or `refused N`. It
/// reads "at most 4,653 bytes".
pub fn printed(input: &[u8], number: Option<u64>) -> String {
    let file = &input[..input.len().min(4_653)];
    answered(file, number).unwrap_or_else(|refusal| format!("refused {refusal}\n"))
}

#[cfg(test)]
mod tests {
    use super::*;
    use crate::bounds::bounds;
    use crate::cases::carried::spread;
    use crate::cases::make::{self, table_of};
    use crate::examples::{link, nine_on, table_e, table_full, table_over, table_spread};
    use crate::table::{bytes_of, Link};

    fn e_with(change: impl Fn(&mut Table)) -> Table {
        let mut table = table_e();
        change(&mut table);
        table
    }

    /// Links 1 to 3 of 1,538, of jitter 125,000, each on this line.
    fn three_late(lines: [u8; 3]) -> Table {
        let links = [1, 2, 3].map(|number: u8| Link {
            jitter: 125_000,
            ..link(number.into(), lines[usize::from(number) - 1], 0, 1_538)
        });
        table_of(3, &links, [16_384; 8])
    }

    #[test]
    fn what_is_left_in_e() {
        assert_eq!([1, 2].map(|number| jitter_left(&table_e(), number)), [Ok(125_000), Ok(22_501)]);
        let second = |size| jitter_left(&e_with(|t| t.sizes[1] = size), 2);
        assert_eq!([2_001, 1_999].map(second), [Ok(22_502), Ok(22_500)]);
        let tight = e_with(|t| t.sizes = [480, 980, 0, 0, 0, 0, 0, 0]);
        assert_eq!([1, 2].map(|number| jitter_left(&tight, number)), [Ok(11_001), Ok(11_000)]);
        assert_eq!(jitter_left(&e_with(|t| t.sizes[0] = 479), 2), Err(25));
    }

    /// FULL has bounds, and loses them with a tick of jitter.
    #[test]
    fn nothing_is_left_in_full() {
        let full = Table { sizes: [16_384; 8], ..table_full() };
        assert_eq!(jitter_left(&full, 8), Ok(0));
    }

    /// No bounds as they stand: on one line there is an answer, on three there is none.
    #[test]
    fn tables_without_bounds() {
        let (together, apart) = (three_late([0; 3]), three_late([0, 1, 2]));
        assert_eq!([&together, &apart].map(bounds), [Err(8), Err(8)]);
        assert_eq!(jitter_left(&together, 2), Ok(63_480));
        assert_eq!(jitter_left(&apart, 2), Err(25));
        assert_eq!(jitter_left(&Table { sizes: [16_384; 8], ..table_spread() }, 9), Err(25));
    }

    /// The table's own checks, then 24, then 25; no number above 65,535 is there.
    #[test]
    fn the_order_of_refusals() {
        let faults: [(fn(&mut Table), u32); 5] = [
            (|t| t.lines = 0, 3),
            (|t| t.links[1].code = 8, 4),
            (|t| t.links[1].number = 1, 5),
            (|t| *t = Table { sizes: [16_385; 8], ..table_over() }, 23),
            (|t| t.sizes[7] = 16_385, 6),
        ];
        for (fault, refusal) in faults {
            let table = e_with(fault);
            assert_eq!([1, 2, 99, u64::MAX].map(|number| jitter_left(&table, number)), [Err(refusal); 4]);
        }
        let counts = [0, 257, 65_535].map(|count| jitter_left(&e_with(|t| t.count = count), 1));
        assert_eq!(counts, [Err(3); 3]);
        let none = e_with(|t| t.sizes = [0; 8]);
        for number in [0, 3, 65_537, 65_538, (1 << 32) + 1, u64::MAX] {
            assert_eq!([&table_e(), &none].map(|table| jitter_left(table, number)), [Err(24); 2], "{number}");
        }
        assert_eq!([1, 2].map(|number| jitter_left(&none, number)), [Err(25); 2]);
    }

    /// Entries behind the count have no number, and no part in the bounds.
    #[test]
    fn entries_behind_the_count() {
        let table = e_with(|t| t.links[2] = Link { jitter: 125_000, ..link(3, 0, 0, 1_538) });
        assert_eq!([1, 2, 3].map(|number| jitter_left(&table, number)), [Ok(125_000), Ok(22_501), Err(24)]);
    }

    /// A priority without links has the bound 0, and so fits any size.
    #[test]
    fn all_eight_sizes_count() {
        for p in 2..8 {
            assert_eq!(jitter_left(&e_with(|t| t.sizes[p] = 16_384), 2), Ok(22_501));
        }
        let alone = |p: usize| {
            let links = [link(1, 0, 0, 500), Link { priority: p as u8, ..link(2, 1, 1, 1_000) }];
            let mut table = table_of(2, &links, [2_000, 0, 0, 0, 0, 0, 0, 0]);
            table.sizes[p] = 979;
            table
        };
        for p in 1..8 {
            assert_eq!([1, 2].map(|number| jitter_left(&alone(p), number)), [Err(25); 2]);
        }
    }

    #[test]
    fn the_present_jitter_plays_no_part() {
        for jitter in [0, 1, 11_001, 11_002, 22_501, 22_502, 124_999, 125_000] {
            assert_eq!(jitter_left(&e_with(|t| t.links[1].jitter = jitter), 2), Ok(22_501));
            let tight = e_with(|t| {
                t.sizes = [480, 980, 0, 0, 0, 0, 0, 0];
                t.links[0].jitter = jitter;
            });
            assert_eq!(jitter_left(&tight, 1), Ok(11_001));
            assert_eq!(jitter_left(&tight, 2).err(), (jitter > 11_001).then_some(25));
            assert_eq!(jitter_left(&with_jitter(&three_late([0; 3]), 1, jitter), 2), Ok(63_480));
        }
        assert_eq!(jitter_left(&e_with(|t| t.links[1].jitter = 125_001), 2), Err(4));
    }

    /// One priority after the other is the same as all bounds against all sizes.
    #[test]
    fn what_fits() {
        let mut random = Random::new(2_024_110);
        let mut seen = [0; 3];
        for i in 0..120 {
            let mut table = if i % 2 == 0 { make::table(&mut random, 3) } else { spread(&mut random) };
            if check(&table) != 0 {
                continue;
            }
            if let Ok(found) = bounds(&table) {
                table.sizes = found.bounds.map(|bound| (bound + random.from(0, 1_500)).min(16_384) as u32);
            }
            let (index, jitter) = (random.below(table.count.into()), random.from(0, 125_000) as u32);
            let found = bounds(&with_jitter(&table, index, jitter));
            let is_so = found.is_ok_and(|found| (0..8).all(|p| found.bounds[p] <= table.sizes[p].into()));
            assert_eq!(fits(&table, index, jitter), is_so);
            seen[if is_so { 0 } else { 1 + usize::from(found.is_err()) }] += 1;
        }
        assert!(seen.iter().all(|many| *many >= 10), "{seen:?}");
    }

    const PAINS: Pains = Pains { near: 40, drawn: 10 };

    /// What is said of E's link 2, and of one that has no answer, if this is answered.
    #[test]
    fn a_wrong_answer_is_seen() {
        let mut random = Random::new(1);
        let mut said = |table: &Table, number, answer| tried(table, number, answer, &PAINS, &mut random);
        assert!(said(&table_e(), 2, Ok(22_501)).is_ok_and(|many| many >= 90));
        assert_eq!(said(&table_e(), 3, Err(24)), Ok(0));
        for answer in [Ok(22_500), Ok(22_502), Ok(0), Ok(125_000), Ok(125_001), Err(24), Err(25), Err(8)] {
            assert!(said(&table_e(), 2, answer).is_err(), "{answer:?}");
        }
        assert!(said(&table_e(), 1, Ok(125_000)).is_ok() && said(&table_e(), 1, Ok(124_999)).is_err());
        let none = e_with(|t| t.sizes[0] = 479);
        assert!(said(&none, 2, Err(25)).is_ok_and(|many| many >= 40));
        assert!(said(&none, 2, Ok(0)).is_err() && said(&none, 3, Ok(0)).is_err());
        let full = Table { sizes: [16_384; 8], ..nine_on(1, 196) };
        assert!(said(&full, 8, Ok(0)).is_ok() && said(&full, 8, Err(25)).is_err());
        assert_eq!(
            said(&table_e(), 2, Ok(22_502)),
            Err("link 2 has Some(22502), and 22502 says otherwise".to_string())
        );
    }

    /// The ends, the answer, its neighbours within the range, and those that are drawn.
    #[test]
    fn what_is_tried() {
        let chosen = |answer, near| chosen(answer, &Pains { near, drawn: 0 }, &mut Random::new(1));
        assert_eq!(chosen(Some(7), 2), BTreeSet::from([0, 5, 6, 7, 8, 9, 125_000]));
        assert_eq!(chosen(Some(0), 2), BTreeSet::from([0, 1, 2, 125_000]));
        assert_eq!(chosen(Some(125_000), 1), BTreeSet::from([0, 124_999, 125_000]));
        assert_eq!(chosen(None, 3), BTreeSet::from([0, 1, 2, 125_000]));
    }

    #[test]
    fn what_is_printed() {
        let e = bytes_of(&table_e());
        assert_eq!(printed(&e, None), "number jitter greatest\n1 0 125000\n2 0 22501\n");
        assert_eq!(
            [1, 2, 3].map(|number| printed(&e, Some(number))),
            ["125000\n", "22501\n", "refused 24\n"]
        );
        let none = bytes_of(&e_with(|t| t.sizes[0] = 479));
        assert_eq!(printed(&none, None), "number jitter greatest\n1 0 -\n2 0 -\n");
        assert_eq!(printed(&none, Some(2)), "refused 25\n");
        let late = bytes_of(&e_with(|t| (t.sizes[0], t.links[0].jitter) = (480, 12_003)));
        assert_eq!(printed(&late, None), "number jitter greatest\n1 12003 11001\n2 0 -\n");
        for number in [None, Some(1), Some(u64::MAX)] {
            assert_eq!(printed(b"", number), "refused 1\n");
            assert_eq!(printed(&bytes_of(&table_over()), number), "refused 23\n");
            let mut long = e.clone();
            long.resize(9_000, 0);
            assert_eq!(printed(&long, number), "refused 7\n");
        }
        let spread = printed(&bytes_of(&table_spread()), None);
        assert!(spread.starts_with("number jitter greatest\n0 0 -\n") && spread.ends_with("9 0 -\n"));
    }
}
