//! The paper's "Bounds and holds", formula by formula, with a loop over every w.

use crate::memory::occupied;
use crate::table::{bag, check, Link, Table};

/// The smallest and the largest w that can be a hold.
const HOLDS: std::ops::RangeInclusive<u64> = 1..=65_536;

/// "For w ≥ 0, N_v(w) = 1 + floor((w + J) / B)."
fn frames(link: &Link, w: u64) -> u64 {
    1 + (w + u64::from(link.jitter)) / bag(link.code)
}

/// L, in wire bytes: "the other amount, with A_up, b and M, keeps wire bytes, and so does every hold".
fn on_the_wire(link: &Link) -> u64 {
    u64::from(link.greatest)
}

/// "In A_p, L becomes L − 20 in both members of the smaller-of".
fn in_memory(link: &Link) -> u64 {
    occupied(u64::from(link.greatest))
}

/// A set of virtual links: for each line below the count, its members there.
struct Set {
    by_line: Vec<Vec<Link>>,
}

impl Set {
    fn new(table: &Table, is_member: impl Fn(&Link) -> bool) -> Set {
        let on = |line: u16| {
            let members = table.members().iter().filter(|v| u16::from(v.line) == line && is_member(v));
            members.copied().collect()
        };
        Set { by_line: (0..table.lines).map(on).collect() }
    }

    /// "A(w) is the sum over lines of the smaller of: the sum of L × N_v(w) over its members on that
    /// line; and w plus the greatest L of those members (serialization). A line without members adds 0."
    fn arrivals(&self, w: u64, l: fn(&Link) -> u64) -> u64 {
        let mut sum = 0;
        for members in &self.by_line {
            let asked: u64 = members.iter().map(|v| l(v) * frames(v, w)).sum();
            let carried = members.iter().map(|v| w + l(v)).max().unwrap_or(0);
            sum += asked.min(carried);
        }
        sum
    }
}

/// The greatest L of the links that the test takes, or 0 if there are none.
fn greatest(table: &Table, takes: impl Fn(&Link) -> bool) -> u64 {
    table.members().iter().filter(|v| takes(v)).map(on_the_wire).max().unwrap_or(0)
}

/// "b is the greatest L of priorities above p in number, less 1, or 0 if there are none."
fn blocking(table: &Table, p: u8) -> u64 {
    greatest(table, |v| v.priority > p).saturating_sub(1)
}

/// "hold_p is the smallest w from 1 to 65,536 with b + A_up(w − 1) ≤ w."
fn hold(table: &Table, p: u8) -> Option<u64> {
    let up = Set::new(table, |v| v.priority <= p);
    let b = blocking(table, p);
    HOLDS.into_iter().find(|w| b + up.arrivals(w - 1, on_the_wire) <= *w)
}

/// A line with members: what they ask for at some w, and their greatest L.
#[derive(Clone, Copy)]
struct Line {
    line: u8,
    asked: u64,
    greatest: u64,
}

impl Line {
    fn at_0(line: u8, members: &[Link]) -> Option<Line> {
        let on_line = || members.iter().filter(|v| v.line == line);
        let asked = on_line().map(|v| on_the_wire(v) * frames(v, 0)).sum();
        on_line().map(on_the_wire).max().map(|greatest| Line { line, asked, greatest })
    }

    fn arrivals(&self, w: u64) -> u64 {
        self.asked.min(w + self.greatest)
    }
}

/// The w at which N_v rises: "1 + floor((w + J) / B)".
fn rises(link: &Link) -> impl Iterator<Item = u64> {
    let bag = bag(link.code);
    (bag - u64::from(link.jitter) % bag..65_536).step_by(bag as usize)
}

/// "b + A_up(w − 1) ≤ w", summed up to where it is more.
fn is_held(b: u64, lines: &[Line], w: u64) -> bool {
    let sum = lines.iter().try_fold(b, |sum, line| Some(sum + line.arrivals(w - 1)).filter(|sum| *sum <= w));
    sum.is_some_and(|sum| sum <= w)
}

/// Whether there is a hold: each w is tried, and what each line is asked for is kept from one to the next.
fn has_hold(b: u64, up: &[Link]) -> bool {
    let mut lines: Vec<Line> = (0..=u8::MAX).filter_map(|line| Line::at_0(line, up)).collect();
    let mut further: Vec<(u64, &Link)> = up.iter().flat_map(|v| rises(v).map(move |w| (w, v))).collect();
    further.sort_by_key(|(w, _)| *w);
    let mut first = *HOLDS.start();
    for (last, v) in further {
        if (first..=last).any(|w| is_held(b, &lines, w)) {
            return true;
        }
        lines.iter_mut().filter(|line| line.line == v.line).for_each(|line| line.asked += on_the_wire(v));
        first = last + 1;
    }
    (first..=*HOLDS.end()).any(|w| is_held(b, &lines, w))
}

/// What hold_p comes from: b, and the links of 0 to p.
fn parts_of_hold(table: &Table, p: u8) -> (u64, Vec<Link>) {
    let up = table.members().iter().filter(|v| v.priority <= p).copied();
    (blocking(table, p), up.collect())
}

/// Whether each of the eight has a hold: what `holds` says of a table that passes its checks, sooner. All links together come
/// first, and what two priorities have in common is tried once.
pub fn has_bounds(table: &Table) -> bool {
    let mut parts: Vec<(u64, Vec<Link>)> = (0..8).rev().map(|p| parts_of_hold(table, p)).collect();
    parts.dedup();
    parts.iter().all(|(b, up)| has_hold(*b, up))
}

/// For each w from 0 to hold_p − 1, "the smaller of A_p(w) and A_up(w) − max(0, w − b) + M − 1"; none
/// for a priority without links.
fn amounts(table: &Table, p: u8, hold: u64) -> Vec<u64> {
    let own = Set::new(table, |v| v.priority == p);
    let up = Set::new(table, |v| v.priority <= p);
    let b = blocking(table, p);
    let m = greatest(table, |v| v.priority == p);
    if m == 0 {
        return Vec::new();
    }
    let other = |w: u64| up.arrivals(w, on_the_wire) - w.saturating_sub(b) + m - 1;
    (0..hold).map(|w| own.arrivals(w, in_memory).min(other(w))).collect()
}

/// "bound_p is the greatest, over w from 0 to hold_p − 1 .. With no link of priority p it is 0."
fn bound(amounts: &[u64]) -> u64 {
    amounts.iter().copied().max().unwrap_or(0)
}

/// "the smallest w at which the greatest amount occurs, and 0 for a priority without links": each w is
/// tried.
fn window(amounts: &[u64]) -> u64 {
    let greatest = bound(amounts);
    amounts.iter().position(|amount| *amount == greatest).unwrap_or(0) as u64
}

/// The bound of priority p alone; None if it has no hold.
pub fn bound_of(table: &Table, p: u8) -> Option<u64> {
    let hold = hold(table, p)?;
    Some(bound(&amounts(table, p, hold)))
}

#[derive(Clone, Copy, Debug, PartialEq, Eq)]
pub struct Bounds {
    pub bounds: [u64; 8],
    pub holds: [u64; 8],
    pub windows: [u64; 8],
}

/// "If any of the eight has none, the table has no bounds".
fn eight_holds(table: &Table) -> Option<[u64; 8]> {
    let mut found = [0; 8];
    for (p, place) in (0..).zip(&mut found) {
        *place = hold(table, p)?;
    }
    Some(found)
}

/// What the formulas give, whether the table passes its checks or not.
pub fn unchecked(table: &Table) -> Option<Bounds> {
    let mut found = Bounds { bounds: [0; 8], holds: eight_holds(table)?, windows: [0; 8] };
    for p in 0..8 {
        let amounts = amounts(table, p as u8, found.holds[p]);
        found.bounds[p] = bound(&amounts);
        found.windows[p] = window(&amounts);
    }
    Some(found)
}

/// "bounds: 3 to 6, then no hold: 8.", with 23 before 6.
fn checked<T>(table: &Table, formulas: fn(&Table) -> Option<T>) -> Result<T, u32> {
    match check(table) {
        0 => formulas(table).ok_or(8),
        refusal => Err(refusal),
    }
}

pub fn holds(table: &Table) -> Result<[u64; 8], u32> {
    checked(table, eight_holds)
}

pub fn bounds(table: &Table) -> Result<Bounds, u32> {
    checked(table, unchecked)
}

#[cfg(test)]
mod tests {
    use super::*;
    use crate::cases::carried::spread;
    use crate::cases::handful_tables;
    use crate::cases::make::{self, table_of};
    use crate::examples::{
        forty_three, link, nine_on, table_c, table_e, table_full, table_over, table_spread,
    };
    use crate::random::Random;
    use crate::table::{is_oversold, promise, CARRIED};

    /// Bound, hold and window.
    fn three(lines: u16, links: &[Link], p: usize) -> (u64, u64, u64) {
        let found = bounds(&table_of(lines, links, [0; 8])).expect("a table with bounds");
        (found.bounds[p], found.holds[p], found.windows[p])
    }

    #[test]
    fn a_and_b() {
        let found = bounds(&table_e()).expect("a table with bounds");
        assert_eq!(found.bounds, [480, 980, 0, 0, 0, 0, 0, 0]);
        assert_eq!(found.holds, [1_499, 1_500, 1_500, 1_500, 1_500, 1_500, 1_500, 1_500]);
        assert_eq!(found.windows, [0; 8]);
    }

    #[test]
    fn g_and_h() {
        let on = |line| link(u16::from(line), line, 0, 200);
        let one_line = [0, 1, 2].map(|number| Link { line: 0, ..on(number) });
        assert_eq!(three(1, &one_line, 0), (399, 600, 219));
        assert_eq!(three(3, &[on(0), on(1), on(2)], 0), (540, 600, 0));
    }

    #[test]
    fn i_and_j() {
        assert_eq!(bounds(&forty_three(940)).expect("a table with bounds").holds[0], 65_536);
        assert_eq!(bounds(&forty_three(941)), Err(8));
    }

    #[test]
    fn k() {
        let late = Link { jitter: 12_400, ..link(1, 0, 0, 100) };
        assert_eq!(three(1, &[late], 0), (80, 100, 0));
    }

    #[test]
    fn l() {
        let mut links: Vec<Link> = (1..9).map(|number| link(number, 0, 1, 200)).collect();
        links.insert(0, link(0, 0, 0, 1_000));
        assert_eq!(three(1, &links, 1), (1_199, 2_600, 1_019));
    }

    #[test]
    fn windows() {
        let k = [link(1, 0, 0, 200), link(2, 0, 0, 300), link(3, 1, 1, 1_000)];
        assert_eq!(three(2, &k, 0), (460, 1_499, 180));
        let late = |jitter| [Link { jitter, ..link(1, 0, 0, 500) }];
        assert_eq!(three(1, &late(12_000), 0), (480, 500, 0));
        assert_eq!(three(1, &late(12_001), 0), (960, 1_000, 499));
        assert_eq!(three(1, &late(12_019), 0), (960, 1_000, 481));
        for jitter in [12_020, 12_021, 12_500] {
            assert_eq!(three(1, &late(jitter), 0), (960, 1_000, 480));
        }
        let two_lines = [1, 2, 3, 4, 5, 6].map(|number| link(number, u8::from(number > 3), 0, 200));
        assert_eq!(three(2, &two_lines, 0), (999, 1_200, 400));
        let nt = [link(1, 0, 0, 200), link(2, 0, 0, 200), link(3, 0, 0, 200), link(4, 1, 3, 100)];
        let found = bounds(&table_of(2, &nt, [0; 8])).expect("a table with bounds");
        assert_eq!(found.bounds, [498, 0, 0, 80, 0, 0, 0, 0]);
        assert_eq!(found.holds, [699, 699, 699, 700, 700, 700, 700, 700]);
        assert_eq!(found.windows, [318, 0, 0, 0, 0, 0, 0, 0]);
    }

    /// A bound of 16,384: 256 frames of 64 bytes each.
    #[test]
    fn the_bound_of_table_c() {
        let found = bounds(&table_c()).expect("a table with bounds");
        assert_eq!((found.bounds[0], found.holds[0], found.windows[0]), (16_384, 27_073, 640));
        assert_eq!((found.bounds[1], found.windows[1]), (1_518, 0));
        assert_eq!(found.bounds[2..], [0; 6]);
    }

    /// The search itself: the first of several greatest, the last place, a single place, none.
    #[test]
    fn the_first_of_the_greatest() {
        assert_eq!(window(&[3, 5, 4, 5]), 1);
        assert_eq!(window(&[1, 2, 3]), 2);
        assert_eq!(window(&[7]), 0);
        assert_eq!(window(&[]), 0);
    }

    #[test]
    fn a_table_that_fails_a_check_has_no_bounds() {
        let mut table = table_e();
        table.sizes[7] = 16_385;
        assert_eq!(bounds(&table), Err(6));
        let mut overloaded = forty_three(941);
        overloaded.links[42].priority = 8;
        assert_eq!(bounds(&overloaded), Err(4));
    }

    #[test]
    fn a_full_line_and_one_oversold() {
        let full = table_full();
        assert_eq!(three(full.lines, full.members(), 0), (3_075, 12_500, 1_557));
        assert_eq!([table_over(), nine_on(1, 197)].map(|table| holds(&table)), [Err(23); 2]);
        assert_eq!(bounds(&table_over()), Err(23));
        assert_eq!(bounds(&table_spread()), Err(8));
    }

    /// Where each priority has a hold, all lines together are promised no more than one carries: 23 takes no bounds away.
    #[test]
    fn no_table_with_holds_is_oversold() {
        let mut random = Random::new(2_024_106);
        let (mut with_holds, mut without, mut oversold) = (0, 0, 0);
        for _ in 0..400 {
            let table = spread(&mut random);
            let sum: u64 = table.members().iter().map(promise).sum();
            oversold += u32::from(is_oversold(table.members(), table.lines));
            if (0..8).all(|p| hold(&table, p).is_some()) {
                assert!(sum <= CARRIED);
                with_holds += 1;
            } else {
                without += 1;
            }
        }
        assert!(with_holds >= 100 && without >= 100 && oversold >= 50, "{with_holds} {without} {oversold}");
    }

    /// With what is kept from w to w the answer is that of the formulas; of the named tables a hold is just 65,536, and one
    /// just missed.
    #[test]
    fn sooner_and_by_the_formulas() {
        let mut random = Random::new(2_024_113);
        let mut tables = vec![forty_three(940), forty_three(941), table_full(), table_spread()];
        tables.extend(handful_tables::drawn(&mut random, 5));
        tables.extend((0..60).map(|_| spread(&mut random)).filter(|table| check(table) == 0));
        tables.extend((0..20).map(|i| make::table(&mut random, 2 + i % 6)));
        let mut seen = [0; 2];
        for table in tables {
            let has = (0..8).map(|p| hold(&table, p).is_some());
            let sooner = (0..8).map(|p| parts_of_hold(&table, p)).map(|(b, up)| has_hold(b, &up));
            assert!(has.clone().eq(sooner));
            let has_all = has.min() == Some(true);
            assert_eq!(has_bounds(&table), has_all);
            seen[usize::from(has_all)] += 1;
        }
        assert!(seen.iter().all(|many| *many >= 40), "{seen:?}");
    }

    #[test]
    fn where_frames_rise() {
        for (code, jitter) in
            [(0, 0), (0, 1), (0, 12_499), (0, 12_500), (1, 125_000), (2, 61_234), (3, 34_465), (7, 0)]
        {
            let v = Link { code, jitter, ..link(1, 0, 0, 84) };
            let found: Vec<u64> = rises(&v).collect();
            let all: Vec<u64> = (1..65_536).filter(|w| frames(&v, *w) > frames(&v, w - 1)).collect();
            assert_eq!(found, all, "{code} {jitter}");
        }
    }

    #[test]
    fn frames_at_the_edges() {
        let early = link(1, 0, 0, 100);
        assert_eq!(frames(&early, 0), 1);
        assert_eq!(frames(&early, 12_499), 1);
        assert_eq!(frames(&early, 12_500), 2);
        let late = Link { jitter: 125_000, ..early };
        assert_eq!(frames(&late, 0), 11);
    }
}
