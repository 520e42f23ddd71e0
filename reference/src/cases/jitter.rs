//! The cases of the jitter that is left: tables, each with a link number.
//!
//! Standard input is a run of cases: number (8 bytes, little-endian), the bytes of a table record (2), and the record
//! (`port_records` has its form). Standard output has a line for each: `REFUSED JITTER`, the jitter being 0 with a refusal.

use super::jitter_tables::{self, Asked};
use super::port_records::table_bytes;
use super::Cases;
use crate::bounds::bound_of;
use crate::jitter::{jitter_left, place_of, tried, with_jitter, Pains, MOST_JITTER};
use crate::random::Random;
use crate::table::{check, Table};

/// What ends the jitters that fit: no bounds, or sizes of priorities above the link's, its own, and below.
#[derive(Default)]
struct Ends {
    no_bounds: usize,
    above: usize,
    own: usize,
    below: usize,
}

impl Ends {
    /// What breaks in this table, as seen from the link in this place.
    fn count(&mut self, table: &Table, index: usize) {
        let own = table.links[index].priority;
        let bounds: Vec<Option<u64>> = (0..8).map(|p| bound_of(table, p)).collect();
        if bounds.contains(&None) {
            self.no_bounds += 1;
            return;
        }
        let breaks = |p: &u8| bounds[usize::from(*p)] > Some(table.sizes[usize::from(*p)].into());
        let broken: Vec<u8> = (0..8).filter(breaks).collect();
        self.above += usize::from(broken.iter().any(|p| *p < own));
        self.own += usize::from(broken == [own]);
        self.below += usize::from(broken.iter().all(|p| *p > own));
    }

    fn summary(&self) -> String {
        let Ends { no_bounds, above, own, below } = self;
        format!("{above} above, {own} its own alone, {below} only below, {no_bounds} bounds lost")
    }
}

/// What happened, for a person to read.
#[derive(Default)]
struct Tally {
    calls: usize,
    refused: [usize; 26],
    zero: usize,
    full: usize,
    between: usize,
    /// The present jitter is less than the answer, the answer, and more.
    present: [usize; 3],
    /// The table has no bounds as it stands, and there is an answer.
    gained: usize,
    /// A bound is just its size with the answer, and breaks it with a tick more.
    equal: usize,
    most_links: u16,
    answers: Ends,
    none: Ends,
}

impl Tally {
    fn count(&mut self, asked: &Asked, answer: Result<u32, u32>) {
        self.calls += 1;
        self.refused[answer.err().unwrap_or(0) as usize] += 1;
        let Asked { table, number } = asked;
        let index = if check(table) == 0 { place_of(table, *number) } else { None };
        match (index, answer) {
            (Some(index), Ok(jitter)) => self.count_answer(table, index, jitter),
            (Some(index), Err(_)) => self.none.count(&with_jitter(table, index, 0), index),
            (None, _) => (),
        }
    }

    fn count_answer(&mut self, table: &Table, index: usize, jitter: u32) {
        let present = table.links[index].jitter;
        self.most_links = self.most_links.max(table.count);
        self.present[1 + usize::from(present > jitter) - usize::from(present < jitter)] += 1;
        self.gained += usize::from(present > jitter && (0..8).any(|p| bound_of(table, p).is_none()));
        match jitter {
            0 => self.zero += 1,
            MOST_JITTER => self.full += 1,
            _ => self.between += 1,
        }
        if jitter < MOST_JITTER {
            let (last, first) = (with_jitter(table, index, jitter), with_jitter(table, index, jitter + 1));
            let turns = |p: &u8| {
                let size = Some(u64::from(table.sizes[usize::from(*p)]));
                bound_of(&last, *p) == size && bound_of(&first, *p) > size
            };
            self.equal += usize::from((0..8).any(|p| turns(&p)));
            self.answers.count(&first, index);
        }
    }

    fn summary(&self) -> String {
        format!(
            "calls: {}; refused 3 to 6, 23, 24, 25: {:?}, {}, {}, {}; answers 0: {}, 125,000: {}, between: {}; the next tick breaks: {}; \
             a bound just its size: {}; no bounds as it stands, and an answer: {}; present jitter less, the same, more: {:?}; 25 by: {}; most \
             links with an answer: {}\n",
            self.calls,
            &self.refused[3..7],
            self.refused[23],
            self.refused[24],
            self.refused[25],
            self.zero,
            self.full,
            self.between,
            self.answers.summary(),
            self.equal,
            self.gained,
            self.present,
            self.none.summary(),
            self.most_links
        )
    }
}

fn put(stdin: &mut Vec<u8>, asked: &Asked) {
    let record = table_bytes(&asked.table);
    stdin.extend(asked.number.to_le_bytes());
    stdin.extend((record.len() as u16).to_le_bytes());
    stdin.extend(record);
}

fn made() -> (Vec<u8>, String, Tally) {
    let (mut stdin, mut stdout, mut tally) = (Vec::new(), String::new(), Tally::default());
    for asked in jitter_tables::all() {
        let answer = jitter_left(&asked.table, asked.number);
        put(&mut stdin, &asked);
        stdout += &format!("{} {}\n", answer.err().unwrap_or(0), answer.unwrap_or(0));
        tally.count(&asked, answer);
    }
    (stdin, stdout, tally)
}

pub fn cases() -> Cases {
    let (stdin, stdout, tally) = made();
    Cases { stdin, stdout: stdout.into_bytes(), summary: tally.summary() }
}

/// Fewer jitters are tried where a table has many links.
fn pains(table: &Table) -> Pains {
    match table.count {
        0..=6 => Pains { near: 20, drawn: 6 },
        7..=14 => Pains { near: 8, drawn: 4 },
        _ => Pains { near: 3, drawn: 2 },
    }
}

/// Holds the answer for each table that passes its checks against the definition: what was tried, or the first breach.
pub fn margins() -> Result<String, String> {
    let mut random = Random::new(2_024_112);
    let (mut answers, mut none, mut jitters) = (0, 0, 0);
    for (i, Asked { table, number }) in jitter_tables::all().iter().enumerate() {
        let answer = jitter_left(table, *number);
        if !matches!(answer, Ok(_) | Err(25)) {
            continue;
        }
        jitters += tried(table, *number, answer, &pains(table), &mut random)
            .map_err(|breach| format!("case {i}: {breach}"))?;
        answers += usize::from(answer.is_ok());
        none += usize::from(answer.is_err());
    }
    Ok(format!(
        "margins: {} tables; {answers} answers, {none} without one; {jitters} jitters tried; no breach\n",
        answers + none
    ))
}

#[cfg(test)]
mod tests {
    use super::*;

    #[test]
    fn there_are_cases_of_each_kind() {
        let (stdin, stdout, tally) = made();
        assert!(tally.calls >= 400 && tally.calls == stdout.lines().count());
        assert!([3, 4, 5, 6, 23].iter().all(|n| tally.refused[*n] >= 20));
        assert!(tally.refused[24] >= 40 && tally.refused[25] >= 50 && tally.refused[8] == 0);
        assert!(tally.zero >= 8 && tally.full >= 50 && tally.between >= 150);
        assert!(tally.present.iter().all(|many| *many >= 30));
        assert!(tally.gained >= 10 && tally.equal >= 90 && tally.most_links == 256);
        let Ends { no_bounds, above, own, below } = tally.answers;
        assert!(own >= 100 && below >= 20 && no_bounds >= 15);
        assert_eq!(above, 0, "a link's jitter is no part of the bounds above it");
        let Ends { no_bounds, above, own, below } = tally.none;
        assert!(above >= 5 && own >= 20 && below >= 5 && no_bounds >= 10);
        assert!(stdin.len() + stdout.len() < 120_000);
    }
}
