//! Two ports in a row, watched; and the counts of the second.

use super::lists::List;
use super::onward::{onward, Onward};
use super::tandem_lists::{departures, watched};
use crate::next::{reported, run, Departure, Second, Turn};
use crate::port::{Answer, Report, DROPPED, MOST_FRAMES, POLICED};
use crate::random::Random;
use crate::watch::watch_counts;

/// How often each list is tried, with another second port each time.
const TRIES: usize = 2;

/// What was seen, for a person to read.
#[derive(Default)]
struct Seen {
    lists: usize,
    seconds: usize,
    departures: usize,
    dropped: usize,
    without_room: usize,
    sized: usize,
    others: usize,
    /// Accepted frame reports to second ports.
    counted: u64,
    /// Second ports that would police a departure if each jitter were less by one, or as in the first table.
    policed_with_less: usize,
    policed_with_the_first: usize,
}

impl Seen {
    fn count(&mut self, turn: &Turn, answer: &Result<Answer, u32>) {
        match (turn, answer) {
            (Turn::Other(_), _) => self.others += 1,
            (Turn::Departure, Err(_)) => self.without_room += 1,
            (Turn::Departure, Ok(answer)) => {
                self.departures += 1;
                self.dropped += usize::from(answer.verdict == DROPPED);
            }
        }
    }
}

/// Each report with a list of any length, or all with one that is long enough.
fn lent(random: &mut Random, reports: &[Report]) -> Vec<(Report, usize)> {
    let short = random.once_in(4);
    let long = 3 * 8 * MOST_FRAMES;
    reports.iter().map(|r| (*r, if short { random.pick(&[0, 2, 3, 10, 60, long]) } else { long })).collect()
}

/// Whether a departure is policed where the rows' jitters are changed.
fn polices(on: &Onward, calls: &[(Report, usize)], jitter: impl Fn(usize, u32) -> u32) -> bool {
    let mut table = on.table.clone();
    for (i, v) in table.links.iter_mut().enumerate() {
        v.jitter = jitter(i, v.jitter);
    }
    let answers = run(&table, calls).0;
    let is_policed = |answer: &Result<Answer, u32>| answer.is_ok_and(|a| a.verdict == POLICED);
    on.turns.iter().zip(answers).any(|(turn, answer)| *turn == Turn::Departure && is_policed(&answer))
}

/// One second port: the first breach, if there is one.
fn watch_one(
    random: &mut Random,
    list: &List,
    departures: &[Departure],
    on: &Onward,
    seen: &mut Seen,
) -> Result<(), String> {
    let second = Second::new(&on.table, &on.bounds);
    let calls = lent(random, &reported(&on.turns, departures, on.line));
    let answers = run(&on.table, &calls).0;
    let mut left = departures.iter();
    for (turn, answer) in on.turns.iter().zip(&answers) {
        seen.count(turn, answer);
        if *turn == Turn::Departure {
            let [number, _, tick] = left.next().expect("a departure for each turn");
            second.look(*number, answer).map_err(|breach| format!("at {tick}: {breach}"))?;
        }
    }
    seen.counted += watch_counts(&on.table, &calls)?;
    let rows = usize::from(list.table.count);
    let less = |i: usize, jitter: u32| if i < rows { jitter.saturating_sub(1) } else { jitter };
    let first = |i: usize, jitter: u32| if i < rows { list.table.links[i].jitter } else { jitter };
    seen.seconds += 1;
    seen.sized += usize::from(second.sized() == 8);
    seen.policed_with_less += usize::from(polices(on, &calls, less));
    seen.policed_with_the_first += usize::from(polices(on, &calls, first));
    Ok(())
}

fn seen() -> Result<Seen, String> {
    let mut random = Random::new(2_024_018);
    let mut seen = Seen::default();
    for (i, list) in watched().iter().enumerate() {
        let departures = departures(list);
        for k in 0..TRIES {
            let Ok(on) = onward(&mut random, &list.table, &departures) else {
                break;
            };
            seen.lists += usize::from(k == 0);
            watch_one(&mut random, list, &departures, &on, &mut seen)
                .map_err(|breach| format!("list {i}, second port {k}, {breach}"))?;
        }
    }
    Ok(seen)
}

/// Watches what a second port answers to the departures of a first, on every list whose table has rows: what was seen, or
/// the first breach.
pub fn watch() -> Result<String, String> {
    let seen = seen()?;
    Ok(format!(
        "two ports watched: {} lists, {} second ports, {} of them with sizes at least their bounds; {} departures accepted, {} \
         of them dropped, {} without room; {} other reports; {} frame reports counted; no breach; a jitter less by one is too little in {}, the \
         first table's in {}\n",
        seen.lists,
        seen.seconds,
        seen.sized,
        seen.departures,
        seen.dropped,
        seen.without_room,
        seen.others,
        seen.counted,
        seen.policed_with_less,
        seen.policed_with_the_first
    ))
}

#[cfg(test)]
mod tests {
    use super::*;

    #[test]
    fn no_breach_on_any_list() {
        let seen = seen().expect("no breach");
        assert!(seen.lists >= 400 && seen.sized >= 400 && seen.departures >= 10_000);
        assert!(seen.dropped >= 1_000 && seen.without_room >= 500 && seen.others >= 5_000);
        assert!(seen.counted >= 10_000);
        assert!(seen.policed_with_less >= 100 && seen.policed_with_the_first >= 150);
    }
}
