//! Networks A and B: of the two frames that wait the earlier is taken, and one of two copies is handed on; refusals 17
//! and 18.

/// The bytes of a frame, none where it is absent, and its arrival tick.
#[derive(Clone, Copy)]
pub struct Waiting<'a> {
    pub frame: &'a [u8],
    pub tick: u64,
}

#[derive(Clone, Copy, Debug, PartialEq)]
pub enum Network {
    A,
    B,
}

#[derive(Clone, Copy, Debug, PartialEq)]
pub struct HandedOn {
    pub number: u8,
    pub tick: u64,
}

#[derive(Clone, Copy, Debug, PartialEq)]
pub struct State {
    pub skew: u64,
    /// The number last received on A, and on B.
    pub on_a: Option<u8>,
    pub on_b: Option<u8>,
    pub last: Option<HandedOn>,
    /// The tick last taken.
    pub taken: Option<u64>,
}

/// What an accepted call says: "which it took and whether that was handed on", and the part.
#[derive(Debug, PartialEq)]
pub struct Answer<'a> {
    pub network: Network,
    pub handed_on: bool,
    pub part: &'a [u8],
}

/// "after 255 comes 1, and after 0 comes 1"
pub fn after(number: u8) -> u8 {
    match number {
        255 => 1,
        _ => number + 1,
    }
}

/// Whether `number` is one of the `many` that follow `before`: step by step.
fn is_among(many: usize, before: u8, number: u8) -> bool {
    let mut step = before;
    for _ in 0..many {
        step = after(step);
        if step == number {
            return true;
        }
    }
    false
}

/// "sound if it is the first, has number 0, or has one of the two numbers after the previous one received there"
fn is_sound(previous: Option<u8>, number: u8) -> bool {
    match previous {
        None => true,
        Some(before) => number == 0 || is_among(2, before, number),
    }
}

/// "if none was before, or the last was handed on more than skew ticks ago, or its number is among the 127 that follow
/// the last one handed on, or it is 0 and the last was not"
fn is_handed_on(skew: u64, last: Option<HandedOn>, number: u8, tick: u64) -> bool {
    match last {
        None => true,
        Some(last) => {
            let is_long_ago = u128::from(tick) > u128::from(last.tick) + u128::from(skew);
            is_long_ago || is_among(127, last.number, number) || (number == 0 && last.number != 0)
        }
    }
}

/// "the earlier, A on equal ticks", of those that are present; None where neither is: 17.
fn earlier(a: Waiting, b: Waiting) -> Option<Network> {
    match (a.frame.is_empty(), b.frame.is_empty()) {
        (true, true) => None,
        (false, true) => Some(Network::A),
        (true, false) => Some(Network::B),
        (false, false) if b.tick < a.tick => Some(Network::B),
        (false, false) => Some(Network::A),
    }
}

impl State {
    pub fn fresh(skew: u64) -> State {
        State { skew, on_a: None, on_b: None, last: None, taken: None }
    }

    /// Takes the earlier frame; or refuses, and nothing is changed.
    pub fn call<'a>(&mut self, a: Waiting<'a>, b: Waiting<'a>) -> Result<Answer<'a>, u32> {
        let network = earlier(a, b).ok_or(17u32)?;
        let Waiting { frame, tick } = if network == Network::A { a } else { b };
        if self.taken.is_some_and(|before| tick < before) {
            return Err(18);
        }
        let (number, rest) = frame.split_last().expect("a frame that is present");
        let received = if network == Network::A { &mut self.on_a } else { &mut self.on_b };
        let previous = received.replace(*number);
        self.taken = Some(tick);
        let handed_on = is_sound(previous, *number) && is_handed_on(self.skew, self.last, *number, tick);
        if handed_on {
            self.last = Some(HandedOn { number: *number, tick });
        }
        Ok(Answer { network, handed_on, part: if handed_on { rest } else { &[] } })
    }
}

#[cfg(test)]
mod tests {
    use super::*;

    const ABSENT: Waiting = Waiting { frame: &[], tick: 0 };

    /// Presents frames alone, each a network, a number and a tick; what came of each: + handed on, - not, or a refusal.
    fn run(skew: u64, frames: &[(char, u8, u64)]) -> String {
        let mut state = State::fresh(skew);
        let mut words = Vec::new();
        for (network, number, tick) in frames {
            let frame = [7, 8, *number];
            let waiting = Waiting { frame: &frame, tick: *tick };
            let before = state;
            let answer = match network {
                'A' => state.call(waiting, ABSENT),
                _ => state.call(ABSENT, waiting),
            };
            words.push(match answer {
                Ok(Answer { handed_on: true, part, .. }) => {
                    assert_eq!(part, [7, 8]);
                    "+".to_string()
                }
                Ok(Answer { part, .. }) => {
                    assert!(part.is_empty());
                    "-".to_string()
                }
                Err(refusal) => {
                    assert_eq!(state, before);
                    refusal.to_string()
                }
            });
        }
        words.join(" ")
    }

    /// The same with skew 100, at ticks 1, 2, 3 ..
    fn in_a_row(frames: &[(char, u8)]) -> String {
        let frames: Vec<_> =
            (1..).zip(frames).map(|(tick, (network, number))| (*network, *number, tick)).collect();
        run(100, &frames)
    }

    #[test]
    fn copies_and_skew() {
        assert_eq!(run(100, &[('A', 5, 10), ('B', 5, 110)]), "+ -");
        assert_eq!(run(100, &[('A', 5, 10), ('B', 5, 111)]), "+ +");
        assert_eq!(run(100, &[('A', 0, 0), ('B', 0, 60), ('A', 0, 101)]), "+ - +");
        let last = u64::MAX;
        assert_eq!(run(5, &[('A', 5, last - 5), ('B', 5, last)]), "+ -");
        assert_eq!(run(4, &[('A', 5, last - 5), ('B', 5, last)]), "+ +");
        assert_eq!(run(100, &[('A', 0, 0), ('A', 1, 1), ('B', 0, 2), ('B', 1, 3)]), "+ + + +");
    }

    #[test]
    fn the_earlier_and_a_on_equal_ticks() {
        let at = |tick| Waiting { frame: &[9, 5], tick };
        let network = |a, b| State::fresh(100).call(a, b).map(|answer| answer.network);
        assert_eq!(network(at(7), at(7)), Ok(Network::A));
        assert_eq!(network(at(8), at(7)), Ok(Network::B));
        assert_eq!(network(at(6), at(7)), Ok(Network::A));
        assert_eq!(network(at(7), ABSENT), Ok(Network::A));
        assert_eq!(network(ABSENT, at(7)), Ok(Network::B));
        assert_eq!(network(ABSENT, ABSENT), Err(17));
    }

    #[test]
    fn one_of_the_two_numbers_after() {
        assert_eq!(in_a_row(&[('A', 255), ('A', 2)]), "+ +");
        assert_eq!(in_a_row(&[('A', 254), ('A', 1)]), "+ +");
        assert_eq!(in_a_row(&[('A', 254), ('A', 2)]), "+ -");
        assert_eq!(in_a_row(&[('A', 0), ('A', 2)]), "+ +");
        assert_eq!(in_a_row(&[('A', 0), ('A', 3)]), "+ -");
        assert_eq!(in_a_row(&[('A', 10), ('A', 20), ('A', 21)]), "+ - +");
        assert_eq!(in_a_row(&[('A', 10), ('A', 20), ('A', 11)]), "+ - -");
    }

    #[test]
    fn among_the_127_that_follow() {
        assert_eq!(in_a_row(&[('A', 1), ('B', 128)]), "+ +");
        assert_eq!(in_a_row(&[('A', 1), ('B', 129)]), "+ -");
        assert_eq!(in_a_row(&[('A', 200), ('B', 72)]), "+ +");
        assert_eq!(in_a_row(&[('A', 200), ('B', 73)]), "+ -");
        assert_eq!(in_a_row(&[('A', 0), ('B', 127)]), "+ +");
        assert_eq!(in_a_row(&[('A', 0), ('B', 128)]), "+ -");
    }

    #[test]
    fn zero() {
        assert_eq!(in_a_row(&[('A', 5), ('B', 0), ('A', 0)]), "+ + -");
        assert_eq!(in_a_row(&[('A', 0), ('B', 5), ('A', 0)]), "+ + +");
    }

    #[test]
    fn eighteen() {
        assert_eq!(run(100, &[('A', 5, 10), ('B', 5, 20), ('A', 6, 15)]), "+ - 18");
        assert_eq!(run(100, &[('A', 5, 10), ('B', 40, 9), ('B', 90, 10)]), "+ 18 +");
    }

    /// The taken frame alone is looked at; the other is not tried instead.
    #[test]
    fn the_other_is_not_tried_instead() {
        let mut state = State::fresh(100);
        let at = |tick| Waiting { frame: &[5], tick };
        assert_eq!(
            state.call(at(10), ABSENT),
            Ok(Answer { network: Network::A, handed_on: true, part: &[] })
        );
        assert_eq!(state.call(at(9), at(20)), Err(18));
        assert_eq!(state.call(at(20), at(9)), Err(18));
        let absent = Waiting { frame: &[], tick: 9 };
        assert_eq!(
            state.call(absent, at(20)),
            Ok(Answer { network: Network::B, handed_on: false, part: &[] })
        );
    }

    /// A record handed in whose last handing on lies ahead: it is not long ago.
    #[test]
    fn a_handing_on_to_come() {
        let last = Some(HandedOn { number: 5, tick: u64::MAX });
        let mut state = State { last, ..State::fresh(0) };
        let waiting = Waiting { frame: &[1, 5], tick: 10 };
        assert_eq!(
            state.call(waiting, ABSENT),
            Ok(Answer { network: Network::A, handed_on: false, part: &[] })
        );
        assert_eq!(state.last, last);
    }

    /// By distance round the cycle of 255: over all pairs the same as step by step.
    #[test]
    fn step_by_step_is_by_distance() {
        for before in 0..=255u8 {
            for number in 0..=255u8 {
                let ahead = (u32::from(number) + 255 - u32::from(before)) % 255;
                for many in [2, 127] {
                    let expected = number != 0 && (1..=many).contains(&ahead);
                    assert_eq!(is_among(many as usize, before, number), expected, "{many} {before} {number}");
                }
            }
        }
    }
}
