//! Long runs of networks A and B from a fresh state: two copies of one stream, with losses, delays, repeats, ticks that
//! fall, and numbers that begin again at 0. Of a copy only the number is as sent; its other bytes tell whose it is.

use super::redundancy::{Call, Frame};
use crate::random::Random;
use crate::redundancy::{after, Network, State};
use std::collections::VecDeque;

const RUNS: usize = 54;

/// Every so many runs the stream is long enough to go round the cycle of numbers.
const LONG: usize = 27;

const LONG_STREAM: u64 = 400;

/// How a network treats the frames of a stream.
struct Path {
    delay: u64,
    jitter: u64,
    /// One frame in so many.
    lost: u64,
    repeated: u64,
    late: u64,
}

fn path(random: &mut Random) -> Path {
    Path {
        delay: random.pick(&[0, 0, 3, 10, 40]),
        jitter: random.pick(&[0, 1, 5, 15]),
        lost: random.pick(&[4, 10, 25, 1_000]),
        repeated: random.pick(&[10, 30, 1_000]),
        late: random.pick(&[25, 200, 1_000]),
    }
}

/// So many ticks and numbers, as sent.
fn stream(random: &mut Random, many: u64) -> Vec<(u64, u8)> {
    let gap = random.pick(&[1, 4, 10, 30]);
    let mut tick = random.pick(&[0, 0, 1_000, u64::MAX - 400]);
    let mut number = random.pick(&[0, 1, 120, 250, 254]);
    let mut sent = Vec::new();
    for _ in 0..many {
        sent.push((tick, number));
        tick = tick.saturating_add(random.from(1, gap));
        number = match random.from(0, 39) {
            0 | 1 => 0,
            2 => random.from(0, 255) as u8,
            3 => after(after(number)),
            _ => after(number),
        };
    }
    sent
}

fn frame(random: &mut Random, number: u8, tick: u64) -> Frame {
    let mut bytes: Vec<u8> = (0..random.below(4)).map(|_| random.from(0, 255) as u8).collect();
    bytes.push(number);
    Frame { bytes, tick }
}

/// What arrives of a stream; in the order of the ticks, but for late ones.
fn arrivals(random: &mut Random, sent: &[(u64, u8)], path: &Path) -> VecDeque<Frame> {
    let mut clock = 0;
    let mut frames = VecDeque::new();
    for (tick, number) in sent {
        if random.once_in(path.lost) {
            continue;
        }
        clock = tick.saturating_add(path.delay + random.from(0, path.jitter)).max(clock);
        let shown = if random.once_in(path.late) { clock.saturating_sub(random.from(1, 60)) } else { clock };
        frames.push_back(frame(random, *number, shown));
        if random.once_in(path.repeated) {
            clock = clock.saturating_add(random.from(0, 3));
            frames.push_back(frame(random, *number, clock));
        }
    }
    frames
}

/// What is presented of a network: its first frame, but for one time in so many.
fn presented(random: &mut Random, frames: &VecDeque<Frame>, absent: u64) -> Frame {
    match frames.front() {
        Some(frame) if !random.once_in(absent) => frame.clone(),
        _ => Frame { bytes: Vec::new(), tick: random.from(0, 2_000) },
    }
}

/// A frame that was taken goes, and so does one that was refused.
fn run(random: &mut Random, many: u64) -> (State, Vec<Call>) {
    let skew = random.pick(&[0, 1, 5, 20, 50, 100, 100, u64::MAX]);
    let start = State::fresh(skew);
    let sent = stream(random, many);
    let [path_a, path_b] = [path(random), path(random)];
    let mut on_a = arrivals(random, &sent, &path_a);
    let mut on_b = arrivals(random, &sent, &path_b);
    let absent = random.pick(&[8, 50, 1_000]);
    let mut state = start;
    let mut calls = Vec::new();
    while !on_a.is_empty() || !on_b.is_empty() {
        let call = Call { a: presented(random, &on_a, absent), b: presented(random, &on_b, absent) };
        match state.call(call.a.waiting(), call.b.waiting()) {
            Ok(answer) => match answer.network {
                Network::A => drop(on_a.pop_front()),
                Network::B => drop(on_b.pop_front()),
            },
            Err(_) => {
                for frames in [&mut on_a, &mut on_b] {
                    if frames.front().is_some_and(|frame| Some(frame.tick) < state.taken) {
                        frames.pop_front();
                    }
                }
            }
        }
        calls.push(call);
    }
    (start, calls)
}

pub fn all() -> Vec<(State, Vec<Call>)> {
    let mut random = Random::new(101_001);
    let many = |random: &mut Random, i| if i % LONG == LONG - 1 { LONG_STREAM } else { random.from(15, 45) };
    (0..RUNS)
        .map(|i| {
            let many = many(&mut random, i);
            run(&mut random, many)
        })
        .collect()
}

#[cfg(test)]
mod tests {
    use super::*;

    #[test]
    fn some_are_long() {
        let long = all().iter().filter(|(_, calls)| calls.len() >= 600).count();
        assert_eq!(long, RUNS / LONG);
    }

    /// What is watched of an accepted call.
    struct Taken {
        network: Network,
        number: u8,
        tick: u64,
        handed_on: bool,
    }

    fn accepted(start: &State, calls: &[Call]) -> Vec<Taken> {
        let mut state = *start;
        let mut list = Vec::new();
        for call in calls {
            let Ok(answer) = state.call(call.a.waiting(), call.b.waiting()) else {
                continue;
            };
            let frame = if answer.network == Network::A { &call.a } else { &call.b };
            let (number, rest) = frame.bytes.split_last().expect("a frame that was taken");
            assert_eq!(answer.part, if answer.handed_on { rest } else { &[] });
            let Frame { tick, .. } = *frame;
            list.push(Taken { network: answer.network, number: *number, tick, handed_on: answer.handed_on });
        }
        list
    }

    /// "The same number sound on A and B within the skew, with nothing between, yields at most one frame, and exactly one
    /// if the first copy was handed on."
    #[test]
    fn of_two_copies_at_most_one_is_handed_on() {
        let mut copies = 0;
        for (start, calls) in all() {
            for pair in accepted(&start, &calls).windows(2) {
                let [first, second] = pair else { unreachable!() };
                assert!(first.tick <= second.tick);
                let are_copies = first.network != second.network && first.number == second.number;
                if are_copies && second.tick - first.tick <= start.skew {
                    assert!(!(first.handed_on && second.handed_on));
                    copies += usize::from(first.handed_on);
                }
            }
        }
        assert!(copies >= 100, "{copies}");
    }
}
