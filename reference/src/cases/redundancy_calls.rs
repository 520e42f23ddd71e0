//! Single calls of networks A and B, on any state: most lie at an edge of some rule.

use super::redundancy::{Call, Frame};
use crate::random::Random;
use crate::redundancy::{after, HandedOn, State};

const RANDOM: usize = 2_400;

/// Distances round the cycle of 255 numbers.
const EDGES: [usize; 11] = [0, 1, 2, 3, 126, 127, 128, 129, 253, 254, 255];

fn stepped(number: u8, steps: usize) -> u8 {
    (0..steps).fold(number, |number, _| after(number))
}

/// A number from which so many steps lead to `number`; any where there is none, as for 0.
fn behind(random: &mut Random, number: u8, steps: usize) -> u8 {
    let from: Vec<u8> = (0..=255).filter(|before| stepped(*before, steps) == number).collect();
    if from.is_empty() {
        return random.from(0, 255) as u8;
    }
    random.pick(&from)
}

/// A frame of that number, all other bytes random; now and then with none, or with many.
fn frame(random: &mut Random, number: u8, tick: u64) -> Frame {
    let length = match random.from(0, 99) {
        0..=9 => 0,
        10..=97 => random.below(8),
        _ => random.below(60),
    };
    let mut bytes: Vec<u8> = (0..length).map(|_| random.from(0, 255) as u8).collect();
    bytes.push(number);
    Frame { bytes, tick }
}

fn any(random: &mut Random) -> u64 {
    random.from(0, u64::MAX)
}

fn number(random: &mut Random) -> u8 {
    match random.from(0, 9) {
        0 => 0,
        1 => 255,
        2 => random.pick(&[1, 2, 3, 253, 254]),
        _ => random.from(0, 255) as u8,
    }
}

fn skew(random: &mut Random) -> u64 {
    match random.from(0, 9) {
        0 => 0,
        1 => random.pick(&[1, u64::MAX, u64::MAX - 1]),
        2 => any(random),
        _ => random.from(2, 200),
    }
}

fn tick(random: &mut Random) -> u64 {
    match random.from(0, 9) {
        0 => random.from(0, 3),
        1 | 2 => u64::MAX - random.from(0, 3),
        3 => any(random),
        _ => random.from(150, 999),
    }
}

/// One less, the same, or one more; stopped at both ends.
fn about(random: &mut Random, number: u64) -> u64 {
    random.pick(&[number.saturating_sub(1), number, number.saturating_add(1)])
}

/// What was received before a frame of that number, which is sound more often than not.
fn received(random: &mut Random, number: u8) -> Option<u8> {
    let steps = match random.from(0, 9) {
        0 | 1 => return None,
        2..=5 => random.pick(&[1, 2]),
        6 => return Some(random.from(0, 255) as u8),
        _ => random.pick(&EDGES),
    };
    Some(behind(random, number, steps))
}

/// What was handed on before a frame of that number and tick.
fn handed_on(random: &mut Random, skew: u64, number: u8, tick: u64) -> Option<HandedOn> {
    if random.once_in(12) {
        return None;
    }
    let steps = random.pick(&EDGES);
    let before = if random.once_in(8) { 0 } else { behind(random, number, steps) };
    let at = match random.from(0, 9) {
        0..=4 => about(random, tick.saturating_sub(skew)),
        5 | 6 => tick - random.from(0, skew.min(tick)),
        7 => about(random, tick),
        8 => tick.saturating_add(random.from(1, 300)),
        _ => any(random),
    };
    Some(HandedOn { number: before, tick: at })
}

fn taken(random: &mut Random, tick: u64) -> u64 {
    match random.from(0, 19) {
        0..=8 => about(random, tick),
        9..=17 => random.from(0, tick),
        18 => 0,
        _ => any(random),
    }
}

/// What waits on the other network beside a frame of that number and tick.
fn other(random: &mut Random, number: u8, tick: u64) -> Frame {
    let at = match random.from(0, 9) {
        0..=2 => tick,
        3..=5 => about(random, tick),
        6 => any(random),
        _ => tick.saturating_add(random.from(1, 300)),
    };
    if random.once_in(3) {
        return Frame { bytes: Vec::new(), tick: at };
    }
    let steps = random.pick(&EDGES);
    let before = behind(random, number, steps);
    frame(random, before, at)
}

fn random_call(random: &mut Random) -> (State, Call) {
    let (skew, number, tick) = (skew(random), number(random), tick(random));
    let first =
        if random.once_in(12) { Frame { bytes: Vec::new(), tick } } else { frame(random, number, tick) };
    let second = other(random, number, tick);
    let on_first = received(random, number);
    let on_second = received(random, second.bytes.last().copied().unwrap_or(number));
    let last = handed_on(random, skew, number, tick);
    let taken = Some(taken(random, tick));
    if random.once_in(2) {
        (State { skew, on_a: on_first, on_b: on_second, last, taken }, Call { a: first, b: second })
    } else {
        (State { skew, on_a: on_second, on_b: on_first, last, taken }, Call { a: second, b: first })
    }
}

/// A frame alone at tick 50, at each edge after a number received on its network; then after one handed on.
fn edges(random: &mut Random) -> Vec<(State, Call)> {
    let mut calls = Vec::new();
    for before in [0, 1, 2, 126, 127, 128, 200, 253, 254, 255] {
        for steps in EDGES {
            let number = stepped(before, steps);
            let [on_a, on_b, none] = [Some(before), Some(before), None];
            let absent = Frame { bytes: Vec::new(), tick: random.from(0, 100) };
            let present = frame(random, number, 50);
            let received = State { on_a, on_b: none, ..State::fresh(100) };
            let last = Some(HandedOn { number: before, tick: 40 });
            let handed_on = State { on_b: on_b.filter(|_| steps == 1), last, ..State::fresh(100) };
            calls.push((received, Call { a: present.clone(), b: absent.clone() }));
            calls.push((handed_on, Call { a: absent, b: present }));
        }
    }
    calls
}

pub fn all() -> Vec<(State, Call)> {
    let mut random = Random::new(101_000);
    let mut calls = edges(&mut random);
    calls.extend((0..RANDOM).map(|_| random_call(&mut random)));
    calls
}
