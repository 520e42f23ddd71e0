//! The call on networks A and B: two recordings of one stream in memory, with losses, one call after the other.

use crate::measure::compare;
use std::hint::black_box;

extern "C" {
    #[allow(clippy::too_many_arguments)]
    fn bench_redundancy(
        a: *const u8,
        a_length: usize,
        ticks_a: *const u64,
        ticks_a_length: usize,
        b: *const u8,
        b_length: usize,
        ticks_b: *const u64,
        ticks_b_length: usize,
        skew: u64,
        calls: usize,
    ) -> u64;
}

const FRAME: usize = 64;
const CALLS: usize = 1_000;
const SKEW: u64 = 500;

/// Frames one behind the other, and the tick of each.
#[derive(Default)]
struct Recording {
    bytes: Vec<u8>,
    ticks: Vec<u64>,
}

impl Recording {
    fn frame(&self, k: usize) -> &[u8] {
        self.bytes.get(k * FRAME..(k + 1) * FRAME).unwrap_or(&[])
    }

    fn tick(&self, k: usize) -> u64 {
        self.ticks.get(k).copied().unwrap_or(0)
    }
}

/// A stream of frames some hundred ticks apart, of which one network loses every n-th; each copy is late by some ticks.
fn recording(every: u64, late: u64) -> Recording {
    let mut r = Recording::default();
    let mut number = 0u8;
    for i in 0..CALLS as u64 {
        if i % every != every - 1 {
            let mut frame: Vec<u8> = (0..FRAME as u64).map(|j| (i * 31 + j * 7 + late) as u8).collect();
            frame[FRAME - 1] = number;
            r.bytes.extend(frame);
            r.ticks.push(1_000 + 700 * i + (i * 37 + late) % 300);
        }
        number = number % 255 + 1;
    }
    r
}

fn product(a: &Recording, b: &Recording) -> u64 {
    unsafe {
        bench_redundancy(
            a.bytes.as_ptr(),
            a.bytes.len(),
            a.ticks.as_ptr(),
            a.ticks.len(),
            b.bytes.as_ptr(),
            b.bytes.len(),
            b.ticks.as_ptr(),
            b.ticks.len(),
            SKEW,
            CALLS,
        )
    }
}

#[derive(Clone, Copy, PartialEq)]
enum Network {
    A,
    B,
}

#[derive(Clone, Copy)]
struct State {
    skew: u64,
    received: [Option<u8>; 2],
    last: Option<(u8, u64)>,
    taken: u64,
}

struct Selection<'a> {
    network: Network,
    handed_on: bool,
    part: &'a [u8],
}

/// Whether n is one of the k numbers after m.
fn follows(k: u16, m: u8, n: u8) -> bool {
    let ahead = (u16::from(n) + 255 - u16::from(m)) % 255;
    n != 0 && ahead != 0 && ahead <= k
}

impl State {
    fn select<'a>(&mut self, a: &'a [u8], at_a: u64, b: &'a [u8], at_b: u64) -> Result<Selection<'a>, u8> {
        let network = match (a.is_empty(), b.is_empty()) {
            (true, true) => return Err(17),
            (false, true) => Network::A,
            (true, false) => Network::B,
            (false, false) => {
                if at_a <= at_b {
                    Network::A
                } else {
                    Network::B
                }
            }
        };
        let (frame, tick) = if network == Network::A { (a, at_a) } else { (b, at_b) };
        if tick < self.taken {
            return Err(18);
        }
        let (&number, rest) = frame.split_last().unwrap();
        let previous = &mut self.received[network as usize];
        let sound = previous.map_or(true, |m| number == 0 || follows(2, m, number));
        *previous = Some(number);
        let new = self.last.map_or(true, |(m, at)| {
            tick.saturating_sub(at) > self.skew || follows(127, m, number) || number == 0 && m != 0
        });
        let handed_on = sound && new;
        if handed_on {
            self.last = Some((number, tick));
        }
        self.taken = tick;
        Ok(Selection { network, handed_on, part: if handed_on { rest } else { &[] } })
    }
}

fn peer(a: &Recording, b: &Recording) -> u64 {
    let mut state = State { skew: SKEW, received: [None; 2], last: None, taken: 0 };
    let (mut total, mut i, mut j) = (0u64, 0, 0);
    for _ in 0..CALLS {
        let (mut first, mut last, mut length) = (0, 0, 0);
        let mut network = Network::A;
        if let Ok(s) = state.select(a.frame(i), a.tick(i), b.frame(j), b.tick(j)) {
            network = s.network;
            debug_assert!(s.handed_on || s.part.is_empty());
            length = s.part.len() as u64;
            first = s.part.first().map_or(0, |&x| u64::from(x));
            last = s.part.last().map_or(0, |&x| u64::from(x));
        }
        total = total % 4_294_967_296 + length % 65_536 + first + last;
        match network {
            Network::A => i += 1,
            Network::B => j += 1,
        }
    }
    total
}

pub fn run() {
    let (a, b) = (recording(50, 11), recording(40, 170));
    assert_eq!(product(&a, &b), peer(&a, &b));
    compare(
        "1,000 calls on networks A and B",
        20,
        || {
            black_box(product(black_box(&a), black_box(&b)));
        },
        || {
            black_box(peer(black_box(&a), black_box(&b)));
        },
    );
}
