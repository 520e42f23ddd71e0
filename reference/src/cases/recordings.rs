//! The case of the program redundancy: two recordings, and what is printed. The program reads 8,192 bytes of a recording
//! at a time; these are longer, and frames lie across.

use super::Files;
use crate::numeral::value_of;
use crate::random::Random;
use crate::recordings::{bytes_of, redundancy};

const SKEW: &str = "100";

/// A frame of one of the recordings.
struct Frame {
    tick: u64,
    bytes: Vec<u8>,
}

fn frame(random: &mut Random, tick: u64, length: usize, number: u8) -> Frame {
    let mut bytes: Vec<u8> = (1..length).map(|_| random.from(0, 255) as u8).collect();
    bytes.push(number);
    Frame { tick, bytes }
}

/// Frames of A and of B by tick, length and number: the shortest and the longest; equal ticks; a copy exactly the skew
/// later, and one later than that; one that is not sound; 0; the ends of the cycle.
fn each_line(random: &mut Random) -> [Vec<Frame>; 2] {
    let a = [
        (0, 1, 250),
        (5, 2_048, 251),
        (9, 2, 252),
        (9, 64, 253),
        (20, 30, 2),
        (21, 30, 3),
        (150, 9, 0),
        (151, 9, 1),
    ];
    let b = [
        (0, 2, 250),
        (105, 2_048, 251),
        (106, 1, 252),
        (107, 1, 253),
        (121, 3, 254),
        (260, 5, 1),
        (261, 6, 2),
    ];
    let made = |random: &mut Random, frames: &[(u64, usize, u8)]| {
        frames.iter().map(|(tick, length, number)| frame(random, *tick, *length, *number)).collect()
    };
    [made(random, &a), made(random, &b)]
}

/// The copies of a stream, each now and then before the other; each loses some.
fn stream(random: &mut Random) -> [Vec<Frame>; 2] {
    let [mut a, mut b] = [Vec::new(), Vec::new()];
    let mut tick = 1_000;
    for i in 0..150u64 {
        let number = (i % 255 + 1) as u8;
        let length = if random.once_in(9) { 700 } else { random.from(1, 60) } as usize;
        tick += random.from(8, 60);
        for frames in [&mut a, &mut b] {
            let behind = random.from(0, 7);
            if !random.once_in(8) {
                frames.push(frame(random, tick + behind, length, number));
            }
        }
    }
    [a, b]
}

/// B goes on after A has ended, up to the last tick that there is.
fn end_of_time(random: &mut Random) -> [Vec<Frame>; 2] {
    let last = u64::MAX;
    let b = [(last - 101, 4, 0), (last - 1, 4, 0), (last, 4, 0), (last, 5, 1), (last, 2_048, 2)];
    [Vec::new(), b.into_iter().map(|(tick, length, number)| frame(random, tick, length, number)).collect()]
}

fn recordings() -> [Vec<Frame>; 2] {
    let mut random = Random::new(101_002);
    let [mut a, mut b] = each_line(&mut random);
    for [more_a, more_b] in [stream(&mut random), end_of_time(&mut random)] {
        a.extend(more_a);
        b.extend(more_b);
    }
    [a, b]
}

/// The files of the program's folder.
pub fn files() -> Files {
    let [a, b] = recordings().map(|frames| {
        frames.iter().flat_map(|frame| bytes_of(frame.tick, &frame.bytes)).collect::<Vec<u8>>()
    });
    let skew = value_of(SKEW).expect("a numeral");
    let stdout = redundancy(skew, ("a", &a), ("b", &b)).text.into_bytes();
    let args = format!("{SKEW}\na\nb\n").into_bytes();
    vec![("args", args), ("data/a", a), ("data/b", b), ("stdout", stdout)]
}

#[cfg(test)]
mod tests {
    use super::*;

    /// What the program reads at a time.
    const PART: usize = 8_192;

    #[test]
    fn frames_lie_across_parts() {
        for frames in recordings() {
            let ends: Vec<usize> = frames
                .iter()
                .scan(0, |end, frame| {
                    *end += 16 + frame.bytes.len();
                    Some(*end)
                })
                .collect();
            assert!(ends.last() > Some(&(2 * PART)));
            assert!(!ends.contains(&PART) && !ends.contains(&(2 * PART)));
        }
    }

    #[test]
    fn all_is_presented() {
        let files = files();
        let text = String::from_utf8(files[3].1.clone()).expect("plain text");
        let [a, b] = recordings();
        assert_eq!(text.lines().count(), a.len() + b.len());
        for line in ["A 250 0 on 0", "B 250 0 left", "A 251 5 on 2047", "B 251 105 left", "B 252 106 left"] {
            assert!(text.contains(&format!("{line}\n")), "{line}");
        }
    }
}
