//! What the program redundancy prints for two recordings, each a run of frames: tick and length (8 bytes each,
//! little-endian; lengths from 1 to 2,048), and as many bytes.

use crate::redundancy::{Network, State, Waiting};

/// The longest frame of a recording.
pub const MOST_BYTES: u64 = 2_048;

/// What is printed, and the message where a recording can't be read, or `refused` where a call was refused.
#[derive(Debug, PartialEq)]
pub struct Printed {
    pub text: String,
    pub message: Option<String>,
}

/// A recording while it is presented: its name, the frame that waits, and what is behind it.
struct Recording<'a> {
    name: &'a str,
    waiting: Waiting<'a>,
    behind: &'a [u8],
}

/// The bytes of a frame in a recording.
pub fn bytes_of(tick: u64, frame: &[u8]) -> Vec<u8> {
    [&tick.to_le_bytes(), &(frame.len() as u64).to_le_bytes(), frame].concat()
}

impl<'a> Recording<'a> {
    fn new(name: &'a str, bytes: &'a [u8]) -> Recording<'a> {
        Recording { name, waiting: Waiting { frame: &[], tick: 0 }, behind: bytes }
    }

    /// The next frame waits, or none where the recording has ended; false where something else is behind.
    fn is_next_read(&mut self) -> bool {
        if self.behind.is_empty() {
            self.waiting.frame = &[];
            return true;
        }
        if self.behind.len() < 16 {
            return false;
        }
        let (head, rest) = self.behind.split_at(16);
        let number = |bytes: &[u8]| u64::from_le_bytes(bytes.try_into().expect("eight bytes"));
        let length = number(&head[8..]);
        if length == 0 || length > MOST_BYTES || length > rest.len() as u64 {
            return false;
        }
        let (frame, behind) = rest.split_at(length as usize);
        self.waiting = Waiting { frame, tick: number(&head[..8]) };
        self.behind = behind;
        true
    }

    fn has_ended(&self) -> bool {
        self.waiting.frame.is_empty()
    }
}

/// All that is printed for two recordings, each with its name.
pub fn redundancy(skew: u64, a: (&str, &[u8]), b: (&str, &[u8])) -> Printed {
    let mut a = Recording::new(a.0, a.1);
    let mut b = Recording::new(b.0, b.1);
    let mut state = State::fresh(skew);
    let mut text = String::new();
    let unread = |text: String, name: &str| Printed { text, message: Some(format!("can't read {name}")) };
    for recording in [&mut a, &mut b] {
        if !recording.is_next_read() {
            return unread(text, recording.name);
        }
    }
    while !a.has_ended() || !b.has_ended() {
        let answer = match state.call(a.waiting, b.waiting) {
            Ok(answer) => answer,
            Err(refusal) => {
                text += &format!("refused {refusal}\n");
                return Printed { text, message: Some("refused".to_string()) };
            }
        };
        let (letter, taken) = match answer.network {
            Network::A => ('A', &mut a),
            Network::B => ('B', &mut b),
        };
        let number = taken.waiting.frame.last().expect("a frame that was taken");
        text += &format!("{letter} {number} {} ", taken.waiting.tick);
        text += &if answer.handed_on { format!("on {}\n", answer.part.len()) } else { "left\n".to_string() };
        if !taken.is_next_read() {
            return unread(text, taken.name);
        }
    }
    Printed { text, message: None }
}

#[cfg(test)]
mod tests {
    use super::*;

    fn printed(a: &[u8], b: &[u8]) -> (String, String) {
        let Printed { text, message } = redundancy(100, ("first", a), ("second", b));
        (text, message.unwrap_or_default())
    }

    fn both(text: &str, message: &str) -> (String, String) {
        (text.to_string(), message.to_string())
    }

    #[test]
    fn two_copies() {
        let a = [bytes_of(10, &[1, 2, 5]), bytes_of(30, &[6])].concat();
        let b = [bytes_of(10, &[1, 2, 5]), bytes_of(29, &[3, 6])].concat();
        let lines = "A 5 10 on 2\nB 5 10 left\nB 6 29 on 1\nA 6 30 left\n";
        assert_eq!(printed(&a, &b), both(lines, ""));
        assert_eq!(printed(&a, &[]), both("A 5 10 on 2\nA 6 30 on 0\n", ""));
        assert_eq!(printed(&[], &b), both("B 5 10 on 2\nB 6 29 on 1\n", ""));
        assert_eq!(printed(&[], &[]), both("", ""));
    }

    #[test]
    fn refused() {
        let a = [bytes_of(10, &[5]), bytes_of(9, &[6])].concat();
        assert_eq!(printed(&a, &[]), both("A 5 10 on 0\nrefused 18\n", "refused"));
        let b = bytes_of(11, &[7]);
        assert_eq!(printed(&a, &b), both("A 5 10 on 0\nrefused 18\n", "refused"));
        assert_eq!(printed(&b, &a), both("B 5 10 on 0\nrefused 18\n", "refused"));
    }

    #[test]
    fn unread() {
        let good = bytes_of(10, &[5]);
        let longest = bytes_of(10, &[5; 2_048]);
        assert_eq!(printed(&longest, &[]), both("A 5 10 on 2047\n", ""));
        for bad in [bytes_of(11, &[]), bytes_of(11, &[5; 2_049]), good[..16].to_vec(), good[..1].to_vec()] {
            assert_eq!(printed(&bad, &good), both("", "can't read first"));
            assert_eq!(printed(&bad, &bad), both("", "can't read first"));
            assert_eq!(printed(&good, &bad), both("", "can't read second"));
            let behind = [&good[..], &bad[..]].concat();
            assert_eq!(printed(&behind, &good), both("A 5 10 on 0\n", "can't read first"));
            assert_eq!(printed(&good, &behind), both("A 5 10 on 0\nB 5 10 left\n", "can't read second"));
        }
    }
}
