//! "Memory without preamble and gap": what a stored frame takes of its buffer.

/// Preamble, start byte and gap.
const NOT_KEPT: u64 = 20;

/// "The new switch card keeps only the Ethernet frame, so a stored frame now occupies its length less 20."
/// In a record that is not fit a length may be below 20, and occupies nothing.
pub fn occupied(length: u64) -> u64 {
    length.saturating_sub(NOT_KEPT)
}

/// The length of the frame that occupies so much.
pub fn length_of(occupied: u64) -> u64 {
    occupied + NOT_KEPT
}

#[cfg(test)]
mod tests {
    use super::*;

    #[test]
    fn the_shortest_and_the_longest() {
        assert_eq!([84, 1_538].map(occupied), [64, 1_518]);
        assert_eq!([0, 19, 20, 21].map(occupied), [0, 0, 0, 1]);
        assert_eq!([64, 1_518].map(length_of), [84, 1_538]);
    }
}
