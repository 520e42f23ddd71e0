//! The words of a program that are numbers.

/// A decimal numeral; "one above 2^64 − 1 counts as 2^64 − 1".
pub fn value_of(word: &str) -> Option<u64> {
    if word.is_empty() || !word.bytes().all(|byte| byte.is_ascii_digit()) {
        return None;
    }
    let digits = word.trim_start_matches('0');
    let is_long = digits.len() > 20;
    let value = if is_long { u128::MAX } else { format!("0{digits}").parse().expect("at most 21 digits") };
    Some(u64::try_from(value).unwrap_or(u64::MAX))
}

#[cfg(test)]
mod tests {
    use super::*;

    #[test]
    fn numerals() {
        assert_eq!(value_of("0"), Some(0));
        assert_eq!(value_of("007"), Some(7));
        assert_eq!(value_of("18446744073709551615"), Some(u64::MAX));
        assert_eq!(value_of("18446744073709551614"), Some(u64::MAX - 1));
        assert_eq!(value_of("18446744073709551616"), Some(u64::MAX));
        assert_eq!(value_of(&"9".repeat(100)), Some(u64::MAX));
        assert_eq!(value_of(&"0".repeat(100)), Some(0));
        for word in ["", "-1", "+1", " 1", "1 ", "1x", "0x1", "١"] {
            assert_eq!(value_of(word), None, "{word}");
        }
    }
}
