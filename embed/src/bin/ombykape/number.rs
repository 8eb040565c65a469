//! Numbers as they are written: decimal, or hexadecimal after `0x`.

/// The number that a text writes, if it fits 64 bits. No sign and no blanks; leading zeros are accepted.
pub fn number(text: &str) -> Option<u64> {
    let (digits, base) = match text.strip_prefix("0x") {
        Some(digits) => (digits, 16),
        None => (text, 10),
    };
    let written = !digits.is_empty() && digits.chars().all(|digit| digit.is_digit(base));
    u64::from_str_radix(digits, base).ok().filter(|_| written)
}

#[cfg(test)]
mod tests {
    use super::number;

    #[test]
    fn decimal_and_hexadecimal() {
        assert_eq!(number("0"), Some(0));
        assert_eq!(number("007"), Some(7));
        assert_eq!(number("18446744073709551615"), Some(u64::MAX));
        assert_eq!(number("0xffffffffffffffff"), Some(u64::MAX));
        assert_eq!(number("0xAb"), Some(0xab));
    }

    #[test]
    fn no_other_text_is_a_number() {
        for text in [
            "", "0x", "+7", "-7", " 7", "7 ", "7\r", "1_000", "0X7", "x7", "12a", "0x-1", "0x+1", "\u{0661}",
        ] {
            assert_eq!(number(text), None, "{text:?}");
        }
        assert_eq!(number("18446744073709551616"), None);
        assert_eq!(number("0x10000000000000000"), None);
    }
}
