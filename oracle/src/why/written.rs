//! What the program writes of a question, whose side and position are texts.

use super::{why, Told, Why};

/// What is written, on standard error, where a text is no decimal.
pub const USAGE: &str = "usage: ./why capture.bin side position\n";

/// The answer to a question; none where side or position is no decimal.
pub fn asked(trace: &[u8], side: &[u8], position: &[u8]) -> Option<Told> {
    Some(why(trace, number(side)?, number(position)?))
}

/// A decimal as in a text list, of any length: digits alone, at least one, no leading zeros. The
/// highest number stands for all above it, as they are refused alike.
fn number(text: &[u8]) -> Option<u32> {
    let is_decimal = match text {
        [] => false,
        [b'0', _, ..] => false,
        digits => digits.iter().all(u8::is_ascii_digit),
    };
    is_decimal.then(|| {
        text.iter().fold(0, |number: u32, digit| {
            let digit = u32::from(digit - b'0');
            number.saturating_mul(10).saturating_add(digit)
        })
    })
}

/// `never raised`, `cleared by record R` or `set by record R`; of entries `set: N held` and a line
/// an entry, `entry E put by record R`; of a refusal `why R`.
pub fn lines(told: &Told) -> String {
    match told {
        Ok(Why::Never) => "never raised\n".to_string(),
        Ok(Why::Cleared(record)) => format!("cleared by record {record}\n"),
        Ok(Why::Set(record)) => format!("set by record {record}\n"),
        Ok(Why::Held(held)) => {
            let mut lines = format!("set: {} held\n", held.len());
            for holding in held {
                let (entry, record) = (holding.entry, holding.record);
                lines += &format!("entry {entry} put by record {record}\n");
            }
            lines
        }
        Err(refusal) => format!("why {refusal}\n"),
    }
}

#[cfg(test)]
mod tests {
    use super::number;

    #[test]
    fn decimals_of_any_length() {
        for (text, expected) in [
            ("0", 0),
            ("1", 1),
            ("9", 9),
            ("10", 10),
            ("4294967295", u32::MAX),
            ("4294967296", u32::MAX),
            ("4294967301", u32::MAX),
            ("18446744073709551621", u32::MAX),
            (&"1".repeat(5000), u32::MAX),
            (&format!("1{}", "0".repeat(99)), u32::MAX),
        ] {
            assert_eq!(number(text.as_bytes()), Some(expected), "{text}");
        }
    }

    #[test]
    fn all_else_is_no_decimal() {
        for text in [
            "", " ", "00", "05", "010", "+5", "-0", " 5", "5 ", "5\n", "\n", "0x5", "5a", "a",
            "1.0", "1e0", "1_0", "5\0", "٣", "５",
        ] {
            assert_eq!(number(text.as_bytes()), None, "{text}");
        }
        assert_eq!(number(&"0".repeat(5000).into_bytes()), None);
        assert_eq!(number(&[b'5', 0xFF]), None);
    }
}
