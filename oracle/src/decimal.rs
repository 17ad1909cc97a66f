//! "in decimal with single spaces"

pub fn decimal(numbers: impl IntoIterator<Item = u32>) -> String {
    let words: Vec<String> = numbers.into_iter().map(|n| n.to_string()).collect();
    words.join(" ")
}

pub fn line(numbers: impl IntoIterator<Item = u32>) -> String {
    decimal(numbers) + "\n"
}

/// Stores a number at the end of a text that has room for it, and gives where its digits start.
/// (With `write!` a replay takes half as long again.)
pub fn store(number: u32, text: &mut [u8]) -> usize {
    let mut start = text.len();
    let mut left = number;
    loop {
        start -= 1;
        text[start] = b'0' + (left % 10) as u8;
        left /= 10;
        if left == 0 {
            return start;
        }
    }
}

/// The same of a number of 64 bits.
pub fn store_long(number: u64, text: &mut [u8]) -> usize {
    let mut start = text.len();
    let mut left = number;
    loop {
        if let Ok(left) = u32::try_from(left) {
            return store(left, &mut text[..start]);
        }
        start -= 1;
        text[start] = b'0' + (left % 10) as u8;
        left /= 10;
    }
}
