//! Numbers and lists of numbers in antt's writing, as its file `Packed` reads them.

/// A list packed into one number, so many hexadecimal digits to an element, the first the lowest.
pub(super) fn packed(elements: &[u128], width: usize) -> String {
    let mut digits = String::new();
    for element in elements.iter().rev() {
        digits.push_str(&format!("{element:0width$x}"));
    }
    let significant = digits.trim_start_matches('0');
    if significant.is_empty() {
        "0".to_string()
    } else {
        format!("0x{significant}")
    }
}

/// A list of so many elements, read by a function of `Packed`.
pub(super) fn list(reader: &str, elements: &[u128], width: usize) -> String {
    format!("{reader} {} {}", elements.len(), packed(elements, width))
}

/// A list of bytes.
pub(super) fn bytes(list: &[u8]) -> String {
    let elements: Vec<u128> = list.iter().map(|&byte| u128::from(byte)).collect();
    self::list("bytes", &elements, 2)
}

/// A list of 32-bit numbers.
pub(super) fn words(list: &[u32]) -> String {
    let elements: Vec<u128> = list.iter().map(|&word| u128::from(word)).collect();
    self::list("words", &elements, 8)
}

/// A list of signed 32-bit numbers.
pub(super) fn signed_words(list: &[i32]) -> String {
    let elements: Vec<u128> = list.iter().map(|&word| u128::from(word as u32)).collect();
    self::list("signed_words", &elements, 8)
}

/// A list of signed 64-bit numbers.
pub(super) fn signed_longs(list: &[i64]) -> String {
    let elements: Vec<u128> = list.iter().map(|&long| u128::from(long as u64)).collect();
    self::list("signed_longs", &elements, 16)
}

/// A signed number.
pub(super) fn integer(number: impl Into<i128>) -> String {
    let number = number.into();
    if number < 0 {
        format!("negsuc {}", -(number + 1))
    } else {
        format!("pos {number}")
    }
}

/// A short list of numbers, element by element.
pub(super) fn spelled_list(numbers: &[u64]) -> String {
    let mut text = String::new();
    for number in numbers {
        text.push_str(&format!("{number} ∷ "));
    }
    text + "[]"
}

#[cfg(test)]
mod tests {
    use super::{bytes, integer, packed, signed_longs, signed_words};

    #[test]
    fn packing() {
        assert_eq!(packed(&[1, 2, 0, 0], 2), "0x201");
        assert_eq!(packed(&[], 8), "0");
        assert_eq!(bytes(&[0, 0]), "bytes 2 0");
        assert_eq!(signed_words(&[-1, 1]), "signed_words 2 0x1ffffffff");
        assert_eq!(signed_longs(&[-2, 0]), "signed_longs 2 0xfffffffffffffffe");
        assert_eq!(integer(-1), "negsuc 0");
        assert_eq!(integer(i64::MIN), "negsuc 9223372036854775807");
        assert_eq!(integer(0), "pos 0");
    }
}
