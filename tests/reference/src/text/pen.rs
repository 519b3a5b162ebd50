//! Writing of words and decimals into a small text of its own, without any allocation.

/// Room for the longest text that is ever written.
const ROOM: usize = 128;

/// A text under way.
pub(crate) struct Pen {
    bytes: [u8; ROOM],
    length: usize,
}

impl Pen {
    pub(crate) fn new() -> Self {
        Pen {
            bytes: [0; ROOM],
            length: 0,
        }
    }

    pub(crate) fn text(&self) -> &[u8] {
        &self.bytes[..self.length]
    }

    pub(crate) fn word(&mut self, word: &[u8]) {
        self.bytes[self.length..self.length + word.len()].copy_from_slice(word);
        self.length += word.len();
    }

    pub(crate) fn byte(&mut self, byte: u8) {
        self.word(&[byte]);
    }

    pub(crate) fn unsigned(&mut self, number: u64) {
        let mut digits = [0; 20];
        let mut place = digits.len();
        let mut left = number;
        loop {
            place -= 1;
            digits[place] = b'0' + (left % 10) as u8;
            left /= 10;
            if left == 0 {
                break;
            }
        }
        self.word(&digits[place..]);
    }

    pub(crate) fn signed(&mut self, number: i64) {
        if number < 0 {
            self.byte(b'-');
        }
        self.unsigned(number.unsigned_abs());
    }
}

#[cfg(test)]
mod tests {
    use super::Pen;

    #[test]
    fn decimals_at_the_limits() {
        for number in [0, 7, -7, 10, i64::MAX, i64::MIN, -1_000] {
            let mut pen = Pen::new();
            pen.signed(number);
            assert_eq!(pen.text(), number.to_string().as_bytes());
        }
        let mut pen = Pen::new();
        pen.unsigned(u64::MAX);
        assert_eq!(pen.text(), u64::MAX.to_string().as_bytes());
    }
}
