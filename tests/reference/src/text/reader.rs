//! Strict reading of fixed words and decimals from the front of a text.

use super::LINE_END;

/// What of a text is still unread.
pub(crate) struct Reader<'a> {
    rest: &'a [u8],
}

impl<'a> Reader<'a> {
    pub(crate) fn new(text: &'a [u8]) -> Self {
        Reader { rest: text }
    }

    /// Passes over exactly this word.
    pub(crate) fn word(&mut self, word: &[u8]) -> Option<()> {
        self.rest = self.rest.strip_prefix(word)?;
        Some(())
    }

    /// Any one byte.
    pub(crate) fn byte(&mut self) -> Option<u8> {
        let (&first, rest) = self.rest.split_first()?;
        self.rest = rest;
        Some(first)
    }

    /// A decimal from 0 to `greatest`, without sign or leading zero.
    pub(crate) fn unsigned(&mut self, greatest: u32) -> Option<u32> {
        let magnitude = self.magnitude(u64::from(greatest))?;
        u32::try_from(magnitude).ok()
    }

    /// A decimal that fits 64 bits, without sign or leading zero.
    pub(crate) fn wide(&mut self) -> Option<u64> {
        self.magnitude(u64::MAX)
    }

    /// A decimal that fits 32 bits signed; nothing negative is zero.
    pub(crate) fn signed(&mut self) -> Option<i32> {
        if self.word(b"-").is_none() {
            return i32::try_from(self.magnitude(0x7FFF_FFFF)?).ok();
        }
        match self.magnitude(0x8000_0000)? {
            0 => None,
            magnitude => i32::try_from(-i64::try_from(magnitude).ok()?).ok(),
        }
    }

    /// One line end and nothing behind it.
    pub(crate) fn end(&self) -> Option<()> {
        (self.rest == [LINE_END]).then_some(())
    }

    /// Digits up to the first other byte; gives up where the number outgrows the greatest.
    fn magnitude(&mut self, greatest: u64) -> Option<u64> {
        let mut value = self.digit()?;
        while let Some(digit) = self.digit() {
            if value == 0 {
                return None;
            }
            value = value.checked_mul(10)?.checked_add(digit)?;
            if value > greatest {
                return None;
            }
        }
        (value <= greatest).then_some(value)
    }

    fn digit(&mut self) -> Option<u64> {
        let (&first, rest) = self.rest.split_first()?;
        if !first.is_ascii_digit() {
            return None;
        }
        self.rest = rest;
        Some(u64::from(first - b'0'))
    }
}

#[cfg(test)]
mod tests {
    use super::Reader;

    fn unsigned(text: &[u8], greatest: u32) -> Option<u32> {
        Reader::new(text).unsigned(greatest)
    }

    fn signed(text: &[u8]) -> Option<i32> {
        Reader::new(text).signed()
    }

    #[test]
    fn unsigned_keeps_to_the_range() {
        assert_eq!(unsigned(b"0", 255), Some(0));
        assert_eq!(unsigned(b"255", 255), Some(255));
        assert_eq!(unsigned(b"256", 255), None);
        assert_eq!(unsigned(b"4294967295", u32::MAX), Some(u32::MAX));
        assert_eq!(unsigned(b"4294967296", u32::MAX), None);
        assert_eq!(unsigned(&[b'9'; 4000], u32::MAX), None);
        for bad in [&b"00"[..], b"01", b"-0", b"-1", b"+1", b"", b" 1", b"x"] {
            assert_eq!(unsigned(bad, u32::MAX), None, "{bad:?}");
        }
    }

    #[test]
    fn wide_keeps_to_the_range() {
        let wide = |text: &[u8]| Reader::new(text).wide();
        assert_eq!(wide(b"0"), Some(0));
        assert_eq!(wide(b"18446744073709551615"), Some(u64::MAX));
        assert_eq!(wide(b"18446744073709551616"), None);
        assert_eq!(wide(b"18446744073709551620"), None);
        assert_eq!(wide(b"184467440737095516150"), None);
        assert_eq!(wide(&[b'1'; 4000]), None);
        for bad in [&b"00"[..], b"01", b"-1", b"+1", b"", b" 1"] {
            assert_eq!(wide(bad), None, "{bad:?}");
        }
    }

    #[test]
    fn signed_keeps_to_the_range() {
        assert_eq!(signed(b"-1"), Some(-1));
        assert_eq!(signed(b"-2147483648"), Some(i32::MIN));
        assert_eq!(signed(b"2147483647"), Some(i32::MAX));
        for bad in [&b"-0"[..], b"--1", b"+1", b"-", b"-01", b"-00", b""] {
            assert_eq!(signed(bad), None, "{bad:?}");
        }
        assert_eq!(signed(b"-2147483649"), None);
        assert_eq!(signed(b"2147483648"), None);
        assert_eq!(signed(b"-18446744073709551617"), None);
    }
}
