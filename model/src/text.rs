//! Lines `key=value`, numbers, and how numbers are printed.

use crate::Refusal;

/// A text of more bytes is refused.
pub const LARGEST_TEXT: usize = 65_536;

/// Reads a text line by line from a start place inside it.
pub struct Lines<'t> {
    text: &'t [u8],
    place: usize,
    line: u32,
}

impl<'t> Lines<'t> {
    /// The size is that of the whole text, wherever the start lies.
    pub fn new(text: &'t [u8], start: usize) -> Result<Lines<'t>, Refusal> {
        if text.len() > LARGEST_TEXT || start > text.len() {
            return Err(Refusal { number: 4, line: 0 });
        }
        Ok(Lines {
            text,
            place: start,
            line: 0,
        })
    }

    /// The value of the next line, whose key has to be `key`.
    pub fn value(&mut self, key: &str) -> Result<&'t [u8], Refusal> {
        self.line += 1;
        let Some(line) = line_at(self.text, self.place) else {
            return Err(self.refusal(4));
        };
        self.place += line.len() + 1;
        // No key holds a `=`, so this is the first one of the line.
        line.strip_prefix(key.as_bytes())
            .and_then(|rest| rest.strip_prefix(b"="))
            .ok_or(self.refusal(1))
    }

    /// The number that is the whole value of the next line.
    pub fn number(&mut self, key: &str, least: u64, most: u64) -> Result<u64, Refusal> {
        let value = self.value(key)?;
        number(value, least, most).ok_or(self.refusal(2))
    }

    /// The same, where a blank value stands for `blank`.
    pub fn number_or(
        &mut self,
        key: &str,
        least: u64,
        most: u64,
        blank: u64,
    ) -> Result<u64, Refusal> {
        let value = self.value(key)?;
        if value.is_empty() {
            return Ok(blank);
        }
        number(value, least, most).ok_or(self.refusal(2))
    }

    /// The last line, `end=` and the text's name.
    pub fn end(&mut self, name: &str) -> Result<(), Refusal> {
        if self.value("end")? != name.as_bytes() {
            return Err(self.refusal(2));
        }
        Ok(())
    }

    /// A refusal at the line read last.
    pub fn refusal(&self, number: u8) -> Refusal {
        Refusal {
            number,
            line: self.line,
        }
    }

    /// The place after the line read last, in the whole text.
    pub fn place(&self) -> usize {
        self.place
    }
}

/// The line that starts at a place of the text, without its LF; none where
/// the text ends before an LF.
pub fn line_at(text: &[u8], place: usize) -> Option<&[u8]> {
    let rest = &text[place..];
    let length = rest.iter().position(|&byte| byte == b'\n')?;
    Some(&rest[..length])
}

/// Key and value of a line: the parts before and after its first `=`.
pub fn split_line(line: &[u8]) -> Option<(&[u8], &[u8])> {
    let equals = line.iter().position(|&byte| byte == b'=')?;
    Some((&line[..equals], &line[equals + 1..]))
}

/// A number from `least` to `most`: decimal digits, no leading zero. No range
/// reaches above 9 digits, so a longer number is out of range.
pub fn number(digits: &[u8], least: u64, most: u64) -> Option<u64> {
    debug_assert!(most <= 999_999_999);
    if digits.is_empty() || digits.len() > 9 || (digits[0] == b'0' && digits.len() > 1) {
        return None;
    }
    let mut value = 0;
    for &digit in digits {
        if !digit.is_ascii_digit() {
            return None;
        }
        value = value * 10 + u64::from(digit - b'0');
    }
    (least..=most).contains(&value).then_some(value)
}

/// Exactly as many numbers of at most 9 digits as `into` has places, parted by
/// colons; false where the value is anything else.
pub fn colon_numbers(value: &[u8], into: &mut [u64]) -> bool {
    let mut parts = value.split(|&byte| byte == b':');
    for place in into.iter_mut() {
        match parts.next().and_then(|part| number(part, 0, 999_999_999)) {
            Some(value) => *place = value,
            None => return false,
        }
    }
    parts.next().is_none()
}

/// Appends a number in decimal digits.
pub fn put_number(out: &mut Vec<u8>, value: i64) {
    if value < 0 {
        out.push(b'-');
    }
    let mut rest = value.unsigned_abs();
    let mut digits = [0; 20];
    let mut at = digits.len();
    loop {
        at -= 1;
        digits[at] = b'0' + (rest % 10) as u8;
        rest /= 10;
        if rest == 0 {
            break;
        }
    }
    out.extend_from_slice(&digits[at..]);
}

/// Appends numbers parted by one space, and an LF.
pub fn put_row(out: &mut Vec<u8>, numbers: &[i64]) {
    for (i, &value) in numbers.iter().enumerate() {
        if i > 0 {
            out.push(b' ');
        }
        put_number(out, value);
    }
    out.push(b'\n');
}

#[cfg(test)]
mod tests {
    use super::*;

    #[test]
    fn numbers() {
        assert_eq!(number(b"0", 0, 5), Some(0));
        assert_eq!(number(b"5", 0, 5), Some(5));
        for bad in [
            &b""[..],
            b"6",
            b"00",
            b"05",
            b"+5",
            b"-0",
            b" 5",
            b"5 ",
            b"5\r",
            b"999999999999999999999999",
        ] {
            assert_eq!(number(bad, 0, 5), None, "{bad:?}");
        }
    }

    #[test]
    fn colons() {
        let mut three = [0; 3];
        assert!(colon_numbers(b"1:2:999999999", &mut three));
        assert_eq!(three, [1, 2, 999_999_999]);
        for bad in [
            &b""[..],
            b"1:2",
            b"1:2:",
            b"1:2:3:",
            b"1:2:3:4",
            b"1:2:1000000000",
            b"1:02:3",
        ] {
            assert!(!colon_numbers(bad, &mut three), "{bad:?}");
        }
    }

    #[test]
    fn printed_numbers() {
        let mut out = Vec::new();
        put_row(&mut out, &[0, -1, 10, i64::MIN, i64::MAX]);
        assert_eq!(
            out,
            b"0 -1 10 -9223372036854775808 9223372036854775807\n".to_vec()
        );
    }
}
