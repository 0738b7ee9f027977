//! Record files: a record as hexadecimal text or, raw, as its bytes.
//!
//! In text a record is one line of byte pairs, with spaces as one likes; `#` begins a comment, blank lines are skipped.

use crate::files::{bytes_of, text_of};
use crate::options::Word;
use crate::report::Problem;

/// The record of a file, `-` for standard input, and the line that it stands in: none where the file is raw.
pub fn load(path: &Word, raw: bool) -> Result<(Vec<u8>, Option<usize>), Problem> {
    let bytes = bytes_of(path)?;
    if raw {
        return Ok((bytes, None));
    }
    let text = text_of(&bytes).ok_or_else(|| Problem::file(path, "not a record in hexadecimal; --raw takes bytes"))?;
    let (record, line) = parse(&text).map_err(|(line, what)| Problem::file(format!("{path}:{line}"), what))?;
    Ok((record, Some(line)))
}

/// The record of a text and its line, or a line and what is wrong there.
pub fn parse(text: &str) -> Result<(Vec<u8>, usize), (usize, String)> {
    let mut record = None;
    for (number, line) in (1..).zip(text.lines()) {
        let digits: String = line.split('#').next().unwrap_or("").split_whitespace().collect();
        if digits.is_empty() {
            continue;
        }
        if record.is_some() {
            return Err((number, String::from("a second record")));
        }
        let mut bytes = Vec::new();
        let pairs = from_hex(digits.as_bytes(), &mut bytes);
        pairs.ok_or((number, String::from("not pairs of hexadecimal digits; --raw takes bytes")))?;
        record = Some((bytes, number));
    }
    record.ok_or((1, String::from("no record")))
}

/// Adds the bytes of hexadecimal digits, blanks passed over, to a record; nothing if they are no pairs.
pub fn from_hex(digits: &[u8], record: &mut Vec<u8>) -> Option<()> {
    let mut high = None;
    for &byte in digits {
        if byte == b' ' || byte == b'\t' {
            continue;
        }
        let digit = char::from(byte).to_digit(16)? as u8;
        match high.take() {
            Some(high) => record.push(16 * high + digit),
            None => high = Some(digit),
        }
    }
    high.is_none().then_some(())
}

/// Adds the hexadecimal digits of a record to a text.
pub fn push_hex(record: &[u8], text: &mut Vec<u8>) {
    const DIGITS: &[u8; 16] = b"0123456789ABCDEF";
    for &byte in record {
        text.extend([DIGITS[usize::from(byte >> 4)], DIGITS[usize::from(byte & 15)]]);
    }
}

/// A record as text: byte pairs with spaces between.
pub fn to_hex(record: &[u8]) -> String {
    let pairs: Vec<String> = record.iter().map(|byte| format!("{byte:02X}")).collect();
    pairs.join(" ")
}

#[cfg(test)]
mod tests {
    use super::*;

    #[test]
    fn a_record_file() {
        let record = vec![0x07, 0, 1, 0, 2, 0, 0xC8];
        assert_eq!(parse("# a pair\n07 00 0100 0200 c8 # here\n"), Ok((record.clone(), 2)));
        assert_eq!(parse(&to_hex(&record)), Ok((record, 1)));
    }

    #[test]
    fn what_is_no_record_file() {
        assert_eq!(parse("\n#\n").unwrap_err(), (1, String::from("no record")));
        assert_eq!(parse("07\n07\n").unwrap_err(), (2, String::from("a second record")));
        assert_eq!(parse("070\n").unwrap_err().0, 1);
        assert_eq!(parse("0G\n").unwrap_err().0, 1);
    }
}
