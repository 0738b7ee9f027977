//! The words of a line.

use crate::tables::loaded;
use jurnadel::{Table, MAX_WORK_LENGTH};
use std::fmt::Write;
use std::iter::Peekable;
use std::str::{FromStr, SplitAsciiWhitespace};

/// No outcome depends on a lent length past this one; longer ones are cut.
const LONGEST: usize = 1 << 24;

/// The words of a line that are not taken yet.
pub struct Words<'a>(Peekable<SplitAsciiWhitespace<'a>>);

impl<'a> Words<'a> {
    pub fn of(line: &'a str) -> Words<'a> {
        Words(line.split_ascii_whitespace().peekable())
    }

    pub fn next(&mut self) -> Option<&'a str> {
        self.0.next()
    }

    pub fn number<T: FromStr>(&mut self) -> Option<T> {
        number(self.next()?)
    }

    /// The length of something to be lent.
    pub fn length(&mut self) -> Option<usize> {
        Some(self.number::<usize>()?.min(LONGEST))
    }

    /// Bytes; `-` is none.
    pub fn hex(&mut self) -> Option<Vec<u8>> {
        match self.next()? {
            "-" => Some(Vec::new()),
            word => from_hex(word.as_bytes()),
        }
    }

    /// What stands after the name and `=`, if that is the next word.
    fn option(&mut self, name: &str) -> Option<&'a str> {
        let value = self.0.peek()?.strip_prefix(name)?.strip_prefix('=')?;
        self.0.next();
        Some(value)
    }

    /// The outside dart in `outside=N`, if that is the next word; else 0.
    pub fn outside(&mut self) -> Option<u16> {
        self.option("outside").map_or(Some(0), number)
    }

    /// The group table in `table=T`, if that is the next word; else the standard one.
    pub fn table(&mut self) -> Option<Table> {
        let standard = || Some(Table::standard());
        self.option("table").map_or_else(standard, table)
    }

    /// The length of the work area in `work=N`, if that is the next word; else one that serves every record.
    pub fn shelving_work(&mut self) -> Option<usize> {
        match self.option("work") {
            Some(value) => Some(number::<usize>(value)?.min(LONGEST)),
            None => Some(MAX_WORK_LENGTH),
        }
    }

    pub fn numbers_to_end(&mut self) -> Option<Vec<u16>> {
        self.0.by_ref().map(number).collect()
    }

    /// Nothing may follow.
    pub fn end(&mut self) -> Option<()> {
        self.next().is_none().then_some(())
    }
}

/// A decimal number, of digits only.
fn number<T: FromStr>(word: &str) -> Option<T> {
    if !word.bytes().all(|byte| byte.is_ascii_digit()) {
        return None;
    }
    word.parse().ok()
}

/// A table: its 243 bytes with the inverse that loading gives them, or with an inverse as handed in.
fn table(word: &str) -> Option<Table> {
    let (bytes, inverse) = match word.split_once(':') {
        Some((bytes, inverse)) => (bytes, Some(inverse)),
        None => (word, None),
    };
    let bytes = from_hex(bytes.as_bytes())?.try_into().ok()?;
    let Some(inverse) = inverse else {
        return Some(loaded(bytes));
    };
    let inverse = from_hex(inverse.as_bytes())?.try_into().ok()?;
    Some(Table { bytes, inverse })
}

fn from_hex(digits: &[u8]) -> Option<Vec<u8>> {
    if digits.len() % 2 == 1 {
        return None;
    }
    let digit = |byte: u8| char::from(byte).to_digit(16);
    digits
        .chunks(2)
        .map(|pair| Some((16 * digit(pair[0])? + digit(pair[1])?) as u8))
        .collect()
}

/// Bytes in hexadecimal; `-` if there are none.
pub fn to_hex(bytes: &[u8]) -> String {
    if bytes.is_empty() {
        return String::from("-");
    }
    let mut text = String::with_capacity(2 * bytes.len());
    for byte in bytes {
        let _ = write!(text, "{byte:02X}");
    }
    text
}

/// Numbers, each after a space.
pub fn spaced(numbers: &[u16]) -> String {
    let mut text = String::new();
    for number in numbers {
        let _ = write!(text, " {number}");
    }
    text
}
