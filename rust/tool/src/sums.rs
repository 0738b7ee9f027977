//! The checksums of a shelf's records, in `SHELF.sums` beside it.
//!
//! A line for each record, in order: its CRC-32C in eight hexadecimal digits. The file is replaced before the shelf is, so it
//! may have lines for records that are not on the shelf yet, but never lacks any. A shelf without it has no checksums.

use crate::files::beside;
use crate::names::shown;
use crate::report::Problem;
use std::fmt::Write as _;
use std::io::ErrorKind;
use std::path::{Path, PathBuf};

/// Where the checksums of a shelf file stand.
pub fn path_of(shelf: &Path) -> PathBuf {
    beside(shelf, ".sums")
}

/// The checksums that are kept for a shelf file; none if there is no such file.
pub fn load(shelf: &Path) -> Result<Vec<u32>, Problem> {
    let path = path_of(shelf);
    match std::fs::read(&path) {
        Ok(bytes) => parse(&bytes).map_err(|line| Problem::file(format!("{}:{line}", shown(&path)), "not a checksum")),
        Err(error) if error.kind() == ErrorKind::NotFound => Ok(Vec::new()),
        Err(error) => Err(Problem::file(shown(&path), error)),
    }
}

/// Whether bytes are checksums, at least one.
pub fn are_sums(bytes: &[u8]) -> bool {
    parse(bytes).is_ok_and(|sums| !sums.is_empty())
}

/// The checksums of a text, or the line where none stands.
fn parse(bytes: &[u8]) -> Result<Vec<u32>, usize> {
    let lines = bytes.strip_suffix(b"\n").unwrap_or(bytes).split(|&byte| byte == b'\n');
    let lines = lines.take(if bytes.is_empty() { 0 } else { usize::MAX });
    (1..).zip(lines).map(|(number, line)| sum(line).ok_or(number)).collect()
}

fn sum(line: &[u8]) -> Option<u32> {
    let digits =
        std::str::from_utf8(line).ok().filter(|text| text.len() == 8 && text.bytes().all(|byte| byte.is_ascii_hexdigit()));
    u32::from_str_radix(digits?, 16).ok()
}

/// The text of checksums.
pub fn text(sums: &[u32]) -> String {
    sums.iter().fold(String::with_capacity(9 * sums.len()), |mut text, sum| {
        let _ = writeln!(text, "{sum:08x}");
        text
    })
}

/// CRC-32C (Castagnoli), as in RFC 3720.
pub fn crc(bytes: &[u8]) -> u32 {
    !bytes.iter().fold(!0, |crc, &byte| (crc >> 8) ^ TABLE[usize::from(crc as u8 ^ byte)])
}

/// The remainders of single bytes, bits reflected.
const TABLE: [u32; 256] = {
    let mut table = [0; 256];
    let mut byte = 0;
    while byte < 256 {
        let mut crc = byte as u32;
        let mut bit = 0;
        while bit < 8 {
            crc = (crc >> 1) ^ if crc & 1 == 1 { 0x82F6_3B78 } else { 0 };
            bit += 1;
        }
        table[byte] = crc;
        byte += 1;
    }
    table
};

#[cfg(test)]
mod tests {
    use super::*;

    /// The examples of RFC 3720, B.4, and the check value of the catalogues.
    #[test]
    fn published_values() {
        let up: Vec<u8> = (0..32).collect();
        let down: Vec<u8> = (0..32).rev().collect();
        assert_eq!(crc(&[0; 32]), 0x8A91_36AA);
        assert_eq!(crc(&[0xFF; 32]), 0x62A8_AB43);
        assert_eq!(crc(&up), 0x46DD_794E);
        assert_eq!(crc(&down), 0x113F_DB5C);
        assert_eq!(crc(b"123456789"), 0xE306_9283);
    }

    #[test]
    fn text_is_read_back() {
        for sums in [vec![], vec![0], vec![0xE306_9283, 7]] {
            assert_eq!(parse(text(&sums).as_bytes()), Ok(sums));
        }
        assert_eq!(parse(b"e3069283\n0000000\n"), Err(2));
        assert_eq!(parse(b"e3069283\n+0000007"), Err(2));
        assert_eq!(parse(b"\n"), Err(1));
    }
}
