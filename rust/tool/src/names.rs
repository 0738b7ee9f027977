//! Names of files and words of files, as a terminal can take them.

use std::ffi::OsStr;
use std::fmt::Write as _;

/// A name with what a terminal might act on, and what isn't UTF-8, as `\xNN`.
pub fn shown(name: impl AsRef<OsStr>) -> String {
    let mut text = String::new();
    for chunk in name.as_ref().as_encoded_bytes().utf8_chunks() {
        for character in chunk.valid().chars() {
            match acts(character) {
                true => escape(&mut text, character.encode_utf8(&mut [0; 4]).as_bytes()),
                false => text.push(character),
            }
        }
        escape(&mut text, chunk.invalid());
    }
    text
}

/// The beginning of a word, as [`shown`].
pub fn beginning(word: &str) -> String {
    match word.char_indices().nth(20) {
        Some((end, _)) => shown(&word[..end]) + "..",
        None => shown(word),
    }
}

/// Whether a terminal might act on a character: controls, and marks that change the direction of writing.
pub fn acts(character: char) -> bool {
    character.is_control() || matches!(character, '\u{200E}' | '\u{200F}' | '\u{2028}'..='\u{202E}' | '\u{2066}'..='\u{2069}')
}

fn escape(text: &mut String, bytes: &[u8]) {
    for byte in bytes {
        let _ = write!(text, "\\x{byte:02X}");
    }
}

#[cfg(test)]
mod tests {
    use super::*;
    use std::os::unix::ffi::OsStrExt as _;

    #[test]
    fn what_a_terminal_might_act_on() {
        assert_eq!(shown("Süd 1.plan"), "Süd 1.plan");
        assert_eq!(shown("a\u{1b}[2Jb\nc"), "a\\x1B[2Jb\\x0Ac");
        assert_eq!(shown("a\u{9b}b\u{202e}c"), "a\\xC2\\x9Bb\\xE2\\x80\\xAEc");
        assert_eq!(shown(OsStr::from_bytes(b"T\xFCr")), "T\\xFCr");
        assert_eq!(beginning(&"x".repeat(21)), format!("{}..", "x".repeat(20)));
    }
}
