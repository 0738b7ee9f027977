//! The words after a command: options, then files and numbers.

use crate::kinds;
use crate::names::shown;
use crate::report::Problem;
use std::ffi::{OsStr, OsString};
use std::fmt;
use std::os::unix::ffi::OsStrExt as _;
use std::path::Path;

/// A word of the command line. It may name a file, in whatever encoding names have; it is shown as a terminal can take it.
#[derive(Debug, Clone)]
pub struct Word(OsString);

impl Word {
    /// The word as text; nothing where it isn't UTF-8.
    pub fn text(&self) -> Option<&str> {
        self.0.to_str()
    }

    /// Whether it stands for standard input.
    pub fn is_input(&self) -> bool {
        self.0 == "-"
    }

    /// The parts of a word `--NAME=VALUE`; the value may be in any encoding.
    fn name_and_value(&self) -> Option<(&str, Word)> {
        let bytes = self.0.as_bytes();
        let equals = bytes.iter().position(|&byte| byte == b'=').filter(|_| bytes.starts_with(b"--"))?;
        let name = std::str::from_utf8(&bytes[..equals]).ok()?;
        Some((name, Word(OsStr::from_bytes(&bytes[equals + 1..]).to_owned())))
    }

    fn is_option(&self) -> bool {
        self.0.as_encoded_bytes().starts_with(b"-") && !self.is_input()
    }
}

impl From<&str> for Word {
    fn from(word: &str) -> Word {
        Word(word.into())
    }
}

impl From<OsString> for Word {
    fn from(word: OsString) -> Word {
        Word(word)
    }
}

impl AsRef<Path> for Word {
    fn as_ref(&self) -> &Path {
        self.0.as_ref()
    }
}

impl fmt::Display for Word {
    fn fmt(&self, f: &mut fmt::Formatter<'_>) -> fmt::Result {
        shown(&self.0).fmt(f)
    }
}

/// The words of one command line, taken apart.
pub struct Options {
    switches: Vec<String>,
    values: Vec<(String, Word)>,
    /// What is left: files and numbers, in order.
    pub words: Vec<Word>,
}

impl Options {
    /// Takes the words apart. `switches` stand alone, `valued` have a word after them, or after `=`. After `--` no word is an
    /// option.
    pub fn parse(words: &[Word], switches: &[&str], valued: &[&str]) -> Result<Options, Problem> {
        let mut options = Options { switches: Vec::new(), values: Vec::new(), words: Vec::new() };
        let mut rest = words.iter();
        while let Some(word) = rest.next() {
            match word.text() {
                Some("--") => options.words.extend(rest.by_ref().cloned()),
                Some(name) if switches.contains(&name) => options.switches.push(name.to_string()),
                Some(name) if valued.contains(&name) => {
                    let value = rest.next().ok_or_else(|| Problem::Usage(format!("{name} needs a word after it")))?;
                    options.values.push((name.to_string(), value.clone()));
                }
                _ => match word.name_and_value().filter(|(name, _)| valued.contains(name)) {
                    Some((name, value)) => options.values.push((name.to_string(), value)),
                    None if word.is_option() => return Err(Problem::Usage(format!("no option {word}"))),
                    None => options.words.push(word.clone()),
                },
            }
        }
        Ok(options)
    }

    pub fn has(&self, switch: &str) -> bool {
        self.switches.iter().any(|given| given == switch)
    }

    /// Whether an option is given, a switch or not.
    fn given(&self, name: &str) -> bool {
        self.has(name) || self.value(name).is_some()
    }

    /// Two options of which one at most may be given.
    pub fn not_both(&self, one: &str, other: &str) -> Result<(), Problem> {
        match self.given(one) && self.given(other) {
            true => Err(Problem::Usage(format!("{one} and {other} don't go together"))),
            false => Ok(()),
        }
    }

    /// An option that may only be given with another one.
    pub fn only_with(&self, one: &str, other: &str) -> Result<(), Problem> {
        match self.given(one) && !self.given(other) {
            true => Err(Problem::Usage(format!("{one} goes with {other} only"))),
            false => Ok(()),
        }
    }

    /// The value given last for this option.
    pub fn value(&self, name: &str) -> Option<&Word> {
        self.values.iter().rev().find(|(given, _)| given == name).map(|(_, value)| value)
    }

    /// As [`Options::value`], a number.
    pub fn number<T: std::str::FromStr>(&self, name: &str) -> Result<Option<T>, Problem> {
        self.value(name).map(|word| number(word, name)).transpose()
    }

    /// The kind that `--kind` names.
    pub fn kind(&self) -> Result<Option<u16>, Problem> {
        let named = |word: &Word| word.text().and_then(kinds::named);
        let kind = |word| named(word).ok_or_else(|| Problem::Usage(format!("--kind: not a kind of record: {word}")));
        self.value("--kind").map(kind).transpose()
    }

    /// The first word and the others.
    pub fn first_and_rest(&self, first: &str) -> Result<(&Word, &[Word]), Problem> {
        self.words.split_first().ok_or_else(|| Problem::Usage(format!("{first} is missing")))
    }

    /// The first word and the others, at least one.
    pub fn first_and_more(&self, first: &str, more: &str) -> Result<(&Word, &[Word]), Problem> {
        match self.first_and_rest(first)? {
            (_, []) => Err(Problem::Usage(format!("{more} is missing"))),
            words => Ok(words),
        }
    }

    /// The only word.
    pub fn only(&self, name: &str) -> Result<&Word, Problem> {
        match &self.words[..] {
            [word] => Ok(word),
            [] => Err(Problem::Usage(format!("{name} is missing"))),
            [_, more, ..] => Err(Problem::Usage(format!("one word too many: {more}"))),
        }
    }
}

/// A number in decimal digits.
pub fn number<T: std::str::FromStr>(word: &Word, name: &str) -> Result<T, Problem> {
    let digits = word.text().filter(|text| text.bytes().all(|byte| byte.is_ascii_digit()));
    let number = digits.and_then(|text| text.parse().ok());
    number.ok_or_else(|| Problem::Usage(format!("{name}: not a number that fits: {word}")))
}
