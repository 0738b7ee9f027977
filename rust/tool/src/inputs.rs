//! The files that a command works on: words of the command line, folders, and lists of names.

use crate::files::bytes_of;
use crate::options::{Options, Word};
use crate::report::Problem;
use std::cmp::Ordering;
use std::ffi::OsStr;
use std::fs;
use std::os::unix::ffi::OsStrExt as _;
use std::path::{Path, PathBuf};

/// The option that names a list of files.
pub const FILES_FROM: &str = "--files-from";

/// The files of these words and of `--files-from`, at least one. A folder stands for the files in it, and in its folders, whose names
/// have this ending.
pub fn files(options: &Options, words: &[Word], name: &str, ending: &str) -> Result<Vec<Word>, Problem> {
    let mut named = words.to_vec();
    if let Some(list) = options.value(FILES_FROM) {
        named.extend(listed(&bytes_of(list)?));
    } else if words.is_empty() {
        return Err(Problem::Usage(format!("{name} is missing")));
    }
    let mut files = Vec::new();
    for word in named {
        match Path::new(word.as_ref()).is_dir() {
            true => files.extend(in_folder(word.as_ref(), ending).map_err(|error| Problem::file(&word, error))?),
            false => files.push(word),
        }
    }
    Ok(files)
}

/// The names of a list: a line each or, where the list has NUL bytes, each up to one.
fn listed(bytes: &[u8]) -> Vec<Word> {
    let end = if bytes.contains(&0) { 0 } else { b'\n' };
    let names = bytes.split(|&byte| byte == end).filter(|name| !name.is_empty());
    names.map(|name| Word::from(OsStr::from_bytes(name).to_owned())).collect()
}

/// The files in a folder and its folders with this ending, in the order of their names.
fn in_folder(folder: &Path, ending: &str) -> std::io::Result<Vec<Word>> {
    let entries = fs::read_dir(folder)?.map(|entry| Ok(entry?.path())).collect::<std::io::Result<Vec<PathBuf>>>();
    let mut paths = entries?;
    paths.sort_by(|one, other| by_name(one.as_os_str().as_bytes(), other.as_os_str().as_bytes()));
    let mut files = Vec::new();
    for path in paths {
        if path.is_dir() && !path.is_symlink() {
            files.extend(in_folder(&path, ending)?);
        } else if path.extension().is_some_and(|found| found == ending) {
            files.push(Word::from(path.into_os_string()));
        }
    }
    Ok(files)
}

/// The order of names, with numbers by their value: valley-2 before valley-10.
fn by_name(one: &[u8], other: &[u8]) -> Ordering {
    let (mut one_left, mut other_left) = (one, other);
    while let (Some(a), Some(b)) = (one_left.first(), other_left.first()) {
        let lengths = (digits(one_left), digits(other_left));
        let (a, b, step) = match lengths {
            (1.., 1..) => (value(one_left, lengths.0), value(other_left, lengths.1), lengths),
            _ => ((1, std::slice::from_ref(a)), (1, std::slice::from_ref(b)), (1, 1)),
        };
        match a.cmp(&b) {
            Ordering::Equal => (one_left, other_left) = (&one_left[step.0..], &other_left[step.1..]),
            order => return order,
        }
    }
    one_left.len().cmp(&other_left.len()).then(one.cmp(other))
}

/// How many digits a name begins with.
fn digits(name: &[u8]) -> usize {
    name.iter().take_while(|byte| byte.is_ascii_digit()).count()
}

/// The number of the first digits: how many it has without zeros before them, and these.
fn value(name: &[u8], digits: usize) -> (usize, &[u8]) {
    let zeros = name[..digits].iter().take_while(|&&byte| byte == b'0').count();
    (digits - zeros, &name[zeros..digits])
}

#[cfg(test)]
mod tests {
    use super::*;

    #[test]
    fn names_in_order() {
        let mut names = ["b", "a-10", "a-9", "a-010", "a", "10", "9", "a-9b", "a-"];
        names.sort_by(|one, other| by_name(one.as_bytes(), other.as_bytes()));
        assert_eq!(names, ["9", "10", "a", "a-", "a-9", "a-9b", "a-010", "a-10", "b"]);
    }

    #[test]
    fn lists() {
        let names = |bytes: &[u8]| listed(bytes).iter().map(Word::to_string).collect::<Vec<_>>();
        assert_eq!(names(b"a\n\nb c\nd"), ["a", "b c", "d"]);
        assert_eq!(names(b"a\nb\0c\0"), ["a\\x0Ab", "c"]);
        assert!(names(b"").is_empty());
    }
}
