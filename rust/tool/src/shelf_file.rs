//! Shelf files: the used bytes of a shelf, as they are.
//!
//! A shelf file is replaced whole (`files`), its checksums (`sums`) just before it. A run that shelves holds a lock on `SHELF.lock`
//! from before it reads the file until it ends. Before each replacement it makes sure that the lock file is still its own, and
//! the shelf still the file that it read or wrote last, with those bytes; from this look until it is replaced the shelf file is
//! locked too. A new shelf is put only where none is. So runs lose nothing to each other even where somebody removes the lock
//! file, and a shelf that somebody put back from a copy stays. Runs that only read need no lock: they find the old file or the new one.

use crate::files::{beside, leads_to, led_to, sync_folder_of, text_of, Staged};
use crate::lock::Lock;
use crate::names::shown;
use crate::options::Word;
use crate::record_file;
use crate::report::{in_words, Problem};
use crate::shelf::{sound, Shelf};
use crate::sums;
use crate::table::is_table;
use jurnadel::{Refusal, Walk};
use std::fs::{self, File};
use std::io::{self, ErrorKind, Read as _};
use std::path::{Path, PathBuf};

/// The used bytes of a shelf file. What is plainly another file is rejected; damage is for the caller to find.
pub fn load(path: &Word) -> Result<Vec<u8>, Problem> {
    let bytes = fs::read(path).map_err(|error| Problem::file(path, error))?;
    match another_file(&bytes) {
        Some(what) => Err(Problem::file(path, format!("this is {what}, not a shelf"))),
        None => Ok(bytes),
    }
}

/// The checksums that are kept for a shelf file.
pub fn load_sums(path: &Word) -> Result<Vec<u32>, Problem> {
    sums::load(&led_to(path.as_ref()))
}

/// Whether a record has the checksum that is kept for its number, if one is.
pub fn unchanged(path: &Word, number: usize, sum: u32, kept: &[u32]) -> Result<(), Problem> {
    match kept.get(number) {
        Some(&kept) if kept != sum => {
            let sums = shown(sums::path_of(&led_to(path.as_ref())));
            let what = format!(
                "its checksum is not the one that {sums} has; if another shelf was put here on purpose, remove that file"
            );
            Err(Problem::Refused(format!("{path}: record {number} was changed since it was shelved: {what}")))
        }
        _ => Ok(()),
    }
}

/// As [`unchanged`], of all records of a shelf, by their checksums.
fn all_unchanged(path: &Word, sums: &[u32], kept: &[u32]) -> Result<(), Problem> {
    (0..).zip(sums).try_for_each(|(number, &sum)| unchanged(path, number, sum, kept))
}

/// As [`load`], of a shelf of which no record was changed.
pub fn load_unchanged(path: &Word) -> Result<Vec<u8>, Problem> {
    let (bytes, kept) = (load(path)?, load_sums(path)?);
    let sums: Vec<u32> = records(path, &bytes)?.map(sums::crc).collect();
    all_unchanged(path, &sums, &kept).map(|()| bytes)
}

/// The records of a shelf's bytes.
pub fn records<'a>(path: &Word, bytes: &'a [u8]) -> Result<Walk<'a>, Problem> {
    sound(bytes, bytes.len()).map_err(|refusal| damaged(path, refusal))?;
    Ok(jurnadel::walk_from(bytes, bytes.len(), 0))
}

/// The record of this number on a shelf file, unless it was changed.
pub fn record(path: &Word, number: usize) -> Result<Vec<u8>, Problem> {
    let shelf = load(path)?;
    let record = jurnadel::fetch(&shelf, shelf.len(), number).map_err(|refusal| refused(path, refusal))?;
    unchanged(path, number, sums::crc(record), &load_sums(path)?)?;
    Ok(record.to_vec())
}

/// A refusal of the shelf's calls; of 14 also what to do about it.
pub fn refused(path: &Word, refusal: Refusal) -> Problem {
    match refusal.number() {
        Refusal::SHELF_BROKEN => damaged(path, refusal),
        _ => Problem::refused(path, refusal),
    }
}

fn damaged(path: &Word, refusal: Refusal) -> Problem {
    Problem::Refused(format!("{path}: {}; 'verify' says where, 'salvage' keeps the rest", in_words(refusal)))
}

/// What the bytes of a file look like that is no shelf but may have been taken for one.
fn another_file(bytes: &[u8]) -> Option<&'static str> {
    if sound(bytes, bytes.len()).is_ok() {
        return None;
    } else if bytes.starts_with(b">>planar_code") {
        return Some("planar_code");
    } else if sums::are_sums(bytes) {
        return Some("a file of checksums");
    } else if is_table(bytes) {
        return Some("a group table");
    }
    let text = text_of(bytes)?;
    if text.lines().any(|line| line.trim_start().starts_with("start:")) {
        Some("a plan file")
    } else {
        record_file::parse(&text).is_ok().then_some("a record in hexadecimal")
    }
}

/// A shelf file under lock.
pub struct ShelfFile {
    /// The name that the user gave, for messages, and the file that it leads to.
    name: Word,
    path: PathBuf,
    lock: Lock,
    /// The file that was read, or written last; none where there was none. It has the first `saved` bytes of the shelf.
    file: Option<File>,
    saved: usize,
    /// How many records have a checksum in the file of checksums.
    summed: usize,
    pub shelf: Shelf,
}

impl ShelfFile {
    /// Locks the shelf file and reads it; one that isn't there is empty.
    pub fn open(name: &Word, size: Option<usize>) -> Result<ShelfFile, Problem> {
        let path = led_to(name.as_ref());
        replaceable(&path).map_err(|error| Problem::file(name, error))?;
        taken_for_a_shelf(name, &path)?;
        let lock_path = beside(&path, ".lock");
        let lock = Lock::take(lock_path.clone()).map_err(|error| Problem::file(shown(&lock_path), error))?;
        let (file, bytes) = read(&path).map_err(|error| Problem::file(name, error))?;
        let saved = bytes.len();
        let shelf = Shelf::new(bytes, size).map_err(|refusal| match size {
            Some(size) if size < saved => {
                Problem::Refused(format!("{name}: the shelf has {saved} bytes already, more than --size {size} (refusal 14)"))
            }
            _ => damaged(name, refusal),
        })?;
        let kept = sums::load(&path)?;
        all_unchanged(name, shelf.sums(), &kept)?;
        Ok(ShelfFile { name: name.clone(), path, lock, file, saved, summed: kept.len(), shelf })
    }

    /// As [`ShelfFile::open`], of a file that must not be there.
    pub fn create(name: &Word) -> Result<ShelfFile, Problem> {
        let there = || Problem::file(name, "this file is there already; name a new one");
        if fs::exists(name).unwrap_or(false) {
            return Err(there());
        }
        let made = ShelfFile::open(name, None)?;
        made.file.is_none().then_some(made).ok_or_else(there)
    }

    /// Replaces the file, if there is something new.
    pub fn save(&mut self) -> Result<(), Problem> {
        match self.saved < self.shelf.bytes().len() || self.summed < self.shelf.sums().len() {
            true => self.write(),
            false => Ok(()),
        }
    }

    /// Replaces the file, or makes it.
    pub fn write(&mut self) -> Result<(), Problem> {
        self.shelf.judged().map_err(|refusal| damaged(&self.name, refusal))?;
        let written = self.put_in_place().and_then(|file| {
            self.file = Some(file);
            (self.saved, self.summed) = (self.shelf.bytes().len(), self.shelf.sums().len());
            sync_folder_of(&self.path)
        });
        written.map_err(|error| Problem::file(&self.name, format!("{error}; what was not printed is not stored")))
    }

    /// Puts the checksums and the shelf in their places. The old shelf is locked from the last look at it on.
    fn put_in_place(&self) -> io::Result<File> {
        let sums_path = sums::path_of(&self.path);
        let (mut sums, mut shelf) = (Staged::begin(&sums_path)?, Staged::begin(&self.path)?);
        if let Some(old) = &self.file {
            let old = old.metadata()?;
            sums.like(&old)?;
            shelf.like(&old)?;
        }
        sums.write(sums::text(self.shelf.sums()).as_bytes())?;
        shelf.write(self.shelf.bytes())?;
        self.file.as_ref().map_or(Ok(()), File::lock)?;
        self.still_ours()?;
        let sums = sums.replace()?;
        match self.file {
            Some(_) => shelf.replace(),
            // If somebody else has just made a shelf there, these are not its checksums.
            None => shelf.create().inspect_err(|_| remove(&sums_path, &sums)),
        }
    }

    /// Whether the lock and the shelf are still those that this run took, read or wrote last.
    fn still_ours(&self) -> io::Result<()> {
        let same = match &self.file {
            Some(old) => leads_to(&self.path, old) && fs::read(&self.path)? == self.shelf.bytes()[..self.saved],
            None => !fs::exists(&self.path)?,
        };
        if !self.lock.is_held() {
            Err(io::Error::other(format!("{} was removed during the run", shown(beside(&self.path, ".lock")))))
        } else if !same {
            Err(io::Error::other("somebody else has changed or replaced the shelf during the run"))
        } else {
            Ok(())
        }
    }
}

/// Removes a file if the path still leads to it.
fn remove(path: &Path, file: &File) {
    if leads_to(path, file) {
        let _ = fs::remove_file(path);
    }
}

/// Rejects a word that stands where the shelf's name should: a file of another kind, or a name that a shelf hardly has.
fn taken_for_a_shelf(name: &Word, path: &Path) -> Result<(), Problem> {
    let bytes = fs::read(path).unwrap_or_default();
    let named_plan = bytes.is_empty() && path.extension().is_some_and(|ending| ending == "plan");
    let what = another_file(&bytes).or(named_plan.then_some("the name of a plan file"));
    match what {
        Some(what) => Err(Problem::file(name, format!("this is {what}, not a shelf; the shelf comes first, then the plans"))),
        None => Ok(()),
    }
}

/// A file and its bytes; none, and no bytes, where there is none.
fn read(path: &Path) -> io::Result<(Option<File>, Vec<u8>)> {
    let mut bytes = Vec::new();
    match File::open(path) {
        Ok(mut file) => file.read_to_end(&mut bytes).map(|_| (Some(file), bytes)),
        Err(error) if error.kind() == ErrorKind::NotFound => Ok((None, bytes)),
        Err(error) => Err(error),
    }
}

/// Whether a file may be replaced: a regular file that this user may write, or none. A rename alone would ask neither.
fn replaceable(path: &Path) -> io::Result<()> {
    match fs::metadata(path) {
        Ok(found) if found.is_file() => File::options().write(true).open(path).map(drop),
        Ok(_) => Err(io::Error::other("not a regular file")),
        Err(error) if error.kind() == ErrorKind::NotFound => Ok(()),
        Err(error) => Err(error),
    }
}
