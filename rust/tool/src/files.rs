//! Files read whole, and files that appear whole or not at all.
//!
//! A file is first written beside its place, under its name with [`NEW`] added, and synced; then it takes its place in one step.
//! Whoever looks finds the old content, if any, or the new, also after a crash. While it is written it is locked, so that a
//! second run waits for its turn; what a run that was killed has left is removed by the next one.

use crate::kinds;
use crate::names::shown;
use crate::options::Word;
use crate::report::Problem;
use std::borrow::Cow;
use std::fs::{self, File, Metadata};
use std::io::{self, ErrorKind, Read, Write as _};
use std::os::unix::fs::{fchown, MetadataExt as _, OpenOptionsExt as _};
use std::path::{Path, PathBuf};

/// What is added to the name of a file while it is written: nothing that a user would choose, since what is left of such a file is
/// removed.
const NEW: &str = ".jurnadel-new";

/// Opening doesn't wait for the other end of a pipe. Linux's number, on x86-64.
pub const O_NONBLOCK: i32 = 0o4000;

/// The bytes of a file, `-` for standard input.
pub fn bytes_of(path: &Word) -> Result<Vec<u8>, Problem> {
    if path.is_input() {
        let mut bytes = Vec::new();
        let read = io::stdin().lock().read_to_end(&mut bytes);
        return read.map(|_| bytes).map_err(|error| Problem::file("standard input", error));
    }
    fs::read(path).map_err(|error| Problem::file(path, error))
}

/// What is read bit by bit.
pub type Source = Box<dyn Read + Send>;

/// A file to be read bit by bit, `-` for standard input.
pub fn source_of(path: &Word) -> Result<Source, Problem> {
    match path.is_input() {
        true => Ok(Box::new(io::stdin())),
        false => File::open(path).map(|file| Box::new(file) as Source).map_err(|error| Problem::file(path, error)),
    }
}

/// The text of a file's bytes, without a byte order mark, or nothing if they are none: no text has a NUL, nor two control
/// characters where a record may have its kind. What isn't UTF-8 becomes U+FFFD, so it can stand in comments.
pub fn text_of(bytes: &[u8]) -> Option<Cow<'_, str>> {
    if bytes.contains(&0) || bytes.len() > 3 && kinds::has_outside(kinds::of(bytes)) {
        return None;
    }
    Some(String::from_utf8_lossy(bytes.strip_prefix("\u{FEFF}".as_bytes()).unwrap_or(bytes)))
}

/// What `-o` asks for: the output to a file that isn't there or, with `force`, in place of one. A file that the command reads
/// is never replaced.
pub fn put_out(target: &Word, force: bool, inputs: &[Word], bytes: &[u8]) -> Result<(), Problem> {
    let wrong = |what: &str| Err(Problem::file(target, what));
    let path = led_to(target.as_ref());
    let old = fs::metadata(&path).ok();
    if let Some(old) = &old {
        if inputs.iter().any(|input| metadata_of(input).is_some_and(|input| same_file(old, &input))) {
            return wrong("the command reads this file; -o must name another one");
        } else if !old.is_file() {
            return wrong("not a regular file");
        } else if !force {
            return wrong("this file is there already; --force replaces it");
        }
    }
    let put = place(&path, old.as_ref(), bytes).and_then(|()| sync_folder_of(&path));
    put.map_err(|error| Problem::file(target, error))
}

/// Puts a file in its place: a new one, or one that replaces the old. The change of names in its folder isn't synced.
pub fn place(path: &Path, old: Option<&Metadata>, bytes: &[u8]) -> io::Result<()> {
    let mut staged = Staged::begin(path)?;
    staged.write(bytes)?;
    match old {
        Some(old) => staged.like(old).and_then(|()| staged.replace()),
        None => staged.create(),
    }
    .map(drop)
}

/// Removes what a run that was killed has left beside a file.
pub fn clear_beside(path: &Path) -> io::Result<()> {
    clear(&beside(path, NEW))
}

fn metadata_of(input: &Word) -> Option<Metadata> {
    match input.is_input() {
        true => fs::metadata("/dev/stdin").ok(),
        false => fs::metadata(input).ok(),
    }
}

/// A file that is written beside its place.
pub struct Staged {
    path: PathBuf,
    new: PathBuf,
    file: File,
}

impl Staged {
    /// Begins the file for this place. Waits for a run that is writing one for it.
    pub fn begin(path: &Path) -> io::Result<Staged> {
        let new = beside(path, NEW);
        loop {
            match File::create_new(&new) {
                Ok(file) => {
                    file.lock()?;
                    if leads_to(&new, &file) {
                        return Ok(Staged { path: path.to_path_buf(), new, file });
                    }
                }
                Err(error) if error.kind() == ErrorKind::AlreadyExists => clear(&new)?,
                Err(error) => return Err(error),
            }
        }
    }

    /// Writes its bytes, so that they last.
    pub fn write(&mut self, bytes: &[u8]) -> io::Result<()> {
        self.file.write_all(bytes)?;
        self.file.sync_all()
    }

    /// Gives it the owner, group and mode of another file.
    pub fn like(&self, other: &Metadata) -> io::Result<()> {
        let own = self.file.metadata()?;
        if (own.uid(), own.gid()) != (other.uid(), other.gid()) {
            fchown(&self.file, Some(other.uid()), Some(other.gid())).map_err(|error| {
                let owner = format!("{}:{}", other.uid(), other.gid());
                io::Error::other(format!("its owner and group ({owner}) cannot be kept: {error}"))
            })?;
        }
        self.file.set_permissions(other.permissions())
    }

    /// Puts it where no file is; if one is there, this is an error. Hands it over, not locked any more.
    pub fn create(self) -> io::Result<File> {
        self.still_ours()?;
        match fs::hard_link(&self.new, &self.path) {
            // Where the file system has no links.
            Err(error) if error.kind() != ErrorKind::AlreadyExists && !self.path.exists() => fs::rename(&self.new, &self.path)?,
            linked => linked?,
        }
        self.handed_over()
    }

    /// Puts it in the place of the file that is there, if any. Hands it over, not locked any more.
    pub fn replace(self) -> io::Result<File> {
        self.still_ours()?;
        fs::rename(&self.new, &self.path)?;
        self.handed_over()
    }

    /// Its second name goes while it is locked: after that the name may be the next run's.
    fn handed_over(&self) -> io::Result<File> {
        self.clear();
        self.file.unlock()?;
        self.file.try_clone()
    }

    /// Removes the name under which it was written, if it still has it.
    fn clear(&self) {
        if leads_to(&self.new, &self.file) {
            let _ = fs::remove_file(&self.new);
        }
    }

    fn still_ours(&self) -> io::Result<()> {
        match leads_to(&self.new, &self.file) {
            true => Ok(()),
            false => Err(io::Error::other(format!("{} was taken away while it was written", shown(&self.new)))),
        }
    }
}

impl Drop for Staged {
    fn drop(&mut self) {
        self.clear();
    }
}

/// Waits until nobody writes a file, and removes it, unless it is gone.
fn clear(new: &Path) -> io::Result<()> {
    match clear_found(new) {
        Err(error) if error.kind() == ErrorKind::NotFound => Ok(()),
        done => done,
    }
}

/// As [`clear`], of a file that is there. Once it is gone another run may have begun the next one, which must stay.
fn clear_found(new: &Path) -> io::Result<()> {
    if fs::symlink_metadata(new)?.is_file() {
        match File::options().read(true).custom_flags(O_NONBLOCK).open(new) {
            Ok(left) => {
                left.lock()?;
                return if leads_to(new, &left) { fs::remove_file(new) } else { Ok(()) };
            }
            Err(error) if error.kind() == ErrorKind::NotFound => return Ok(()),
            Err(_) => {}
        }
    }
    fs::remove_file(new)
}

/// Whether a path still leads to an open file.
pub fn leads_to(path: &Path, file: &File) -> bool {
    matches!((fs::metadata(path), file.metadata()), (Ok(found), Ok(open)) if same_file(&found, &open))
}

pub fn same_file(one: &Metadata, other: &Metadata) -> bool {
    (one.dev(), one.ino()) == (other.dev(), other.ino())
}

/// The file that a name leads to by way of links, whether or not it is there: it is the one to lock and to replace.
pub fn led_to(name: &Path) -> PathBuf {
    let mut path = name.to_path_buf();
    for _ in 0..40 {
        match fs::read_link(&path) {
            Ok(link) => path = folder_of(&path).join(link),
            Err(_) => break,
        }
    }
    path
}

/// Makes a change of names in a path's folder last.
pub fn sync_folder_of(path: &Path) -> io::Result<()> {
    File::open(folder_of(path))?.sync_all()
}

fn folder_of(path: &Path) -> &Path {
    match path.parent() {
        Some(folder) if folder != Path::new("") => folder,
        _ => Path::new("."),
    }
}

/// The path with an ending added to its name.
pub fn beside(path: &Path, ending: &str) -> PathBuf {
    let mut name = path.as_os_str().to_owned();
    name.push(ending);
    PathBuf::from(name)
}
