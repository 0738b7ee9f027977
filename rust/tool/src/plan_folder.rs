//! Folders of plan files. Each file appears whole or not at all, and one that holds the same plan already is passed over, so
//! that a run that was broken off can be made again.

use crate::files::{self, led_to, sync_folder_of};
use crate::names::shown;
use crate::options::Word;
use crate::plan_file::{self, Plan};
use crate::report::Problem;
use std::fs::{self, Metadata};
use std::io::{self, ErrorKind};
use std::path::{Path, PathBuf};

pub struct PlanFolder {
    path: PathBuf,
    /// Whether files that hold something else are replaced.
    force: bool,
}

impl PlanFolder {
    /// Makes the folder if it isn't there.
    pub fn open(path: &Path, force: bool) -> Result<PlanFolder, Problem> {
        match fs::create_dir_all(path) {
            Err(_) if path.exists() => Err(Problem::file(shown(path), "not a folder")),
            Err(error) => Err(Problem::file(shown(path), error)),
            Ok(()) => Ok(PlanFolder { path: path.to_path_buf(), force }),
        }
    }

    /// Puts the plan file of a plan into the folder, and returns its path.
    pub fn put(&self, name: &str, comment: &str, plan: &Plan) -> Result<PathBuf, Problem> {
        let path = self.path.join(name);
        let done = self.put_at(&led_to(&path), comment, plan);
        done.map_err(|error| Problem::file(shown(&path), error))?;
        Ok(path)
    }

    fn put_at(&self, path: &Path, comment: &str, plan: &Plan) -> io::Result<()> {
        let text = plan_file::commented(&[comment], &plan_file::text(plan));
        if fs::symlink_metadata(path).is_err() {
            match files::place(path, None, text.as_bytes()) {
                // Another run was faster.
                Err(error) if error.kind() == ErrorKind::AlreadyExists => {}
                done => return done,
            }
        }
        let old = fs::metadata(path)?;
        match other_content(path, &old, plan) {
            None => files::clear_beside(path),
            Some(_) if self.force && old.is_file() => files::place(path, Some(&old), text.as_bytes()),
            Some(what) => Err(io::Error::other(what)),
        }
    }

    /// Makes the names of the files last.
    pub fn sync(&self) -> Result<(), Problem> {
        sync_folder_of(&self.path.join(".")).map_err(|error| Problem::file(shown(&self.path), error))
    }
}

/// What a file holds, unless it is this plan.
fn other_content(path: &Path, found: &Metadata, plan: &Plan) -> Option<String> {
    if !found.is_file() {
        return Some(String::from("not a regular file"));
    }
    let what = match Plan::load(&Word::from(path.as_os_str().to_owned())) {
        Ok(other) if other.key() == plan.key() => return None,
        Ok(_) => "holds another plan",
        Err(_) if found.len() == 0 => "is empty",
        Err(_) => "is no plan file",
    };
    Some(format!("this file is there already and {what}; --force replaces it"))
}
