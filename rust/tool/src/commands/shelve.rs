//! `jurnadel shelve`.

use super::{counted, record_of, Command, Done};
use crate::files::bytes_of;
use crate::inputs::{self, FILES_FROM};
use crate::kinds;
use crate::options::{Options, Word};
use crate::plan_file::Plan;
use crate::report::{complain, Problem, Report};
use crate::shelf_file::ShelfFile;
use crate::table::{self, TABLE};
use jurnadel::Table;
use std::io::IsTerminal as _;
use std::time::{Duration, Instant};

pub const COMMAND: Command =
    Command { name: "shelve", summary: "put plans on a shelf, and print their numbers", help: HELP, run };

const HELP: &str = "\
usage: jurnadel shelve [--kind KIND | --raw] [--table FILE] [--size BYTES]
                       [--progress] [--files-from LIST] SHELF PLAN..

Shelves each plan file and prints its number, 'new' or 'already there', and its
name. A plan that is refused is reported, and the others are shelved. A SHELF
that isn't there is made. PLAN is a plan file, or a folder: the .plan files in
it.

  --kind KIND         1, 2, 3, 4, 101h, 102h or 104h; else 1, or 2 for a plan
                      with a dead end other than its start, or 4 for one with a
                      loop; for a plan that names an outside 101h, 102h or 104h,
                      which are the same with the outside; the others leave it
                      out. Kind 3 takes triangle meshes, in about half the bytes
                      of kind 1: plans without loops and with three trails
                      around each area, the one outside included
  --table FILE        the group table (jurnadel write --help), one for all of a
                      shelf: the file doesn't say which it is, and under another
                      one a plan in kind 2, 3 or 102h isn't known again
  --size BYTES        the shelf's whole length; a record that exceeds it is
                      refused (16). Else the shelf grows
  --raw               the files are records, as bytes; of a folder, the .record
                      files in it. Each record is read before it is shelved: one
                      that no plan has is refused (13), also if it is there
                      already
  --files-from LIST   also the files that LIST names, a line each or
                      NUL-separated; - is standard input
  --progress          say how far the run is, also where standard error is no
                      terminal

Without --kind a plan that is on the shelf in whatever kind is already there;
one that names an outside if it is there with this outside, another one if it is
there without. With --kind, one that is there in other kinds alone is new, and
reported.

What is printed is in the file: the shelf file is replaced, in one step, before
its numbers are printed. Runs on one shelf wait for each other (SHELF.lock).
Checksums of the records are kept in SHELF.sums; a shelf with a wrong one is
left as it is.
";

/// On a long run the shelf file is replaced, and the numbers printed, about this often.
const BETWEEN_SAVES: Duration = Duration::from_secs(1);

fn run(words: &[Word], report: &mut Report) -> Done {
    let options = Options::parse(words, &["--raw", "--progress"], &["--kind", TABLE, "--size", FILES_FROM])?;
    options.not_both("--kind", "--raw")?;
    let kind = options.kind()?;
    let size = options.number("--size")?;
    let (path, files) = options.first_and_rest("SHELF")?;
    let table = table::of(&options)?;
    let files = inputs::files(&options, files, "PLAN", if options.has("--raw") { "record" } else { "plan" })?;
    let (asked, terminal) = (options.has("--progress"), std::io::stderr().is_terminal());
    let mut shelf = ShelfFile::open(path, size)?;
    let mut lines = Vec::new();
    let mut saved = Instant::now();
    for (count, file) in (1..).zip(&files) {
        let shelved = match options.has("--raw") {
            true => shelve_record(&mut shelf, file, &table),
            false => shelve_plan(&mut shelf, file, &table, kind),
        };
        match shelved {
            Ok((number, news)) => lines.push(format!("{number} {news} {file}")),
            Err(problem) => report.problem(&problem),
        }
        let last = count == files.len();
        if last || saved.elapsed() >= BETWEEN_SAVES {
            shelf.save()?;
            lines.drain(..).for_each(|line| report.line(line));
            report.flush();
            saved = Instant::now();
            if asked || terminal && !last {
                complain(format!("{path}: {count} of {}", counted(files.len(), "file")));
            }
        }
    }
    Ok(())
}

/// The number of a record that was put on the shelf or found there, and which of the two.
type Shelved = Result<(usize, &'static str), Problem>;

const NEW: &str = "new";
const THERE: &str = "already there";

fn shelve_record(shelf: &mut ShelfFile, file: &Word, table: &Table) -> Shelved {
    let record = bytes_of(file)?;
    let shelved = shelf.shelf.shelve(table, &record);
    let (number, new) = shelved.map_err(|refusal| Problem::unread(file, &record, refusal))?;
    Ok((number, if new { NEW } else { THERE }))
}

fn shelve_plan(shelf: &mut ShelfFile, file: &Word, table: &Table, kind: Option<u16>) -> Shelved {
    let plan = Plan::load(file)?;
    let record = record_of(&plan, file, table, kind)?;
    if let Some(number) = shelf.shelf.find(&record) {
        return Ok((number, THERE));
    }
    let taken = kinds::of(&record);
    let others = kinds::all(kinds::has_outside(taken)).into_iter().filter(|&other| other != taken);
    let found = |other| Some((other, shelf.shelf.find(&plan.record(table, Some(other)).ok()?)?));
    let elsewhere: Vec<(u16, usize)> = others.filter_map(found).collect();
    // The tool's own choice of a kind makes no plan new: an earlier version chose kind 2 for more plans.
    if let (None, Some(&(_, number))) = (kind, elsewhere.first()) {
        return Ok((number, THERE));
    }
    let (number, _) = shelf.shelf.shelve(table, &record).map_err(|refusal| Problem::refused(file, refusal))?;
    for (other, there) in elsewhere {
        complain(format!("{file}: on the shelf in kind {} too, as record {there}", kinds::name(other)));
    }
    Ok((number, NEW))
}
