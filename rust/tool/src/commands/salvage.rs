//! `jurnadel salvage`.

use super::verify::report_fault;
use super::{counted, Command, Done};
use crate::options::{Options, Word};
use crate::report::{Problem, Report};
use crate::shelf_file::{self, ShelfFile};
use crate::survey::{self, Part};
use crate::table::{self, TABLE};

pub const COMMAND: Command =
    Command { name: "salvage", summary: "keep what is whole of a damaged shelf, in a new file", help: HELP, run };

const HELP: &str = "\
usage: jurnadel salvage [--table FILE] OLD NEW

Puts every record of shelf OLD that stands whole on a new shelf NEW, also past
damage, and reports what it could not keep. A record is whole if it has the
checksum that is kept for it (OLD.sums), even if no plan has it, or, where no
checksum is kept, if a plan has it. Prints which numbers the records had and
have now; OLD is not changed, and NEW must not be there.

  --table FILE   the group table that the shelf was written under; under another
                 one records of kinds 2, 3 and 102h that have no checksum may be
                 left out though they are whole

Exit status 1 if something was not kept.
";

fn run(words: &[Word], report: &mut Report) -> Done {
    let options = Options::parse(words, &[], &[TABLE])?;
    let [old, new] = &options.words[..] else {
        return Err(Problem::Usage(String::from("OLD and NEW are needed")));
    };
    let table = table::of(&options)?;
    let bytes = shelf_file::load(old)?;
    let kept = shelf_file::load_sums(old)?;
    let parts = survey::parts(&table, &bytes, &kept);
    let mut shelf = ShelfFile::create(new)?;
    let mut runs = Vec::new();
    for part in &parts {
        report_fault(old, part, report);
        match part {
            Part::Record(found) if found.is_whole() => {
                let number = shelf.shelf.keep(found.record);
                Run::extend(&mut runs, number, found.number, found.at);
            }
            _ => {}
        }
    }
    shelf.write()?;
    runs.iter().for_each(|run| report.line(run.line()));
    report.line(format!("{new}: {}, {} bytes", counted(shelf.shelf.sums().len(), "record"), shelf.shelf.bytes().len()));
    Ok(())
}

/// Records that keep their order: the first one's number now, its number before and its place.
struct Run {
    now: usize,
    before: Option<usize>,
    at: usize,
    count: usize,
}

impl Run {
    /// Adds a record to the last run, or begins one.
    fn extend(runs: &mut Vec<Run>, now: usize, before: Option<usize>, at: usize) {
        match runs.last_mut() {
            Some(run) if run.now + run.count == now && run.before.map(|first| first + run.count) == before => run.count += 1,
            _ => runs.push(Run { now, before, at, count: 1 }),
        }
    }

    fn line(&self) -> String {
        let span = |first: usize| match self.count {
            1 => format!("record {first}"),
            count => format!("records {first} to {}", first + count - 1),
        };
        match self.before {
            Some(before) if before == self.now => format!("{}: as before", span(self.now)),
            Some(before) => format!("{}: before, {}", span(self.now), span(before)),
            None => format!("{}: before, from byte {} on", span(self.now), self.at),
        }
    }
}
