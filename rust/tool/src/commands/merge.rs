//! `jurnadel merge`.

use super::{counted, Command, Done};
use crate::options::{Options, Word};
use crate::report::{Problem, Report};
use crate::shelf_file::{self, ShelfFile};
use crate::table::{self, TABLE};

pub const COMMAND: Command =
    Command { name: "merge", summary: "put the records of several shelves on a new one", help: HELP, run };

const HELP: &str = "\
usage: jurnadel merge [--table FILE] NEW SHELF..

Puts the records of the shelves, one after another, on a new shelf NEW; a record
that is there already is left out. Prints how many records of each shelf are
new. NEW must not be there; it appears when all is done. Each record is read;
one that no plan has is refused (13), and NEW is not made.

  --table FILE   the group table that all the shelves were written under: under
                 two tables equal bytes may be two plans
";

fn run(words: &[Word], report: &mut Report) -> Done {
    let options = Options::parse(words, &[], &[TABLE])?;
    let (new, shelves) = options.first_and_more("NEW", "SHELF")?;
    let table = table::of(&options)?;
    let mut merged = ShelfFile::create(new)?;
    let mut lines = Vec::new();
    for path in shelves {
        let bytes = shelf_file::load_unchanged(path)?;
        let (mut count, before) = (0, merged.shelf.sums().len());
        for record in shelf_file::records(path, &bytes)? {
            let shelved = merged.shelf.shelve(&table, record);
            shelved.map_err(|refusal| Problem::unread(format!("{path}: record {count}"), record, refusal))?;
            count += 1;
        }
        lines.push(format!("{path}: {}, {} new", counted(count, "record"), merged.shelf.sums().len() - before));
    }
    merged.write()?;
    lines.iter().for_each(|line| report.line(line));
    report.line(format!("{new}: {}, {} bytes", counted(merged.shelf.sums().len(), "record"), merged.shelf.bytes().len()));
    Ok(())
}
