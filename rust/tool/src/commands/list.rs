//! `jurnadel list`.

use super::{field, Command, Done};
use crate::kinds;
use crate::options::{Options, Word};
use crate::report::Report;
use crate::shelf_file;

pub const COMMAND: Command = Command { name: "list", summary: "list the records of a shelf", help: HELP, run };

const HELP: &str = "\
usage: jurnadel list [--from NUMBER] SHELF

Lists the records of a shelf, a line each: number, place (in bytes), length,
kind, trails.

  --from NUMBER   begin at this record
";

fn run(words: &[Word], report: &mut Report) -> Done {
    let options = Options::parse(words, &[], &["--from"])?;
    let from = options.number("--from")?;
    let path = options.only("SHELF")?;
    let shelf = shelf_file::load(path)?;
    if shelf.is_empty() && from.is_none() {
        return Ok(());
    }
    let first = from.unwrap_or(0);
    let mut walk = jurnadel::walk(&shelf, shelf.len(), first).map_err(|refusal| shelf_file::refused(path, refusal))?;
    let mut at = walk.place();
    let mut number = first;
    while let Some(record) = walk.next() {
        let (kind, trails) = (kinds::name(kinds::of(record)), field(record, 4));
        report.line(format!("{number} {at} {} {kind} {trails}", record.len()));
        at = walk.place();
        number += 1;
    }
    Ok(())
}
