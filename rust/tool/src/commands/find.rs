//! `jurnadel find`.

use super::{Command, Done};
use crate::inputs::{self, FILES_FROM};
use crate::kinds;
use crate::options::{Options, Word};
use crate::plan_file::Plan;
use crate::report::{Problem, Report};
use crate::shelf::Shelf;
use crate::shelf_file;
use crate::table::{self, TABLE};
use jurnadel::Table;

pub const COMMAND: Command = Command { name: "find", summary: "say under which number a plan is on a shelf", help: HELP, run };

const HELP: &str = "\
usage: jurnadel find [--kind KIND] [--table FILE] [--files-from LIST] SHELF
                     PLAN..

Says of each plan file under which number it is on the shelf, in whatever kind:
'NUMBER there NAME', or '- not there NAME'. A plan that names an outside is
looked for with this outside (kinds 101h, 102h, 104h), another one without (1,
2, 3, 4). Nothing is shelved.

  --kind KIND         look for records of this kind only
  --table FILE        the group table that the shelf was written under; under
                      another one a plan in kind 2, 3 or 102h may not be found,
                      or another one be taken for it
  --files-from LIST   also the files that LIST names, a line each or
                      NUL-separated; - is standard input

PLAN is a plan file, or a folder: the .plan files in it. Exit status 1 if some
plan is not there.
";

fn run(words: &[Word], report: &mut Report) -> Done {
    let options = Options::parse(words, &[], &["--kind", TABLE, FILES_FROM])?;
    let kind = options.kind()?;
    let (path, plans) = options.first_and_rest("SHELF")?;
    let table = table::of(&options)?;
    let plans = inputs::files(&options, plans, "PLAN", "plan")?;
    let shelf = Shelf::new(shelf_file::load(path)?, None).map_err(|refusal| shelf_file::refused(path, refusal))?;
    for plan in &plans {
        match numbers(&shelf, plan, &table, kind) {
            Ok(found) if found.is_empty() => {
                report.line(format!("- not there {plan}"));
                report.found_wrong();
            }
            Ok(found) => found.iter().for_each(|number| report.line(format!("{number} there {plan}"))),
            Err(problem) => report.problem(&problem),
        }
    }
    Ok(())
}

/// The numbers under which a plan is on a shelf, in this kind or in all with an outside or without, as the plan has it. A plan
/// that no kind takes is refused.
fn numbers(shelf: &Shelf, path: &Word, table: &Table, kind: Option<u16>) -> Result<Vec<usize>, Problem> {
    let plan = Plan::load(path)?;
    let kinds = kind.map_or(kinds::all(plan.outside.is_some()), |kind| vec![kind]);
    let records = kinds.iter().map(|&kind| plan.record(table, Some(kind)));
    let (records, refused): (Vec<_>, Vec<_>) = records.partition(Result::is_ok);
    match refused.into_iter().next_back() {
        Some(Err(refusal)) if records.is_empty() => Err(plan.problem(path, refusal)),
        _ => Ok(records.iter().flatten().filter_map(|record| shelf.find(record)).collect()),
    }
}
