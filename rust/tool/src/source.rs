//! The plan that words of the command line name: `PLAN`, `RECORD` or `SHELF NUMBER`.

use crate::files::{bytes_of, text_of};
use crate::options::{number, Word};
use crate::plan_file::Plan;
use crate::report::Problem;
use crate::{record_file, shelf_file};
use jurnadel::{Refusal, Table};

/// The plan that the words name, a record's under this group table, and how messages call its source.
pub fn load(table: &Table, words: &[Word]) -> Result<(Plan, String), Problem> {
    match words {
        [] => Err(Problem::Usage(String::from("PLAN is missing"))),
        [path] => Ok((of_file(table, path)?, path.to_string())),
        [path, wanted] => of_shelf(table, path, number(wanted, "NUMBER")?),
        [_, _, more, ..] => Err(Problem::Usage(format!("one word too many: {more}"))),
    }
}

/// The plan of the record of this number on a shelf, and how messages call it.
pub fn of_shelf(table: &Table, path: &Word, wanted: usize) -> Result<(Plan, String), Problem> {
    let name = format!("{path}: record {wanted}");
    let record = shelf_file::record(path, wanted)?;
    let plan = Plan::of_record(table, &record).map_err(|refusal| Problem::unread(&name, &record, refusal))?;
    Ok((plan, name))
}

/// The plan of a plan file or of a record, in hexadecimal or raw: no raw record is text, for its kind is none ([`text_of`]), and
/// no plan file is a record in hexadecimal, for it has a colon.
fn of_file(table: &Table, path: &Word) -> Result<Plan, Problem> {
    let bytes = bytes_of(path)?;
    let Some(text) = text_of(&bytes) else {
        return Plan::of_record(table, &bytes).map_err(|refusal| no_record(path, &bytes, refusal));
    };
    if text.lines().any(|line| line.split('#').next().is_some_and(|line| line.contains(':'))) {
        return Plan::of_text(path, &text);
    }
    let wanted = "neither a plan file, for it has no line 'start: ..', nor a record in hexadecimal";
    let (record, line) = record_file::parse(&text).map_err(|_| Problem::file(path, wanted))?;
    Plan::of_record(table, &record).map_err(|refusal| Problem::unread(format!("{path}:{line}"), &record, refusal))
}

/// What is wrong with bytes that are no text.
fn no_record(path: &Word, bytes: &[u8], refusal: Refusal) -> Problem {
    let is_shelf = jurnadel::walk(bytes, bytes.len(), 0).is_ok();
    match refusal.number() {
        Refusal::NO_FIT_PLAN => Problem::unread(path, bytes, refusal),
        _ if is_shelf => Problem::file(path, "a shelf; which of its records? SHELF NUMBER, counting from 0"),
        _ => Problem::file(path, "neither a plan file nor a record"),
    }
}
