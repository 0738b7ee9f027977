//! `jurnadel stats`.

use super::{counted, field, Command, Done};
use crate::kinds;
use crate::options::{Options, Word};
use crate::report::Report;
use crate::shelf_file;
use std::collections::BTreeMap;

pub const COMMAND: Command = Command { name: "stats", summary: "count the records of a shelf by kind and size", help: HELP, run };

const HELP: &str = "\
usage: jurnadel stats SHELF

Says how many records and bytes a shelf has and which record is the largest,
then a line for each kind and number of trails: kind, trails, records, bytes.
";

fn run(words: &[Word], report: &mut Report) -> Done {
    let options = Options::parse(words, &[], &[])?;
    let path = options.only("SHELF")?;
    let bytes = shelf_file::load(path)?;
    let mut rows: BTreeMap<(u16, u16), (usize, usize)> = BTreeMap::new();
    let (mut count, mut largest): (usize, Option<(u16, usize, usize)>) = (0, None);
    for (number, record) in shelf_file::records(path, &bytes)?.enumerate() {
        let (kind, trails) = (kinds::of(record), field(record, 4));
        let row = rows.entry((kind, trails)).or_default();
        *row = (row.0 + 1, row.1 + record.len());
        if largest.is_none_or(|(most, ..)| trails > most) {
            largest = Some((trails, number, record.len()));
        }
        count += 1;
    }
    report.line(format!("{path}: {}, {} bytes", counted(count, "record"), bytes.len()));
    if let Some((trails, number, length)) = largest {
        report.line(format!("largest: record {number}, {}, {length} bytes", counted(usize::from(trails), "trail")));
        report.line("kind trails records bytes");
    }
    for ((kind, trails), (records, bytes)) in rows {
        report.line(format!("{} {trails} {records} {bytes}", kinds::name(kind)));
    }
    Ok(())
}
