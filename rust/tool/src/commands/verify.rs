//! `jurnadel verify`.

use super::{counted, Command, Done};
use crate::options::{Options, Word};
use crate::report::{in_words, Problem, Report};
use crate::survey::{self, Found, Part};
use crate::table::{self, TABLE};
use crate::{shelf, shelf_file};
use std::collections::HashMap;

pub const COMMAND: Command = Command { name: "verify", summary: "check a shelf file and every record on it", help: HELP, run };

const HELP: &str = "\
usage: jurnadel verify [--table FILE] SHELF

Checks that a shelf file is records end to end, that each record is a plan's and
that it has the checksum that is kept for it (SHELF.sums). Says which are not,
where bytes are no record, and which records stand there twice.

  --table FILE   the group table that the shelf was written under; under another
                 one its records of kinds 2, 3 and 102h may be no plan's

Exit status 1 if something is wrong; a record that stands there twice, or one
without a checksum, is not.
";

/// Why bytes of a shelf that the library takes are no record.
const WRONG_LENGTH: &str = "the shelf is damaged: a record of kind 3 has a length that no mesh's record has";

fn run(words: &[Word], report: &mut Report) -> Done {
    let options = Options::parse(words, &[], &[TABLE])?;
    let path = options.only("SHELF")?;
    let table = table::of(&options)?;
    let bytes = shelf_file::load(path)?;
    let kept = shelf_file::load_sums(path)?;
    let parts = survey::parts(&table, &bytes, &kept);
    parts.iter().for_each(|part| report_fault(path, part, report));
    let records: Vec<&Found> = records(&parts).collect();
    report_doubles(path, &records, report);
    let damage = match shelf::sound(&bytes, bytes.len()) {
        Err(refusal) => Some(in_words(refusal)),
        Ok(()) => parts.iter().any(|part| matches!(part, Part::Gap(_))).then(|| String::from(WRONG_LENGTH)),
    };
    if let Some(damage) = damage {
        let advice = match records.iter().filter(|found| found.is_whole()).count() {
            0 => String::from("no record is whole; is it a shelf at all?"),
            whole => format!("{} whole, which 'salvage' keeps", counted(whole, "record")),
        };
        return Err(Problem::Refused(format!("{path}: {damage}; {advice}")));
    }
    let unreadable = records.iter().filter(|found| found.unreadable.is_some()).count();
    let readable = if unreadable == 0 { String::from("each is a plan's") } else { format!("{unreadable} cannot be read") };
    let count = counted(records.len(), "record");
    report.line(format!("{path}: {count}, {} bytes; {readable}; {}", bytes.len(), checksums(&records)));
    Ok(())
}

fn records<'a, 'b>(parts: &'b [Part<'a>]) -> impl Iterator<Item = &'b Found<'a>> {
    parts.iter().filter_map(|part| match part {
        Part::Record(found) => Some(found),
        Part::Gap(_) => None,
    })
}

/// Reports what is wrong with a part of a shelf, if anything is.
pub fn report_fault(path: &Word, part: &Part, report: &mut Report) {
    match part {
        Part::Gap(gap) => {
            report.problem(&Problem::Refused(format!("{path}: bytes {} to {} are no record", gap.start, gap.end - 1)));
        }
        Part::Record(found) => {
            let place = place_of(path, found);
            if let Some(refusal) = found.unreadable {
                report.problem(&match found.sum_agrees {
                    // It is damage, whatever the group table.
                    Some(false) => Problem::refused(&place, refusal),
                    _ => Problem::unread(&place, found.record, refusal),
                });
            }
            if found.sum_agrees == Some(false) {
                report.problem(&Problem::Refused(format!("{place}: changed since it was shelved: its checksum is another")));
            }
        }
    }
}

fn place_of(path: &Word, found: &Found) -> String {
    let number = found.number.map_or(String::new(), |number| format!(" {number}"));
    format!("{path}: record{number} at byte {}", found.at)
}

fn report_doubles(path: &Word, records: &[&Found], report: &mut Report) {
    let mut first_equal: HashMap<&[u8], &Found> = HashMap::new();
    for found in records {
        let first = first_equal.entry(found.record).or_insert(found);
        if first.at != found.at {
            report.line(format!("{} is the same as the one at byte {}", place_of(path, found), first.at));
        }
    }
}

/// What the checksums say of the records of a sound shelf.
fn checksums(records: &[&Found]) -> String {
    let wrong = records.iter().filter(|found| found.sum_agrees == Some(false)).count();
    match records.iter().position(|found| found.sum_agrees.is_none()) {
        _ if wrong > 0 => counted(wrong, "wrong checksum"),
        Some(0) => String::from("no checksums are kept"),
        Some(first) => format!("checksums agree, none are kept from record {first} on"),
        None => String::from("checksums agree"),
    }
}
