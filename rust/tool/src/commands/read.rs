//! `jurnadel read`.

use super::{answer_lines, plan_text, put_out, Command, Done};
use crate::lines::Way;
use crate::options::{Options, Word};
use crate::plan_file::Plan;
use crate::record_file;
use crate::report::{Problem, Report};
use crate::table::{self, TABLE};

pub const COMMAND: Command = Command { name: "read", summary: "read a record back as a plan file", help: HELP, run };

const HELP: &str = "\
usage: jurnadel read [--table FILE] [--raw] [--junctions] [-o FILE [--force]]
                     [RECORD]
       jurnadel read --lines [--table FILE] [--jobs N] [FILE]

Reads a record, from standard input if RECORD is left out or -, and prints its
plan as a plan file, in standard numbering with start 0, and with a line of
outside if the record is of kind 101h, 102h or 104h.

  --table FILE  the group table that the record was written under (jurnadel
                write --help), if it is of kind 2, 3 or 102h. Under another one
                it may be refused (13), or be another plan's
  --raw         the record is bytes, not hexadecimal
  --junctions   the plan file by junctions, as jurnadel show prints it
  -o FILE       to this file, which must not be there
  --force       replace the file if it is there

  --lines    a record a line, in hexadecimal, from FILE or standard input. Each
             line is answered by one line, in the same order and at once: the
             plan as 'write --lines' takes it, its start 0, for kinds 101h, 102h
             and 104h 0/outside, and then its entries; 'refused NUMBER'; or
             'malformed' for a line that is no hexadecimal or has more than
             1,048,576 bytes. Exit status 1 if any line was refused or malformed
  --jobs N   with --lines: use N threads, 256 at most; without it, or with 0,
             one for each core
";

fn run(words: &[Word], report: &mut Report) -> Done {
    let options = Options::parse(words, &["--raw", "--junctions", "--force", "--lines"], &[TABLE, "-o", "--jobs"])?;
    options.only_with("--jobs", "--lines")?;
    let table = table::of(&options)?;
    if options.has("--lines") {
        return answer_lines(&options, Way::Read, table, report);
    }
    let input = Word::from("-");
    let path = if options.words.is_empty() { &input } else { options.only("RECORD")? };
    let (record, line) = record_file::load(path, options.has("--raw"))?;
    let place = line.map_or(path.to_string(), |line| format!("{path}:{line}"));
    let text = Plan::of_record(&table, &record).and_then(|plan| plan_text(&plan, options.has("--junctions")));
    let text = text.map_err(|refusal| Problem::unread(place, &record, refusal))?;
    put_out(&options, std::slice::from_ref(path), text.as_bytes(), report)
}
