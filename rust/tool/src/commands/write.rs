//! `jurnadel write`.

use super::{answer_lines, put_out, record_of, Command, Done};
use crate::inputs::{self, FILES_FROM};
use crate::lines::Way;
use crate::options::{Options, Word};
use crate::plan_file::Plan;
use crate::record_file;
use crate::report::Report;
use crate::table::{self, TABLE};

pub const COMMAND: Command = Command { name: "write", summary: "write the record of each plan file", help: HELP, run };

const HELP: &str = "\
usage: jurnadel write [--kind KIND] [--table FILE] [--raw] [-o FILE [--force]]
                      [--files-from LIST] PLAN..
       jurnadel write --lines [--kind KIND] [--table FILE] [--jobs N] [FILE]

Writes the record of each plan file, a line of hexadecimal bytes each.

  --kind KIND         1, 2, 3, 4, 101h, 102h or 104h; else 1, or 2 for a plan
                      with a dead end other than its start, or 4 for one with a
                      loop; for a plan that names an outside 101h, 102h or 104h,
                      which are the same with the outside; the others leave it
                      out. Kind 3 takes triangle meshes, in about half the bytes
                      of kind 1: plans without loops and with three trails
                      around each area, the one outside included
  --table FILE        a maker's own group table: 243 bytes, all different, byte
                      n for group value n, from 0 on. Records of kinds 2, 3
                      and 102h have these bytes, and are read back under the
                      same table only; other kinds don't depend on it. Else the
                      standard table, bytes 0, 1, .., 242
  --raw               bytes in place of hexadecimal; several records stand end
                      to end
  -o FILE             to this file, which must not be there; not written if any
                      plan is refused
  --force             replace the file if it is there
  --files-from LIST   also the files that LIST names, a line each or
                      NUL-separated; - is standard input

PLAN is a plan file, - for standard input, or a folder: the .plan files in it. #
begins a comment. By junctions a plan file has a line 'JUNCTION: TRAIL TRAIL ..'
for each, its trails counterclockwise, and a line 'start: JUNCTION TRAIL'; by
numbers a line 'start: DART' and a line of entries (the next dart
counterclockwise, for each dart). A line of outside may name the area that is
around the whole sheet: 'outside: DART' the one on the right of this dart as one
leaves its junction; 'outside: JUNCTION TRAIL' the one on the left of this trail
as one leaves the junction, or with 'right' after it the one on the right.
Without such a line the area of the start dart is outside.

  --lines    a plan a line, from FILE or standard input: the start, then the
             entries, '0 3 2 1 0'; or start/outside, then the entries,
             '0/1 3 2 1 0'. Each line is answered by one line, in the same order
             and at once: the record in hexadecimal without spaces, which is a
             key; 'refused NUMBER' ('refused 10 CHARACTERISTIC'); or 'malformed'
             for a line that is no plan or has more than 1,048,576 bytes. Exit
             status 1 if any line was refused or malformed
  --jobs N   with --lines: use N threads, 256 at most; without it, or with 0,
             one for each core
";

fn run(words: &[Word], report: &mut Report) -> Done {
    let options = Options::parse(words, &["--raw", "--force", "--lines"], &["--kind", TABLE, "-o", "--jobs", FILES_FROM])?;
    options.only_with("--jobs", "--lines")?;
    let kind = options.kind()?;
    let table = table::of(&options)?;
    if options.has("--lines") {
        return answer_lines(&options, Way::Write(kind), table, report);
    }
    let files = inputs::files(&options, &options.words, "PLAN", "plan")?;
    let mut output = Vec::new();
    for path in &files {
        match Plan::load(path).and_then(|plan| record_of(&plan, path, &table, kind)) {
            Ok(record) if options.has("--raw") => output.extend(record),
            Ok(record) => output.extend(format!("{}\n", record_file::to_hex(&record)).as_bytes()),
            Err(problem) => report.problem(&problem),
        }
    }
    if options.value("-o").is_some() && report.failed() {
        return Ok(());
    }
    put_out(&options, &files, &output, report)
}
