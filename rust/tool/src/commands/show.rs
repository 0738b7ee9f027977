//! `jurnadel show`.

use super::{plan_text, put_out, Command, Done};
use crate::options::{Options, Word};
use crate::report::Report;
use crate::source;
use crate::table::{self, TABLE};

pub const COMMAND: Command =
    Command { name: "show", summary: "print a plan by junctions or by numbers, with its counts", help: HELP, run };

const HELP: &str = "\
usage: jurnadel show [--junctions | --numbers] [--table FILE]
                     [-o FILE [--force]] PLAN | RECORD | SHELF NUMBER

Prints a plan as a plan file. Its comments tell how many junctions, trails and
areas the plan has, and how long each area is: how many trails a walk along its
border takes, one that has the area on both sides twice. Areas come in the order
of their lowest trail ends; by junctions, trail ends are numbered as the lines
name them, the two of a trail together. A plan that names an outside, or whose
record is of kind 101h, 102h or 104h, is printed with a line of outside. The
plan may stand in a plan file of either form, in a record (in hexadecimal or as
bytes) or on a shelf; - is standard input.

  --junctions   by junctions (this is taken if nothing is said); without names
                of its own the plan gets A, B, .. for its junctions and a, b, ..
                for its trails, in the order of the contour walk
  --numbers     by numbers
  --table FILE  the group table of a record of kind 2, 3 or 102h (jurnadel
                write --help)
  -o FILE       to this file, which must not be there
  --force       replace the file if it is there
";

fn run(words: &[Word], report: &mut Report) -> Done {
    let options = Options::parse(words, &["--junctions", "--numbers", "--force"], &[TABLE, "-o"])?;
    options.not_both("--junctions", "--numbers")?;
    let table = table::of(&options)?;
    let (plan, name) = source::load(&table, &options.words)?;
    let text = plan.sound().and_then(|()| plan_text(&plan, !options.has("--numbers")));
    let text = text.map_err(|refusal| plan.problem(name, refusal))?;
    put_out(&options, &options.words[..1], text.as_bytes(), report)
}
