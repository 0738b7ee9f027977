//! `jurnadel draw`.

use super::{put_out, Command, Done};
use crate::draw::{svg, Picture};
use crate::options::{Options, Word};
use crate::plan_file::Plan;
use crate::report::{Problem, Report};
use crate::source;
use crate::table::{self, TABLE};

pub const COMMAND: Command = Command { name: "draw", summary: "draw a plan, as an SVG picture", help: HELP, run };

const HELP: &str = "\
usage: jurnadel draw [--outside AREA] [--table FILE] [-o FILE [--force]]
                     PLAN | RECORD | SHELF NUMBER

Draws a plan as an SVG picture, which any browser shows: no two trails cross,
and around each junction its trails come in their turning order. The start is
marked. Trails have their names or, in a plan without names, their numbers:
trail 3 has darts 6 and 7. Loops, parallel trails and dead ends are drawn too.

  --outside AREA   put this area outside, all around the picture. AREA is the
                   number of a dart, for the area on its right as one leaves its
                   junction; in a plan by junctions also what a line of outside
                   may say: 'JUNCTION TRAIL' for the area on the left of this
                   trail as one leaves the junction, or 'JUNCTION TRAIL right'.
                   Without it, the outside that the plan names, or else the area
                   of the start dart
  --table FILE     the group table of a record of kind 2, 3 or 102h (jurnadel
                   write --help)
  -o FILE          to this file, which must not be there; else to standard
                   output
  --force          replace the file if it is there
";

fn run(words: &[Word], report: &mut Report) -> Done {
    let options = Options::parse(words, &["--force"], &["--outside", TABLE, "-o"])?;
    let table = table::of(&options)?;
    let (plan, name) = source::load(&table, &options.words)?;
    plan.sound().map_err(|refusal| plan.problem(name, refusal))?;
    let outside = options.value("--outside").map_or(Ok(plan.outer_dart()), |word| area(&plan, word))?;
    let picture = Picture {
        order: &plan.order,
        start: plan.start,
        outside,
        trails: &plan.trail_names(),
        junctions: &plan.junction_names(),
    };
    put_out(&options, &options.words[..1], svg(&picture).as_bytes(), report)
}

/// A dart of the area that a word names.
fn area(plan: &Plan, word: &Word) -> Result<u16, Problem> {
    let found = plan.area(word.text().unwrap_or_default());
    found.map_err(|what| Problem::Usage(format!("--outside: {what}")))
}
