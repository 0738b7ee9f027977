//! `jurnadel fetch`.

use super::{plan_text, put_out, Command, Done};
use crate::options::{number, Options, Word};
use crate::report::{Problem, Report};
use crate::table::{self, TABLE};
use crate::{record_file, shelf_file, source};

pub const COMMAND: Command = Command { name: "fetch", summary: "fetch a plan from a shelf by its number", help: HELP, run };

const HELP: &str = "\
usage: jurnadel fetch [--record | --raw | --junctions] [--table FILE]
                      [-o FILE [--force]] SHELF NUMBER

Fetches a record, counting from 0, and prints its plan as a plan file.

  --record      the record itself, in hexadecimal
  --raw         the record itself, as bytes
  --junctions   the plan file by junctions, as jurnadel show prints it
  --table FILE  the group table that the shelf was written under (jurnadel
                shelve --help)
  -o FILE       to this file, which must not be there
  --force       replace the file if it is there
";

fn run(words: &[Word], report: &mut Report) -> Done {
    let options = Options::parse(words, &["--record", "--raw", "--junctions", "--force"], &[TABLE, "-o"])?;
    for (one, other) in [("--record", "--raw"), ("--record", "--junctions"), ("--raw", "--junctions")] {
        options.not_both(one, other)?;
    }
    let (path, rest) = options.first_and_more("SHELF", "NUMBER")?;
    let [wanted] = rest else {
        return Err(Problem::Usage(format!("one word too many: {}", rest[1])));
    };
    let wanted = number(wanted, "NUMBER")?;
    let table = table::of(&options)?;
    let output = if options.has("--raw") {
        shelf_file::record(path, wanted)?
    } else if options.has("--record") {
        format!("{}\n", record_file::to_hex(&shelf_file::record(path, wanted)?)).into_bytes()
    } else {
        let (plan, name) = source::of_shelf(&table, path, wanted)?;
        let text = plan_text(&plan, options.has("--junctions"));
        text.map_err(|refusal| plan.problem(name, refusal))?.into_bytes()
    };
    put_out(&options, std::slice::from_ref(path), &output, report)
}
