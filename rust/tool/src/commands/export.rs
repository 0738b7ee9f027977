//! `jurnadel export`.

use super::{counted, put_out, Command, Done};
use crate::joining::turning_order;
use crate::kinds::ANY;
use crate::names::shown;
use crate::options::{Options, Word};
use crate::plan_file::Plan;
use crate::plan_folder::PlanFolder;
use crate::planar_code::{self, Graph};
use crate::report::{complain, Problem, Report};
use crate::table::{self, TABLE};
use crate::{shelf, shelf_file, sums};
use jurnadel::Table;
use std::path::Path;

pub const COMMAND: Command = Command { name: "export", summary: "make plan files, or planar_code, of a shelf", help: HELP, run };

const HELP: &str = "\
usage: jurnadel export [--table FILE] [--force] SHELF FOLDER
       jurnadel export --planar-code [--table FILE] [-o FILE [--force]] SHELF

Makes a plan file 0.plan, 1.plan, .. of each record of a shelf, in FOLDER, which
is made if it isn't there, and prints the name of each. Each plan file appears
whole or not at all; one that is there and holds the same plan is passed over.

  --planar-code   planar_code in place of plan files, a graph for each record:
                  the start is the first entry of the first junction. An outside
                  is left out, which a line tells
  --table FILE    the group table that the shelf was written under (jurnadel
                  shelve --help)
  -o FILE         planar_code to this file, which must not be there; else to
                  standard output
  --force         replace what is there and holds something else

A record that cannot be read is reported by its number and left out, and so is
one of which planar_code would leave open how parallel trails, or the loops of a
junction, are joined; the status is then 1. What is exported can be imported as
the same plan, in planar_code without its outside.
";

fn run(words: &[Word], report: &mut Report) -> Done {
    let options = Options::parse(words, &["--planar-code", "--force"], &[TABLE, "-o"])?;
    if options.has("--planar-code") {
        return export_code(&options, report);
    } else if options.value("-o").is_some() {
        return Err(Problem::Usage(String::from("-o goes with --planar-code")));
    }
    let (shelf, rest) = options.first_and_more("SHELF", "FOLDER")?;
    match rest {
        [folder] => export_plans(&table::of(&options)?, shelf, folder, options.has("--force"), report),
        _ => Err(Problem::Usage(format!("one word too many: {}", rest[1]))),
    }
}

fn export_plans(table: &Table, path: &Word, folder: &Word, force: bool, report: &mut Report) -> Done {
    let shelf = shelf_file::load(path)?;
    let folder = PlanFolder::open(folder.as_ref(), force)?;
    let name = shown(AsRef::<Path>::as_ref(path).file_name().unwrap_or_default());
    let done = each_record(table, path, &shelf, report, |number, plan, report| {
        let comment = format!("record {number} of {name}: {}", counted(plan.order.len() / 2, "trail"));
        let file = folder.put(&format!("{number}.plan"), &comment, plan)?;
        report.line(shown(file));
        report.flush();
        Ok(())
    });
    folder.sync().and(done)
}

fn export_code(options: &Options, report: &mut Report) -> Done {
    let path = options.only("SHELF")?;
    let table = table::of(options)?;
    let shelf = shelf_file::load(path)?;
    let (mut graphs, mut outsides) = (Vec::new(), 0);
    let done = each_record(&table, path, &shelf, report, |number, plan, _| {
        graphs.push(coded(&plan.order).map_err(|what| Problem::Refused(format!("{path}: record {number}: {what}")))?);
        outsides += usize::from(plan.outside.is_some());
        Ok(())
    });
    if outsides > 0 {
        complain(format!("{path}: planar_code has no outside; that of {} is left out", counted(outsides, "record")));
    }
    put_out(options, std::slice::from_ref(path), &planar_code::code(&graphs), report).and(done)
}

/// The graph of a plan, if planar_code has it and no other.
fn coded(order: &[u16]) -> Result<Graph, String> {
    let graph = planar_code::graph_of(order);
    let back = turning_order(&graph).map_err(|untaken| untaken.to_string())?;
    let key = |order| jurnadel::record_of(&Table::standard(), order, 0, 0, ANY);
    match key(&back) == key(order) {
        true => Ok(graph),
        false => Err(String::from("planar_code doesn't hold this plan")),
    }
}

/// Does something with the number and the plan of each record that stands on a shelf. Reports what goes wrong, and goes on to
/// the next.
fn each_record(
    table: &Table,
    path: &Word,
    shelf: &[u8],
    report: &mut Report,
    mut action: impl FnMut(usize, &Plan, &mut Report) -> Done,
) -> Done {
    let kept = shelf_file::load_sums(path)?;
    for (number, record) in jurnadel::walk_from(shelf, shelf.len(), 0).enumerate() {
        let plan = shelf_file::unchanged(path, number, sums::crc(record), &kept).and_then(|()| {
            Plan::of_record(table, record).map_err(|refusal| Problem::unread(format!("{path}: record {number}"), record, refusal))
        });
        if let Err(problem) = plan.and_then(|plan| action(number, &plan, report)) {
            report.problem(&problem);
        }
    }
    shelf::sound(shelf, shelf.len()).map_err(|refusal| shelf_file::refused(path, refusal))
}
