//! `jurnadel check`.

use super::{counts, record_of, Command, Done};
use crate::inputs::{self, FILES_FROM};
use crate::kinds::{self, MESH};
use crate::options::{Options, Word};
use crate::plan_file::Plan;
use crate::report::{Problem, Report};
use crate::table::{self, TABLE};
use jurnadel::Table;

pub const COMMAND: Command =
    Command { name: "check", summary: "say whether plan files are sound, and how long their records are", help: HELP, run };

const HELP: &str = "\
usage: jurnadel check [--kind KIND] [--table FILE] [--files-from LIST] PLAN..

Says of each plan file how many junctions, trails and areas it has, and the kind
and length of its record: kind 1, or 2 for a plan with a dead end other than its
start, or 4 for one with a loop; of a plan that names an outside 101h, 102h or
104h. Of a triangle mesh, a plan without loops and with three trails around each
area, the one outside included, also its length in kind 3, if that is shorter.

  --kind KIND         the record in this kind: 1, 2, 3, 4, 101h, 102h or 104h
  --table FILE        under this group table (jurnadel write --help), which
                      changes neither kind nor length
  --files-from LIST   also the files that LIST names, a line each or
                      NUL-separated; - is standard input

PLAN is a plan file, or a folder: the .plan files in it.

Exit status 1 if some plan is refused.
";

fn run(words: &[Word], report: &mut Report) -> Done {
    let options = Options::parse(words, &[], &["--kind", TABLE, FILES_FROM])?;
    let kind = options.kind()?;
    let table = table::of(&options)?;
    for path in &inputs::files(&options, &options.words, "PLAN", "plan")? {
        match check_one(path, &table, kind) {
            Ok(line) => report.line(line),
            Err(problem) => report.problem(&problem),
        }
    }
    Ok(())
}

/// What there is to say of a plan.
fn check_one(path: &Word, table: &Table, kind: Option<u16>) -> Result<String, Problem> {
    let plan = Plan::load(path)?;
    let record = record_of(&plan, path, table, kind)?;
    let taken = kinds::of(&record);
    let (why, mesh) = match kind {
        None => (why(taken), mesh(&plan, table, record.len())),
        Some(_) => ("", String::new()),
    };
    Ok(format!("{path}: {}; kind {}{why}, {} bytes{mesh}", counts(&plan.order), kinds::name(taken), record.len()))
}

/// Where kind 3 takes a plan too, in fewer bytes, what there is to say of that. It would leave an outside out.
fn mesh(plan: &Plan, table: &Table, bytes: usize) -> String {
    let mesh = plan.record(table, Some(MESH)).ok().filter(|mesh| plan.outside.is_none() && mesh.len() < bytes);
    mesh.map_or(String::new(), |mesh| format!(", or kind 3 (every area is a triangle), {} bytes", mesh.len()))
}

/// Why a plan gets this kind.
fn why(kind: u16) -> &'static str {
    match kind {
        2 => " (it has a dead end)",
        4 => " (it has a loop)",
        0x101 => " (it names an outside)",
        0x102 => " (it names an outside and has a dead end)",
        0x104 => " (it names an outside and has a loop)",
        _ => "",
    }
}
