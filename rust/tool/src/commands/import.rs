//! `jurnadel import`.

use super::{counted, Command, Done};
use crate::files::source_of;
use crate::joining::{turning_order, Untaken};
use crate::names::shown;
use crate::options::{Options, Word};
use crate::plan_file::Plan;
use crate::plan_folder::PlanFolder;
use crate::planar_code::{Graph, Graphs};
use crate::report::{Problem, Report};
use std::collections::HashSet;
use std::io::BufReader;
use std::path::{Path, PathBuf};

pub const COMMAND: Command = Command { name: "import", summary: "make plan files of planar_code", help: HELP, run };

const HELP: &str = "\
usage: jurnadel import [--no-header] [--force] [-d FOLDER] FILE..

Reads planar_code, as plantri and planarg write it, and makes a plan file
NAME-1.plan, NAME-2.plan, .. of each graph, as the graphs arrive. Prints the
name of each. The start is the first entry of the first junction. FILE - is
standard input, its NAME plan.

  -d FOLDER     put the plan files in this folder, which is made if it isn't
                there; else in the current one
  --force       replace plan files that hold something else
  --no-header   the files begin with the first graph

Each plan file appears whole or not at all. One that is there and holds the same
plan is passed over, so a run that was broken off can be made again.

A junction lists itself twice for each loop. A graph that is no plan is reported
by its number and left out, and so is one of which planar_code leaves open how
parallel trails, or the loops of a junction, are joined, where that makes a
difference. A file that is damaged is imported up to the damage.
";

fn run(words: &[Word], report: &mut Report) -> Done {
    let options = Options::parse(words, &["--no-header", "--force"], &["-d"])?;
    if options.words.is_empty() {
        return Err(Problem::Usage(String::from("FILE is missing")));
    }
    let folder = PlanFolder::open(options.value("-d").map_or(Path::new("."), Word::as_ref), options.has("--force"))?;
    let mut names = HashSet::new();
    for path in &options.words {
        let source = Source { path, name: name_of(path), header: !options.has("--no-header") };
        let done = match names.insert(source.name.clone()) {
            true => source.import(&folder, report),
            false => Err(Problem::file(path, format!("another file has given the names {}-1.plan ..", shown(&source.name)))),
        };
        if let Err(problem) = done {
            report.problem(&problem);
        }
    }
    folder.sync()
}

/// What the plans of a file are named after.
fn name_of(path: &Word) -> String {
    let named = if path.is_input() { Path::new("plan") } else { path.as_ref() };
    named.file_stem().unwrap_or_default().to_string_lossy().into_owned()
}

/// A file of planar_code.
struct Source<'a> {
    path: &'a Word,
    name: String,
    header: bool,
}

impl Source<'_> {
    /// Makes the plan files of its graphs.
    fn import(&self, folder: &PlanFolder, report: &mut Report) -> Done {
        let graphs = Graphs::begin(BufReader::new(source_of(self.path)?), self.header);
        let mut graphs = graphs.map_err(|what| Problem::file(self.path, what))?;
        for number in 1.. {
            let place = format!("{}: graph {number}", self.path);
            let Some(graph) = graphs.next().map_err(|what| Problem::file(&place, what))? else {
                break;
            };
            match self.import_one(number, &graph, &place, folder) {
                Ok(plan) => {
                    report.line(shown(plan));
                    report.flush();
                }
                Err(problem) => report.problem(&problem),
            }
        }
        Ok(())
    }

    fn import_one(&self, number: usize, graph: &Graph, place: &str, folder: &PlanFolder) -> Result<PathBuf, Problem> {
        let order = turning_order(graph).map_err(|untaken| match untaken {
            Untaken::Refused(_) | Untaken::Alone(_) => Problem::Refused(format!("{place}: {untaken}")),
            _ => Problem::file(place, untaken),
        })?;
        let (junctions, trails) = (counted(graph.len(), "junction"), counted(order.len() / 2, "trail"));
        let comment = format!("graph {number} of {}: {junctions}, {trails}", shown(&self.name));
        folder.put(&format!("{}-{number}.plan", self.name), &comment, &Plan::of_order(order))
    }
}
