//! The commands: a file each, and what they share.

mod check;
mod draw;
mod export;
mod fetch;
mod find;
mod import;
mod list;
mod merge;
mod read;
mod salvage;
mod shelve;
mod show;
mod stats;
mod verify;
mod write;

use crate::files;
use crate::kinds;
use crate::lines::{Coder, Way};
use crate::options::{Options, Word};
use crate::plan_file::{self, Plan};
use crate::report::{complain, Problem, Report};
use crate::table::TABLE;
use crate::{shape, stream};
use jurnadel::{Refusal, Table};

/// The most threads that `--jobs` may ask for.
const MAX_JOBS: usize = 256;

pub type Done = Result<(), Problem>;

/// A command of the tool.
pub struct Command {
    pub name: &'static str,
    /// What it does, in a line.
    pub summary: &'static str,
    /// The text of `--help`.
    pub help: &'static str,
    /// Does it, with the words after its name.
    pub run: fn(&[Word], &mut Report) -> Done,
}

/// The commands, as the overview lists them.
pub const COMMANDS: [Command; 15] = [
    check::COMMAND,
    show::COMMAND,
    draw::COMMAND,
    write::COMMAND,
    read::COMMAND,
    shelve::COMMAND,
    find::COMMAND,
    fetch::COMMAND,
    list::COMMAND,
    stats::COMMAND,
    verify::COMMAND,
    salvage::COMMAND,
    merge::COMMAND,
    import::COMMAND,
    export::COMMAND,
];

/// The record of the plan of a file. Where the kind asked for has no outside and the plan does, a line tells.
pub fn record_of(plan: &Plan, path: &Word, table: &Table, kind: Option<u16>) -> Result<Vec<u8>, Problem> {
    let record = plan.record(table, kind).map_err(|refusal| plan.problem(path, refusal))?;
    let taken = kinds::of(&record);
    if plan.outside.is_some() && !kinds::has_outside(taken) {
        complain(format!("{path}: kind {} has no outside; the plan's is left out", kinds::name(taken)));
    }
    Ok(record)
}

/// The plan file of a sound plan, by junctions or by numbers. Its comments tell its counts and the lengths of its areas, these
/// in the order of their lowest trail ends as the file numbers them: so a printed file is printed alike again.
pub fn plan_text(plan: &Plan, by_junctions: bool) -> Result<String, Refusal> {
    let text = match by_junctions {
        true => plan_file::junctions_text(plan),
        false => plan_file::text(plan),
    };
    let printed = Plan::parse(&text).expect("a printed plan is read back");
    let comments = [counts(&plan.order), format!("lengths of the areas: {}", lengths(&printed)?)];
    Ok(plan_file::commented(&[&comments[0], &comments[1]], &text))
}

/// The lengths of a sound plan's areas; an outside that it names is told.
fn lengths(plan: &Plan) -> Result<String, Refusal> {
    let outside = plan.outside.map(|dart| shape::areas(&plan.order).of[usize::from(dart)]);
    let length = |(area, length)| format!("{length}{}", if Some(area) == outside { " (outside)" } else { "" });
    let lengths: Vec<String> = (0..).zip(jurnadel::areas_of(&plan.order)?).map(length).collect();
    Ok(lengths.join(" "))
}

/// How many junctions, trails and areas a sound plan has.
pub fn counts(order: &[u16]) -> String {
    let (junctions, areas) = (shape::junctions(order).count(), shape::areas(order).count());
    [counted(junctions, "junction"), counted(order.len() / 2, "trail"), counted(areas, "area")].join(", ")
}

/// To the file of `-o`, which is none of the files that were read, the table's included, or to standard output.
pub fn put_out(options: &Options, inputs: &[Word], bytes: &[u8], report: &mut Report) -> Done {
    match options.value("-o") {
        Some(path) => {
            let inputs: Vec<Word> = inputs.iter().chain(options.value(TABLE)).cloned().collect();
            files::put_out(path, options.has("--force"), &inputs, bytes)
        }
        None => {
            report.bytes(bytes);
            Ok(())
        }
    }
}

/// What `--lines` asks for: an answer to each line of FILE, or of standard input.
pub fn answer_lines(options: &Options, way: Way, table: Table, report: &mut Report) -> Done {
    for other in ["--raw", "-o", "--force"] {
        options.not_both("--lines", other)?;
    }
    let input = Word::from("-");
    let path = if options.words.is_empty() { &input } else { options.only("FILE")? };
    let jobs = jobs(options)?;
    let source = files::source_of(path)?;
    let name = if path.is_input() { String::from("standard input") } else { path.to_string() };
    stream::answer_all(source, &Coder::new(way, table), jobs, report).map_err(|error| Problem::file(name, error))
}

/// How many threads `--jobs` asks for; one for each core where it is left out or 0.
fn jobs(options: &Options) -> Result<usize, Problem> {
    match options.number("--jobs")?.unwrap_or(0) {
        0 => Ok(std::thread::available_parallelism().map_or(1, usize::from).min(MAX_JOBS)),
        jobs if jobs <= MAX_JOBS => Ok(jobs),
        jobs => Err(Problem::Usage(format!("--jobs: {jobs} is more than {MAX_JOBS}"))),
    }
}

/// A 16-bit field of a record's head.
pub fn field(record: &[u8], place: usize) -> u16 {
    u16::from_le_bytes([record[place], record[place + 1]])
}

/// A number and a word, the word in the plural where it should be.
pub fn counted(number: usize, word: &str) -> String {
    let ending = if number == 1 { "" } else { "s" };
    format!("{number} {word}{ending}")
}
