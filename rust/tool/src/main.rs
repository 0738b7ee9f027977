//! The coach's tool: plan files, records and a shelf file, over the proved library.
//!
//! Every refusal and every record comes from the library. This program reads and writes files, words and numbers:
//!
//! * `commands`: what each command does, with its help; `help`: the overview;
//! * `options`: the words of the command line; `names`: names as a terminal can take them;
//! * `files`: files read whole, and files that appear whole or not at all;
//! * `kinds`: the kinds of records; `table`: the group table of some; `plan_file`, `record_file`: two kinds of file; `plan_folder`:
//!   folders of plan files; `source`: a plan in whatever file;
//! * `lines`: a plan or a record in one line, and its answer; `stream`: a stream of them, on several threads;
//! * `shape`: junctions, areas and the contour walk of a turning order; `draw`: a plan as a picture;
//! * `shelf`: a shelf in memory, with its `index`; `shelf_file`: its file, `lock` and `sums`; `survey`: what stands on a shelf
//!   that may be damaged;
//! * `planar_code`: the interchange format of `import` and `export`; `joining`: which of its trail ends belong together;
//! * `report`: messages and the exit status; `stdout`: whether standard output was closed;
//! * `growing`: random plans, for tests.

mod commands;
mod draw;
mod files;
#[cfg(test)]
mod growing;
mod help;
mod index;
mod inputs;
mod joining;
mod kinds;
mod lines;
mod lock;
mod names;
mod options;
mod plan_file;
mod plan_folder;
mod planar_code;
mod record_file;
mod report;
mod shape;
mod shelf;
mod shelf_file;
mod source;
mod stdout;
mod stream;
mod sums;
mod survey;
mod table;

use commands::{Command, COMMANDS};
use options::Word;
use report::{Problem, Report};
use std::process::ExitCode;

fn main() -> ExitCode {
    let words: Vec<Word> = std::env::args_os().skip(1).map(Word::from).collect();
    let Some((word, rest)) = words.split_first() else {
        return usage("no command", "");
    };
    let command = word.text().unwrap_or_default();
    match command {
        "--help" | "-h" | "help" => return say(&help::overview()),
        "--version" => return say(concat!("jurnadel ", env!("CARGO_PKG_VERSION"), "\n")),
        _ => {}
    }
    match COMMANDS.iter().find(|known| known.name == command) {
        Some(known) if asks_for_help(rest) => say(known.help),
        Some(known) => run(known, rest),
        None => usage(&format!("no command '{word}'"), ""),
    }
}

fn run(command: &Command, words: &[Word]) -> ExitCode {
    let mut report = Report::new();
    match (command.run)(words, &mut report) {
        Ok(()) => {}
        Err(Problem::Usage(text)) => return usage(&format!("{}: {text}", command.name), &format!("{} ", command.name)),
        Err(problem) => report.problem(&problem),
    }
    report.end()
}

/// Whether the words, up to `--`, ask for help.
fn asks_for_help(words: &[Word]) -> bool {
    words.iter().map(Word::text).take_while(|&word| word != Some("--")).any(|word| matches!(word, Some("--help" | "-h")))
}

fn say(text: &str) -> ExitCode {
    let mut report = Report::new();
    report.bytes(text.as_bytes());
    report.end()
}

/// Tells what is wrong with the command line, and where help is: with the command, if it is known.
fn usage(text: &str, command: &str) -> ExitCode {
    report::complain(format!("jurnadel: {text}; see jurnadel {command}--help"));
    ExitCode::from(report::USAGE)
}
