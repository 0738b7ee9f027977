//! Messages, and the exit status that they lead to.

use crate::{kinds, stdout};
use jurnadel::Refusal;
use std::fmt::Display;
use std::io::{self, Write};
use std::process::ExitCode;

/// Exit status: something was refused or, by `verify`, found wrong.
pub const REFUSED: u8 = 1;
/// Exit status: the command line is wrong.
pub const USAGE: u8 = 2;
/// Exit status: a file cannot be read or written, or is not of its format.
pub const FILE: u8 = 3;

/// Why a command, or its part for one file, is not done.
#[derive(Debug)]
pub enum Problem {
    /// The library's refusal, or what `verify` found, with the place.
    Refused(String),
    /// The command line is wrong.
    Usage(String),
    /// A file cannot be read or written, or is not of its format.
    File(String),
}

impl Problem {
    /// A refusal at a place: a file, and a line or record in it.
    pub fn refused(place: impl Display, refusal: Refusal) -> Problem {
        Problem::Refused(format!("{place}: {}", in_words(refusal)))
    }

    /// As [`Problem::refused`], of a record that cannot be read. Where its kind has groups, the group table may be another one.
    pub fn unread(place: impl Display, record: &[u8], refusal: Refusal) -> Problem {
        let words = match refusal.number() {
            Refusal::NO_FIT_PLAN if kinds::has_groups(kinds::of(record)) => {
                with_number("no plan has this record; it may have been damaged, or written under another group table", refusal)
            }
            _ => in_words(refusal),
        };
        Problem::Refused(format!("{place}: {words}"))
    }

    /// A file, or a place in one, and what is wrong with it.
    pub fn file(place: impl Display, what: impl Display) -> Problem {
        Problem::File(format!("{place}: {what}"))
    }
}

/// A refusal in a coach's words, with its number behind them.
pub fn in_words(refusal: Refusal) -> String {
    let words = match refusal.number() {
        Refusal::RECORD_CUT => "the record is cut short or too long: its length field and its bytes don't agree",
        Refusal::BAD_KIND => "there is no such kind of record; the kinds are 1, 2, 3, 4, 101h, 102h and 104h",
        Refusal::BAD_COUNT => "a plan has 1 to 4,096 trails with two ends each",
        Refusal::BAD_START => "the start is none of the plan's trail ends",
        Refusal::BAD_OUTSIDE => "the outside is none of the plan's trail ends",
        Refusal::BAD_LENGTH => "the record's length is not that of its kind and number of trails",
        Refusal::BAD_ENTRY => "the entries must be the plan's trail ends, each once",
        Refusal::NOT_CONNECTED => "the plan is in pieces: some trails cannot be reached from the others",
        Refusal::NOT_PLANAR => "in this turning order the plan cannot be drawn without crossings",
        Refusal::HAS_LOOP => "a trail leads back to the junction that it comes from, a loop, which only kinds 4 and 104h take",
        Refusal::HAS_DEGREE_ONE => "the plan has a dead end other than its start, which kinds 1 and 101h don't take",
        Refusal::NOT_TRIANGLES => "an area is not a triangle; in kind 3 every area is one, the one outside too",
        Refusal::NO_FIT_PLAN => "no plan has this record; it may have been damaged",
        Refusal::SHELF_BROKEN => "the shelf is damaged: its bytes are not records end to end",
        Refusal::NO_SUCH_RECORD => "the shelf has no record with this number; numbers count from 0",
        Refusal::SHELF_FULL => "the shelf is full: the record is not on it and doesn't fit",
        _ => refusal.meaning(),
    };
    with_number(words, refusal)
}

/// Words for a refusal, with its number behind them.
pub fn with_number(words: &str, refusal: Refusal) -> String {
    match refusal.characteristic() {
        Some(characteristic) => format!("{words} (refusal 10, characteristic {characteristic})"),
        None => format!("{words} (refusal {})", refusal.number()),
    }
}

/// Prints a line to standard error. If that cannot take it the work goes on, and the exit status tells.
pub fn complain(line: impl Display) {
    let _ = writeln!(io::stderr(), "{line}");
}

/// Standard output and the worst status so far.
pub struct Report {
    output: io::BufWriter<io::Stdout>,
    closed: bool,
    status: u8,
}

impl Report {
    pub fn new() -> Report {
        Report { output: io::BufWriter::new(io::stdout()), closed: false, status: 0 }
    }

    /// Prints bytes. Once standard output takes no more, nothing more is printed; the work goes on, and the status tells.
    pub fn bytes(&mut self, bytes: &[u8]) {
        if !self.closed {
            let done = match stdout::was_closed() {
                true => Err(io::Error::other("it is closed")),
                false => self.output.write_all(bytes),
            };
            self.note(done);
        }
    }

    pub fn line(&mut self, line: impl Display) {
        self.bytes(format!("{line}\n").as_bytes());
    }

    /// Prints a problem to standard error, after what is already on its way to standard output.
    pub fn problem(&mut self, problem: &Problem) {
        self.flush();
        let (text, status) = match problem {
            Problem::Refused(text) => (text, REFUSED),
            Problem::Usage(text) => (text, USAGE),
            Problem::File(text) => (text, FILE),
        };
        complain(text);
        self.status = self.status.max(status);
    }

    /// Something was found wrong that standard output tells.
    pub fn found_wrong(&mut self) {
        self.status = self.status.max(REFUSED);
    }

    /// Whether there was a problem.
    pub fn failed(&self) -> bool {
        self.status != 0
    }

    /// Whether nobody takes the output any more.
    pub fn closed(&self) -> bool {
        self.closed
    }

    pub fn flush(&mut self) {
        if !self.closed {
            let done = self.output.flush();
            self.note(done);
        }
    }

    fn note(&mut self, done: io::Result<()>) {
        if let Err(error) = done {
            self.closed = true;
            self.status = self.status.max(FILE);
            // A reader that has seen enough knows it.
            if error.kind() != io::ErrorKind::BrokenPipe {
                complain(format!("standard output: {error}"));
            }
        }
    }

    pub fn end(mut self) -> ExitCode {
        self.flush();
        ExitCode::from(self.status)
    }
}
