//! Plan files: a plan as text, by numbers (`numbers`) or by junctions (`junctions`, `names`).
//!
//! One line `start: ..` and perhaps one `outside: ..`; beside them one line of entries or, by junctions, a line `NAME: TRAIL ..`
//! for each. `#` begins a comment, blank lines are skipped. Comments may be in any encoding that has ASCII's bytes.

mod junctions;
mod names;
mod numbers;
#[cfg(test)]
mod tests;

pub use junctions::text as junctions_text;
pub use numbers::text;

use crate::files::{bytes_of, text_of};
use crate::kinds::{self, in_kind};
use crate::names::beginning;
use crate::options::Word;
use crate::report::{in_words, Problem};
use jurnadel::{Refusal, Table};
use names::Names;
use std::collections::BTreeMap;
use std::fmt::Display;

/// A line, and what is wrong there.
type Wrong = (usize, String);

/// A plan.
#[derive(Debug, PartialEq, Eq)]
pub struct Plan {
    pub order: Vec<u16>,
    pub start: u16,
    /// A dart of the area that is outside, if the plan names one.
    pub outside: Option<u16>,
    written: Written,
}

/// Where a plan was written: what is known of its lines and names.
#[derive(Debug, PartialEq, Eq)]
enum Written {
    Numbers {
        order_line: usize,
        start_line: usize,
        outside_line: Option<usize>,
    },
    Junctions(Names),
    /// Not in a plan file.
    Elsewhere,
}

impl Plan {
    /// The plan of a file, `-` for standard input.
    pub fn load(path: &Word) -> Result<Plan, Problem> {
        let bytes = bytes_of(path)?;
        let text = text_of(&bytes).ok_or_else(|| Problem::file(path, "not a plan file: not text"))?;
        Plan::of_text(path, &text)
    }

    /// The plan of the text of this file.
    pub fn of_text(path: &Word, text: &str) -> Result<Plan, Problem> {
        Plan::parse(text).map_err(|(line, what)| Problem::file(format!("{path}:{line}"), what))
    }

    /// The plan of a text, or a line and what is wrong there.
    pub fn parse(text: &str) -> Result<Plan, Wrong> {
        let lines = Lines::of(text)?;
        match lines.by_junctions() {
            true => junctions::plan(&lines),
            false => numbers::plan(&lines),
        }
    }

    /// The plan of this turning order with start 0.
    pub fn of_order(order: Vec<u16>) -> Plan {
        Plan { order, start: 0, outside: None, written: Written::Elsewhere }
    }

    /// The plan of a record under this group table, in standard numbering. It names an outside where the record's kind does.
    pub fn of_record(table: &Table, record: &[u8]) -> Result<Plan, Refusal> {
        let jurnadel::Plan { order, outside } = jurnadel::plan_of(table, record)?;
        let outside = kinds::has_outside(kinds::of(record)).then_some(outside);
        Ok(Plan { outside, ..Plan::of_order(order) })
    }

    /// A dart of the area that is outside: the start's, where the plan names none.
    pub fn outer_dart(&self) -> u16 {
        self.outside.unwrap_or(self.start)
    }

    /// The record in this kind, under this group table; with no kind given see [`in_kind`].
    pub fn record(&self, table: &Table, kind: Option<u16>) -> Result<Vec<u8>, Refusal> {
        // The library knows trail ends, so of a junction without one it is told by a plan that is in pieces as well.
        let (order, start, outside) = match self.has_lone_junction() {
            true => (&[0, 1, 2, 3][..], 0, 0),
            false => (&self.order[..], self.start, self.outer_dart()),
        };
        in_kind(kind, self.outside.is_some(), |kind| jurnadel::record_of(table, order, start, outside, kind))
    }

    /// The record that tells it from other plans, in the kind that takes every plan: with the outside, if it names one. It has no groups,
    /// and so is the same under every table.
    pub fn key(&self) -> Result<Vec<u8>, Refusal> {
        let [.., any] = kinds::group(self.outside.is_some());
        self.record(&Table::standard(), Some(any))
    }

    /// Whether it is a plan at all, connected and planar.
    pub fn sound(&self) -> Result<(), Refusal> {
        self.key().map(drop)
    }

    /// A refusal of the plan in this file: with the line that it is about, and with names where the plan has them.
    pub fn problem(&self, file: impl Display, refusal: Refusal) -> Problem {
        let (line, words) = match &self.written {
            Written::Numbers { start_line, .. } if refusal.number() == Refusal::BAD_START => {
                (Some(*start_line), in_words(refusal))
            }
            Written::Numbers { outside_line, .. } if refusal.number() == Refusal::BAD_OUTSIDE => {
                (*outside_line, in_words(refusal))
            }
            Written::Numbers { order_line, .. } => (Some(*order_line), in_words(refusal)),
            Written::Junctions(names) => names.in_words(self, refusal),
            Written::Elsewhere => (None, in_words(refusal)),
        };
        let line = line.map_or(String::new(), |line| format!(":{line}"));
        Problem::Refused(format!("{file}{line}: {words}"))
    }

    /// A dart of the area that words name: its number or, in a plan by junctions, what its line `outside:` may say.
    pub fn area(&self, words: &str) -> Result<u16, String> {
        let number = words.parse().ok().filter(|&dart: &u16| usize::from(dart) < self.order.len());
        match (number, self.names()) {
            (Some(dart), _) => Ok(dart),
            (None, Some(names)) => names.area(words).map(junctions::number),
            (None, None) => Err(format!("the plan has darts 0 to {}, not {}", self.order.len() - 1, beginning(words))),
        }
    }

    /// The names of the trails by their numbers, if they have names.
    pub fn trail_names(&self) -> BTreeMap<u16, String> {
        let names = self.names().into_iter().flat_map(|names| &names.trails);
        (0..).zip(names.map(|name| name.text.clone())).collect()
    }

    /// The names of the junctions by their least darts, if they have names.
    pub fn junction_names(&self) -> BTreeMap<u16, String> {
        let junctions = self.names().into_iter().flat_map(|names| &names.junctions);
        junctions
            .filter_map(|junction| Some((junctions::number(*junction.darts.iter().min()?), junction.name.text.clone())))
            .collect()
    }

    fn names(&self) -> Option<&Names> {
        match &self.written {
            Written::Junctions(names) => Some(names),
            _ => None,
        }
    }

    /// Whether a junction has no trail, though the plan has some and not too many: that is refused first.
    fn has_lone_junction(&self) -> bool {
        let count_is_right = (1..=usize::from(jurnadel::MAX_TRAILS)).contains(&(self.order.len() / 2));
        count_is_right && self.names().is_some_and(Names::have_lone_junction)
    }
}

/// A plan file with comments on its first lines, a line each.
pub fn commented(comments: &[&str], text: &str) -> String {
    let lines = comments.iter().map(|comment| format!("# {}\n", comment.replace(char::is_control, " ")));
    lines.chain([text.to_owned()]).collect()
}

/// The lines of a plan file that say something, without comments, each with its number.
struct Lines<'a> {
    /// What the lines `start:` and `outside:` say.
    start: Option<(usize, &'a str)>,
    outside: Option<(usize, &'a str)>,
    others: Vec<(usize, &'a str)>,
    /// The number of the last line of all.
    last: usize,
}

impl<'a> Lines<'a> {
    fn of(text: &'a str) -> Result<Lines<'a>, Wrong> {
        let mut lines = Lines { start: None, outside: None, others: Vec::new(), last: 1 };
        for (number, line) in (1..).zip(text.lines()) {
            lines.last = number;
            let line = line.split('#').next().unwrap_or("").trim();
            let (word, words) = line.split_once(':').unwrap_or_default();
            match lines.named(word.trim_end()) {
                Some(Some(_)) => return Err((number, format!("a second line of {}", word.trim_end()))),
                Some(said) => *said = Some((number, words.trim())),
                None if line.is_empty() => {}
                None => lines.others.push((number, line)),
            }
        }
        Ok(lines)
    }

    /// What the line of this name says.
    fn named(&mut self, word: &str) -> Option<&mut Option<(usize, &'a str)>> {
        match word {
            "start" => Some(&mut self.start),
            "outside" => Some(&mut self.outside),
            _ => None,
        }
    }

    /// Whether the plan is by junctions: some line but the start's and the outside's has a colon; or there is no other line, and
    /// one of these has two words.
    fn by_junctions(&self) -> bool {
        match self.others.is_empty() {
            true => [self.start, self.outside].iter().flatten().any(|(_, words)| words.split_whitespace().count() > 1),
            false => self.others.iter().any(|(_, line)| line.contains(':')),
        }
    }
}
