//! A plan by numbers: a line `start: DART`, perhaps one `outside: DART`, and a line of entries, the turning order.

use super::{Lines, Plan, Written, Wrong};
use crate::names::beginning;
use crate::shape::areas;
use std::fmt::Write as _;

/// The plan of a file's lines.
pub fn plan(lines: &Lines) -> Result<Plan, Wrong> {
    let start = lines.start.map(|said| at_line(said, |words| dart("start", words))).transpose()?;
    let outside = lines.outside.map(|said| at_line(said, |words| dart("outside", words))).transpose()?;
    let order = lines.others.first().map(|&said| at_line(said, entries)).transpose()?;
    if let Some(&(line, _)) = lines.others.get(1) {
        return Err((line, String::from("a second line of entries")));
    }
    let (start, start_line) = start.ok_or((lines.last, String::from("no line 'start: DART'")))?;
    let (order, order_line) = order.ok_or((lines.last, String::from("no line of entries")))?;
    let (outside, outside_line) = outside.unzip();
    Ok(Plan { order, start, outside, written: Written::Numbers { order_line, start_line, outside_line } })
}

/// What a line says, and its number.
fn at_line<T>((line, words): (usize, &str), said: impl Fn(&str) -> Result<T, String>) -> Result<(T, usize), Wrong> {
    said(words).map(|said| (said, line)).map_err(|what| (line, what))
}

/// The dart in the line of this name.
fn dart(name: &str, words: &str) -> Result<u16, String> {
    match words.split_whitespace().count() {
        0 | 1 => entry(words),
        _ => Err(format!(
            "'{name}: JUNCTION TRAIL' is for a plan by junctions, with lines as 'A: a b c'; a plan by numbers has '{name}: DART'"
        )),
    }
}

fn entries(words: &str) -> Result<Vec<u16>, String> {
    words.split_whitespace().map(entry).collect()
}

/// A dart's number. No plan has a dart 65,535, so a larger number is taken as that one: it is refused for the same reason.
fn entry(word: &str) -> Result<u16, String> {
    if word.is_empty() || !word.bytes().all(|byte| byte.is_ascii_digit()) {
        return Err(format!("not a number: '{}'", beginning(word)));
    }
    Ok(word.parse().unwrap_or(u16::MAX))
}

/// The text of a plan file by numbers. The outside is named by the lowest dart of its area.
pub fn text(plan: &Plan) -> String {
    let mut text = format!("start: {}\n", plan.start);
    if let Some(outside) = plan.outside {
        let areas = areas(&plan.order);
        let _ = writeln!(text, "outside: {}", areas.least[areas.of[usize::from(outside)]]);
    }
    for (place, entry) in plan.order.iter().enumerate() {
        let _ = write!(text, "{}{entry}", if place == 0 { "" } else { " " });
    }
    text.push('\n');
    text
}

#[cfg(test)]
mod tests {
    use super::*;
    use jurnadel::Refusal;

    #[test]
    fn a_plan_file() {
        let plan = Plan::parse("# a pair\n\nstart: 1 # here\n 3 2\t1 0\n");
        let written = Written::Numbers { order_line: 4, start_line: 3, outside_line: None };
        assert_eq!(plan, Ok(Plan { order: vec![3, 2, 1, 0], start: 1, outside: None, written }));
        let plan = Plan::parse("outside : 2 # around it\n3 2 1 0\nstart: 1\n");
        let written = Written::Numbers { order_line: 2, start_line: 3, outside_line: Some(1) };
        assert_eq!(plan, Ok(Plan { order: vec![3, 2, 1, 0], start: 1, outside: Some(2), written }));
    }

    #[test]
    fn text_is_read_back() {
        let plan = |outside| Plan { start: 2, outside, ..Plan::of_order(vec![3, 2, 1, 0]) };
        assert_eq!(text(&plan(None)), "start: 2\n3 2 1 0\n");
        // Areas 0 2 and 1 3: each is named by its lowest dart.
        for (outside, least) in [(0, 0), (1, 1), (2, 0), (3, 1)] {
            let text = text(&plan(Some(outside)));
            assert_eq!(text, format!("start: 2\noutside: {least}\n3 2 1 0\n"));
            let back = Plan::parse(&text).unwrap();
            assert_eq!((&back.order[..], back.start, back.outside), (&[3, 2, 1, 0][..], 2, Some(least)));
        }
    }

    #[test]
    fn what_is_no_plan_file() {
        let wrong = |text: &str| Plan::parse(text).unwrap_err();
        assert_eq!(wrong("start: 0\n"), (1, String::from("no line of entries")));
        assert_eq!(wrong("0 1\n# end\n"), (2, String::from("no line 'start: DART'")));
        assert_eq!(wrong("start: 0\n0 -1\n"), (2, String::from("not a number: '-1'")));
        assert_eq!(wrong("start:\n0 1\n"), (1, String::from("not a number: ''")));
        assert_eq!(wrong("start: 0\nstart: 0\n0 1\n"), (2, String::from("a second line of start")));
        assert_eq!(wrong("outside: 0\nstart: 0\n0 1\noutside :1\n"), (4, String::from("a second line of outside")));
        assert_eq!(wrong("start: 0\noutside: \n0 1\n"), (2, String::from("not a number: ''")));
        assert_eq!(wrong("start: 0\noutside: x\n0 1\n"), (2, String::from("not a number: 'x'")));
        assert_eq!(wrong("outside: 0\n0 1\n"), (2, String::from("no line 'start: DART'")));
        assert_eq!(wrong("start: 0\n0\n1\n"), (3, String::from("a second line of entries")));
        assert_eq!(wrong(""), (1, String::from("no line 'start: DART'")));
        assert_eq!(wrong("start: \u{1b}[7m\n").1, "not a number: '\\x1B[7m'");
        assert_eq!(wrong(&"x".repeat(1000)).1, format!("not a number: '{}..'", "x".repeat(20)));
        assert!(wrong("0 1\nstart: A a\n").1.starts_with("'start: JUNCTION TRAIL' is for a plan by junctions"));
        assert!(wrong("0 1\nstart: 0\noutside: A a\n").1.ends_with("; a plan by numbers has 'outside: DART'"));
    }

    #[test]
    fn large_numbers_are_refused_as_they_should_be() {
        let number = |text: &str| Plan::parse(text).unwrap().standard_record(Some(2)).unwrap_err().number();
        assert_eq!(number("start: 0\n0 65536\n"), 6);
        assert_eq!(number("start: 99999999999999999999999\n0 1\n"), 4);
        let outside =
            |kind| Plan::parse("start: 0\noutside: 65536\n0 1\n").unwrap().standard_record(kind).map_err(Refusal::number);
        assert_eq!(outside(None), Err(17));
        assert_eq!(outside(Some(2)).map(|record| record.len()), Ok(8));
    }
}
