//! A plan by junctions: a line `JUNCTION: TRAIL ..` for each, its trails counterclockwise, a line `start: JUNCTION TRAIL` and
//! perhaps one `outside: JUNCTION TRAIL`.
//!
//! Each trail is named twice in the file; twice in one line it is a loop. Trails are numbered as first named, and the first
//! mention is the even dart. The start is the mention in its junction's line, of a loop the first. The outside is the area at
//! the corner just after the mention, or just before it where the line adds `right`.

use super::names::{Junction, Name, Names};
use super::{Lines, Plan, Written, Wrong};
use crate::names::{acts, beginning};
use crate::shape::{areas, round, walk, Walk};
use std::collections::{HashMap, HashSet};

/// The plan of a file's lines.
pub fn plan(lines: &Lines) -> Result<Plan, Wrong> {
    let mut reader = Reader::default();
    for &(line, words) in &lines.others {
        reader.junction(line, words).map_err(|what| (line, what))?;
    }
    let (line, words) = lines.start.ok_or((lines.last, String::from("no line 'start: JUNCTION TRAIL'")))?;
    reader.each_trail_twice()?;
    let names = reader.names;
    let (start, outside) = match (names.junctions.is_empty(), names.trails.is_empty()) {
        (true, _) => return Err((line, String::from("no junction; each has a line, as in 'A: a b c'"))),
        // The library refuses such a plan before it asks for the start.
        (false, true) => (0, None),
        (false, false) => (names.start((line, words))?, lines.outside.map(|said| names.outside(said)).transpose()?),
    };
    let (start, outside) = (number(start), outside.map(number));
    Ok(Plan { order: names.order(), start, outside, written: Written::Junctions(names) })
}

/// A dart's number. With one that doesn't fit, the plan has too many trails and is refused for that.
pub fn number(dart: usize) -> u16 {
    u16::try_from(dart).unwrap_or(u16::MAX)
}

/// What was read so far.
#[derive(Default)]
struct Reader<'a> {
    names: Names,
    junctions: HashMap<&'a str, usize>,
    trails: HashMap<&'a str, usize>,
    /// Whether each trail was named twice.
    twice: Vec<bool>,
}

impl<'a> Reader<'a> {
    /// Takes a junction's line.
    fn junction(&mut self, line: usize, words: &'a str) -> Result<(), String> {
        let wanted = "a junction's line is its name, a colon and its trails, as in 'A: a b c'";
        let (name, trails) = words.split_once(':').ok_or_else(|| format!("no colon; {wanted}"))?;
        let name = name.trim_end();
        if name.is_empty() || trails.contains(':') {
            return Err(format!("{}; {wanted}", if name.is_empty() { "no name before the colon" } else { "a second colon" }));
        }
        if name.contains(char::is_whitespace) {
            return Err(format!("'{}': a name is one word; {wanted}", beginning(name)));
        }
        let place = self.names.junctions.len();
        if let Some(first) = self.junctions.insert(name, place) {
            let first = self.names.junctions[first].name.line;
            return Err(format!("a second line for junction {}; the first is line {first}", beginning(name)));
        }
        let name = Name { text: plain(name)?, line };
        let darts = trails.split_whitespace().map(|trail| self.mention(line, trail)).collect::<Result<_, _>>()?;
        self.names.junctions.push(Junction { name, darts });
        Ok(())
    }

    /// Takes a mention of a trail: its dart.
    fn mention(&mut self, line: usize, name: &'a str) -> Result<usize, String> {
        let next = self.names.trails.len();
        let trail = *self.trails.entry(name).or_insert(next);
        if trail == next {
            self.names.trails.push(Name { text: plain(name)?, line });
            self.twice.push(false);
            return Ok(2 * trail);
        }
        match std::mem::replace(&mut self.twice[trail], true) {
            true => Err(format!("trail {} is named a third time; a trail is named at both its ends", beginning(name))),
            false => Ok(2 * trail + 1),
        }
    }

    fn each_trail_twice(&self) -> Result<(), Wrong> {
        match self.twice.iter().position(|twice| !twice) {
            Some(trail) => {
                let name = &self.names.trails[trail];
                Err((name.line, format!("trail {} is named once; a trail is named at both its ends", name.shown())))
            }
            None => Ok(()),
        }
    }
}

/// A name that can be told from others and that a terminal can take.
fn plain(name: &str) -> Result<String, String> {
    if name.contains(char::REPLACEMENT_CHARACTER) {
        return Err(format!("the name '{}' is not in UTF-8", beginning(name)));
    }
    if name.contains(acts) {
        return Err(format!("the name '{}' has a control character", beginning(name)));
    }
    Ok(name.to_string())
}

impl Names {
    /// The dart that the line `start:` names.
    fn start(&self, (line, words): (usize, &str)) -> Result<usize, Wrong> {
        let dart = match words.split_whitespace().collect::<Vec<_>>()[..] {
            [junction, trail] => self.dart(junction, trail),
            _ => Err(String::from("a plan by junctions names a dart by 'JUNCTION TRAIL', a junction and one of its trails")),
        };
        dart.map_err(|what| (line, format!("start: {what}")))
    }

    /// A dart of the area that the line `outside:` names.
    fn outside(&self, (line, words): (usize, &str)) -> Result<usize, Wrong> {
        self.area(words).map_err(|what| (line, format!("outside: {what}")))
    }

    /// A dart of the area that words name: on the left of a trail as one leaves a junction along it or, with a third word, on the
    /// right. The area of a dart is the one on its right.
    pub fn area(&self, words: &str) -> Result<usize, String> {
        match words.split_whitespace().collect::<Vec<_>>()[..] {
            [junction, trail] | [junction, trail, "left"] => Ok(self.dart(junction, trail)? ^ 1),
            [junction, trail, RIGHT] => self.dart(junction, trail),
            _ => Err(String::from(
                "a plan by junctions names an area by 'JUNCTION TRAIL', for the one on the left of the trail as one leaves the \
                 junction, or 'JUNCTION TRAIL right'",
            )),
        }
    }

    /// The dart of this trail at this junction, of a loop the first.
    fn dart(&self, junction: &str, trail: &str) -> Result<usize, String> {
        let found = self.junctions.iter().find(|known| known.name.text == junction);
        let darts = &found.ok_or_else(|| format!("there is no junction {}", beginning(junction)))?.darts;
        let dart = darts.iter().find(|&dart| self.trails[dart / 2].text == trail);
        dart.copied().ok_or_else(|| format!("junction {} has no trail {}", beginning(junction), beginning(trail)))
    }

    fn order(&self) -> Vec<u16> {
        let mut order = vec![0; 2 * self.trails.len()];
        for Junction { darts, .. } in &self.junctions {
            for (place, &dart) in darts.iter().enumerate() {
                order[dart] = number(darts[(place + 1) % darts.len()]);
            }
        }
        order
    }
}

/// The word after `JUNCTION TRAIL` that names the area on the right.
const RIGHT: &str = "right";

/// The text of a plan file by junctions, of a plan that is connected.
///
/// Junctions come as the contour walk meets them, and each line begins at the dart by which it does; so the start is the
/// first mention of its trail. Names are those that the plan has; else A, B, .. and a, b, .. as the walk goes.
pub fn text(plan: &Plan) -> String {
    let walk = walk(&plan.order, plan.start.into());
    let (junctions, trails) = plan.names().map_or_else(|| new_names(&walk), |names| names.along(&walk));
    let mut text = format!("start: {} {}\n", junctions[0], trails[usize::from(plan.start) / 2]);
    if let Some(outside) = plan.outside {
        let (junction, dart, side) = corner(&plan.order, &walk, outside.into());
        text += &format!("outside: {} {}{side}\n", junctions[junction], trails[dart / 2]);
    }
    for (junction, &first) in junctions.iter().zip(&walk.arrivals) {
        let around: Vec<&str> = round(&plan.order, first).map(|dart| &trails[dart / 2][..]).collect();
        text += &format!("{junction}: {}\n", around.join(" "));
    }
    text
}

/// How a file that follows a walk names the area of a dart: the place of a junction, one of its darts, and what follows their names. It is
/// the first mention that has the area on its left or, where none has, the first that has it on its right: of a loop one
/// mention can be named, and what is on the other's left is on its right.
fn corner(order: &[u16], walk: &Walk, dart: usize) -> (usize, usize, String) {
    let areas = areas(order);
    let in_area = |other: usize| areas.of[other] == areas.of[dart];
    let mentions =
        || (0..).zip(&walk.arrivals).flat_map(|(place, &first)| first_mentions(order, first).map(move |dart| (place, dart)));
    let left = mentions().find(|&(_, dart)| in_area(dart ^ 1)).map(|(place, dart)| (place, dart, String::new()));
    let right = || mentions().find(|&(_, dart)| in_area(dart)).map(|(place, dart)| (place, dart, format!(" {RIGHT}")));
    left.or_else(right).expect("an area has a mention on one of its sides")
}

/// The darts around a junction, from one of them on; of a loop the one that is met first.
fn first_mentions(order: &[u16], first: usize) -> impl Iterator<Item = usize> + '_ {
    let mut met = HashSet::new();
    round(order, first).filter(move |dart| met.insert(dart / 2))
}

/// New names for the junctions along a walk, and for the trails by number.
fn new_names(walk: &Walk) -> (Vec<String>, Vec<String>) {
    let mut trails = vec![String::new(); walk.trails.len()];
    for (place, &trail) in walk.trails.iter().enumerate() {
        trails[trail] = letters(b'a', place);
    }
    ((0..walk.arrivals.len()).map(|place| letters(b'A', place)).collect(), trails)
}

/// The name at this place of a, b, .., z, aa, ab, ..; `first` is the a.
fn letters(first: u8, place: usize) -> String {
    let last = char::from(first + (place % 26) as u8);
    match place / 26 {
        0 => last.to_string(),
        more => letters(first, more - 1) + &last.to_string(),
    }
}

#[cfg(test)]
mod tests {
    use super::*;

    fn wrong(text: &str) -> (usize, String) {
        Plan::parse(text).unwrap_err()
    }

    #[test]
    fn a_plan_file() {
        let plan = Plan::parse("B: y x # here\n\nstart : A y\n  A : x\ty\n").unwrap();
        assert_eq!((plan.order, plan.start), (vec![2, 3, 0, 1], 1));
        let order = |text| Plan::parse(text).map(|plan| (plan.order, plan.start));
        assert_eq!(order("1: 2\n3: 2\nstart: 3 2\n"), Ok((vec![0, 1], 1)));
        assert_eq!(order("A: a a\nstart: A a\n"), Ok((vec![1, 0], 0)));
        assert_eq!(order("A: b a c a\nB: b\nC: c\nstart: A a\n"), Ok((vec![2, 1, 4, 0, 3, 5], 2)));
    }

    #[test]
    fn each_trail_is_named_twice() {
        let once = |name| format!("trail {name} is named once; a trail is named at both its ends");
        assert_eq!(wrong("start: A a\nA: a b\n\nB: a\n"), (2, once("b")));
        assert_eq!(wrong("start: A a\nA: a\nB: a c\nC: d d\n"), (3, once("c")));
        let thrice = (4, String::from("trail b is named a third time; a trail is named at both its ends"));
        assert_eq!(wrong("A: a b\nB: b a\nstart: A a\nC: b\n"), thrice);
        assert_eq!(wrong("A: a b b b\nstart: A a\n").0, 1);
    }

    #[test]
    fn the_start() {
        let start = |words| wrong(&format!("A: a b\nB: b a\nC: c c\n{words}\n# end\n"));
        assert_eq!(start("start: D a"), (4, String::from("start: there is no junction D")));
        assert_eq!(start("start: B c"), (4, String::from("start: junction B has no trail c")));
        for words in ["start: 3", "start: A", "start:", "start: A a b"] {
            let wanted = "start: a plan by junctions names a dart by 'JUNCTION TRAIL', a junction and one of its trails";
            assert_eq!(start(words), (4, String::from(wanted)));
        }
        assert_eq!(start(""), (5, String::from("no line 'start: JUNCTION TRAIL'")));
        assert_eq!(start("start: A a\nstart: A b"), (5, String::from("a second line of start")));
    }

    /// A dead end beside a loop and one inside it: the area around them is dart 0's, the one within dart 3's.
    #[test]
    fn the_outside() {
        let outside = |words: &str| Plan::parse(&format!("start: A a\nA: a b c b\nB: a\nC: c\noutside: {words}\n"));
        let areas = areas(&[2, 1, 4, 0, 3, 5]);
        let area = |words: &str| areas.least[areas.of[usize::from(outside(words).unwrap().outside.unwrap())]];
        // Of a loop the end that is named first; just after it comes what is inside.
        for (words, least) in [("A a", 0), ("B a", 0), ("A b", 3), ("A c", 3), ("C c", 3), ("A b right", 0), ("A b left", 3)] {
            assert_eq!(area(words), least, "{words}");
        }
        let wrong = |words| outside(words).unwrap_err();
        assert_eq!(wrong("D a"), (5, String::from("outside: there is no junction D")));
        assert_eq!(wrong("B c"), (5, String::from("outside: junction B has no trail c")));
        for words in ["0", "A", "", "A a b", "A a Right", "A a right right"] {
            let (line, what) = wrong(words);
            assert!(line == 5 && what.starts_with("outside: a plan by junctions names an area by 'JUNCTION TRAIL',"), "{what}");
        }
        assert_eq!(super::tests::wrong("outside: A a\nA: a\nB: a\n"), (3, String::from("no line 'start: JUNCTION TRAIL'")));
        assert_eq!(super::tests::wrong("A: a\noutside: A a\nB: a\nstart: A a\noutside: A a\n").0, 5);
        // No junction has this name.
        assert_eq!(super::tests::wrong("start: outside a\noutside: a\nA: a\n").0, 3);
    }

    #[test]
    fn lines() {
        let wrong = |lines| wrong(&format!("start: A a\nA: a b\n{lines}\nB: b a\n"));
        let begins = |lines, beginning: &str| {
            let (line, what) = wrong(lines);
            assert!(line == 3 && what.starts_with(beginning), "{line}: {what}");
        };
        begins("A: c c", "a second line for junction A; the first is line 2");
        begins(": c c", "no name before the colon; ");
        begins("c c", "no colon; a junction's line is its name, a colon and its trails");
        begins("C: c D: c", "a second colon; ");
        begins("Blue lake: c c", "'Blue lake': a name is one word; ");
        begins("T\u{FFFD}r: c c", "the name 'T\u{FFFD}r' is not in UTF-8");
        begins("C: \u{FFFD} c", "the name '\u{FFFD}' is not in UTF-8");
        begins("C: \u{1b}[7m c", "the name '\\x1B[7m' has a control character");
        assert_eq!(super::tests::wrong("\nstart: A a\n"), (2, String::from("no junction; each has a line, as in 'A: a b c'")));
    }

    #[test]
    fn new_and_old_names() {
        let plan = Plan::parse("start: 0\n4 2 1 0 3 5\n").unwrap();
        assert_eq!(text(&plan), "start: A a\nA: a c b\nB: a b\nC: c\n");
        let plan = Plan::parse("Hut: lake ridge\nTop: ridge lake\nstart: Top lake\n").unwrap();
        assert_eq!(text(&plan), "start: Top lake\nTop: lake ridge\nHut: lake ridge\n");
        let plan = Plan::parse("Hut: lake ridge\noutside: Hut ridge\nTop: ridge lake\nstart: Top lake\n").unwrap();
        assert_eq!(text(&plan), "start: Top lake\noutside: Top lake\nTop: lake ridge\nHut: lake ridge\n");
        // One loop: its second end cannot be named.
        let ring = |outside| text(&Plan { outside: Some(outside), ..Plan::of_order(vec![1, 0]) });
        assert_eq!(ring(1), "start: A a\noutside: A a\nA: a a\n");
        assert_eq!(ring(0), "start: A a\noutside: A a right\nA: a a\n");
        let names = |places: [usize; 6]| places.map(|place| letters(b'A', place)).join(" ");
        assert_eq!(names([0, 25, 26, 51, 701, 702]), "A Z AA AZ ZZ AAA");
    }
}
