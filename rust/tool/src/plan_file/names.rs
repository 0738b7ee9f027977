//! The names in a plan file by junctions, and refusals that name them.

use super::{Plan, Wrong};
use crate::names::beginning;
use crate::report::{in_words, with_number};
use crate::shape::{areas, walk, Walk};
use jurnadel::Refusal;
use std::collections::HashSet;

/// The names in a plan file, and where they stand.
#[derive(Debug, Default, PartialEq, Eq)]
pub struct Names {
    /// As their lines come.
    pub junctions: Vec<Junction>,
    pub trails: Vec<Name>,
}

#[derive(Debug, PartialEq, Eq)]
pub struct Junction {
    pub name: Name,
    /// Its darts, counterclockwise.
    pub darts: Vec<usize>,
}

/// A name, and the line that has it first.
#[derive(Debug, PartialEq, Eq)]
pub struct Name {
    pub text: String,
    pub line: usize,
}

impl Name {
    /// As messages show it.
    pub fn shown(&self) -> String {
        beginning(&self.text)
    }
}

impl Names {
    pub fn have_lone_junction(&self) -> bool {
        self.junctions.iter().any(|junction| junction.darts.is_empty())
    }

    /// The junction of each dart.
    fn by_dart(&self) -> Vec<&Junction> {
        let mut darts: Vec<_> =
            self.junctions.iter().flat_map(|junction| junction.darts.iter().map(move |&dart| (dart, junction))).collect();
        darts.sort_by_key(|&(dart, _)| dart);
        darts.into_iter().map(|(_, junction)| junction).collect()
    }

    /// The names of the junctions along a walk, and of the trails by number.
    pub fn along(&self, walk: &Walk) -> (Vec<String>, Vec<String>) {
        let by_dart = self.by_dart();
        let junctions = walk.arrivals.iter().map(|&dart| by_dart[dart].name.text.clone()).collect();
        (junctions, self.trails.iter().map(|name| name.text.clone()).collect())
    }

    /// A refusal of the plan with these names: the line that it is about, if any, and its words.
    pub fn in_words(&self, plan: &Plan, refusal: Refusal) -> (Option<usize>, String) {
        let found = match refusal.number() {
            Refusal::BAD_COUNT => return (self.too_many_or_none(), in_words(refusal)),
            Refusal::NOT_CONNECTED => self.in_pieces(plan),
            Refusal::HAS_LOOP => self.loops(),
            Refusal::HAS_DEGREE_ONE => self.dead_end(plan),
            Refusal::NOT_TRIANGLES => self.no_triangle(plan),
            _ => None,
        };
        match found {
            Some((line, words)) => (Some(line), with_number(&words, refusal)),
            None => (None, in_words(refusal)),
        }
    }

    /// The line of the first trail too many, or of the first junction where no trail is.
    fn too_many_or_none(&self) -> Option<usize> {
        let first_too_many = self.trails.get(usize::from(jurnadel::MAX_TRAILS));
        first_too_many.or(self.junctions.first().map(|junction| &junction.name)).map(|name| name.line)
    }

    /// The first junction that the walk from the start doesn't come to.
    fn in_pieces(&self, plan: &Plan) -> Option<Wrong> {
        let start = usize::from(plan.start);
        let by_dart = self.by_dart();
        let reached = walk(&plan.order, start).arrivals;
        let reached: HashSet<usize> = reached.into_iter().map(|dart| by_dart[dart].name.line).collect();
        let far = &self.junctions.iter().find(|junction| !reached.contains(&junction.name.line))?.name;
        let near = by_dart[start].name.shown();
        Some((far.line, format!("the plan is in pieces: junction {} cannot be reached from junction {near}", far.shown())))
    }

    fn loops(&self) -> Option<Wrong> {
        let by_dart = self.by_dart();
        let trail = by_dart.chunks(2).position(|ends| std::ptr::eq(ends[0], ends[1]))?;
        let (name, junction) = (&self.trails[trail], by_dart[2 * trail].name.shown());
        let words = format!("trail {} leads back to junction {junction}, a loop, which only kinds 4 and 104h take", name.shown());
        Some((name.line, words))
    }

    /// The first junction with one trail that is not the start's.
    fn dead_end(&self, plan: &Plan) -> Option<Wrong> {
        let ends = |junction: &&Junction| junction.darts.len() == 1 && junction.darts[0] != usize::from(plan.start);
        let name = &self.junctions.iter().find(ends)?.name;
        Some((name.line, format!("junction {} is a dead end, which kinds 1 and 101h don't take", name.shown())))
    }

    /// The first mention of a trail with an area on its left that is no triangle, of a plan without loops.
    fn no_triangle(&self, plan: &Plan) -> Option<Wrong> {
        let (area, lengths) = (areas(&plan.order).of, jurnadel::areas_of(&plan.order).ok()?);
        let sides = |dart: usize| lengths[area[dart ^ 1]];
        let mut mentions = self.junctions.iter().flat_map(|junction| junction.darts.iter().map(move |&dart| (junction, dart)));
        let (junction, dart) = mentions.find(|&(_, dart)| sides(dart) != 3)?;
        let (name, trail, sides) = (&junction.name, self.trails[dart / 2].shown(), sides(dart));
        let place = format!("the area on the left of trail {trail} as one leaves junction {}", name.shown());
        Some((name.line, format!("{place} has {sides} sides; in kind 3 every area is a triangle, the one outside too")))
    }
}

#[cfg(test)]
mod tests {
    use super::*;
    use crate::report::Problem;

    /// The refusal of a text in a kind, as it is told.
    fn refusal(kind: Option<u16>, text: &str) -> String {
        let plan = Plan::parse(text).unwrap();
        match plan.problem("x", plan.standard_record(kind).unwrap_err()) {
            Problem::Refused(text) => text,
            other => panic!("{other:?}"),
        }
    }

    #[test]
    fn with_names() {
        let pieces = |place, far| {
            format!("x:{place}: the plan is in pieces: junction {far} cannot be reached from junction A (refusal 9)")
        };
        assert_eq!(refusal(None, "A: a b\nstart: A b\nB: b a\nD: c\nE: c\n"), pieces(4, "D"));
        assert_eq!(refusal(None, "C:\nA: a b\nstart: A b\nB: b a\n"), pieces(1, "C"));
        assert_eq!(refusal(None, "A: a b c\nB: a b c\nstart: A b\n").split_once(": ").unwrap().0, "x");
        let back = "x:2: trail d leads back to junction B, a loop, which only kinds 4 and 104h take (refusal 11)";
        assert_eq!([1, 2].map(|kind| refusal(Some(kind), "A: a b\nB: b d d a\nstart: A b\n")), [back; 2]);
        let dead = "x:3: junction C is a dead end, which kinds 1 and 101h don't take (refusal 12)";
        assert_eq!(refusal(Some(1), "A: a b\nB: b a c\nC: c\nstart: A b\n"), dead);
        assert_eq!(refusal(Some(1), "A: a\nB: a b\nC: b\nstart: A a\n"), dead);
        assert_eq!(
            refusal(Some(5), "A: a\nB: a\nstart: A a\n"),
            "x: there is no such kind of record; the kinds are 1, 2, 3, 4, 101h, 102h and 104h (refusal 2)"
        );
    }

    #[test]
    fn areas_that_are_no_triangles() {
        let sides = |line, trail, junction, sides| {
            let place = format!("the area on the left of trail {trail} as one leaves junction {junction}");
            let rule = "in kind 3 every area is a triangle, the one outside too";
            format!("x:{line}: {place} has {sides} sides; {rule} (refusal 18)")
        };
        assert_eq!(refusal(Some(3), "start: A a\nA: a b\nB: b a\n"), sides(2, "a", "A", 2));
        assert_eq!(refusal(Some(3), "start: A a\nA: a\nB: a\n"), sides(2, "a", "A", 2));
        // A triangle with a dead end inside, and outside.
        assert_eq!(refusal(Some(3), "start: A a\nA: a c\nB: b a\nC: c d b\nD: d\n"), sides(2, "a", "A", 5));
        assert_eq!(refusal(Some(3), "start: A a\nA: a c\nB: b a\nC: c b d\nD: d\n"), sides(2, "c", "A", 5));
        // Two triangles side by side, in the sketch of a square: the outside has four sides.
        assert_eq!(refusal(Some(3), "start: A a\n\nA: a d\nB: b e a\nC: c b\nD: d e c\n"), sides(3, "d", "A", 4));
        // A loop comes first.
        assert!(refusal(Some(3), "start: A a\nA: a b\nB: b d d a\n").ends_with("(refusal 11)"));
    }

    #[test]
    fn too_few_trails_and_too_many() {
        let count = |line| format!("x:{line}: a plan has 1 to 4,096 trails with two ends each (refusal 3)");
        assert_eq!(refusal(None, "#\nC:\nstart: C\n"), count(2));
        assert_eq!(refusal(None, "start: C c\nC:\nD:\n"), count(2));
        let ring = |trails| {
            (0..trails)
                .fold(String::from("start: 7 7\n"), |text, trail| text + &format!("{trail}: {trail} {}\n", (trail + 1) % trails))
        };
        assert_eq!(Plan::parse(&ring(4096)).unwrap().standard_record(None).unwrap().len(), 1542);
        assert_eq!(refusal(None, &ring(4097)), count(4097));
        assert_eq!(refusal(None, &(ring(40_000) + "C:\n")), count(4097));
    }
}
