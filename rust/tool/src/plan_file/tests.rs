//! What both forms have in common.

use super::*;
use crate::growing::{self, Random, Shape};
use crate::kinds::{all, group, has_outside, MESH};
use crate::shape::{areas, junctions};
use std::collections::HashSet;

impl Plan {
    /// The record under the standard group table.
    pub fn standard_record(&self, kind: Option<u16>) -> Result<Vec<u8>, Refusal> {
        self.record(&Table::standard(), kind)
    }
}

/// A random plan with this many trails, perhaps with loops.
fn plan(random: &mut Random, trails: usize) -> Plan {
    let order = growing::random(trails, Shape { dead_ends: 3, corners: 6 }, random);
    let start = random.below(order.len()) as u16;
    Plan { start, ..Plan::of_order(order) }
}

/// As [`plan`]; every other one names an outside.
fn plan_or_sheet(random: &mut Random, trails: usize) -> Plan {
    let plan = plan(random, trails);
    let outside = random.below(2 * plan.order.len());
    Plan { outside: Some(outside as u16).filter(|&dart| usize::from(dart) < plan.order.len()), ..plan }
}

/// Damages some bytes.
fn damage(random: &mut Random, text: &str) -> Vec<u8> {
    let mut bytes = text.as_bytes().to_vec();
    for _ in 0..=random.below(4) {
        let place = random.below(bytes.len() + 1);
        let byte = b":#\n\r \0a9A\xFC\x1B"[random.below(11)];
        match (random.below(4), bytes.get_mut(place)) {
            (0, Some(_)) => drop(bytes.remove(place)),
            (1, Some(there)) => *there = random.below(256) as u8,
            (2, Some(there)) => *there = byte,
            _ => bytes.insert(place, byte),
        }
    }
    bytes
}

/// The order with its darts numbered as they are met from the start by entries and opposites; then the lowest dart of the outside.
fn renumbered(plan: &Plan) -> Vec<usize> {
    let mut number = vec![usize::MAX; plan.order.len()];
    let mut met = vec![usize::from(plan.start)];
    number[met[0]] = 0;
    for at in 0..plan.order.len() {
        for dart in [usize::from(plan.order[met[at]]), met[at] ^ 1] {
            if number[dart] == usize::MAX {
                number[dart] = met.len();
                met.push(dart);
            }
        }
    }
    let order = met.iter().flat_map(|&dart| [number[usize::from(plan.order[dart])], number[dart ^ 1]]);
    let area = areas(&plan.order).of;
    let in_area =
        |outside: u16| (0..area.len()).filter(|&dart| area[dart] == area[usize::from(outside)]).map(|dart| number[dart]).min();
    order.chain(plan.outside.and_then(in_area)).collect()
}

#[test]
fn one_form_and_the_other() {
    let mut random = Random(1);
    for turn in 0..2000 {
        let trails = if turn == 0 { 4096 } else { 1 + random.below(40) };
        let plan = plan_or_sheet(&mut random, trails);
        assert_eq!(plan.sound(), Ok(()));
        let named = Plan::parse(&junctions_text(&plan)).unwrap();
        let again = Plan::parse(&text(&named)).unwrap();
        let kept = Plan::parse(&junctions_text(&named)).unwrap();
        let read = Plan::of_record(&Table::standard(), &plan.standard_record(None).unwrap()).unwrap();
        for other in [&named, &again, &kept, &read] {
            assert_eq!(renumbered(other), renumbered(&plan));
            assert_eq!(other.standard_record(None), plan.standard_record(None));
        }
        assert_eq!(text(&again), text(&named));
        assert_eq!(junctions_text(&kept), junctions_text(&plan));
    }
}

#[test]
fn comments_are_passed_over() {
    let text = commented(&["a\nb\rc", "d"], "start: 2\n3 2 1 0\n");
    assert_eq!(text, "# a b c\n# d\nstart: 2\n3 2 1 0\n");
    assert_eq!(Plan::parse(&text).map(|plan| plan.start), Ok(2));
}

/// The areas that pictures are made of have the lengths that the library gives.
#[test]
fn areas_of_the_library() {
    let mut random = Random(4);
    for turn in 0..1000 {
        let trails = if turn == 0 { 4096 } else { 1 + random.below(40) };
        let order = plan(&mut random, trails).order;
        let areas = areas(&order);
        let mut lengths = vec![0; areas.count()];
        areas.of.iter().for_each(|&area| lengths[area] += 1);
        assert_eq!(jurnadel::areas_of(&order), Ok(lengths));
    }
}

#[test]
fn random_plans_are_of_all_kinds() {
    let mut random = Random(2);
    let mut counts = [group(false), group(true)].concat().into_iter().map(|kind| (kind, 0)).collect::<Vec<_>>();
    for _ in 0..800 {
        let kind = kinds::of(&plan_or_sheet(&mut random, 4).standard_record(None).unwrap());
        counts.iter_mut().filter(|(other, _)| *other == kind).for_each(|(_, count)| *count += 1);
    }
    assert!(counts.iter().all(|&(_, count)| count > 10), "{counts:?}");
    assert!((0..100).any(|_| junctions(&plan(&mut random, 9).order).count() == 4));
}

#[test]
fn damaged_plan_files() {
    let texts = [
        "start: 0\n4 2 1 0 3 5\n",
        "# T\u{FC}r\nstart: A a\nA: a b c\nB: b a d\nC: c d # here\n",
        "start: 0\noutside: 3\n4 2 1 0 3 5\n",
        "outside: Hut lake right\nstart: Hut ridge\nHut: ridge lake\nTop: lake ridge x\nFar: x\n",
        "start : Hut ridge\r\nHut: ridge lake \r\nTop: lake ridge x\r\nFar: x\r\n",
    ];
    let mut random = Random(3);
    let mut outcomes = [0; 3];
    for turn in 0..10_000 {
        let bytes = damage(&mut random, texts[turn % texts.len()]);
        let Some(text) = text_of(&bytes) else { continue };
        let outcome = match Plan::parse(&text)
            .map(|plan| plan.standard_record(None).map_err(|refusal| plan.problem("file", refusal)))
        {
            Ok(Ok(_)) => 0,
            Ok(Err(problem)) => 1 + usize::from(!matches!(problem, Problem::Refused(_))),
            Err((line, what)) => {
                assert!((1..=text.lines().count().max(1)).contains(&line) && !what.contains(char::is_control), "{line}: {what}");
                2
            }
        };
        outcomes[outcome] += 1;
    }
    assert!(outcomes.iter().all(|&count| count > 200), "{outcomes:?}");
}

#[test]
fn texts() {
    let plan = |bytes: &[u8]| Plan::parse(&text_of(bytes).unwrap()).map(|plan| (plan.start, plan.order));
    let pair = Ok((0, vec![3, 2, 1, 0]));
    assert_eq!(plan(b"start: 0\r\n3 2 1 0\r\n"), pair);
    assert_eq!(plan(b"\xEF\xBB\xBFstart: 0\n3 2 1 0"), pair);
    assert_eq!(plan(b"# S\xFCd, S\xC3\xBCd\nstart: 0\n3 2 1 0 # \xFF\n"), pair);
    assert_eq!(plan(b"start: 0\n3 2 1 \xFC\n").unwrap_err().0, 2);
    assert_eq!(plan(b"\xEF\xBB\xBFA: a b # S\xFCd\r\nstart: A a\r\nB: b a\r\n"), Ok((0, vec![2, 3, 0, 1])));
    assert_eq!(plan(b"start: A a\nA: a S\xFCd\nB: S\xFBd a\n").unwrap_err().0, 2);
    assert_eq!(text_of(b"\xFF\xFEs\0t\0"), None);
    // Six hundred loops, one of them around the sheet: a raw record without a NUL.
    let plan = Plan { outside: Some(257), ..Plan::of_order((1..1200).chain([0]).collect()) };
    let record = plan.standard_record(None).unwrap();
    assert_eq!((record.contains(&0), text_of(&record)), (false, None));
    assert_eq!(text_of(b"# \x01\x02\n").as_deref(), Some("# \x01\x02\n"));
}

#[test]
fn kinds() {
    let kind = |text: &str| Plan::parse(text).unwrap().standard_record(None).map(|record| kinds::of(&record));
    assert_eq!(kind("start: 0\n3 2 1 0\n"), Ok(1));
    assert_eq!(kind("start: 0\n0 1\n"), Ok(2));
    assert_eq!(kind("start: 0\n1 0\n"), Ok(4));
    assert_eq!(kind("start: A a\nA: a b\nB: b a\n"), Ok(1));
    assert_eq!(kind("start: A a\nA: a\nB: a\n"), Ok(2));
    assert_eq!(kind("start: A a\nA: a a\n"), Ok(4));
    assert_eq!(kind("start: A a\nA: a b b\nB: a\n"), Ok(4));
    assert_eq!(kind("start: 0\n3 2 1 0\noutside: 1\n"), Ok(0x101));
    assert_eq!(kind("start: 0\n0 1\noutside: 0\n"), Ok(0x102));
    assert_eq!(kind("start: A a\nA: a a\noutside: A a\n"), Ok(0x104));
    assert_eq!(kind("start: 0\n5 2 1 4 3 0\n"), Ok(1));
    assert_eq!(kind("start: 0\n3 2 1 0\noutside: 4\n").unwrap_err().number(), 17);
    assert_eq!(kind("start: 0\n3 2 4 5 1 0\n").unwrap_err().number(), 10);
}

/// The kind that is taken is the first that takes the plan, of those with the outside if it names one.
#[test]
fn kinds_in_their_order() {
    let mut random = Random(5);
    for _ in 0..1000 {
        let trails = 1 + random.below(6);
        let plan = plan_or_sheet(&mut random, trails);
        let mut records = group(plan.outside.is_some()).into_iter().filter_map(|kind| plan.standard_record(Some(kind)).ok());
        assert_eq!(records.next(), plan.standard_record(None).ok());
    }
}

/// A mesh is written in kind 1 unless kind 3 is asked for, which takes fewer bytes but for the triangle; both are read as one plan.
#[test]
fn meshes() {
    let mut random = Random(7);
    let mut parallel = 0;
    for turn in 0..500 {
        let trails = if turn == 0 { 4095 } else { 3 * (1 + random.below(20)) };
        let order = growing::mesh(trails, &mut random);
        let mesh = Plan { start: random.below(order.len()) as u16, ..Plan::of_order(order) };
        assert!(jurnadel::areas_of(&mesh.order).unwrap().iter().all(|&length| length == 3));
        let [bits, record] = [None, Some(MESH)].map(|kind| mesh.standard_record(kind).unwrap());
        assert_eq!((kinds::of(&bits), kinds::of(&record)), (1, MESH));
        assert!(record.len() < bits.len() || trails == 3);
        assert!(kinds::may_have_its_length(&record));
        let read = |record: &[u8]| Plan::of_record(&Table::standard(), record).unwrap();
        assert_eq!(read(&record), read(&bits));
        assert_eq!(renumbered(&read(&record)), renumbered(&mesh));
        parallel += usize::from(junctions(&mesh.order).of.chunks(2).collect::<HashSet<_>>().len() < trails);
    }
    assert!(parallel > 50, "{parallel}");
}

/// Kinds without the outside take no notice of it, and those with it have the start's where a plan names none.
#[test]
fn kinds_that_were_asked_for() {
    let mut random = Random(6);
    for _ in 0..1000 {
        let trails = 1 + random.below(6);
        let plan = plan_or_sheet(&mut random, trails);
        for kind in [all(false), all(true)].concat() {
            let other = Plan { outside: Some(plan.start).filter(|_| has_outside(kind) && plan.outside.is_none()), ..of(&plan) };
            let wanted = if has_outside(kind) && plan.outside.is_some() { &plan } else { &other };
            assert_eq!(plan.standard_record(Some(kind)), wanted.standard_record(Some(kind)));
        }
    }
}

/// The same turning order and start, without an outside.
fn of(plan: &Plan) -> Plan {
    Plan { start: plan.start, ..Plan::of_order(plan.order.clone()) }
}
