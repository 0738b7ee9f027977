//! Plans drawn, and read back from the text of the picture.

use super::check::{self, Shown};
use super::layout::Layout;
use super::net::Net;
use super::{svg, text, Picture};
use crate::growing::{random, Growing, Random, Shape};
use std::collections::BTreeMap;
use std::sync::atomic::{AtomicUsize, Ordering::Relaxed};
use std::thread;

fn drawn(order: &[u16], start: u16, outside: u16) -> String {
    svg(&Picture { order, start, outside, trails: &BTreeMap::new(), junctions: &BTreeMap::new() })
}

/// The darts of an area, in their order from the least.
fn area(order: &[u16], first: u16) -> Vec<u16> {
    let mut darts = vec![first];
    while order[usize::from(darts[darts.len() - 1] ^ 1)] != first {
        darts.push(order[usize::from(darts[darts.len() - 1] ^ 1)]);
    }
    let least = (0..darts.len()).min_by_key(|&place| darts[place]).unwrap();
    darts.rotate_left(least);
    darts
}

/// Holds what a picture shows against its plan.
fn holds(name: &str, text: &str, order: &[u16], outside: u16) {
    let Shown { order: shown, outside: around } = check::read(text).unwrap_or_else(|wrong| panic!("{name}: {wrong}"));
    assert!(shown == order, "{name}: another turning order");
    assert!(around == area(order, outside), "{name}: another area outside");
}

/// Each plan with one trail more.
fn one_more(plan: &Growing) -> Vec<Growing> {
    let mut plans = Vec::new();
    for after in 0..plan.order.len() as u16 {
        let mut grow = |step: &dyn Fn(&mut Growing)| {
            let mut plan = plan.clone();
            step(&mut plan);
            plans.push(plan);
        };
        grow(&|plan| _ = plan.dead_end(after));
        for corners in 0..area(&plan.order, plan.order[usize::from(after)]).len() {
            grow(&|plan| _ = plan.across(after, corners));
        }
    }
    plans
}

const SHAPES: [Shape; 7] = [
    Shape { dead_ends: 10, corners: 1 },
    Shape { dead_ends: 3, corners: 1 },
    Shape { dead_ends: 3, corners: 2 },
    Shape { dead_ends: 5, corners: 4 },
    Shape { dead_ends: 1, corners: 4 },
    Shape { dead_ends: 4, corners: 30 },
    Shape { dead_ends: 6, corners: 300 },
];

/// A plan grown from another, each trail at the dart that the one before leads to.
fn trail_by_trail(trails: usize, mut first: Growing, mut next: impl FnMut(&mut Growing, u16) -> u16) -> Vec<u16> {
    let mut last = 1;
    while first.order.len() < 2 * trails {
        last = next(&mut first, last);
    }
    first.order
}

/// Trails of the largest plans.
const M: usize = 4096;

type Named = (&'static str, Vec<u16>);

fn large() -> Vec<Named> {
    let mut numbers = Random(4096);
    let mut plans = vec![("tree", random(M, SHAPES[0], &mut numbers)), ("mixed", random(M, SHAPES[5], &mut numbers))];
    plans.extend([("dense", random(M, SHAPES[4], &mut numbers)), ("grid", grid(45))]);
    plans.extend(large_trees());
    plans.extend(large_with_loops());
    plans
}

fn large_trees() -> [Named; 3] {
    let path = |plan: &mut Growing, last: u16| plan.dead_end(last) + 1;
    let star = |plan: &mut Growing, last: u16| {
        plan.dead_end(0);
        last
    };
    let caterpillar = |plan: &mut Growing, last: u16| {
        let dart = plan.dead_end(last);
        if dart.is_multiple_of(4) {
            last
        } else {
            dart + 1
        }
    };
    [
        ("path", trail_by_trail(M, Growing::trail(), path)),
        ("star", trail_by_trail(M, Growing::trail(), star)),
        ("caterpillar", trail_by_trail(M, Growing::trail(), caterpillar)),
    ]
}

fn large_with_loops() -> [Named; 4] {
    let next_corner = |plan: &mut Growing, last: u16| {
        plan.across(0, 1);
        last
    };
    let same_corner = |plan: &mut Growing, last: u16| {
        plan.across(last, 0);
        last
    };
    let stems =
        |plan: &mut Growing, last: u16| if plan.order.len() % 4 == 2 { plan.dead_end(last) + 1 } else { plan.across(last, 0) };
    [
        ("parallel trails", trail_by_trail(M, Growing::trail(), next_corner)),
        ("loops in each other", trail_by_trail(M, Growing::one_loop(), next_corner)),
        ("loops side by side", trail_by_trail(M, Growing::one_loop(), same_corner)),
        ("loops on stems in each other", trail_by_trail(M, Growing::one_loop(), stems)),
    ]
}

/// Junctions in rows and columns.
fn grid(side: usize) -> Vec<u16> {
    let mut ends = vec![[None; 4]; side * side];
    let mut darts = 0;
    for row in 0..side {
        for column in 0..side {
            let here = row * side + column;
            if column + 1 < side {
                (ends[here][0], ends[here + 1][2]) = (Some(darts), Some(darts + 1));
                darts += 2;
            }
            if row + 1 < side {
                (ends[here][1], ends[here + side][3]) = (Some(darts), Some(darts + 1));
                darts += 2;
            }
        }
    }
    let mut order = vec![0; usize::from(darts)];
    for ends in ends {
        let around: Vec<u16> = ends.into_iter().flatten().collect();
        (0..around.len()).for_each(|place| order[usize::from(around[place])] = around[(place + 1) % around.len()]);
    }
    order
}

/// Draws a random plan of up to 200 trails, every other time of up to 40; often another area is outside than the start's.
fn random_plan_holds(round: usize) {
    let mut numbers = Random(round as u64);
    let trails = if round == 0 { 200 } else { numbers.size(if round.is_multiple_of(2) { 200 } else { 40 }) };
    let order = random(trails, SHAPES[round % SHAPES.len()], &mut numbers);
    let [start, other] = [0; 2].map(|_| numbers.below(order.len()) as u16);
    let outside = if round % 4 < 2 { start } else { other };
    holds(&format!("plan {round} of {trails} trails"), &drawn(&order, start, outside), &order, outside);
}

#[test]
fn a_thousand_random_plans() {
    let next = AtomicUsize::new(0);
    let rounds = || std::iter::repeat_with(|| next.fetch_add(1, Relaxed)).take_while(|&round| round < 1000);
    thread::scope(|scope| {
        for _ in 0..thread::available_parallelism().map_or(1, usize::from) {
            scope.spawn(|| rounds().for_each(random_plan_holds));
        }
    });
}

#[test]
fn every_small_plan_with_every_area_outside() {
    let mut plans = vec![Growing::trail(), Growing::one_loop()];
    for _ in 0..2 {
        let next: Vec<Growing> = plans.iter().flat_map(one_more).collect();
        for order in plans.iter().chain(&next).map(|plan| &plan.order) {
            for outside in 0..order.len() as u16 {
                holds(&format!("{order:?}"), &drawn(order, order[usize::from(outside)], outside), order, outside);
            }
        }
        plans = next;
    }
}

#[test]
fn large_plans() {
    for (name, order) in large() {
        holds(name, &drawn(&order, 0, 0), &order, 0);
    }
}

/// The placement that is left when all others fail.
#[test]
fn plans_on_the_grid() {
    let mut numbers = Random(7);
    let plans = (0..200).map(|round| random(1 + round, SHAPES[round % SHAPES.len()], &mut numbers)).collect::<Vec<_>>();
    for order in plans.into_iter().chain(large().into_iter().map(|(_, order)| order).step_by(3)) {
        let net = Net::new(&order, 0, 1);
        let spots = super::grid::place(&net);
        let picture = Picture { order: &order, start: 0, outside: 1, trails: &BTreeMap::new(), junctions: &BTreeMap::new() };
        holds("on the grid", &text::write(&picture, &Layout::from_grid(net, &spots)), &order, 1);
    }
}

/// What keeps curves apart: between points on trails there are no links but sides.
#[test]
fn links_leave_trails_their_triangles() {
    let mut numbers = Random(11);
    for round in 0..30 {
        let layout = Layout::new(Net::new(&random(5 + 2 * round, SHAPES[round % SHAPES.len()], &mut numbers), 0, 0));
        let on_trail = |&point: &usize| layout.net.on_trail(point);
        let points = (0..layout.net.points()).filter(|point| on_trail(point));
        let links: usize = points.map(|point| layout.net.link(point).iter().copied().filter(|end| on_trail(end)).count()).sum();
        assert_eq!(links, 2 * layout.net.routes.iter().map(|route| route.len() - 1).sum::<usize>());
    }
}

#[test]
fn names_are_shown_and_escaped() {
    let name = |number, text: &str| BTreeMap::from([(number, String::from(text))]);
    let (trails, junctions) = (name(1, "Kar <& \"Grat\">\u{1}"), name(0, "H\u{fc}tte 'A'"));
    let text = svg(&Picture { order: &[3, 2, 1, 0], start: 2, outside: 2, trails: &trails, junctions: &junctions });
    holds("a pair", &text, &[3, 2, 1, 0], 2);
    assert!(text.contains(">Kar &lt;&amp; &quot;Grat&quot;&gt;\u{fffd}</text>"));
    assert!(text.contains(">H\u{fc}tte &#39;A&#39;</text>"));
    assert!(text.contains(">start: trail Kar &lt;&amp;"));
    assert!(text.contains(">0</text>"));
}

/// Ten loops at one junction, from each of their ends: its name doesn't stand on the arrow head, which tells the end.
#[test]
fn the_start_can_be_seen() {
    let order: Vec<u16> = (1..20).chain([0]).collect();
    for start in 0..20 {
        let junctions = BTreeMap::from([(0, String::from("Hub"))]);
        let text = svg(&Picture { order: &order, start, outside: start, trails: &BTreeMap::new(), junctions: &junctions });
        let numbers = |tag: &str| {
            let words = tag.split(['"', ' ', ',']);
            words.filter_map(|word| word.parse().ok()).collect::<Vec<f64>>()
        };
        let name = text.lines().find(|line| line.ends_with(">Hub</text>")).unwrap();
        let [x, y, size, ..] = numbers(name)[..] else { panic!("{name}") };
        let [tip_x, tip_y, ..] = numbers(text.lines().find(|line| line.starts_with("<polygon")).unwrap())[..] else { panic!() };
        let covered = (tip_x - x).abs() < 0.9 * size && (y - 0.75 * size..y).contains(&tip_y);
        assert!(!covered, "start {start}: {name} {tip_x} {tip_y}");
    }
}

#[test]
fn the_same_plan_gives_the_same_text() {
    let order = random(40, SHAPES[5], &mut Random(3));
    assert_eq!(drawn(&order, 3, 5), drawn(&order, 3, 5));
}

/// A picture of two trails, each from a place to another, with these circles.
fn by_hand(first: &str, second: &str, circles: &[(&str, u16, u16)]) -> String {
    let mut text = format!("<path data-trail=\"0\" data-begin=\"0\" data-end=\"1\" d=\"{first}\"/>");
    text += &format!("<path data-trail=\"1\" data-begin=\"2\" data-end=\"3\" d=\"{second}\"/>");
    circles.iter().for_each(|(darts, x, y)| text += &format!("<circle data-darts=\"{darts}\" cx=\"{x}\" cy=\"{y}\" r=\"1\"/>"));
    text
}

#[test]
fn the_checker_reads_what_is_seen() {
    // A path, the second trail up from the end of the first.
    let circles = [("0", 0, 9), ("1 2", 9, 9), ("3", 9, 0)];
    let shown = check::read(&by_hand("M0 9L9 9", "M9 9L9 0", &circles)).unwrap();
    assert_eq!((shown.order, shown.outside), (vec![0, 2, 1, 3], vec![0, 2, 3, 1]));
    // A trail inside a loop, clockwise from its begin dart.
    let circles = [("0 1 2", 0, 9), ("3", 5, 9)];
    let shown = check::read(&by_hand("M0 9L9 0L9 18L0 9", "M0 9L5 9", &circles)).unwrap();
    assert_eq!((shown.order, shown.outside), (vec![1, 2, 0, 3], vec![1]));
}

#[test]
fn the_checker_finds_what_is_wrong() {
    let ends = [("0", 0, 0), ("1", 9, 9), ("2", 0, 9), ("3", 9, 0)];
    let wrong = |first: &str, second: &str| check::read(&by_hand(first, second, &ends)).unwrap_err();
    assert_eq!(wrong("M0 0L9 9", "M0 9L9 0"), "trails 0 and 1 meet");
    assert_eq!(wrong("M0 0L9 9", "M0 9L5 5L9 0"), "trails 0 and 1 meet");
    assert_eq!(wrong("M0 0L9 9", "M0 9Q12 12 9 0"), "trails 0 and 1 meet");
    assert_eq!(wrong("M0 0L9 0L9 9", "M0 9L9 0"), "trails 0 and 1 meet");
    assert_eq!(wrong("M0 0L9 0L3 3L3 -3L9 9", "M0 9L0 12L9 12L9 10"), "trails 0 and 0 meet");
    let fold = by_hand("M0 0L9 0", "M0 0L5 0", &[("0 2", 0, 0), ("1", 9, 0), ("3", 5, 0)]);
    assert_eq!(check::read(&fold).unwrap_err(), "trails 0 and 1 meet");
    assert_eq!(
        check::read("<path data-trail=\"0\" data-begin=\"0\" data-end=\"3\" d=\"M0 0L1 1\"/>").unwrap_err(),
        "darts 0 and 3 on trail 0"
    );
}

#[test]
fn the_checker_tells_turning_orders_apart() {
    let star = [2, 1, 4, 3, 0, 5];
    let text = drawn(&star, 0, 0);
    let swap = |text: &str| {
        let text = text.replace("data-trail=\"1\" data-begin=\"2\" data-end=\"3\"", "data-trail=\"9\"");
        let text =
            text.replace("data-trail=\"2\" data-begin=\"4\" data-end=\"5\"", "data-trail=\"1\" data-begin=\"2\" data-end=\"3\"");
        text.replace("data-trail=\"9\"", "data-trail=\"2\" data-begin=\"4\" data-end=\"5\"").replace("\"0 2 4\"", "\"0 4 2\"")
    };
    let text = swap(&text).replace("data-darts=\"3\"", "data-darts=\"x\"").replace("data-darts=\"5\"", "data-darts=\"3\"");
    assert_eq!(check::read(&text.replace("data-darts=\"x\"", "data-darts=\"5\"")).unwrap().order, [4, 1, 0, 3, 2, 5]);
}
