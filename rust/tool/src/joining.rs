//! Which trail ends of a graph belong together: from lists of neighbours to a turning order.
//!
//! Lists name neighbours, not edges. Where k parallel edges join u and v, they don't say which dart at u belongs to which at v.
//! In the plane these edges cut the sphere into k sectors, and stand around v in the opposite turn from that around u; what
//! is left open is by how much one list is turned against the other.
//!
//! * A part of the graph that hangs on both u and v lies in one sector, and so fixes the turn.
//! * Where no such part is, the k edges cut the graph in two, and every turn is planar if one is. On the side of the start a
//!   rooted map tells all darts apart. So a turn by one sector gives the same plan exactly if the far side has a symmetry that
//!   takes each sector to the next, and then every turn does. Whether it has one is a matter of the plan, however it came
//!   about: where no such pair's turn by one sector changes the plan, no turns of several pairs do, one after the other.
//!
//! A vertex lists itself twice for each loop, and doesn't say which two entries are the ends of one. A part of the graph that hangs
//! on u lies on one side of each loop at u. So the entries of a part cut the list of u into regions, and a loop has both ends in one;
//! within a region every nesting is planar, whatever the turns of parallel edges are. Two loops in one region nest in two ways, and
//! these are two plans, for a rooted map tells all darts apart without its loops. So loops are fixed exactly if no region has two.
//!
//! So the graph is taken exactly if all planar ways to join it give one plan.

use crate::kinds::ANY;
use crate::planar_code::Graph;
use crate::report::in_words;
use jurnadel::{Refusal, Table, MAX_TRAILS};
use std::collections::BTreeMap;
use std::fmt;

/// Why a graph has no turning order. Vertices are counted from 0.
#[derive(Debug, PartialEq, Eq)]
pub enum Untaken {
    /// The library refuses it.
    Refused(Refusal),
    /// A vertex without edges beside others, which the library cannot see.
    Alone(usize),
    /// The vertex lists itself an odd number of times.
    HalfLoop(usize),
    /// The first vertex lists the second another number of times than the second lists the first.
    OneSided(usize, usize),
    /// The loops of this vertex can be joined in ways that give different plans.
    OpenLoops(usize),
    /// Parallel edges of these vertices can be joined in ways that give different plans.
    Ambiguous(usize, usize),
}

impl fmt::Display for Untaken {
    fn fmt(&self, f: &mut fmt::Formatter<'_>) -> fmt::Result {
        match self {
            Untaken::Refused(refusal) => in_words(*refusal).fmt(f),
            Untaken::Alone(u) => write!(f, "no trail leads to junction {}, so the plan is in pieces (refusal 9)", u + 1),
            Untaken::HalfLoop(u) => write!(f, "junction {} lists itself an odd number of times; a loop has two ends", u + 1),
            Untaken::OneSided(u, v) => write!(f, "junctions {} and {} don't list each other equally often", u + 1, v + 1),
            Untaken::OpenLoops(u) => write!(f, "planar_code leaves open how the loops of junction {} are joined", u + 1),
            Untaken::Ambiguous(u, v) => {
                write!(f, "planar_code leaves open how the parallel trails of junctions {} and {} are joined", u + 1, v + 1)
            }
        }
    }
}

/// The edges between two vertices: where each lists the other. The i-th edge at u is the (turn - i)-th at v. A loop is a bundle
/// of its own, with one edge and u = v.
struct Bundle {
    u: usize,
    v: usize,
    at_u: Vec<usize>,
    at_v: Vec<usize>,
    turn: usize,
}

/// The turning order of a graph. Edges are numbered as first listed; dart 0, the start, is the first entry of the first
/// vertex. A plan turns counterclockwise, so the lists are taken backwards.
pub fn turning_order(graph: &Graph) -> Result<Vec<u16>, Untaken> {
    // Too many edges are refused before parallel ones are joined, which would take long.
    let darts: usize = graph.iter().map(Vec::len).sum();
    if darts > 2 * usize::from(MAX_TRAILS) {
        record(&vec![0; darts])?;
    }
    if let (Some(alone), 2..) = (graph.iter().position(Vec::is_empty), graph.len()) {
        return Err(Untaken::Alone(alone));
    }
    let mut bundles = bundles(graph)?;
    let free = fix_turns(graph, &mut bundles);
    let open = add_loops(graph, &mut bundles);
    let order = joined(graph, &bundles);
    let wanted = record(&order)?;
    if let Some(u) = open {
        return Err(Untaken::OpenLoops(u));
    }
    for index in free {
        bundles[index].turn = 1;
        if record(&joined(graph, &bundles))? != wanted {
            return Err(Untaken::Ambiguous(bundles[index].u, bundles[index].v));
        }
        bundles[index].turn = 0;
    }
    Ok(order)
}

/// Whether every two vertices list each other equally often, and each lists itself an even number of times.
pub fn is_mutual(graph: &Graph) -> bool {
    bundles(graph).is_ok()
}

fn record(order: &[u16]) -> Result<Vec<u8>, Untaken> {
    jurnadel::record_of(&Table::standard(), order, 0, 0, ANY).map_err(Untaken::Refused)
}

/// The bundles of a graph but its loops, with turn 0.
fn bundles(graph: &Graph) -> Result<Vec<Bundle>, Untaken> {
    // The indices at which a vertex lists another.
    let mut listed: BTreeMap<(usize, usize), Vec<usize>> = BTreeMap::new();
    for (u, list) in graph.iter().enumerate() {
        for (index, &v) in list.iter().enumerate() {
            listed.entry((u, v)).or_default().push(index);
        }
    }
    let mut bundles = Vec::new();
    for (&(u, v), at_u) in &listed {
        match listed.get(&(v, u)) {
            _ if u == v && at_u.len() % 2 == 1 => return Err(Untaken::HalfLoop(u)),
            Some(at_v) if at_v.len() == at_u.len() => {
                if u < v {
                    bundles.push(Bundle { u, v, at_u: at_u.clone(), at_v: at_v.clone(), turn: 0 });
                }
            }
            _ => return Err(Untaken::OneSided(u, v)),
        }
    }
    Ok(bundles)
}

/// Sets the turns that the graph fixes; returns which bundles it leaves free.
fn fix_turns(graph: &Graph, bundles: &mut [Bundle]) -> Vec<usize> {
    let mut free = Vec::new();
    for (index, bundle) in bundles.iter_mut().enumerate().filter(|(_, bundle)| bundle.at_u.len() > 1) {
        match turn(graph, bundle) {
            Some(turn) => bundle.turn = turn,
            None => free.push(index),
        }
    }
    free
}

/// Adds the loops of a graph to its bundles; returns a vertex of which it leaves open how they are joined.
fn add_loops(graph: &Graph, bundles: &mut Vec<Bundle>) -> Option<usize> {
    let mut open = None;
    for u in (0..graph.len()).filter(|u| graph[*u].contains(u)) {
        let regions = loop_ends(graph, u);
        if open.is_none() && regions.iter().any(|ends| ends.len() > 2) {
            open = Some(u);
        }
        // In a region with an odd number of ends no way is planar; then what is made here is not, and the library says so.
        let ends = regions.concat();
        bundles.extend(ends.chunks(2).map(|ends| Bundle { u, v: u, at_u: vec![ends[0]], at_v: vec![ends[1]], turn: 0 }));
    }
    open
}

/// Where a vertex lists itself, region by region: a region lies between two entries of a part, one after the other, and what is
/// in none of these is the first.
fn loop_ends(graph: &Graph, u: usize) -> Vec<Vec<usize>> {
    let parts = parts_without(graph, &[u]);
    // How many entries of each part are still to come, and how many there are.
    let mut left = vec![0; graph.len()];
    graph[u].iter().filter(|&&neighbour| neighbour != u).for_each(|&neighbour| left[parts[neighbour]] += 1);
    let all = left.clone();
    let mut regions = vec![Vec::new()];
    // The regions that an entry lies in, the innermost last.
    let mut around = vec![0];
    for (index, &neighbour) in graph[u].iter().enumerate() {
        if neighbour == u {
            regions[around[around.len() - 1]].push(index);
            continue;
        }
        let part = parts[neighbour];
        if left[part] < all[part] {
            around.pop();
        }
        left[part] -= 1;
        if left[part] > 0 {
            around.push(regions.len());
            regions.push(Vec::new());
        }
    }
    regions
}

/// The turning order with these turns.
fn joined(graph: &Graph, bundles: &[Bundle]) -> Vec<u16> {
    let begin = beginnings(graph);
    let opposite = opposite_places(&begin, bundles);
    let mut dart = vec![u16::MAX; opposite.len()];
    let mut darts = 0;
    for place in 0..dart.len() {
        if dart[place] == u16::MAX {
            (dart[place], dart[opposite[place]]) = (darts, darts + 1);
            darts += 2;
        }
    }
    let mut order = vec![0; dart.len()];
    for list in begin.windows(2).map(|ends| &dart[ends[0]..ends[1]]) {
        for (index, &this) in list.iter().enumerate() {
            order[usize::from(this)] = list[(index + list.len() - 1) % list.len()];
        }
    }
    order
}

/// Entries are counted through all lists, as places: those at which the lists begin, and the end of the last.
fn beginnings(graph: &Graph) -> Vec<usize> {
    let mut begin = vec![0];
    begin.extend(graph.iter().scan(0, |end, list| {
        *end += list.len();
        Some(*end)
    }));
    begin
}

/// For each place the one at the other end of its edge.
fn opposite_places(begin: &[usize], bundles: &[Bundle]) -> Vec<usize> {
    let mut opposite = vec![0; begin[begin.len() - 1]];
    for Bundle { u, v, at_u, at_v, turn } in bundles {
        for (i, index) in at_u.iter().enumerate() {
            let here = begin[*u] + index;
            let there = begin[*v] + at_v[(turn + at_v.len() - i) % at_v.len()];
            (opposite[here], opposite[there]) = (there, here);
        }
    }
    opposite
}

/// The turn that a part fixes which hangs on both ends. A sector that follows the i-th edge clockwise at u comes before it at
/// v, so it follows edge turn - i - 1 there.
fn turn(graph: &Graph, Bundle { u, v, at_u, at_v, .. }: &Bundle) -> Option<usize> {
    let parts = parts_without(graph, &[*u, *v]);
    let (sectors_u, sectors_v) = (sectors(&graph[*u], at_u, &parts), sectors(&graph[*v], at_v, &parts));
    let mut both = sectors_u.iter().filter_map(|(part, after_u)| Some((after_u, sectors_v.get(part)?)));
    both.next().map(|(after_u, after_v)| (after_u + after_v + 1) % at_u.len())
}

/// For each part that a vertex has edges to, the number of the parallel edge that it follows clockwise.
fn sectors(list: &[usize], parallel: &[usize], parts: &[usize]) -> BTreeMap<usize, usize> {
    let mut sectors = BTreeMap::new();
    for (index, &neighbour) in list.iter().enumerate() {
        if parts[neighbour] != usize::MAX {
            let passed = parallel.partition_point(|&place| place < index);
            sectors.entry(parts[neighbour]).or_insert((passed + parallel.len() - 1) % parallel.len());
        }
    }
    sectors
}

/// The connected part of each vertex when some are taken out; these have none.
fn parts_without(graph: &Graph, out: &[usize]) -> Vec<usize> {
    let mut part = vec![usize::MAX; graph.len()];
    for first in 0..graph.len() {
        let mut waiting = vec![first];
        while let Some(vertex) = waiting.pop() {
            if !out.contains(&vertex) && part[vertex] == usize::MAX {
                part[vertex] = first;
                waiting.extend(&graph[vertex]);
            }
        }
    }
    part
}

#[cfg(test)]
mod tests {
    use super::*;
    use crate::growing::{Growing, Random};
    use crate::planar_code::graph_of;
    use std::collections::BTreeSet;

    /// A random plan of this many trails: a dead end at a corner, or a trail across an area, one after another; with so many
    /// loops at most.
    fn random_plan(random: &mut Random, trails: usize, mut loops: usize) -> Vec<u16> {
        let mut plan = Growing::trail();
        while plan.order.len() < 2 * trails {
            let (from, corners) = (random.below(plan.order.len()) as u16, random.below(5));
            let is_loop = junction(&plan.order, from.into()).contains(&plan.corner(from, corners).into());
            if corners == 1 && random.below(2) == 0 {
                plan.dead_end(from);
            } else if !is_loop || loops > 0 {
                plan.across(from, corners);
                loops -= usize::from(is_loop);
            }
        }
        plan.order
    }

    /// The darts of a dart's junction, clockwise from it.
    fn junction(order: &[u16], first: usize) -> Vec<usize> {
        let mut darts = vec![first];
        while usize::from(order[darts[darts.len() - 1]]) != first {
            darts.push(usize::from(order[darts[darts.len() - 1]]));
        }
        darts[1..].reverse();
        darts
    }

    /// The lists of a plan with start 0, whose entry is the first; the other junctions and their lists begin anywhere.
    fn lists(random: &mut Random, order: &[u16]) -> Graph {
        let mut junctions = vec![junction(order, 0)];
        while junctions.concat().len() < order.len() {
            let dart = random.below(order.len());
            if !junctions.concat().contains(&dart) {
                junctions.push(junction(order, dart));
            }
        }
        let place = |dart: usize| junctions.iter().position(|darts| darts.contains(&dart)).unwrap();
        junctions.iter().map(|darts| darts.iter().map(|dart| place(dart ^ 1)).collect()).collect()
    }

    /// The records of all planar ways to join the lists, with any bijection between the two lists of a bundle and any pairs of
    /// the places where a vertex lists itself.
    fn all_records(graph: &Graph) -> BTreeSet<Vec<u8>> {
        fn pair(graph: &Graph, bundles: &mut Vec<Bundle>, ends: &[(usize, usize)], records: &mut BTreeSet<Vec<u8>>) {
            let Some((&(u, end), rest)) = ends.split_first() else {
                records.extend(record(&joined(graph, bundles)));
                return;
            };
            for place in (0..rest.len()).filter(|&place| rest[place].0 == u) {
                bundles.push(Bundle { u, v: u, at_u: vec![end], at_v: vec![rest[place].1], turn: 0 });
                pair(graph, bundles, &[&rest[..place], &rest[place + 1..]].concat(), records);
                bundles.pop();
            }
        }
        fn go(graph: &Graph, bundles: &mut Vec<Bundle>, (index, edge): (usize, usize), records: &mut BTreeSet<Vec<u8>>) {
            if index == bundles.len() {
                let places = |u: usize| (0..graph[u].len()).map(move |index| (u, index));
                let ends = (0..graph.len()).flat_map(places).filter(|&(u, index)| graph[u][index] == u);
                pair(graph, bundles, &ends.collect::<Vec<_>>(), records);
            } else if edge == bundles[index].at_v.len() {
                go(graph, bundles, (index + 1, 0), records);
            } else {
                for other in edge..bundles[index].at_v.len() {
                    bundles[index].at_v.swap(edge, other);
                    go(graph, bundles, (index, edge + 1), records);
                    bundles[index].at_v.swap(edge, other);
                }
            }
        }
        let mut records = BTreeSet::new();
        go(graph, &mut bundles(graph).unwrap(), (0, 0), &mut records);
        records
    }

    #[test]
    fn a_graph_is_taken_exactly_if_all_ways_to_join_it_give_one_plan() {
        let mut random = Random(1);
        let mut counts = [0; 4];
        for round in 0..8000 {
            let order = random_plan(&mut random, 1 + round % 7, round % 4);
            let graph = lists(&mut random, &order);
            let records = all_records(&graph);
            assert!(records.contains(&record(&order).unwrap()), "{graph:?}");
            let outcome = match turning_order(&graph) {
                Ok(found) if records.len() == 1 => {
                    assert!(records.contains(&record(&found).unwrap()), "{graph:?}");
                    usize::from((0..graph.len()).any(|u| graph[u].contains(&u)))
                }
                Err(Untaken::Ambiguous(..)) if records.len() > 1 => 2,
                Err(Untaken::OpenLoops(_)) if records.len() > 1 => 3,
                other => panic!("{graph:?}: {other:?} of {records:?}"),
            };
            counts[outcome] += 1;
        }
        // Without loops and with; parallel edges and loops left open.
        assert!(counts.iter().all(|&count| count > 500), "{counts:?}");
    }

    #[test]
    fn what_is_taken_of_a_large_graph_is_its_plan() {
        let mut random = Random(2);
        let mut taken = 0;
        for round in 0..2000 {
            let order = random_plan(&mut random, 8 + round % 40, round % 3);
            for graph in [lists(&mut random, &order), graph_of(&order)] {
                match turning_order(&graph) {
                    Ok(found) => assert_eq!(record(&found), record(&order)),
                    Err(untaken) => assert!(matches!(untaken, Untaken::Ambiguous(..) | Untaken::OpenLoops(_)), "{untaken}"),
                }
                taken += usize::from(turning_order(&graph).is_ok());
            }
        }
        assert!(taken > 200, "{taken}");
    }

    #[test]
    fn lists_are_taken_backwards() {
        // A star: the middle lists 2, 3, 4 clockwise.
        let star = vec![vec![1, 2, 3], vec![0], vec![0], vec![0]];
        assert_eq!(turning_order(&star), Ok(vec![4, 1, 0, 3, 2, 5]));
    }

    #[test]
    fn parallel_edges_nest() {
        let three = turning_order(&vec![vec![1, 1, 1], vec![0, 0, 0]]).unwrap();
        assert_eq!(jurnadel::record_of(&Table::standard(), &three, 0, 0, 1).unwrap(), [8, 0, 1, 0, 3, 0, 0xD2, 0x80]);
    }

    #[test]
    fn a_part_between_parallel_edges_fixes_the_turn() {
        // A double edge 1 2 with vertex 3 joined to both in one of its sectors, however the lists are turned.
        for (at_u, at_v) in [([1, 2, 1], [0, 2, 0]), ([2, 1, 1], [2, 0, 0]), ([1, 1, 2], [0, 2, 0])] {
            assert!(turning_order(&vec![at_u.to_vec(), at_v.to_vec(), vec![0, 1]]).is_ok(), "{at_u:?} {at_v:?}");
        }
    }

    #[test]
    fn a_free_turn_matters_where_the_far_side_shows_it() {
        let ambiguous = Err(Untaken::Ambiguous(0, 1));
        // A dead end at the far junction: which sector follows the start? At the near one it is the same either way.
        assert_eq!(turning_order(&vec![vec![1, 1], vec![0, 2, 0], vec![1]]), ambiguous);
        assert!(turning_order(&vec![vec![1, 2, 1], vec![0, 0], vec![0]]).is_ok());
        // A dead end at each: on one side of the pair or on both? With one in each sector at the far junction, it is the same.
        assert_eq!(turning_order(&vec![vec![1, 2, 1], vec![0, 3, 0], vec![0], vec![1]]), ambiguous);
        assert!(turning_order(&vec![vec![1, 2, 1], vec![0, 3, 0, 4], vec![0], vec![1], vec![1]]).is_ok());
    }

    #[test]
    fn loops_are_fixed_by_what_lies_between_them() {
        // A loop alone, and one at a trail's end: the lists of vertices 1 and 2.
        assert_eq!(turning_order(&vec![vec![0, 0]]), Ok(vec![1, 0]));
        assert!(turning_order(&vec![vec![0, 1, 0], vec![0]]).is_ok());
        // Side by side or in each other?
        assert_eq!(turning_order(&vec![vec![0; 4]]), Err(Untaken::OpenLoops(0)));
        assert_eq!(turning_order(&vec![vec![0, 1, 0, 0, 2, 0], vec![0], vec![0]]), Err(Untaken::OpenLoops(0)));
        // Two parallel edges between them tell.
        let around = turning_order(&vec![vec![1, 0, 0, 1, 0, 0], vec![0, 0]]).unwrap();
        assert_eq!(record(&around).unwrap(), [8, 0, 4, 0, 4, 0, 0x26, 0xFB]);
    }

    #[test]
    fn what_is_not_taken() {
        let number = |graph| match turning_order(&graph) {
            Err(Untaken::Refused(refusal)) => refusal.number(),
            other => panic!("{other:?}"),
        };
        assert_eq!(turning_order(&vec![vec![0, 1], vec![0]]), Err(Untaken::HalfLoop(0)));
        assert_eq!(turning_order(&vec![vec![1, 1], vec![0]]), Err(Untaken::OneSided(0, 1)));
        assert_eq!(turning_order(&vec![vec![1], vec![0], vec![]]), Err(Untaken::Alone(2)));
        assert_eq!(turning_order(&vec![vec![], vec![]]), Err(Untaken::Alone(0)));
        assert_eq!(number(vec![vec![]]), Refusal::BAD_COUNT);
        assert_eq!(number(vec![]), Refusal::BAD_COUNT);
        assert_eq!(number(vec![vec![1], vec![0], vec![3], vec![2]]), Refusal::NOT_CONNECTED);
        // One end of a loop on each side of a pair of edges.
        assert_eq!(number(vec![vec![0, 1, 0, 1], vec![0, 0]]), Refusal::NOT_PLANAR);
    }
}
