//! The net of a plan: the plan made into a triangulation of the sphere without loops and double links.
//!
//! Each trail is cut into `SIDES` sides. Each area gets a point in its middle, linked to all points around the area. A ring of
//! points stands between, one for each side: it must where the area meets a point more than once. The outside area has three
//! far points in place of the middle.
//!
//! No link joins two points on trails but for the sides themselves. So a triangle has one side of a trail at most, and the
//! triangles at a point on a trail touch other trails only in their corners at junctions.

use crate::shape::{self, Cycles};

/// Sides of a trail to begin with; three at least, so that loops are no loops in the net.
const SIDES: usize = 4;

/// Up to so many trails every area has a ring: it lets the trails around the area bend. Above, it would cost too much time.
const RINGED: usize = 400;

/// A plan's net. Its points are the junctions, the points on the trails, those in the areas, and those of sides split later.
#[derive(Clone)]
pub struct Net {
    /// The least dart of each junction.
    pub junctions: Vec<u16>,
    /// The points of each trail, from the junction of its even dart to that of its odd dart.
    pub routes: Vec<Vec<usize>>,
    /// How many areas there are.
    pub areas: usize,
    /// The ring in the outside area, counterclockwise around the plan; the first is beside the start dart if that is outside.
    pub ring: Vec<usize>,
    /// Three points beyond the ring, counterclockwise around the plan.
    pub far: [usize; 3],
    /// The neighbours of each point, counterclockwise.
    links: Vec<Vec<usize>>,
    /// Whether each point is on a trail or at its end.
    on_trail: Vec<bool>,
}

impl Net {
    pub fn new(order: &[u16], start: u16, outside: u16) -> Net {
        let Cycles { least: junctions, of: junction } = shape::junctions(order);
        let Cycles { least: areas, of: area } = shape::areas(order);
        let routes: Vec<_> = (0..order.len() / 2).map(|trail| route(trail, junctions.len(), &junction)).collect();
        let on_trails = junctions.len() + routes.len() * (SIDES - 1);
        let mut weave = Weave { points: on_trails, triangles: Vec::new() };
        let mut net =
            Net { junctions, routes, areas: areas.len(), ring: Vec::new(), far: [0; 3], links: Vec::new(), on_trail: Vec::new() };
        let outer = area[usize::from(outside)];
        for (number, &least) in areas.iter().enumerate() {
            let first = if number == outer && area[usize::from(start)] == outer { start } else { least };
            let around = net.around(order, first);
            if number == outer {
                net.ring = weave.ring(&around);
                net.far = weave.far(&net.ring);
            } else if net.routes.len() <= RINGED || repeats(&around, weave.points) {
                let ring = weave.ring(&around);
                weave.middle(&ring);
            } else {
                weave.middle(&around);
            }
        }
        net.links = weave.links();
        net.on_trail = (0..weave.points).map(|point| point < on_trails).collect();
        net
    }

    /// How many points there are.
    pub fn points(&self) -> usize {
        self.links.len()
    }

    /// The neighbours of a point, counterclockwise.
    pub fn link(&self, point: usize) -> &[usize] {
        &self.links[point]
    }

    /// The triangles at a point, counterclockwise: the two other corners of each.
    pub fn fan(&self, point: usize) -> impl Iterator<Item = (usize, usize)> + '_ {
        let link = self.link(point);
        link.windows(2).map(|pair| (pair[0], pair[1])).chain([(link[link.len() - 1], link[0])])
    }

    /// The two points that make triangles with the side from one point to another: on its left and on its right.
    pub fn beside(&self, from: usize, to: usize) -> [usize; 2] {
        let link = self.link(from);
        let place = link.iter().position(|&end| end == to).unwrap_or(0);
        [link[(place + 1) % link.len()], link[(place + link.len() - 1) % link.len()]]
    }

    /// Whether a point is on a trail or at its end.
    pub fn on_trail(&self, point: usize) -> bool {
        self.on_trail[point]
    }

    /// Splits a side of a trail, and the two triangles along it; the new point is the last of all.
    pub fn split(&mut self, trail: usize, side: usize) {
        let [a, b] = [self.routes[trail][side], self.routes[trail][side + 1]];
        let [left, right] = self.beside(a, b);
        let point = self.links.len();
        for (here, old) in [(a, b), (b, a)] {
            self.links[here].iter_mut().filter(|end| **end == old).for_each(|end| *end = point);
        }
        for (here, before) in [(left, a), (right, b)] {
            self.insert(here, before, point);
        }
        self.links.push(vec![b, left, a, right]);
        self.on_trail.push(true);
        self.routes[trail].insert(side + 1, point);
    }

    /// Links a point to another, next after one that it is linked to.
    fn insert(&mut self, here: usize, before: usize, there: usize) {
        let place = self.links[here].iter().position(|&end| end == before).map_or(0, |place| place + 1);
        self.links[here].insert(place, there);
    }

    /// Puts the other diagonal of the two triangles at a link in the place of the link.
    pub fn flip(&mut self, a: usize, b: usize) {
        let [left, right] = self.beside(a, b);
        self.links[a].retain(|&end| end != b);
        self.links[b].retain(|&end| end != a);
        for (here, there, before) in [(left, right, a), (right, left, b)] {
            self.insert(here, before, there);
        }
    }

    /// The points around an area, which lies on the right, from a dart on.
    fn around(&self, order: &[u16], first: u16) -> Vec<usize> {
        let mut around = Vec::new();
        let mut dart = first;
        loop {
            let route = &self.routes[usize::from(dart) / 2];
            match dart % 2 {
                0 => around.extend(&route[..SIDES]),
                _ => around.extend(route[1..].iter().rev()),
            }
            dart = order[usize::from(dart ^ 1)];
            if dart == first {
                return around;
            }
        }
    }
}

fn route(trail: usize, junctions: usize, junction: &[usize]) -> Vec<usize> {
    let first = junctions + trail * (SIDES - 1);
    [junction[2 * trail]].into_iter().chain(first..first + SIDES - 1).chain([junction[2 * trail + 1]]).collect()
}

/// Whether a point stands there twice.
fn repeats(around: &[usize], points: usize) -> bool {
    let mut seen = vec![false; points];
    around.iter().any(|&point| std::mem::replace(&mut seen[point], true))
}

/// Points and triangles in the making; triangles are counterclockwise.
struct Weave {
    points: usize,
    triangles: Vec<[usize; 3]>,
}

impl Weave {
    /// A ring within an area, one point for each side around it.
    fn ring(&mut self, around: &[usize]) -> Vec<usize> {
        let ring: Vec<usize> = (self.points..self.points + around.len()).collect();
        self.points += around.len();
        for (side, &here) in ring.iter().enumerate() {
            let next = (side + 1) % ring.len();
            self.triangles.push([around[next], around[side], here]);
            self.triangles.push([around[next], here, ring[next]]);
        }
        ring
    }

    /// A point in the middle of what is around it.
    fn middle(&mut self, around: &[usize]) {
        let middle = self.points;
        self.points += 1;
        for (side, &here) in around.iter().enumerate() {
            self.triangles.push([around[(side + 1) % around.len()], here, middle]);
        }
    }

    /// Three points on the other side of a ring, each linked to a third of it.
    fn far(&mut self, ring: &[usize]) -> [usize; 3] {
        let far = [self.points, self.points + 1, self.points + 2];
        self.points += 3;
        let third = |side: usize| far[side * 3 / ring.len()];
        for (side, &here) in ring.iter().enumerate() {
            let next = (side + 1) % ring.len();
            self.triangles.push([ring[next], here, third(side)]);
            if third(side) != third(next) {
                self.triangles.push([ring[next], third(side), third(next)]);
            }
        }
        self.triangles.push([far[2], far[1], far[0]]);
        far
    }

    /// The neighbours of each point, counterclockwise.
    fn links(&self) -> Vec<Vec<usize>> {
        let mut pairs = vec![Vec::new(); self.points];
        for &[a, b, c] in &self.triangles {
            pairs[a].push((b, c));
            pairs[b].push((c, a));
            pairs[c].push((a, b));
        }
        let mut next = vec![0; self.points];
        pairs.iter().map(|pairs| chain(pairs, &mut next)).collect()
    }
}

/// The pairs' first points, in the order that leads from each to its second.
fn chain(pairs: &[(usize, usize)], next: &mut [usize]) -> Vec<usize> {
    pairs.iter().for_each(|&(from, to)| next[from] = to);
    std::iter::successors(Some(pairs[0].0), |&point| Some(next[point])).take(pairs.len()).collect()
}
