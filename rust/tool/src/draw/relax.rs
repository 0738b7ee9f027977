//! Evening out a placement: points move, one at a time, so that triangles become even in size and shape and trails straight,
//! and no triangle ever turns over.
//!
//! A triangle costs s (1 / A + A / a²), s the sum of its sides' squares, a its area and A the area that all should have: least
//! for an equal-sided triangle of area A, beyond all bounds as the area vanishes. A bend costs the square of what its middle
//! point is off the mean of the two others.

use super::net::Net;
use super::place::Place;

/// What a bend costs, in relation to a triangle.
const STIFFNESS: f64 = 30.0;
/// What triangles at the outside ring and at the far points cost, in relation to others.
const RING: f64 = 0.3;
const FAR: f64 = 0.02;
/// How far a point is moved, in relation to where the cost is least: beyond it, for that evens out sooner.
const BEYOND: f64 = 1.9;
/// Points moved in all, at most, and sweeps over all points.
const MOVES: usize = 3_000_000;
const SWEEPS: usize = 1000;
/// A round ends when the mean square of the moves in a sweep is below so many areas.
const SETTLED: f64 = 1e-5;
/// A link flips if what is there then costs less than so much of what is there now.
const FLIP: f64 = 0.999;
/// After each round sides are split: those whose square is above so many areas, at a bend above this angle.
const ROUNDS: usize = 4;
const LONG: f64 = 6.0;
const BENT: f64 = 0.35;

/// Three points of a trail in a row.
type Bend = [usize; 3];

pub struct Relaxer<'a> {
    net: &'a mut Net,
    /// Each point's softness: what a triangle costs at most, in relation to others.
    softness: Vec<f64>,
    /// The bends that each point has part in.
    bends: Vec<Vec<Bend>>,
    area: f64,
}

/// What a point costs where it is, the slope of that along x and y, and the slope's slopes along xx, xy and yy.
struct Pull {
    cost: f64,
    slope: Place,
    curve: [f64; 3],
}

impl Pull {
    /// Adds what a triangle costs as its first corner moves.
    fn add_triangle(&mut self, [a, b, c]: [Place; 3], share: f64, wanted: f64) {
        let (sum, area) = (squares(a, b, c), cross(a, b, c) / 2.0);
        let factor = share * (1.0 / wanted + wanted / area.powi(2));
        let (first, second) = (share * -2.0 * wanted / area.powi(3), share * 6.0 * wanted / area.powi(4));
        // The slopes of the sum and of the area.
        let s = [2.0 * (2.0 * a[0] - b[0] - c[0]), 2.0 * (2.0 * a[1] - b[1] - c[1])];
        let g = [(b[1] - c[1]) / 2.0, (c[0] - b[0]) / 2.0];
        self.cost += sum * factor;
        self.slope[0] += factor * s[0] + sum * first * g[0];
        self.slope[1] += factor * s[1] + sum * first * g[1];
        self.curve[0] += 4.0 * factor + 2.0 * first * s[0] * g[0] + sum * second * g[0] * g[0];
        self.curve[1] += first * (s[0] * g[1] + s[1] * g[0]) + sum * second * g[0] * g[1];
        self.curve[2] += 4.0 * factor + 2.0 * first * s[1] * g[1] + sum * second * g[1] * g[1];
    }

    /// Adds what a bend costs as the point moves that has this part in it.
    fn add_bend(&mut self, off: Place, part: f64, stiffness: f64) {
        self.cost += stiffness * (off[0] * off[0] + off[1] * off[1]);
        self.slope[0] += 2.0 * stiffness * part * off[0];
        self.slope[1] += 2.0 * stiffness * part * off[1];
        self.curve[0] += 2.0 * stiffness * part * part;
        self.curve[2] += 2.0 * stiffness * part * part;
    }
}

impl<'a> Relaxer<'a> {
    /// For triangles of this area.
    pub fn new(net: &'a mut Net, area: f64) -> Relaxer<'a> {
        let mut softness = vec![1.0; net.points()];
        net.ring.iter().for_each(|&point| softness[point] = RING);
        net.far.iter().for_each(|&point| softness[point] = FAR);
        Relaxer { net, softness, bends: Vec::new(), area }
    }

    pub fn run(mut self, places: &mut Vec<Place>) {
        for round in 0..ROUNDS {
            if round > 0 {
                self.split_sides(places);
            }
            self.bends = bends(self.net);
            self.sweep_until_settled(places);
        }
    }

    fn sweep_until_settled(&mut self, places: &mut [Place]) {
        let far = self.net.far;
        for sweep in 0..(MOVES / places.len() + ROUNDS).min(SWEEPS) / ROUNDS {
            let points = (0..places.len()).filter(|point| !far.contains(point));
            let moved: f64 = points.map(|point| self.move_point(places, point)).sum();
            if sweep % 2 == 0 {
                (0..places.len()).for_each(|point| self.flip_links(places, point));
            }
            if moved < SETTLED * self.area * places.len() as f64 {
                return;
            }
        }
    }

    /// Splits the sides that are long and bent, so that trails can bend there.
    fn split_sides(&mut self, places: &mut Vec<Place>) {
        for trail in 0..self.net.routes.len() {
            let route = self.net.routes[trail].clone();
            let at = |place: usize| places[route[place]];
            let bent =
                |place: usize| place > 0 && place + 1 < route.len() && angle([at(place - 1), at(place), at(place + 1)]) > BENT;
            let long = |side: usize| squared(at(side), at(side + 1)) > LONG * self.area && (bent(side) || bent(side + 1));
            let sides: Vec<usize> = (0..route.len() - 1).rev().filter(|&side| long(side)).collect();
            for side in sides {
                let (a, b) = (places[route[side]], places[route[side + 1]]);
                self.net.split(trail, side);
                places.push([(a[0] + b[0]) / 2.0, (a[1] + b[1]) / 2.0]);
                self.softness.push(1.0);
            }
        }
    }

    /// Flips the links from a point to later ones where that costs less.
    fn flip_links(&mut self, places: &[Place], a: usize) {
        let mut place = 0;
        while place < self.net.link(a).len() {
            let link = self.net.link(a);
            let (b, c, d) = (link[place], link[(place + 1) % link.len()], link[(place + link.len() - 1) % link.len()]);
            if a < b && self.may_flip([a, b], [c, d]) {
                let now = self.triangle(places, a, b, c) + self.triangle(places, b, a, d);
                if self.triangle(places, a, d, c) + self.triangle(places, d, b, c) < FLIP * now {
                    self.net.flip(a, b);
                }
            }
            place += 1;
        }
    }

    /// Whether a link may give way to another: it is no side and not of the frame, and the other joins no two points on trails.
    fn may_flip(&self, link: [usize; 2], other: [usize; 2]) -> bool {
        let on_trails = |ends: [usize; 2]| ends.iter().all(|&end| self.net.on_trail(end));
        !on_trails(link) && !on_trails(other) && !link.iter().all(|end| self.net.far.contains(end))
    }

    fn triangle(&self, places: &[Place], a: usize, b: usize, c: usize) -> f64 {
        self.share(a, b, c) * triangle_cost(places[a], places[b], places[c], self.area)
    }

    /// Moves a point to where it costs less; the square of how far.
    fn move_point(&self, places: &mut [Place], point: usize) -> f64 {
        let here = places[point];
        let Pull { cost, slope, curve } = self.pull(places, point);
        let step = newton(slope, curve).map(|along| along * BEYOND);
        let mut along = self.reach(places, point, step);
        for _ in 0..8 {
            let there = [here[0] + along * step[0], here[1] + along * step[1]];
            if self.cost(places, point, there) < cost {
                places[point] = there;
                return squared(here, there);
            }
            along *= 0.4;
        }
        0.0
    }

    fn share(&self, point: usize, from: usize, to: usize) -> f64 {
        self.softness[point].min(self.softness[from]).min(self.softness[to])
    }

    /// What the triangles and bends at a point cost if it is at this place.
    fn cost(&self, places: &[Place], point: usize, here: Place) -> f64 {
        let mut cost = 0.0;
        for (from, to) in self.net.fan(point) {
            cost += self.share(point, from, to) * triangle_cost(here, places[from], places[to], self.area);
        }
        for bend in &self.bends[point] {
            let at = |end: usize| if end == point { here } else { places[end] };
            let off = off_mean(bend.map(at));
            cost += STIFFNESS / self.area * (off[0] * off[0] + off[1] * off[1]);
        }
        cost
    }

    fn pull(&self, places: &[Place], point: usize) -> Pull {
        let mut pull = Pull { cost: 0.0, slope: [0.0; 2], curve: [0.0; 3] };
        for (from, to) in self.net.fan(point) {
            pull.add_triangle([places[point], places[from], places[to]], self.share(point, from, to), self.area);
        }
        for bend in &self.bends[point] {
            let part = if bend[1] == point { -2.0 } else { 1.0 };
            pull.add_bend(off_mean(bend.map(|end| places[end])), part, STIFFNESS / self.area);
        }
        pull
    }

    /// How much of a step can be done, up to the whole, before a triangle vanishes.
    fn reach(&self, places: &[Place], point: usize, step: Place) -> f64 {
        let a = places[point];
        let moved = [a[0] + step[0], a[1] + step[1]];
        let mut reach: f64 = 1.0;
        for (from, to) in self.net.fan(point) {
            let (now, then) = (cross(a, places[from], places[to]), cross(moved, places[from], places[to]));
            if then <= 0.1 * now {
                reach = reach.min(0.9 * now / (now - then));
            }
        }
        reach
    }
}

/// The bends that each point has part in.
fn bends(net: &Net) -> Vec<Vec<Bend>> {
    let mut bends = vec![Vec::new(); net.points()];
    for bend in net.routes.iter().flat_map(|route| route.windows(3)) {
        bend.iter().for_each(|&point| bends[point].push([bend[0], bend[1], bend[2]]));
    }
    bends
}

/// What a triangle costs that should have this area.
fn triangle_cost(a: Place, b: Place, c: Place, wanted: f64) -> f64 {
    let area = cross(a, b, c) / 2.0;
    if area > 0.0 {
        squares(a, b, c) * (1.0 / wanted + wanted / (area * area))
    } else {
        f64::INFINITY
    }
}

/// Twice the area of a triangle, positive if it is counterclockwise.
pub fn cross(a: Place, b: Place, c: Place) -> f64 {
    (b[0] - a[0]) * (c[1] - a[1]) - (b[1] - a[1]) * (c[0] - a[0])
}

/// The square of a length.
fn squared(a: Place, b: Place) -> f64 {
    (a[0] - b[0]).powi(2) + (a[1] - b[1]).powi(2)
}

/// The sum of the sides' squares.
fn squares(a: Place, b: Place, c: Place) -> f64 {
    squared(a, b) + squared(b, c) + squared(c, a)
}

/// How much the way from a over b to c turns.
fn angle([a, b, c]: [Place; 3]) -> f64 {
    let along = (b[0] - a[0]) * (c[0] - b[0]) + (b[1] - a[1]) * (c[1] - b[1]);
    cross(a, b, c).atan2(along).abs()
}

fn off_mean([a, b, c]: [Place; 3]) -> Place {
    [a[0] - 2.0 * b[0] + c[0], a[1] - 2.0 * b[1] + c[1]]
}

/// The step to the least cost, the curvature made positive where it isn't.
fn newton(slope: Place, [xx, xy, yy]: [f64; 3]) -> Place {
    let (mean, half) = ((xx + yy) / 2.0, (xx - yy) / 2.0);
    let spread = half.hypot(xy);
    let lift = (spread * 1.05 - mean).max(0.0) + mean.abs() * 1e-9;
    let (xx, yy) = (xx + lift, yy + lift);
    let area = xx * yy - xy * xy;
    if area > 0.0 {
        [(xy * slope[1] - yy * slope[0]) / area, (xy * slope[0] - xx * slope[1]) / area]
    } else {
        [0.0, 0.0]
    }
}
