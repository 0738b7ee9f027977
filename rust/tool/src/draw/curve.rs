//! Trails as smooth curves that keep to their own triangles.
//!
//! A trail goes straight along its sides and rounds the corners between them. Each triangle of the net has at most one side of
//! a trail, and a point on a trail is on no other: so a curve that keeps to the triangles along its sides and at its corners
//! meets no other trail. This is tested on the whole numbers that are printed; a corner that does not pass it stays sharp.

use super::net::Net;

/// A place on the grid of what is printed.
pub type Spot = [i64; 2];

/// What is rounded of a side towards a junction: the rest is straight, so that trails part at once.
const TO_JUNCTION: f64 = 0.7;
/// Parts of the full rounding that are tried.
const TRIED: [f64; 4] = [1.0, 0.6, 0.35, 0.2];

/// A corner: the curve is from the first spot, drawn towards the second, to the third; all the same if it is sharp.
pub type Corner = [Spot; 3];

/// A trail from junction to junction.
pub struct Curve {
    pub begin: Spot,
    pub corners: Vec<Corner>,
    pub end: Spot,
}

impl Curve {
    pub fn new(net: &Net, spots: &[Spot], route: &[usize]) -> Curve {
        let sides = route.len() - 1;
        let with = |corners: Vec<Corner>| Curve { begin: spots[route[0]], corners, end: spots[route[sides]] };
        let smooth = with((1..sides).map(|place| rounded(net, spots, route, place)).collect());
        if (0..sides).all(|side| smooth.keeps_to_side(net, spots, route, side)) {
            return smooth;
        }
        with((1..sides).map(|place| [spots[route[place]]; 3]).collect())
    }

    /// The two ends of what is straight of a side.
    fn straight(&self, side: usize) -> (Spot, Spot) {
        let from = if side == 0 { self.begin } else { self.corners[side - 1][2] };
        let to = self.corners.get(side).map_or(self.end, |corner| corner[0]);
        (from, to)
    }

    /// Whether what is straight of a side is within the two triangles along it.
    fn keeps_to_side(&self, net: &Net, spots: &[Spot], route: &[usize], side: usize) -> bool {
        let (from, to) = self.straight(side);
        let (a, b) = (spots[route[side]], spots[route[side + 1]]);
        let [left, right] = net.beside(route[side], route[side + 1]).map(|point| spots[point]);
        let both_in = |triangle: [Spot; 3]| in_triangle(triangle, from) && in_triangle(triangle, to);
        let through = || turn(from, to, a).signum() * turn(from, to, b).signum() < 0;
        let each_in = |spot: Spot| in_triangle([a, b, left], spot) || in_triangle([b, a, right], spot);
        both_in([a, b, left]) || both_in([b, a, right]) || (each_in(from) && each_in(to) && through())
    }
}

/// A corner rounded as far as it keeps to the triangles around it.
fn rounded(net: &Net, spots: &[Spot], route: &[usize], place: usize) -> Corner {
    let here = spots[route[place]];
    let toward = |other: usize, part: f64| {
        let share = if other == 0 || other == route.len() - 1 { TO_JUNCTION } else { 0.5 };
        between(here, spots[route[other]], share * part)
    };
    let corners = TRIED.iter().map(|&part| [toward(place - 1, part), here, toward(place + 1, part)]);
    corners.into_iter().find(|corner| keeps_to_fan(net, spots, route[place], corner)).unwrap_or([here; 3])
}

/// Whether a corner's triangle is within the triangles around its point.
fn keeps_to_fan(net: &Net, spots: &[Spot], point: usize, &[from, here, to]: &Corner) -> bool {
    let within = |spot| net.fan(point).any(|(b, c)| in_triangle([spots[b], spots[c], here], spot));
    within(from) && within(to) && !net.fan(point).any(|(b, c)| touch(from, to, spots[b], spots[c]))
}

/// The spot next to a part of the way; half the way is the same from both ends.
fn between(from: Spot, to: Spot, part: f64) -> Spot {
    let along = |axis: usize| match part {
        0.5 => (from[axis] + to[axis]).div_euclid(2),
        _ => from[axis] + ((to[axis] - from[axis]) as f64 * part).round() as i64,
    };
    [along(0), along(1)]
}

/// Twice the area of a triangle, positive if it is counterclockwise.
pub fn turn(a: Spot, b: Spot, c: Spot) -> i128 {
    let product = |x: i64, y: i64| i128::from(x) * i128::from(y);
    product(b[0] - a[0], c[1] - a[1]) - product(b[1] - a[1], c[0] - a[0])
}

/// Whether a spot is in a counterclockwise triangle or on its border.
fn in_triangle([a, b, c]: [Spot; 3], spot: Spot) -> bool {
    turn(a, b, spot) >= 0 && turn(b, c, spot) >= 0 && turn(c, a, spot) >= 0
}

/// Whether two segments meet.
fn touch(a: Spot, b: Spot, c: Spot, d: Spot) -> bool {
    let apart = |a, b, c, d| turn(a, b, c).signum() * turn(a, b, d).signum() > 0;
    !apart(a, b, c, d) && !apart(c, d, a, b)
}
