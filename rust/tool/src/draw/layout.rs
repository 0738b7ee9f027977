//! Where each point of a net stands in the picture, on the grid of what is printed.

use super::curve::{turn, Spot};
use super::grid;
use super::net::Net;
use super::place::{self, Place};
use super::relax::Relaxer;
use super::room::{direction, distance};

/// Steps of the grid in a unit of the picture: what is printed has two decimals.
pub const STEPS: i64 = 100;
/// The length in pixels of a trail of middle length, and what is free around the middle of most trails.
const TRAIL: f64 = 150.0;
const FREE: f64 = 8.0;
/// The width in pixels of a picture of few trails at most.
const WIDTH: f64 = 420.0;
/// Units of the picture in a pixel: tried one after the other, until the grid is fine enough.
const FINER: [f64; 4] = [1.0, 10.0, 100.0, 1000.0];

pub struct Layout {
    /// The net, with the links and sides that it came to have.
    pub net: Net,
    /// Each point's spot; y goes up.
    pub spots: Vec<Spot>,
    /// Units of the picture in a pixel.
    pub unit: f64,
}

impl Layout {
    /// The mean placement, evened out; where the numbers do not carry it, one that begins on a grid; at last the grid itself.
    pub fn new(net: Net) -> Layout {
        let places = place::place(&net);
        let room = std::f64::consts::PI / 2.0;
        Layout::from_places(net.clone(), places, room).unwrap_or_else(|| {
            let spots = grid::place(&net);
            let places = spots.iter().map(|&spot| on_triangle(spot, net.points())).collect();
            Layout::from_places(net.clone(), places, 3.0 * room).unwrap_or_else(|| Layout::from_grid(net, &spots))
        })
    }

    fn from_places(mut net: Net, mut places: Vec<Place>, room: f64) -> Option<Layout> {
        if !fits(&net, |a, b, c| sign(places[a], places[b], places[c])) {
            return None;
        }
        let area = room / net.points() as f64;
        Relaxer::new(&mut net, area).run(&mut places);
        let scale = scale(&net, &places);
        for unit in FINER {
            let factor = scale * unit * STEPS as f64;
            let spots: Vec<Spot> = places.iter().map(|place| place.map(|value| (value * factor).round() as i64)).collect();
            if fits(&net, |a, b, c| turn(spots[a], spots[b], spots[c]).signum()) {
                return Some(Layout { net, spots, unit });
            }
        }
        None
    }

    /// The grid as it is.
    pub fn from_grid(net: Net, spots: &[Spot]) -> Layout {
        let places: Vec<Place> = spots.iter().map(|spot| spot.map(|value| value as f64)).collect();
        let spots = spots.iter().map(|spot| spot.map(|value| value * STEPS)).collect();
        let unit = 1.0 / scale(&net, &places);
        Layout { net, spots, unit }
    }
}

/// A spot of the grid as a place in the triangle of the far points.
fn on_triangle([x, y]: Spot, points: usize) -> Place {
    let [a, b, c] = place::corners();
    let width = points as f64 - 2.0;
    let (to_b, to_c) = ((x - y) as f64 / (2.0 * width), y as f64 / width);
    std::array::from_fn(|axis| a[axis] + to_b * (b[axis] - a[axis]) + to_c * (c[axis] - a[axis]))
}

/// Whether each triangle is counterclockwise, by its sign, but for that of the far points, which is around all others.
fn fits(net: &Net, sign: impl Fn(usize, usize, usize) -> i128) -> bool {
    (0..net.points()).all(|point| {
        let later = net.fan(point).filter(|&(from, to)| point < from && point < to);
        let around = |from, to| [point, from, to].iter().all(|corner| net.far.contains(corner));
        later.into_iter().all(|(from, to)| sign(point, from, to) == if around(from, to) { -1 } else { 1 })
    })
}

/// Which way round a triangle is, 0 if the numbers do not say it for certain.
fn sign(a: Place, b: Place, c: Place) -> i128 {
    let (left, right) = ((b[0] - a[0]) * (c[1] - a[1]), (b[1] - a[1]) * (c[0] - a[0]));
    let certain = (left - right).abs() > 1e-15 * (left.abs() + right.abs());
    if certain {
        (left - right).signum() as i128
    } else {
        0
    }
}

/// Pixels for a length of 1.
fn scale(net: &Net, places: &[Place]) -> f64 {
    let span = |axis: usize| {
        let seen = || net.routes.iter().flatten().map(|&point| places[point][axis]);
        seen().fold(f64::MIN, f64::max) - seen().fold(f64::MAX, f64::min)
    };
    let widest = WIDTH * (1.0 + (net.routes.len() as f64).sqrt() / 4.0);
    let long = TRAIL / ranked(net.routes.iter().map(|route| length(places, route)), 2);
    let free = FREE / ranked(net.routes.iter().map(|route| free(net, places, route[route.len() / 2])), 4);
    long.max(free).min(widest / span(0).max(span(1)))
}

/// The value that one of so many is below.
fn ranked(values: impl Iterator<Item = f64>, one_of: usize) -> f64 {
    let mut values: Vec<f64> = values.collect();
    values.sort_by(f64::total_cmp);
    values[values.len() / one_of]
}

fn length(places: &[Place], route: &[usize]) -> f64 {
    route.windows(2).map(|side| direction(places[side[0]], places[side[1]]).1).sum()
}

/// How far it is from a point to the far sides of its triangles.
fn free(net: &Net, places: &[Place], point: usize) -> f64 {
    net.fan(point).map(|(from, to)| distance(places[point], places[from], places[to])).fold(f64::MAX, f64::min)
}
