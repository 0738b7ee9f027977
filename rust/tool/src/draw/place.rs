//! The mean placement: the outside ring on a circle, every other point at the weighted mean of its neighbours (Tutte).

use super::net::Net;

pub type Place = [f64; 2];

/// Steps of the solver at most.
const STEPS: usize = 800;
/// The solution is good when what is left is this small, in relation to the beginning.
const REST: f64 = 1e-14;

/// How far the far points are from the middle; the circle's radius is 1, and from a distance of more than 2 a third is seen.
const FAR: f64 = 4.0;

/// Each point's place.
pub fn place(net: &Net) -> Vec<Place> {
    let mut places = vec![[0.0; 2]; net.points()];
    let mut free = vec![true; net.points()];
    let on_circle = net.ring.iter().enumerate().map(|(number, &point)| (point, at_angle(third(number, net.ring.len()), 1.0)));
    for (point, place) in on_circle.chain(net.far.into_iter().zip(corners())) {
        places[point] = place;
        free[point] = false;
    }
    let weights = (0..net.points()).map(|point| net.link(point).iter().map(|&end| weight(net, point, end)).collect()).collect();
    let mut placement = Placement { net, free, weights, places };
    placement.settle();
    placement.places
}

/// The places of the far points.
pub fn corners() -> [Place; 3] {
    [0.5, 1.5, 2.5].map(|thirds| at_angle(thirds, FAR))
}

/// Where a point of the ring is, in thirds of the circle: each far point is linked to those of one third.
fn third(number: usize, count: usize) -> f64 {
    let third = number * 3 / count;
    let [first, next] = [third, third + 1].map(|third| (third * count).div_ceil(3));
    third as f64 + (number - first) as f64 / (next - first) as f64
}

/// A place by its angle in thirds of the circle, counterclockwise from below.
fn at_angle(thirds: f64, radius: f64) -> Place {
    let angle = std::f64::consts::TAU * (thirds / 3.0 - 0.25);
    [radius * angle.cos(), radius * angle.sin()]
}

/// A placement in the making.
struct Placement<'a> {
    net: &'a Net,
    free: Vec<bool>,
    /// How much each link of each point pulls, in the order of the links.
    weights: Vec<Vec<f64>>,
    places: Vec<Place>,
}

impl Placement<'_> {
    fn settle(&mut self) {
        for axis in 0..2 {
            let mut values: Vec<f64> = self.places.iter().map(|place| place[axis]).collect();
            self.solve(&mut values);
            self.places.iter_mut().zip(values).for_each(|(place, value)| place[axis] = value);
        }
    }

    /// Brings the free values to the means of their neighbours: conjugate gradients, each value scaled by its weight.
    fn solve(&self, values: &mut [f64]) {
        let sums: Vec<f64> = self.weights.iter().map(|weights| weights.iter().sum()).collect();
        let scaled = |rest: &[f64]| rest.iter().zip(&sums).map(|(value, sum)| value / sum).collect::<Vec<f64>>();
        let mut rest = vec![0.0; values.len()];
        self.pull(&sums, values, &mut rest);
        rest.iter_mut().for_each(|value| *value = -*value);
        let mut step = scaled(&rest);
        let mut size = dot(&rest, &step);
        let enough = size * REST * REST;
        let mut pulled = vec![0.0; values.len()];
        for _ in 0..STEPS {
            if size <= enough {
                return;
            }
            self.pull(&sums, &step, &mut pulled);
            let along = size / dot(&step, &pulled);
            add(values, along, &step);
            add(&mut rest, -along, &pulled);
            let next = scaled(&rest);
            let last = std::mem::replace(&mut size, dot(&rest, &next));
            step.iter_mut().zip(next).for_each(|(step, next)| *step = next + *step * size / last);
        }
    }

    /// For each free point: its value times its weight, less its neighbours' values times the weights of the links.
    fn pull(&self, sums: &[f64], values: &[f64], pulled: &mut [f64]) {
        for (point, value) in pulled.iter_mut().enumerate().filter(|&(point, _)| self.free[point]) {
            let around = self.net.link(point).iter().zip(&self.weights[point]).map(|(&end, weight)| weight * values[end]);
            *value = sums[point] * values[point] - around.sum::<f64>();
        }
    }
}

/// How much a link pulls: the less, the more links its ends have, for those that many points hang on draw all together.
fn weight(net: &Net, a: usize, b: usize) -> f64 {
    1.0 / (net.link(a).len() * net.link(b).len()) as f64
}

fn dot(a: &[f64], b: &[f64]) -> f64 {
    a.iter().zip(b).map(|(a, b)| a * b).sum()
}

fn add(values: &mut [f64], factor: f64, more: &[f64]) {
    values.iter_mut().zip(more).for_each(|(value, more)| *value += factor * more);
}
