//! How much room there is around a place: how far it is to the trails that pass by.

use super::place::Place;
use std::collections::HashMap;

/// Pieces of trails, by the cell of a square grid that their middle is in.
pub struct Room {
    cell: f64,
    pieces: HashMap<[i64; 2], Vec<(usize, [Place; 2])>>,
}

impl Room {
    /// For trails as lines of places, to look as far as half a cell.
    pub fn new(lines: &[Vec<Place>], cell: f64) -> Room {
        let mut room = Room { cell, pieces: HashMap::new() };
        for (trail, line) in lines.iter().enumerate() {
            line.windows(2).for_each(|side| room.put(trail, side[0], side[1]));
        }
        room
    }

    /// Takes a straight line in pieces of less than a cell.
    fn put(&mut self, trail: usize, from: Place, to: Place) {
        let count = ((from[0] - to[0]).hypot(from[1] - to[1]) / self.cell).floor() + 1.0;
        let at = |part: f64| std::array::from_fn(|axis| from[axis] + (to[axis] - from[axis]) * part / count);
        for piece in 0..count as usize {
            let part = piece as f64;
            let cell = self.cell_of(at(part + 0.5));
            self.pieces.entry(cell).or_default().push((trail, [at(part), at(part + 1.0)]));
        }
    }

    fn cell_of(&self, place: Place) -> [i64; 2] {
        place.map(|value| (value / self.cell).floor() as i64)
    }

    /// How far it is to the nearest trail but for those that are passed over; half a cell at most.
    pub fn around(&self, place: Place, passed_over: impl Fn(usize) -> bool) -> f64 {
        let [x, y] = self.cell_of(place);
        let near = (0..9).filter_map(|cell| self.pieces.get(&[x + cell % 3 - 1, y + cell / 3 - 1])).flatten();
        let others = near.filter(|(trail, _)| !passed_over(*trail));
        others.map(|&(_, [from, to])| distance(place, from, to)).fold(self.cell / 2.0, f64::min)
    }
}

/// How far a place is from a straight line.
pub fn distance(place: Place, from: Place, to: Place) -> f64 {
    let (along, length) = direction(from, to);
    let (x, y) = (place[0] - from[0], place[1] - from[1]);
    let foot = (x * along[0] + y * along[1]).clamp(0.0, length);
    (x - foot * along[0]).hypot(y - foot * along[1])
}

/// The direction from one place to another, and how far it is.
pub fn direction(from: Place, to: Place) -> (Place, f64) {
    let length = (to[0] - from[0]).hypot(to[1] - from[1]);
    let along = |axis: usize| if length > 0.0 { (to[axis] - from[axis]) / length } else { 0.0 };
    ([along(0), along(1)], length)
}
