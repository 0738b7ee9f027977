//! The shape of a plan: its junctions and areas, and the contour walk along its trails.
//!
//! All take the turning order of a plan whose entries are its trail ends, each once.

use std::iter::successors;

/// The cycles of the darts under some step, numbered by their least darts.
pub struct Cycles {
    /// The cycle of each dart.
    pub of: Vec<usize>,
    /// The least dart of each cycle.
    pub least: Vec<u16>,
}

impl Cycles {
    fn new(darts: usize, step: impl Fn(usize) -> usize) -> Cycles {
        let mut cycles = Cycles { of: vec![usize::MAX; darts], least: Vec::new() };
        for dart in 0..darts {
            if cycles.of[dart] == usize::MAX {
                cycle(dart, &step).for_each(|other| cycles.of[other] = cycles.count());
                cycles.least.push(dart as u16);
            }
        }
        cycles
    }

    pub fn count(&self) -> usize {
        self.least.len()
    }
}

/// The darts from one round to it again.
fn cycle(first: usize, step: impl Fn(usize) -> usize) -> impl Iterator<Item = usize> {
    successors(Some(first), move |&dart| Some(step(dart)).filter(|&next| next != first))
}

/// The other end of a dart's trail.
fn opposite(dart: usize) -> usize {
    dart ^ 1
}

/// The darts around a junction, from one of them on.
pub fn round(order: &[u16], first: usize) -> impl Iterator<Item = usize> + '_ {
    cycle(first, |dart| order[dart].into())
}

pub fn junctions(order: &[u16]) -> Cycles {
    Cycles::new(order.len(), |dart| order[dart].into())
}

pub fn areas(order: &[u16]) -> Cycles {
    Cycles::new(order.len(), |dart| order[opposite(dart)].into())
}

/// What the contour walk meets, in its order.
pub struct Walk {
    /// The dart by which it meets each junction: the start, then the darts of arrival.
    pub arrivals: Vec<usize>,
    pub trails: Vec<usize>,
}

/// The contour walk of the piece that the start is in.
pub fn walk(order: &[u16], start: usize) -> Walk {
    let junction = junctions(order);
    let mut arrival = vec![None; junction.count()];
    let mut met = vec![false; order.len() / 2];
    let mut walk = Walk { arrivals: vec![start], trails: Vec::new() };
    arrival[junction.of[start]] = Some(start);
    let mut dart = start;
    loop {
        if !std::mem::replace(&mut met[dart / 2], true) {
            walk.trails.push(dart / 2);
        }
        let far = opposite(dart);
        let down = arrival[junction.of[far]].is_none();
        if down {
            arrival[junction.of[far]] = Some(far);
            walk.arrivals.push(far);
        }
        let up = dart != start && arrival[junction.of[dart]] == Some(dart);
        dart = order[if down || up { far } else { dart }].into();
        if dart == start {
            return walk;
        }
    }
}

#[cfg(test)]
mod tests {
    use super::*;

    #[test]
    fn junctions_and_areas() {
        let counts = |order: &[u16]| (junctions(order).count(), areas(order).count());
        assert_eq!(counts(&[0, 1]), (2, 1));
        assert_eq!(counts(&[1, 0]), (1, 2));
        assert_eq!(counts(&[3, 2, 1, 0]), (2, 2));
        assert_eq!(counts(&[2, 11, 4, 7, 0, 9, 1, 8, 3, 10, 5, 6]), (4, 4));
        assert_eq!(counts(&[3, 2, 4, 5, 1, 0]), (2, 1));
    }

    #[test]
    fn the_contour_walk() {
        let met = |order: &[u16], start| (walk(order, start).arrivals, walk(order, start).trails);
        assert_eq!(met(&[0, 1], 1), (vec![1, 0], vec![0]));
        assert_eq!(met(&[1, 0], 0), (vec![0], vec![0]));
        assert_eq!(met(&[4, 2, 1, 0, 3, 5], 0), (vec![0, 1, 5], vec![0, 1, 2]));
        assert_eq!(met(&[5, 2, 1, 4, 3, 0], 5), (vec![5, 4, 2], vec![2, 1, 0]));
    }
}
