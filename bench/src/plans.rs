//! The plans that are timed.

use second_coder::grow::{grow, Growth, Rng, Shape};

/// Makes a plan of about so many trails, never more.
pub type Maker = fn(usize, &mut Rng) -> Growth;

/// What a plan looks like: its name in the table and its maker.
pub const SHAPES: [(&str, Maker); 8] = [
    ("tree, few more", tree),
    ("triangles", triangles),
    ("parallel", parallel),
    ("long path", path),
    ("mixed", |m, rng| grow(Shape::Mixed, m, rng)),
    ("two-connected", |m, rng| grow(Shape::TwoConnected, m, rng)),
    ("spur", spur),
    ("loops", loops),
];

/// The same of meshes, whose trails are a multiple of three.
pub const MESHES: [(&str, Maker); 3] = [
    ("nested mesh", nested),
    ("flipped mesh", flipped),
    ("parallel mesh", widened),
];

/// A plan: its turning order, renumbered at random, an outside dart, and the kinds that it is timed in, with and without the
/// outside. With one dead end and no loop it starts there.
pub struct Plan {
    pub order: Vec<u16>,
    pub start: u16,
    pub outside: u16,
    pub kinds: &'static [u16],
}

/// A plan of this shape with m trails, 16 or more.
pub fn plan(shape: Maker, m: usize, rng: &mut Rng) -> Plan {
    let mut growth = shape(m, rng);
    while growth.trails() < m {
        growth.divide(rng.below(growth.trails()));
    }
    let order = growth.renumbered(rng);
    let start = rng.below(2 * m) as u16;
    let ends: Vec<u16> = (0..)
        .zip(&order)
        .filter(|(dart, next)| dart == *next)
        .map(|(dart, _)| dart)
        .collect();
    let is_loop = |trail: usize| growth.same_junction(2 * trail, 2 * trail + 1);
    let (start, kinds): (u16, &[u16]) = match ends[..] {
        _ if (0..m).any(is_loop) => (start, &[4]),
        [] => (start, &[1, 2, 4]),
        [end] => (end, &[1, 4]),
        _ => (start, &[2, 4]),
    };
    Plan {
        order,
        start,
        outside: rng.below(2 * m) as u16,
        kinds,
    }
}

/// A mesh of this shape with m trails; it is timed in kind 3 too, which has no form with the outside.
pub fn mesh(shape: Maker, m: usize, rng: &mut Rng) -> Plan {
    let plan = plan(shape, m, rng);
    Plan {
        kinds: &[1, 2, 3, 4],
        ..plan
    }
}

/// A tree, and one trail in sixteen within an area of it.
fn tree(m: usize, rng: &mut Rng) -> Growth {
    let mut growth = Growth::stick();
    while growth.trails() < m - m / 16 {
        growth.hang(rng.below(growth.darts()));
    }
    while growth.trails() < m {
        let reach = 1 + rng.below(20);
        growth.join_on(rng.below(growth.darts()), reach);
    }
    growth
}

/// Two-connected, and one trail that leads in.
fn spur(m: usize, rng: &mut Rng) -> Growth {
    let mut growth = grow(Shape::TwoConnected, m - 1, rng);
    growth.hang(rng.below(growth.darts()));
    growth
}

/// Loops beside each other and within each other, dead ends, and trails across an area.
fn loops(m: usize, rng: &mut Rng) -> Growth {
    let mut growth = Growth::ring();
    while growth.trails() < m {
        let (corner, reach) = (rng.below(growth.darts()), 1 + rng.below(20));
        match rng.below(3) {
            0 => _ = growth.loop_at(corner, reach),
            1 => _ = growth.join_on(corner, reach),
            _ => _ = growth.hang(corner),
        }
    }
    growth
}

/// Triangles within triangles.
fn triangles(m: usize, rng: &mut Rng) -> Growth {
    grow(Shape::Triangles, m, rng)
}

/// A short round, every trail of it many times.
fn parallel(m: usize, rng: &mut Rng) -> Growth {
    let mut growth = Growth::round(4);
    while growth.trails() < m {
        growth.join_on(rng.below(growth.darts()), 1);
    }
    growth
}

/// One path from end to end.
fn path(m: usize, _: &mut Rng) -> Growth {
    let mut growth = Growth::stick();
    let mut end = 1;
    while growth.trails() < m {
        end = growth.hang(end);
    }
    growth
}

/// A new junction in the triangle that this corner is of, joined to its three.
fn put_centre(growth: &mut Growth, corner: usize) {
    let second = growth.next_corner(corner);
    let third = growth.next_corner(second);
    let centre = growth.hang(corner);
    growth.join(centre, second);
    growth.join(centre, third);
}

/// A mesh of triangles within triangles.
fn nested(m: usize, rng: &mut Rng) -> Growth {
    let mut growth = Growth::round(3);
    while growth.trails() < m {
        let corner = rng.below(growth.darts());
        put_centre(&mut growth, corner);
    }
    growth
}

/// The same, with trails turned into the other diagonal of their two triangles, three times as often as there are trails.
fn flipped(m: usize, rng: &mut Rng) -> Growth {
    let mut growth = nested(m, rng);
    for _ in 0..3 * m {
        growth.flip(rng.below(growth.trails()));
    }
    growth
}

/// A mesh in which every other new junction lies between a trail and a new one beside it.
fn widened(m: usize, rng: &mut Rng) -> Growth {
    let mut growth = Growth::round(3);
    while growth.trails() < m {
        let corner = rng.below(growth.darts());
        match rng.below(2) {
            0 => growth.widen(corner / 2),
            _ => put_centre(&mut growth, corner),
        }
    }
    growth
}
