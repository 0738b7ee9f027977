//! Random plans, for tests.

/// A small source of random numbers (splitmix64).
pub struct Random(pub u64);

impl Random {
    /// A number below a bound.
    pub fn below(&mut self, bound: usize) -> usize {
        self.0 = self.0.wrapping_add(0x9E37_79B9_7F4A_7C15);
        let z = (self.0 ^ (self.0 >> 30)).wrapping_mul(0xBF58_476D_1CE4_E5B9);
        let z = (z ^ (z >> 27)).wrapping_mul(0x94D0_49BB_1331_11EB);
        ((z ^ (z >> 31)) % bound as u64) as usize
    }

    /// A number from 1 to a bound, each order of magnitude about as often.
    pub fn size(&mut self, most: usize) -> usize {
        let exponent = self.below(1 << 16) as f64 / 65536.0;
        (most as f64).powf(exponent).round() as usize
    }
}

/// A plan that grows by trails. The corner after a dart is named by it.
#[derive(Clone)]
pub struct Growing {
    pub order: Vec<u16>,
}

impl Growing {
    pub fn trail() -> Growing {
        Growing { order: vec![0, 1] }
    }

    pub fn one_loop() -> Growing {
        Growing { order: vec![1, 0] }
    }

    /// The corner so many corners on around the area.
    pub fn corner(&self, after: u16, corners: usize) -> u16 {
        (0..corners).fold(after, |corner, _| self.order[usize::from(corner)] ^ 1)
    }

    /// A trail to a new junction, from a corner; its first dart.
    pub fn dead_end(&mut self, after: u16) -> u16 {
        let dart = self.order.len() as u16;
        self.order.extend([dart, dart + 1]);
        self.put_after(after, dart);
        dart
    }

    /// A trail from a corner to another, so many corners on around its area; its first dart.
    pub fn across(&mut self, after: u16, corners: usize) -> u16 {
        let to = self.corner(after, corners);
        let dart = self.order.len() as u16;
        self.order.extend([dart, dart + 1]);
        self.put_after(after, dart);
        self.put_after(if to == after { dart } else { to }, dart + 1);
        dart
    }

    /// Turns a trail between two triangles, so that it joins their other two corners, unless these are of one junction.
    fn turn(&mut self, dart: u16) {
        // The corner after an end is of the triangle on its left, and the next one is across from the trail.
        let ends = [dart, dart ^ 1];
        let corners = ends.map(|end| self.corner(end, 1));
        let junctions = crate::shape::junctions(&self.order).of;
        if junctions[usize::from(corners[0])] == junctions[usize::from(corners[1])] {
            return;
        }
        for end in ends {
            let before = self.order.iter().position(|&next| next == end).expect("an order has each dart once");
            self.order[before] = self.order[usize::from(end)];
        }
        ends.into_iter().zip(corners).for_each(|(end, corner)| self.put_after(corner, end));
    }

    /// Puts a new dart right after another.
    fn put_after(&mut self, after: u16, dart: u16) {
        self.order[usize::from(dart)] = self.order[usize::from(after)];
        self.order[usize::from(after)] = dart;
    }
}

/// The turning order of a random triangle mesh: junctions are put into areas and joined to their corners, and trails between two
/// areas are turned to join the other corners of these, where that makes no loop.
pub fn mesh(trails: usize, random: &mut Random) -> Vec<u16> {
    let mut plan = Growing { order: vec![5, 2, 1, 4, 3, 0] };
    while plan.order.len() < 2 * trails {
        let corner = random.below(plan.order.len()) as u16;
        let dart = plan.dead_end(corner);
        // From the new junction to the area's other corners: each trail leaves a triangle behind.
        for _ in 0..2 {
            plan.across(dart + 1, 2);
        }
        for _ in 0..random.below(4) {
            let dart = random.below(plan.order.len()) as u16;
            plan.turn(dart);
        }
    }
    plan.order
}

/// How a random plan grows: out of ten steps so many are dead ends; the other trails go so many corners on, below a bound.
#[derive(Clone, Copy)]
pub struct Shape {
    pub dead_ends: usize,
    pub corners: usize,
}

/// The turning order of a random plan, perhaps with loops.
pub fn random(trails: usize, shape: Shape, random: &mut Random) -> Vec<u16> {
    let mut plan = if random.below(2) == 0 { Growing::trail() } else { Growing::one_loop() };
    while plan.order.len() < 2 * trails {
        let after = random.below(plan.order.len()) as u16;
        if random.below(10) < shape.dead_ends {
            plan.dead_end(after);
        } else {
            plan.across(after, random.below(shape.corners));
        }
    }
    plan.order
}
