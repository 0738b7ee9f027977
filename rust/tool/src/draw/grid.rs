//! A drawing of a net that cannot fail: every point on a whole-number grid, about twice as wide as there are points and as high.
//!
//! Points are laid in a canonical order, each above those before it (de Fraysseix, Pach, Pollack), with offsets kept in a
//! tree (Chrobak, Payne): linear time.

use super::net::Net;

const NONE: usize = usize::MAX;

/// The points on the grid; the three far points are the corners.
pub fn place(net: &Net) -> Vec<[i64; 2]> {
    let [left, right, _] = net.far;
    let mut steps = Shelling::new(net).run();
    steps.reverse();
    Rise::new(net.points(), left, right).run(&steps)
}

/// A point and the leftmost and rightmost of those that it is laid upon.
struct Step {
    point: usize,
    left: usize,
    right: usize,
}

/// Taking points off from the top, so that the points that are left have a contour without gaps.
struct Shelling<'a> {
    net: &'a Net,
    base: [usize; 2],
    /// The contour, from the left end of the base over the top to the right end.
    next: Vec<usize>,
    before: Vec<usize>,
    on_contour: Vec<bool>,
    /// For each point of the contour its links to others of the contour that are not next to it.
    chords: Vec<usize>,
    ready: Vec<usize>,
}

impl<'a> Shelling<'a> {
    fn new(net: &'a Net) -> Shelling<'a> {
        let [left, right, top] = net.far;
        let points = net.points();
        let mut shelling = Shelling {
            net,
            base: [left, right],
            next: vec![NONE; points],
            before: vec![NONE; points],
            on_contour: vec![false; points],
            chords: vec![0; points],
            ready: vec![top],
        };
        [left, top, right].windows(2).for_each(|pair| shelling.join(pair[0], pair[1]));
        [left, top, right].iter().for_each(|&point| shelling.on_contour[point] = true);
        shelling
    }

    fn run(mut self) -> Vec<Step> {
        let mut steps = Vec::new();
        while let Some(point) = self.ready.pop() {
            if self.on_contour[point] && self.chords[point] == 0 {
                steps.push(self.take_off(point));
            }
        }
        steps
    }

    fn join(&mut self, left: usize, right: usize) {
        self.next[left] = right;
        self.before[right] = left;
    }

    fn take_off(&mut self, point: usize) -> Step {
        let (left, right) = (self.before[point], self.next[point]);
        self.on_contour[point] = false;
        let link = self.net.link(point);
        let begin = link.iter().position(|&end| end == left).unwrap_or(0);
        let bared: Vec<usize> =
            (1..link.len()).map(|turn| link[(begin + turn) % link.len()]).take_while(|&end| end != right).collect();
        if bared.is_empty() {
            self.join(left, right);
            [left, right].iter().for_each(|&end| self.drop_chord(end));
        }
        let mut last = left;
        for &end in bared.iter().chain([&right]) {
            self.join(last, end);
            last = end;
        }
        bared.iter().for_each(|&end| self.bare(end));
        Step { point, left, right }
    }

    /// A point comes to the contour.
    fn bare(&mut self, point: usize) {
        for &end in self.net.link(point) {
            if self.on_contour[end] && end != self.next[point] && end != self.before[point] {
                self.chords[point] += 1;
                self.chords[end] += 1;
            }
        }
        self.on_contour[point] = true;
        self.offer(point);
    }

    /// A chord has become a side of the contour. The base is none.
    fn drop_chord(&mut self, point: usize) {
        self.chords[point] = self.chords[point].saturating_sub(1);
        self.offer(point);
    }

    fn offer(&mut self, point: usize) {
        if self.chords[point] == 0 && !self.base.contains(&point) {
            self.ready.push(point);
        }
    }
}

/// Laying points upon the contour. A point's offset is from its parent in the tree; along the contour the parent is the point
/// before, and the right child the point after.
struct Rise {
    root: usize,
    offset: Vec<i64>,
    height: Vec<i64>,
    left: Vec<usize>,
    right: Vec<usize>,
}

impl Rise {
    fn new(points: usize, left: usize, right: usize) -> Rise {
        let none = || vec![NONE; points];
        let mut rise = Rise { root: left, offset: vec![0; points], height: vec![0; points], left: none(), right: none() };
        rise.right[left] = right;
        rise
    }

    fn run(mut self, steps: &[Step]) -> Vec<[i64; 2]> {
        steps.iter().for_each(|step| self.lay(step));
        self.add_up()
    }

    fn lay(&mut self, &Step { point, left, right }: &Step) {
        let covered = self.right[left];
        self.offset[covered] += 1;
        self.offset[right] += 1;
        let (mut last, mut width) = (left, 0);
        while last != right {
            if self.right[last] == right {
                self.right[last] = NONE;
                width += self.offset[right];
                break;
            }
            last = self.right[last];
            width += self.offset[last];
        }
        let (low, high) = (self.height[left], self.height[right]);
        self.offset[point] = (width + high - low) / 2;
        self.height[point] = (width + high + low) / 2;
        self.offset[right] = width - self.offset[point];
        if covered != right {
            self.offset[covered] -= self.offset[point];
            self.left[point] = covered;
        }
        self.right[left] = point;
        self.right[point] = right;
    }

    fn add_up(&self) -> Vec<[i64; 2]> {
        let mut places = vec![[0, 0]; self.offset.len()];
        let mut open = vec![self.root];
        while let Some(point) = open.pop() {
            for child in [self.left[point], self.right[point]] {
                if child != NONE {
                    places[child] = [places[point][0] + self.offset[child], self.height[child]];
                    open.push(child);
                }
            }
        }
        places
    }
}
