//! The SVG text.
//!
//! A trail is a `path` with `data-trail`, `data-begin` and `data-end`, its number and its two darts; the path goes from the
//! begin dart's junction to the end dart's. A junction is a `circle` with `data-darts`, its darts counterclockwise from the least.

use super::curve::{Curve, Spot};
use super::layout::{Layout, STEPS};
use super::net::Net;
use super::place::Place;
use super::room::{direction, distance, Room};
use super::Picture;
use std::fmt::Write as _;

const INK: &str = "#37474f";
const ACCENT: &str = "#b3261e";

/// Sizes in pixels, where there is room.
const MARGIN: f64 = 28.0;
const LINE: f64 = 1.8;
const DOT: f64 = 4.2;
const LETTER: f64 = 13.0;
const ARROWS: [f64; 5] = [13.0, 11.0, 9.0, 7.0, 5.5];
/// The least size of letters and dots.
const LEAST: f64 = 1.2;
/// As far as this is looked for other trails.
const SIGHT: f64 = 16.0;

pub fn write(picture: &Picture, layout: &Layout) -> String {
    let page = Page::new(picture, layout);
    let mut text = String::new();
    page.head(&mut text);
    page.trails(&mut text);
    page.junctions(&mut text);
    page.start(&mut text);
    page.labels(&mut text);
    page.legend(&mut text);
    text.push_str("</svg>\n");
    text
}

struct Page<'a> {
    picture: &'a Picture<'a>,
    net: &'a Net,
    spots: &'a [Spot],
    /// Units in a pixel.
    unit: f64,
    curves: Vec<Curve>,
    room: Room,
    /// Left and top of what is drawn, in steps.
    corner: Spot,
    /// Width and height of what is drawn, in units.
    size: [f64; 2],
}

/// The mark of the start: a ring around the dot of its junction, and an arrow head along its dart.
struct Mark {
    point: usize,
    /// In pixels: the ring's radius, and the length of the arrow head.
    radius: f64,
    size: f64,
    base: Place,
    tip: Place,
}

impl<'a> Page<'a> {
    fn new(picture: &'a Picture, Layout { net, spots, unit }: &'a Layout) -> Page<'a> {
        let curves: Vec<Curve> = net.routes.iter().map(|route| Curve::new(net, spots, route)).collect();
        let seen = || net.routes.iter().flatten().map(|&point| spots[point]);
        let low: Spot = std::array::from_fn(|axis| seen().map(|spot| spot[axis]).min().unwrap_or(0));
        let high: Spot = std::array::from_fn(|axis| seen().map(|spot| spot[axis]).max().unwrap_or(0));
        let size = std::array::from_fn(|axis| (high[axis] - low[axis]) as f64 / STEPS as f64);
        let room = Room::new(&[], 2.0 * SIGHT * unit);
        let mut page = Page { picture, net, spots, unit: *unit, curves, room, corner: [low[0], high[1]], size };
        let lines: Vec<Vec<Place>> = page.curves.iter().map(|curve| page.line(curve)).collect();
        page.room = Room::new(&lines, 2.0 * SIGHT * unit);
        page
    }

    /// Pixels in units.
    fn px(&self, pixels: f64) -> f64 {
        pixels * self.unit
    }

    /// A spot in units, y going down.
    fn at(&self, spot: Spot) -> Place {
        [(spot[0] - self.corner[0]) as f64 / STEPS as f64, (self.corner[1] - spot[1]) as f64 / STEPS as f64]
    }

    /// A spot as it is printed, exact.
    fn exact(&self, spot: Spot) -> [String; 2] {
        [exact(spot[0] - self.corner[0]), exact(self.corner[1] - spot[1])]
    }

    /// Places along a trail.
    fn line(&self, curve: &Curve) -> Vec<Place> {
        let corners = curve.corners.iter().flat_map(|&[from, here, to]| [self.at(from), self.top([from, here, to]), self.at(to)]);
        [self.at(curve.begin)].into_iter().chain(corners).chain([self.at(curve.end)]).collect()
    }

    /// The middle of a rounded corner.
    fn top(&self, corner: [Spot; 3]) -> Place {
        let [from, here, to] = corner.map(|spot| self.at(spot));
        std::array::from_fn(|axis| (from[axis] + 2.0 * here[axis] + to[axis]) / 4.0)
    }

    fn head(&self, text: &mut String) {
        let margin = self.px(MARGIN);
        let least = self.px(self.legend_words().chars().count() as f64 * LETTER * 0.55);
        let (width, height) = (self.size[0].max(least) + 2.0 * margin, self.size[1] + 2.0 * margin + 2.0 * self.legend_letter());
        let (left, top) = ((self.size[0] - width) / 2.0, -margin);
        let [wide, high] = [width, height].map(|size| size / self.unit);
        let _ = writeln!(
            text,
            "<svg xmlns=\"http://www.w3.org/2000/svg\" viewBox=\"{left:.2} {top:.2} {width:.2} {height:.2}\" width=\"{wide:.0}\" \
             height=\"{high:.0}\" font-family=\"Helvetica, Arial, sans-serif\">"
        );
        let Picture { start, outside, .. } = self.picture;
        let _ = writeln!(text, "<title>Trail plan: {}</title>", self.counts());
        let _ = writeln!(text, "<desc>The start is dart {start}; the area of dart {outside} is outside.</desc>");
        let _ =
            writeln!(text, "<rect x=\"{left:.2}\" y=\"{top:.2}\" width=\"{width:.2}\" height=\"{height:.2}\" fill=\"#ffffff\"/>");
    }

    fn trails(&self, text: &mut String) {
        let width = self.px(LINE);
        let _ = writeln!(
            text,
            "<g fill=\"none\" stroke=\"{INK}\" stroke-width=\"{width:.2}\" stroke-linecap=\"round\" stroke-linejoin=\"round\">"
        );
        for (trail, curve) in self.curves.iter().enumerate() {
            let colour = if self.is_start(trail) { format!(" stroke=\"{ACCENT}\"") } else { String::new() };
            let (begin, end, path) = (2 * trail, 2 * trail + 1, self.path(curve));
            let _ =
                writeln!(text, "<path data-trail=\"{trail}\" data-begin=\"{begin}\" data-end=\"{end}\"{colour} d=\"{path}\"/>");
        }
        text.push_str("</g>\n");
    }

    fn is_start(&self, trail: usize) -> bool {
        trail == usize::from(self.picture.start / 2)
    }

    fn path(&self, curve: &Curve) -> String {
        let pair = |spot: Spot| self.exact(spot).join(" ");
        let mut path = format!("M{}", pair(curve.begin));
        let mut last = curve.begin;
        for &[from, here, to] in &curve.corners {
            if from != last {
                let _ = write!(path, "L{}", pair(from));
            }
            if to != from {
                let _ = write!(path, "Q{} {}", pair(here), pair(to));
            }
            last = to;
        }
        let _ = write!(path, "L{}", pair(curve.end));
        path
    }

    fn junctions(&self, text: &mut String) {
        let _ = writeln!(text, "<g fill=\"{INK}\">");
        for (point, &least) in self.net.junctions.iter().enumerate() {
            let [x, y] = self.exact(self.spots[point]);
            let (darts, radius) = (darts(self.picture.order, least), self.px(self.dot(point)));
            let _ = writeln!(text, "<circle data-darts=\"{darts}\" cx=\"{x}\" cy=\"{y}\" r=\"{radius:.2}\"/>");
        }
        text.push_str("</g>\n");
    }

    /// The radius of a junction's dot, in pixels.
    fn dot(&self, point: usize) -> f64 {
        (0.6 * self.junction_room(point)).clamp(LEAST, DOT)
    }

    /// How far other trails are from a junction, in pixels.
    fn junction_room(&self, point: usize) -> f64 {
        let ends_here = |trail: usize| [self.net.routes[trail].first(), self.net.routes[trail].last()].contains(&Some(&point));
        self.room.around(self.at(self.spots[point]), ends_here) / self.unit
    }

    /// How far other trails are from a place of a trail, in pixels.
    fn trail_room(&self, trail: usize, place: Place) -> f64 {
        self.room.around(place, |other| other == trail) / self.unit
    }

    /// The mark of the start, its arrow head as large as there is room for.
    fn mark(&self) -> Mark {
        let trail = usize::from(self.picture.start / 2);
        let mut line = self.line(&self.curves[trail]);
        let mut point = self.net.routes[trail].first();
        if self.picture.start % 2 == 1 {
            line.reverse();
            point = self.net.routes[trail].last();
        }
        let point = *point.unwrap_or(&0);
        let radius = self.dot(point) + 3.0;
        let tip_at = |size: f64| along(&line, self.px(radius + size));
        let fits = |size: &f64| self.trail_room(trail, tip_at(*size)) > 0.3 * size;
        let size = ARROWS.into_iter().find(fits).unwrap_or(ARROWS[ARROWS.len() - 1]);
        Mark { point, radius, size, base: along(&line, self.px(radius)), tip: tip_at(size) }
    }

    fn start(&self, text: &mut String) {
        let Mark { point, radius, size, base, tip } = self.mark();
        let (forward, _) = direction(base, tip);
        let side = [-forward[1], forward[0]].map(|part| part * self.px(0.4 * size));
        let [x, y] = self.at(self.spots[point]);
        let (radius, width) = (self.px(radius), self.px(LINE));
        let corners = [tip, [base[0] + side[0], base[1] + side[1]], [base[0] - side[0], base[1] - side[1]]];
        let corners = corners.map(|[x, y]| format!("{x:.2},{y:.2}")).join(" ");
        let _ = writeln!(
            text,
            "<g fill=\"{ACCENT}\">\n<circle cx=\"{x:.2}\" cy=\"{y:.2}\" r=\"{radius:.2}\" fill=\"none\" stroke=\"{ACCENT}\" \
             stroke-width=\"{width:.2}\"/>\n<polygon points=\"{corners}\"/>\n</g>"
        );
    }

    fn labels(&self, text: &mut String) {
        let _ = writeln!(
            text,
            "<g text-anchor=\"middle\" fill=\"{INK}\" stroke=\"#ffffff\" stroke-linejoin=\"round\" paint-order=\"stroke\">"
        );
        for (trail, curve) in self.curves.iter().enumerate() {
            let colour = if self.is_start(trail) { format!(" fill=\"{ACCENT}\"") } else { String::new() };
            let name = self.trail_name(trail);
            let [x, y] = self.top(curve.corners[curve.corners.len() / 2]);
            let size = letter_size(&name, self.trail_room(trail, [x, y]));
            self.label(text, [x, y + self.px(0.35 * size)], size, &colour, &name);
        }
        let mark = self.mark();
        for (point, least) in self.net.junctions.iter().enumerate() {
            if let Some(name) = self.picture.junctions.get(least) {
                let size = letter_size(name, self.junction_room(point));
                self.label(text, self.beside_dot(point, size, &mark), size, " font-weight=\"bold\"", name);
            }
        }
        text.push_str("</g>\n");
    }

    /// Where a junction's name stands: above its dot or below it, where trails are farther; the start's not on its arrow head.
    fn beside_dot(&self, point: usize, size: f64, mark: &Mark) -> Place {
        let [x, y] = self.at(self.spots[point]);
        let off = self.px(self.dot(point) + 3.0 + 0.5 * size);
        let hides = |y: f64| point == mark.point && distance([x, y], mark.base, mark.tip) < off;
        let free = |y: f64| if hides(y) { -1.0 } else { self.room.around([x, y], |_| false) };
        let middle = if free(y + off) > free(y - off) { y + off } else { y - off };
        [x, middle + self.px(0.35 * size)]
    }

    fn label(&self, text: &mut String, [x, y]: Place, size: f64, more: &str, words: &str) {
        let (letter, halo, words) = (self.px(size), self.px(0.3 * size), escaped(words));
        let _ = writeln!(
            text,
            "<text x=\"{x:.2}\" y=\"{y:.2}\" font-size=\"{letter:.2}\" stroke-width=\"{halo:.2}\"{more}>{words}</text>"
        );
    }

    fn legend(&self, text: &mut String) {
        let (letter, words) = (self.legend_letter(), escaped(&self.legend_words()));
        let (x, y) = (self.size[0] / 2.0, self.size[1] + self.px(MARGIN) + 1.2 * letter);
        let _ = writeln!(
            text,
            "<text x=\"{x:.2}\" y=\"{y:.2}\" font-size=\"{letter:.2}\" text-anchor=\"middle\" fill=\"{INK}\">{words}</text>"
        );
    }

    /// The size of the legend's letters, in units: it is to be read where all is seen.
    fn legend_letter(&self) -> f64 {
        self.px(LETTER).max(self.size[0] / 60.0)
    }

    fn legend_words(&self) -> String {
        format!("start: trail {} ({})", self.trail_name(usize::from(self.picture.start / 2)), self.counts())
    }

    fn counts(&self) -> String {
        let counted = |count: usize, what: &str| format!("{count} {what}{}", if count == 1 { "" } else { "s" });
        let Net { routes, junctions, areas, .. } = self.net;
        format!("{}, {}, {}", counted(routes.len(), "trail"), counted(junctions.len(), "junction"), counted(*areas, "area"))
    }

    fn trail_name(&self, trail: usize) -> String {
        self.picture.trails.get(&(trail as u16)).cloned().unwrap_or_else(|| trail.to_string())
    }
}

/// The size of a label's letters in pixels, where other trails are so far; a long name may be closer to them.
fn letter_size(name: &str, room: f64) -> f64 {
    let letters = name.chars().count().max(2) as f64;
    (2.0 * room / letters.sqrt()).clamp(LEAST, LETTER)
}

/// The place so far along a line.
fn along(line: &[Place], mut far: f64) -> Place {
    for side in line.windows(2) {
        let (forward, length) = direction(side[0], side[1]);
        if far <= length {
            return std::array::from_fn(|axis| side[0][axis] + far * forward[axis]);
        }
        far -= length;
    }
    line[line.len() - 1]
}

/// The darts of a junction, from its least.
fn darts(order: &[u16], least: u16) -> String {
    let mut text = least.to_string();
    let mut dart = order[usize::from(least)];
    while dart != least {
        let _ = write!(text, " {dart}");
        dart = order[usize::from(dart)];
    }
    text
}

/// Steps as units, without rounding.
fn exact(steps: i64) -> String {
    let (whole, rest) = (steps.abs() / STEPS, steps.abs() % STEPS);
    let sign = if steps < 0 { "-" } else { "" };
    match rest {
        0 => format!("{sign}{whole}"),
        _ => format!("{sign}{whole}.{rest:02}"),
    }
}

/// A text as XML takes it; what XML cannot have becomes U+FFFD.
fn escaped(words: &str) -> String {
    let mut text = String::new();
    for letter in words.chars() {
        match letter {
            '<' => text.push_str("&lt;"),
            '>' => text.push_str("&gt;"),
            '&' => text.push_str("&amp;"),
            '"' => text.push_str("&quot;"),
            '\'' => text.push_str("&#39;"),
            '\u{FFFE}' | '\u{FFFF}' => text.push('\u{FFFD}'),
            _ if letter.is_control() => text.push('\u{FFFD}'),
            _ => text.push(letter),
        }
    }
    text
}
