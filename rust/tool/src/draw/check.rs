//! A checker of pictures: it takes the SVG text and nothing else, and reads the plan back from where the lines are.

use std::collections::HashMap;
use std::f64::consts::{FRAC_PI_2, TAU};

type Place = [f64; 2];

/// Where trails end, and the darts that leave there, counterclockwise by angle.
type Junction = (Place, Vec<u16>);

/// Straight pieces that a curved piece is taken as.
const PIECES: usize = 8;

/// Lines that are as near meet.
const NEAR: f64 = 1e-9;

/// What a picture shows.
#[derive(Debug)]
pub struct Shown {
    /// The next dart counterclockwise, by the angles at which the trails leave their junctions.
    pub order: Vec<u16>,
    /// The darts around the unbounded region, which is on their right, in their order from the least.
    pub outside: Vec<u16>,
}

/// What the picture shows, or what is wrong with it.
pub fn read(svg: &str) -> Result<Shown, String> {
    let lines = trails(svg)?;
    if let Some((a, b)) = meeting(&lines) {
        return Err(format!("trails {a} and {b} meet"));
    }
    let junctions = junctions(&lines);
    let order = order_of(&junctions);
    circles_agree(svg, &junctions, &order)?;
    let outside = cycle(top_dart(&lines, &junctions), |dart| order[usize::from(dart ^ 1)]);
    Ok(Shown { order, outside })
}

/// The lines of the trails, by number.
fn trails(svg: &str) -> Result<Vec<Vec<Place>>, String> {
    let mut lines: HashMap<usize, Vec<Place>> = HashMap::new();
    for tag in svg.split("<path").skip(1) {
        let number = |name: &str| attribute(tag, name).and_then(|text| text.parse::<usize>().ok()).ok_or(format!("no {name}"));
        let (trail, begin, end) = (number("data-trail")?, number("data-begin")?, number("data-end")?);
        let mut line = flat(attribute(tag, "d").ok_or("no d")?)?;
        match begin {
            _ if begin / 2 != trail || end != begin ^ 1 => return Err(format!("darts {begin} and {end} on trail {trail}")),
            _ if begin % 2 == 1 => line.reverse(),
            _ => {}
        }
        if lines.insert(trail, line).is_some() {
            return Err(format!("trail {trail} twice"));
        }
    }
    (0..lines.len()).map(|trail| lines.remove(&trail).ok_or(format!("no trail {trail}"))).collect()
}

fn attribute<'a>(tag: &'a str, name: &str) -> Option<&'a str> {
    let tag = &tag[..tag.find('>')?];
    let begin = tag.find(&format!(" {name}=\""))? + name.len() + 3;
    Some(&tag[begin..begin + tag[begin..].find('"')?])
}

/// A path as a line of straight pieces, y going up.
fn flat(path: &str) -> Result<Vec<Place>, String> {
    let mut line: Vec<Place> = Vec::new();
    for (at, letter) in path.match_indices(|letter: char| letter.is_ascii_alphabetic()) {
        let rest = &path[at + 1..];
        let rest = &rest[..rest.find(|letter: char| letter.is_ascii_alphabetic()).unwrap_or(rest.len())];
        let numbers: Result<Vec<f64>, _> = rest.split([' ', ',']).filter(|word| !word.is_empty()).map(str::parse).collect();
        let up = |[x, y]: [f64; 2]| [x, -y];
        match (letter.as_bytes()[0] as char, &numbers.map_err(|error| format!("{error}: {rest}"))?[..], line.last().copied()) {
            ('M', &[x, y], None) | ('L', &[x, y], Some(_)) => line.push(up([x, y])),
            ('Q', &[bx, by, cx, cy], Some(a)) => line.extend(arc(a, up([bx, by]), up([cx, cy]))),
            _ => return Err(format!("not a path: {path}")),
        }
    }
    line.dedup();
    if line.len() < 2 {
        Err(format!("no line: {path}"))
    } else {
        Ok(line)
    }
}

fn arc(a: Place, b: Place, c: Place) -> impl Iterator<Item = Place> {
    let mix = |t: f64, a: f64, b: f64, c: f64| (1.0 - t) * ((1.0 - t) * a + t * b) + t * ((1.0 - t) * b + t * c);
    let at = move |t: f64| [mix(t, a[0], b[0], c[0]), mix(t, a[1], b[1], c[1])];
    (1..PIECES).map(move |piece| at(piece as f64 / PIECES as f64)).chain([c])
}

/// A straight piece: its trail, its number on the trail, and whether it is the last.
struct Piece {
    trail: usize,
    number: usize,
    last: bool,
    ends: [Place; 2],
}

impl Piece {
    /// The left end, then the right end; of an upright piece the lower end, then the upper.
    fn left_to_right(&self) -> [Place; 2] {
        let [a, b] = self.ends;
        if a < b {
            [a, b]
        } else {
            [b, a]
        }
    }

    /// Which of two pieces is above the other, at a place of this one; if the other goes through it, by this one's other end.
    fn above(&self, other: &Piece, place: Place, end: Place) -> std::cmp::Ordering {
        let [left, right] = other.left_to_right();
        turn(left, right, place).total_cmp(&0.0).then(turn(left, right, end).total_cmp(&0.0))
    }
}

/// Two trails that meet elsewhere than at a junction that both end at; a trail and itself too. The pieces that a line from
/// below to above meets are kept in their order while it goes to the right: pieces that meet are next to each other before.
fn meeting(lines: &[Vec<Place>]) -> Option<(usize, usize)> {
    let pieces: Vec<Piece> = lines.iter().enumerate().flat_map(|(trail, line)| pieces(trail, line)).collect();
    let ends = |number: usize, [left, right]: [Place; 2]| [(right, false, number), (left, true, number)];
    let mut events: Vec<(Place, bool, usize)> =
        (0..pieces.len()).flat_map(|number| ends(number, pieces[number].left_to_right())).collect();
    events.sort_by(|a, b| a.partial_cmp(b).expect("numbers"));
    let mut line: Vec<&Piece> = Vec::new();
    for (place, begins, number) in events {
        let piece = &pieces[number];
        let [left, right] = piece.left_to_right();
        let end = if begins { right } else { left };
        let at = line.partition_point(|other| !std::ptr::eq(*other, piece) && piece.above(other, place, end).is_gt());
        if begins {
            line.insert(at, piece);
        } else if line.get(at).is_some_and(|other| std::ptr::eq(*other, piece)) {
            line.remove(at);
        } else {
            return Some((piece.trail, line.get(at).map_or(piece.trail, |other| other.trail)));
        }
        let near = line[at.saturating_sub(1)..(at + 2).min(line.len())].windows(2).find(|pair| meet(pair[0], pair[1]));
        if let Some(pair) = near {
            return Some((pair[0].trail.min(pair[1].trail), pair[0].trail.max(pair[1].trail)));
        }
    }
    None
}

fn pieces(trail: usize, line: &[Place]) -> impl Iterator<Item = Piece> + '_ {
    let count = line.len() - 1;
    (0..count).map(move |number| Piece { trail, number, last: number + 1 == count, ends: [line[number], line[number + 1]] })
}

fn low(piece: &Piece, axis: usize) -> f64 {
    piece.ends[0][axis].min(piece.ends[1][axis])
}

fn high(piece: &Piece, axis: usize) -> f64 {
    piece.ends[0][axis].max(piece.ends[1][axis])
}

fn meet(a: &Piece, b: &Piece) -> bool {
    if a.trail == b.trail && a.number.abs_diff(b.number) == 1 {
        let (first, second) = if a.number < b.number { (a, b) } else { (b, a) };
        return folds(first.ends[1], first.ends[0], second.ends[1]);
    }
    for (from, to) in junction_ends(a) {
        for (other_from, other_to) in junction_ends(b) {
            if from == other_from {
                return folds(from, to, other_to);
            }
        }
    }
    if (0..2).any(|axis| high(a, axis) < low(b, axis) || high(b, axis) < low(a, axis)) {
        return false;
    }
    let [[a, b], [c, d]] = [a.ends, b.ends];
    let side = |a: Place, b: Place, c| turn(a, b, c) / (b[0] - a[0]).hypot(b[1] - a[1]);
    let apart = |a, b, c, d| {
        let sides = [side(a, b, c), side(a, b, d)];
        sides.iter().all(|&side| side > NEAR) || sides.iter().all(|&side| side < -NEAR)
    };
    !apart(a, b, c, d) && !apart(c, d, a, b)
}

/// The ends of a piece that are at junctions, each with the other end.
fn junction_ends(piece: &Piece) -> impl Iterator<Item = (Place, Place)> + '_ {
    let [begin, end] = piece.ends;
    let first = (piece.number == 0).then_some((begin, end));
    first.into_iter().chain(piece.last.then_some((end, begin)))
}

/// Whether two segments from one place go the same way.
fn folds(from: Place, a: Place, b: Place) -> bool {
    let along = (a[0] - from[0]) * (b[0] - from[0]) + (a[1] - from[1]) * (b[1] - from[1]);
    turn(from, a, b) == 0.0 && along > 0.0
}

/// Positive if c is on the left of the way from a to b.
fn turn(a: Place, b: Place, c: Place) -> f64 {
    (b[0] - a[0]) * (c[1] - a[1]) - (b[1] - a[1]) * (c[0] - a[0])
}

fn junctions(lines: &[Vec<Place>]) -> Vec<Junction> {
    let leaving = lines.iter().flat_map(|line| [[line[0], line[1]], [line[line.len() - 1], line[line.len() - 2]]]);
    let mut darts: Vec<([Place; 2], u16)> = leaving.zip(0..).collect();
    let angle = |[from, to]: [Place; 2]| (to[1] - from[1]).atan2(to[0] - from[0]);
    darts.sort_by(|a, b| a.0[0].partial_cmp(&b.0[0]).expect("numbers").then(angle(a.0).total_cmp(&angle(b.0))));
    let same = |a: &([Place; 2], u16), b: &([Place; 2], u16)| a.0[0] == b.0[0];
    darts.chunk_by(same).map(|darts| (darts[0].0[0], darts.iter().map(|&(_, dart)| dart).collect())).collect()
}

fn order_of(junctions: &[Junction]) -> Vec<u16> {
    let mut order: Vec<u16> = vec![0; junctions.iter().map(|(_, darts)| darts.len()).sum()];
    for (_, darts) in junctions {
        for (place, &dart) in darts.iter().enumerate() {
            order[usize::from(dart)] = darts[(place + 1) % darts.len()];
        }
    }
    order
}

fn cycle(first: u16, next: impl Fn(u16) -> u16) -> Vec<u16> {
    let mut darts = vec![first];
    while next(darts[darts.len() - 1]) != first {
        darts.push(next(darts[darts.len() - 1]));
    }
    let least = (0..darts.len()).min_by_key(|&place| darts[place]).unwrap_or(0);
    darts.rotate_left(least);
    darts
}

/// Each junction has a circle that names its darts, and no circle names others.
fn circles_agree(svg: &str, junctions: &[Junction], order: &[u16]) -> Result<(), String> {
    let mut named = HashMap::new();
    for tag in svg.split("<circle").skip(1) {
        let number = |name: &str| attribute(tag, name).and_then(|text| text.parse::<f64>().ok()).ok_or(format!("no {name}"));
        if let Some(darts) = attribute(tag, "data-darts") {
            named.insert([number("cx")?, -number("cy")?].map(f64::to_bits), String::from(darts));
        }
    }
    for (place, darts) in junctions {
        let words: Vec<String> = cycle(darts[0], |dart| order[usize::from(dart)]).iter().map(u16::to_string).collect();
        if named.get(&place.map(f64::to_bits)) != Some(&words.join(" ")) {
            return Err(format!("no circle of darts {words:?}"));
        }
    }
    if named.len() == junctions.len() {
        Ok(())
    } else {
        Err(String::from("a circle without trails"))
    }
}

/// A dart that has the unbounded region on its right: above the highest place of all.
fn top_dart(lines: &[Vec<Place>], junctions: &[Junction]) -> u16 {
    let places =
        lines.iter().enumerate().flat_map(|(trail, line)| (0..line.len()).map(move |number| (line[number], trail, number)));
    let (top, trail, number) = places.max_by(|a, b| a.0[1].total_cmp(&b.0[1])).unwrap_or_default();
    // The turn counterclockwise from straight up.
    let turned = |to: Place| ((to[1] - top[1]).atan2(to[0] - top[0]) - FRAC_PI_2).rem_euclid(TAU);
    let line = &lines[trail];
    if number > 0 && number + 1 < line.len() {
        let forward = turned(line[number + 1]) < turned(line[number - 1]);
        return 2 * trail as u16 + u16::from(!forward);
    }
    let leaving = |dart: u16| {
        let line = &lines[usize::from(dart / 2)];
        turned(line[if dart.is_multiple_of(2) { 1 } else { line.len() - 2 }])
    };
    let darts = junctions.iter().find(|(place, _)| *place == top).map_or(&[][..], |(_, darts)| darts);
    darts.iter().copied().min_by(|&a, &b| leaving(a).total_cmp(&leaving(b))).unwrap_or_default()
}
