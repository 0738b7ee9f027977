//! A plan as a picture: an SVG text in which no two trails meet and each junction has its trails in their turning order.
//!
//! * `net`: the plan made into a triangulation;
//! * `place`, `relax`: its points placed and evened out; `grid`: a placement that cannot fail;
//! * `layout`: which of them is taken, on the grid of what is printed;
//! * `curve`: trails through those points; `room`: what is free around them; `text`: the SVG.
//!
//! A placement is taken only if every triangle is the right way round in the whole numbers that are printed. This says that
//! no two triangles overlap, and a curve keeps to its own triangles.

mod curve;
mod grid;
mod layout;
mod net;
mod place;
mod relax;
mod room;
mod text;

#[cfg(test)]
mod check;
#[cfg(test)]
mod tests;

use std::collections::BTreeMap;

/// What is drawn: a connected planar plan of 1 to 4,096 trails, loops too.
pub struct Picture<'a> {
    /// The next dart counterclockwise, for each dart.
    pub order: &'a [u16],
    pub start: u16,
    /// The area of this dart is around the picture.
    pub outside: u16,
    /// Names by number of the trail; the others are shown by their number.
    pub trails: &'a BTreeMap<u16, String>,
    /// Names by least dart of the junction; the others have none.
    pub junctions: &'a BTreeMap<u16, String>,
}

/// The picture's SVG text.
pub fn svg(picture: &Picture) -> String {
    let net = net::Net::new(picture.order, picture.start, picture.outside);
    text::write(picture, &layout::Layout::new(net))
}
