//! Trail plans, their records and shelves: safe functions over the proved library `libjurnadel.a`.
//!
//! A plan of m trails (edges) has 2m darts (trail ends); darts 2e and 2e+1 are the two ends of trail e. Its *turning
//! order* is a list of 2m numbers: entry d is the next dart counterclockwise around d's junction (vertex). Its *start* is
//! one dart. Its *outside* is one dart too, any of those on the walk of the area that is the outside of the sheet; the walk
//! goes from dart d to the entry at d's opposite end, with the area on its right.
//!
//! A record is the plan in about 3 bits a trail (kind 1: no loop, and no dead end but the start), 3.6 (kind 2: no loop) or 4
//! (kind 4: any connected planar plan). Kinds 0x101, 0x102 and 0x104 are the same with the outside area, in two bytes more.
//! Kind 3 is for triangle meshes: no loop, and every area, the one outside included, is three darts of three different trails.
//! It takes about 1.5 bits a trail, and its length varies with the plan. A shelf is records end to end, of any kinds.
//!
//! Kinds 2 and 0x102 store labels, and kind 3 node types, in groups of five, a byte each. Which byte stands for which group
//! says a [`Table`]: [`Table::standard`], or a maker's own. A record is read under the table that it was written under.
//!
//! [`write()`], [`read()`], [`area_lengths()`], [`shelve()`], [`fetch()`] and [`walk()`] are the library's calls on lent
//! buffers, one for one: no allocation, no state. `record_of`, `plan_of` and `areas_of` allocate what they need.
//!
//! ```
//! let table = jurnadel::Table::standard();
//! let (mut work, mut record, mut order) = ([0; 96], [0; 8], [0; 6]);
//!
//! // Three parallel trails.
//! jurnadel::write(&table, &[5, 2, 4, 0, 1, 3], 0, 0, 1, &mut work, &mut record)?;
//! assert_eq!(record, [0x08, 0, 0x01, 0, 0x03, 0, 0xD2, 0x80]);
//!
//! // The same plan, numbered in the order of the contour walk from start 0.
//! jurnadel::read(&table, &record, &mut work, &mut order)?;
//! let mut again = [0; 8];
//! jurnadel::write(&table, &order, 0, 0, 1, &mut work, &mut again)?;
//! assert_eq!(again, record);
//!
//! // A triangle, and which of its two areas is outside.
//! let mut record = [0; 10];
//! for (dart, area) in [(0, 0), (4, 0), (1, 1), (5, 1)] {
//!     jurnadel::write(&table, &[5, 2, 1, 4, 3, 0], 0, dart, 0x101, &mut work, &mut record)?;
//!     assert_eq!(record, [0x0A, 0, 0x01, 0x01, 0x03, 0, area, 0, 0xE2, 0]);
//!     assert_eq!(jurnadel::read(&table, &record, &mut work, &mut order)?.outside, u16::from(area));
//! }
//! # Ok::<(), jurnadel::Refusal>(())
//! ```
//!
//! The crate is `no_std`. Its features:
//!
//! * `alloc`: `record_of`, `plan_of` and `areas_of`;
//! * `std`, the default: `alloc`, for programs over std. Nothing else in the crate needs std.
//!
//! The library's functions are proved for every input. Not proved: the compiler's back end, this crate and its C
//! declarations ([`sys`]). The proved calls need lent buffers that don't overlap; Rust's borrows see to that.

#![no_std]
#![warn(missing_docs)]

#[cfg(feature = "alloc")]
extern crate alloc;

#[cfg(feature = "alloc")]
mod owned;
mod refusal;
pub mod sys;
mod table;

#[cfg(feature = "alloc")]
pub use owned::{areas_of, plan_of, record_of, Plan};
pub use refusal::Refusal;
pub use table::Table;

/// The most trails that a plan has.
pub const MAX_TRAILS: u16 = 4096;

/// A work area that serves every plan and record, in 16-bit numbers; in bytes it is 262,144.
pub const MAX_WORK_LENGTH: usize = 131_072;

/// A turning order that holds every plan, in 16-bit numbers; in bytes it is 16,384.
pub const MAX_ORDER_LENGTH: usize = 8192;

/// A list that holds the areas of every plan, in 16-bit numbers; in bytes it is 8,194.
pub const MAX_AREAS_LENGTH: usize = 4097;

/// The most bytes that a record has.
pub const MAX_RECORD_LENGTH: usize = 2056;

/// Done, or the refusal with this number.
fn settle<T>(refusal: u16, characteristic: i32, value: T) -> Result<T, Refusal> {
    match refusal {
        0 => Ok(value),
        number => Err(Refusal::new(number, characteristic)),
    }
}

/// The work area, in 16-bit numbers, for a plan or record of this many trails.
///
/// ```
/// assert_eq!(jurnadel::work_length(3), 96);
/// ```
#[must_use]
pub fn work_length(trails: u16) -> usize {
    // SAFETY: no pointer is handed over.
    unsafe { sys::jurnadel_work_length(trails) }
}

/// The length of a record of this kind with this many trails. Nothing where these don't tell it: kind 3, whose records vary in
/// length ([`record_room`]), another kind than 1, 2, 4, 0x101, 0x102 or 0x104, no trail, or more than [`MAX_TRAILS`].
///
/// ```
/// assert_eq!(jurnadel::record_length(1, 4096), Some(1542));
/// assert_eq!(jurnadel::record_length(2, 4096), Some(1850));
/// assert_eq!(jurnadel::record_length(4, 4096), Some(2054));
/// assert_eq!(jurnadel::record_length(0x104, 4096), Some(2056));
/// assert_eq!(jurnadel::record_length(3, 3), None);
/// ```
#[must_use]
pub fn record_length(kind: u16, trails: u16) -> Option<usize> {
    // SAFETY: no pointer is handed over.
    match unsafe { sys::jurnadel_record_length(kind, trails) } {
        0 => None,
        length => Some(usize::from(length)),
    }
}

/// A length that no record of this kind with this many trails exceeds: in kind 3 about a fifth of a byte for each trail, in the
/// other kinds [`record_length`]. Nothing where there is no such record: in kind 3 the number of trails is divisible by 3.
///
/// ```
/// assert_eq!(jurnadel::record_room(3, 3), Some(8));
/// assert_eq!(jurnadel::record_room(3, 4095), Some(792));
/// assert_eq!(jurnadel::record_room(3, 4096), None);
/// assert_eq!(jurnadel::record_room(1, 4096), Some(1542));
/// ```
#[must_use]
pub fn record_room(kind: u16, trails: u16) -> Option<usize> {
    match (kind, trails) {
        (3, 3..=MAX_TRAILS) if trails % 3 == 0 => {
            let trails = usize::from(trails);
            Some(6 + (trails + 9) / 8 + (trails + 12) / 15)
        }
        _ => record_length(kind, trails),
    }
}

/// Writes the record of a plan into the first bytes of `output`, and returns its length. Kinds 1, 2, 3 and 4 ignore `outside`;
/// the bytes of kinds 2, 3 and 0x102 are those of this table.
///
/// `work` has [`work_length`] numbers or more, of any content; it is zeros on return. An `output` of [`record_room`] bytes
/// always serves.
///
/// # Errors
///
/// Refusals 19, 2, 3, 4, 17 in kinds 101h, 102h and 104h, 6 to 10, then 11 in kinds 1, 2, 101h and 102h and 12 in kinds 1
/// and 101h. In kind 3 refusals 19, 2, 3, 4, 6, 7, 9, 10, 11, 18, then 8, as the record's length is known only then. A refused
/// call leaves `output` untouched.
///
/// ```
/// let table = jurnadel::Table::standard();
/// let mut work = [0; 64];
/// let mut output = [0; 7];
/// assert_eq!(jurnadel::write(&table, &[3, 2, 1, 0], 0, 0, 1, &mut work, &mut output), Ok(7));
/// assert_eq!(output, [0x07, 0, 0x01, 0, 0x02, 0, 0xC8]);
///
/// // A single loop, which kind 4 alone takes; then with its other area outside.
/// assert_eq!(jurnadel::write(&table, &[1, 0], 0, 0, 4, &mut work, &mut output), Ok(7));
/// assert_eq!(output, [0x07, 0, 0x04, 0, 0x01, 0, 0xB0]);
/// let mut output = [0; 9];
/// assert_eq!(jurnadel::write(&table, &[1, 0], 0, 1, 0x104, &mut work, &mut output), Ok(9));
/// assert_eq!(output, [0x09, 0, 0x04, 0x01, 0x01, 0, 0x01, 0, 0xB0]);
///
/// // A triangle mesh: a triangle with a junction inside, which is joined to its corners.
/// let (order, mut work, mut output) = ([9, 2, 11, 4, 6, 0, 3, 8, 10, 5, 7, 1], [0; 192], [0; 8]);
/// assert_eq!(jurnadel::write(&table, &order, 0, 0, 3, &mut work, &mut output), Ok(8));
/// assert_eq!(output, [0x08, 0, 0x03, 0, 0x06, 0, 0x70, 0x87]);
///
/// // Three parallel trails: areas of two trails each.
/// let parallel = jurnadel::write(&table, &[5, 2, 4, 0, 1, 3], 0, 0, 3, &mut work, &mut output);
/// assert_eq!(parallel.unwrap_err().number(), 18);
/// ```
pub fn write(
    table: &Table,
    order: &[u16],
    start: u16,
    outside: u16,
    kind: u16,
    work: &mut [u16],
    output: &mut [u8],
) -> Result<usize, Refusal> {
    let (mut length, mut characteristic) = (0, 0);
    // SAFETY: pointers and lengths are those of slices; what is written is borrowed by this call alone.
    let refusal = unsafe {
        sys::jurnadel_write(
            *table,
            order.as_ptr(),
            order.len(),
            start,
            outside,
            kind,
            work.as_mut_ptr(),
            work.len(),
            output.as_mut_ptr(),
            output.len(),
            &mut length,
            &mut characteristic,
        )
    };
    settle(refusal, characteristic, usize::from(length))
}

/// The answer of [`read()`].
#[derive(Debug, Clone, Copy, PartialEq, Eq, Hash)]
pub struct ReadBack {
    /// The number of trails, m.
    pub trails: usize,
    /// The lowest dart of the outside area; in kinds 1, 2, 3 and 4 that is the start's area, and this is 0.
    pub outside: u16,
}

/// Reads a record's plan, under the table that it was written under, into the first 2m entries of `order`, in standard
/// numbering with start 0, and returns m and the outside.
///
/// `work` has [`work_length`] numbers or more, of any content; it is zeros on return.
///
/// # Errors
///
/// Refusals 19, 1, 2, 3, 5 but in kind 3, 7, 8, 13. A wrong length is 13 in kind 3. A refused call leaves `order` untouched.
///
/// ```
/// let table = jurnadel::Table::standard();
/// let mut work = [0; 64];
/// let mut order = [0; 4];
/// let read = jurnadel::read(&table, &[0x07, 0, 0x01, 0, 0x02, 0, 0xC8], &mut work, &mut order)?;
/// assert_eq!(read, jurnadel::ReadBack { trails: 2, outside: 0 });
/// assert_eq!(order, [3, 2, 1, 0]);
/// # Ok::<(), jurnadel::Refusal>(())
/// ```
pub fn read(table: &Table, record: &[u8], work: &mut [u16], order: &mut [u16]) -> Result<ReadBack, Refusal> {
    let (mut trails, mut outside) = (0, 0);
    // SAFETY: as in `write`.
    let refusal = unsafe {
        sys::jurnadel_read(
            *table,
            record.as_ptr(),
            record.len(),
            work.as_mut_ptr(),
            work.len(),
            order.as_mut_ptr(),
            order.len(),
            &mut trails,
            &mut outside,
        )
    };
    let trails = usize::from(trails);
    settle(refusal, 0, ReadBack { trails, outside })
}

/// Fills the first entries of `list` with the length of each area of a plan, and returns how many areas there are.
///
/// The length of an area is its number of darts: that of a walk along its border, in trails. Areas come in the order of
/// their lowest darts. Their lengths add up to 2m, and a list of m + 1 numbers always serves.
///
/// `work` has [`work_length`] numbers or more, of any content; it is zeros on return.
///
/// # Errors
///
/// Refusals 3, 6, 7, 9, 10, then 8. A refused call leaves `list` untouched.
///
/// ```
/// // A trail from the start to a pair of trails: the area around them, and the one between them.
/// let mut work = [0; 96];
/// let mut list = [0; 4];
/// assert_eq!(jurnadel::area_lengths(&[0, 2, 5, 4, 3, 1], &mut work, &mut list), Ok(2));
/// assert_eq!(list, [4, 2, 0, 0]);
/// ```
pub fn area_lengths(order: &[u16], work: &mut [u16], list: &mut [u16]) -> Result<usize, Refusal> {
    let (mut count, mut characteristic) = (0, 0);
    // SAFETY: as in `write`.
    let refusal = unsafe {
        sys::jurnadel_area_lengths(
            order.as_ptr(),
            order.len(),
            work.as_mut_ptr(),
            work.len(),
            list.as_mut_ptr(),
            list.len(),
            &mut count,
            &mut characteristic,
        )
    };
    settle(refusal, characteristic, usize::from(count))
}

/// The answer of [`shelve()`].
#[derive(Debug, Clone, Copy, PartialEq, Eq, Hash)]
pub struct Shelved {
    /// The record's number on the shelf, counting from 0.
    pub number: usize,
    /// The used length now: as before if equal bytes were already there.
    pub used: usize,
}

/// Reads a record and shelves it on the shelf whose first `used` bytes are used: finds the first equal one, or puts it just past
/// the used bytes. It goes over the heads of all records once, and compares only those that are as long as the new one.
///
/// The record is read under this table; which bytes are equal does not depend on it. What is on the shelf already is not read: a
/// shelf that is built from nothing by shelving holds only records of fit plans, another one may hold some that cannot be read.
///
/// `work` has [`work_length`] numbers or more, of any content; it is zeros on return.
///
/// # Errors
///
/// Refusals 19, 1, 2, 3, 5 but in kind 3, 7, 13, 14, 16. A refused call leaves the shelf untouched.
///
/// ```
/// let record = [0x08, 0, 0x02, 0, 0x01, 0, 0x80, 0xA2];
/// let table = jurnadel::Table::standard();
/// let (mut work, mut shelf) = ([0; 64], [0; 20]);
/// let first = jurnadel::shelve(&table, &record, &mut work, &mut shelf, 0)?;
/// assert_eq!(first, jurnadel::Shelved { number: 0, used: 8 });
/// assert_eq!(jurnadel::shelve(&table, &record, &mut work, &mut shelf, first.used)?, first);
///
/// // No plan has this record: it is refused, also on a shelf that has it already.
/// let unreadable = [0x07, 0, 0x01, 0, 0x02, 0, 0xCC];
/// let refusal = jurnadel::shelve(&table, &unreadable, &mut work, &mut shelf, first.used).unwrap_err();
/// assert_eq!(refusal.number(), jurnadel::Refusal::NO_FIT_PLAN);
/// let mut lent = unreadable;
/// let refusal = jurnadel::shelve(&table, &unreadable, &mut work, &mut lent, 7).unwrap_err();
/// assert_eq!(refusal.number(), jurnadel::Refusal::NO_FIT_PLAN);
/// # Ok::<(), jurnadel::Refusal>(())
/// ```
pub fn shelve(table: &Table, record: &[u8], work: &mut [u16], shelf: &mut [u8], used: usize) -> Result<Shelved, Refusal> {
    let mut shelved = Shelved { number: 0, used };
    // SAFETY: as in `write`.
    let refusal = unsafe {
        sys::jurnadel_shelve(
            *table,
            record.as_ptr(),
            record.len(),
            work.as_mut_ptr(),
            work.len(),
            shelf.as_mut_ptr(),
            shelf.len(),
            used,
            &mut shelved.number,
            &mut shelved.used,
        )
    };
    settle(refusal, 0, shelved)
}

/// Fetches a record: the part of the lent shelf that it is.
///
/// # Errors
///
/// Refusals 14, 15.
///
/// ```
/// let record = [0x08, 0, 0x02, 0, 0x01, 0, 0x80, 0xA2];
/// assert_eq!(jurnadel::fetch(&record, record.len(), 0)?, record);
/// assert_eq!(jurnadel::fetch(&record, record.len(), 1).unwrap_err().number(), 15);
/// # Ok::<(), jurnadel::Refusal>(())
/// ```
pub fn fetch(shelf: &[u8], used: usize, number: usize) -> Result<&[u8], Refusal> {
    let (mut at, mut length) = (0, 0);
    // SAFETY: as in `write`.
    let refusal = unsafe { sys::jurnadel_fetch(shelf.as_ptr(), shelf.len(), used, number, &mut at, &mut length) };
    settle(refusal, 0, ())?;
    Ok(&shelf[at..at + length])
}

/// A walk along a shelf, made by [`walk()`]; it yields the records, each a part of the lent shelf.
#[derive(Debug, Clone)]
#[must_use = "a walk goes only as far as it is asked"]
pub struct Walk<'a> {
    shelf: &'a [u8],
    used: usize,
    at: usize,
}

impl Walk<'_> {
    /// The place of the next record on the shelf, in bytes.
    #[must_use]
    pub fn place(&self) -> usize {
        self.at
    }
}

impl<'a> Iterator for Walk<'a> {
    type Item = &'a [u8];

    fn next(&mut self) -> Option<&'a [u8]> {
        let Walk { shelf, used, at } = *self;
        // SAFETY: as in `write`.
        let length = unsafe { sys::jurnadel_walk_step(shelf.as_ptr(), shelf.len(), used, at) };
        if length == 0 {
            return None;
        }
        self.at = at + length;
        Some(&shelf[at..at + length])
    }
}

impl core::iter::FusedIterator for Walk<'_> {}

/// Begins a walk at a record of this number.
///
/// # Errors
///
/// Refusals 14, 15; so a walk from the number just past the last record is 15.
///
/// ```
/// // Records of kinds 1, 3 and 4.
/// let shelf = [7, 0, 1, 0, 2, 0, 0xC8, 8, 0, 3, 0, 3, 0, 0x80, 0xA2, 7, 0, 4, 0, 1, 0, 0xB0];
/// let walk = jurnadel::walk(&shelf, shelf.len(), 0)?;
/// assert!(walk.eq([&shelf[..7], &shelf[7..15], &shelf[15..]]));
/// # Ok::<(), jurnadel::Refusal>(())
/// ```
pub fn walk(shelf: &[u8], used: usize, number: usize) -> Result<Walk<'_>, Refusal> {
    let mut at = 0;
    // SAFETY: as in `write`.
    let refusal = unsafe { sys::jurnadel_walk_begin(shelf.as_ptr(), shelf.len(), used, number, &mut at) };
    settle(refusal, 0, Walk { shelf, used, at })
}

/// A walk of whatever records stand one after another from this place of the shelf, whether or not the whole shelf is
/// sound. It ends at the first place where none stands.
///
/// ```
/// let shelf = [0x08, 0, 0x02, 0, 0x01, 0, 0x80, 0xA2, 99];
/// assert_eq!(jurnadel::walk(&shelf, shelf.len(), 0).unwrap_err().number(), 14);
/// let mut walk = jurnadel::walk_from(&shelf, shelf.len(), 0);
/// assert!(walk.next().is_some() && walk.next().is_none());
/// assert_eq!(walk.place(), 8);
/// ```
pub fn walk_from(shelf: &[u8], used: usize, at: usize) -> Walk<'_> {
    Walk { shelf, used, at }
}
