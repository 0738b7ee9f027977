//! The calls with buffers of their own.

use crate::{area_lengths, read, record_room, work_length, write, ReadBack, Refusal, Table, MAX_TRAILS};
use alloc::{vec, vec::Vec};

/// The number of trails of a plan with this turning order, as far as the library asks: at most one more than the most.
fn trails_of(order: &[u16]) -> u16 {
    (order.len() / 2).min(usize::from(MAX_TRAILS) + 1) as u16
}

/// The record of a plan, by [`write()`] with buffers of its own.
///
/// # Errors
///
/// Refusals 19, 2, 3, 4, 17 in kinds 101h, 102h and 104h, 6, 9, 10, then 11 in kinds 1, 2, 3, 101h and 102h, 12 in kinds 1
/// and 101h and 18 in kind 3.
///
/// ```
/// let table = jurnadel::Table::standard();
/// assert_eq!(jurnadel::record_of(&table, &[0, 1], 0, 0, 2)?, [0x08, 0, 0x02, 0, 0x01, 0, 0x80, 0xA2]);
/// assert_eq!(jurnadel::record_of(&table, &[0, 1], 0, 0, 1).unwrap_err().number(), 12);
/// assert_eq!(jurnadel::record_of(&table, &[1, 0], 0, 0, 2).unwrap_err().number(), 11);
/// assert_eq!(jurnadel::record_of(&table, &[1, 0], 0, 0, 4)?, [0x07, 0, 0x04, 0, 0x01, 0, 0xB0]);
///
/// // The outside dart is asked for in the kinds that have it.
/// assert_eq!(jurnadel::record_of(&table, &[0, 1], 0, 1, 0x102)?, [0x0A, 0, 0x02, 0x01, 0x01, 0, 0, 0, 0x80, 0xA2]);
/// assert_eq!(jurnadel::record_of(&table, &[0, 1], 0, 2, 0x102).unwrap_err().number(), 17);
/// assert!(jurnadel::record_of(&table, &[0, 1], 0, 2, 2).is_ok());
///
/// // The tetrahedron is a triangle mesh: 8 bytes in kind 3, 9 in kind 1. A square is none.
/// let tetrahedron = [9, 2, 11, 4, 6, 0, 3, 8, 10, 5, 7, 1];
/// assert_eq!(jurnadel::record_of(&table, &tetrahedron, 0, 0, 3)?, [0x08, 0, 0x03, 0, 0x06, 0, 0x70, 0x87]);
/// assert_eq!(jurnadel::record_of(&table, &tetrahedron, 0, 0, 1)?.len(), 9);
/// assert_eq!(jurnadel::record_of(&table, &[7, 2, 1, 4, 3, 6, 5, 0], 0, 0, 3).unwrap_err().number(), 18);
///
/// // A maker's own table, in which group values 36h and 51h have each other's bytes.
/// let mut bytes = table.bytes;
/// bytes.swap(0x36, 0x51);
/// let maker = jurnadel::Table::load(&bytes)?;
/// assert_eq!(jurnadel::record_of(&table, &[0, 2, 1, 3], 0, 0, 2)?[6..], [0xC0, 0x36]);
/// assert_eq!(jurnadel::record_of(&maker, &[0, 2, 1, 3], 0, 0, 2)?[6..], [0xC0, 0x51]);
/// # Ok::<(), jurnadel::Refusal>(())
/// ```
pub fn record_of(table: &Table, order: &[u16], start: u16, outside: u16, kind: u16) -> Result<Vec<u8>, Refusal> {
    let trails = trails_of(order);
    let mut work = vec![0; work_length(trails)];
    let mut output = vec![0; record_room(kind, trails).unwrap_or(0)];
    let length = write(table, order, start, outside, kind, &mut work, &mut output)?;
    output.truncate(length);
    Ok(output)
}

/// A plan as it is read: in standard numbering, with start 0.
#[derive(Debug, Clone, PartialEq, Eq, Hash)]
pub struct Plan {
    /// The turning order, 2m entries.
    pub order: Vec<u16>,
    /// The lowest dart of the outside area; 0, of the start's area, where the kind has no outside.
    pub outside: u16,
}

/// The plan of a record, by [`read()`] with buffers of its own.
///
/// # Errors
///
/// Refusals 19, 1, 2, 3, 5 but in kind 3, 13.
///
/// ```
/// let table = jurnadel::Table::standard();
/// let plan = jurnadel::plan_of(&table, &[0x08, 0, 0x01, 0, 0x03, 0, 0xE2, 0x00])?;
/// assert_eq!(plan, jurnadel::Plan { order: vec![5, 2, 1, 4, 3, 0], outside: 0 });
/// assert_eq!(jurnadel::plan_of(&table, &[0x08, 0, 0x03, 0, 0x03, 0, 0x80, 0xA2])?, plan);
/// assert_eq!(jurnadel::plan_of(&table, &[0x08, 0, 0x04, 0, 0x03, 0, 0x09, 0x70])?, plan);
/// assert_eq!(jurnadel::plan_of(&table, &[0x07, 0, 0x01, 0, 0x02, 0, 0xCC]).unwrap_err().number(), 13);
///
/// // The same with its other area outside.
/// let other = jurnadel::plan_of(&table, &[0x0A, 0, 0x01, 0x01, 0x03, 0, 0x01, 0, 0xE2, 0x00])?;
/// assert_eq!(other, jurnadel::Plan { outside: 1, ..plan });
///
/// // One record, and the plans that it is under two tables.
/// let mut bytes = table.bytes;
/// bytes.swap(0x36, 0x51);
/// let maker = jurnadel::Table::load(&bytes)?;
/// let record = [0x08, 0, 0x02, 0, 0x02, 0, 0xC0, 0x36];
/// assert_eq!(jurnadel::plan_of(&table, &record)?.order, [0, 2, 1, 3]);
/// assert_eq!(jurnadel::plan_of(&maker, &record)?.order, [3, 2, 1, 0]);
/// # Ok::<(), jurnadel::Refusal>(())
/// ```
pub fn plan_of(table: &Table, record: &[u8]) -> Result<Plan, Refusal> {
    let trails = match record.get(4..6) {
        Some(field) => u16::from_le_bytes([field[0], field[1]]).min(MAX_TRAILS),
        None => 0,
    };
    let mut work = vec![0; work_length(trails)];
    let mut order = vec![0; 2 * usize::from(trails)];
    let ReadBack { trails, outside } = read(table, record, &mut work, &mut order)?;
    order.truncate(2 * trails);
    Ok(Plan { order, outside })
}

/// The length of each area of a plan, by [`area_lengths()`] with buffers of its own.
///
/// # Errors
///
/// Refusals 3, 6, 9, 10.
///
/// ```
/// assert_eq!(jurnadel::areas_of(&[5, 2, 1, 4, 3, 0])?, [3, 3]);
/// assert_eq!(jurnadel::areas_of(&[0, 1])?, [2]);
/// assert_eq!(jurnadel::areas_of(&[1, 0])?, [1, 1]);
/// assert_eq!(jurnadel::areas_of(&[3, 2, 4, 5, 1, 0]).unwrap_err().characteristic(), Some(0));
/// # Ok::<(), jurnadel::Refusal>(())
/// ```
pub fn areas_of(order: &[u16]) -> Result<Vec<u16>, Refusal> {
    let trails = trails_of(order);
    let mut work = vec![0; work_length(trails)];
    let mut list = vec![0; usize::from(trails) + 1];
    let count = area_lengths(order, &mut work, &mut list)?;
    list.truncate(count);
    Ok(list)
}
