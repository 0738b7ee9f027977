//! A shelf in memory: its used bytes, an index of its records and their checksums.
//!
//! Whether a record is there already is looked up in the index. A record that is new is put in its place by the library, in a call
//! on the last part of the shelf: a shelf from a record on is a shelf, and the part is kept short. A record that is there is read by
//! the library too, in a call on a shelf of its own.

use crate::index::{Index, Place};
use crate::sums;
use jurnadel::{Refusal, Table};

/// The last part of a shelf, which the library goes over for each new record, is begun anew past this many bytes.
const LAST_PART: usize = 1 << 15;

pub struct Shelf {
    /// The used bytes, and the room that was lent to the last call.
    bytes: Vec<u8>,
    used: usize,
    /// The shelf's whole length; nothing if it may grow.
    size: Option<usize>,
    index: Index,
    sums: Vec<u32>,
    /// Where the last part begins.
    last: Place,
    /// The work area that is lent to the library; it grows with the largest record.
    work: Vec<u16>,
}

impl Shelf {
    /// The shelf of a file's bytes, or the library's refusal: 14.
    pub fn new(bytes: Vec<u8>, size: Option<usize>) -> Result<Shelf, Refusal> {
        let used = bytes.len();
        sound(&bytes[..size.map_or(used, |size| size.min(used))], used)?;
        let records = || jurnadel::walk_from(&bytes, used, 0);
        let sums: Vec<u32> = records().map(sums::crc).collect();
        let index = Index::of(&bytes, records());
        let last = Place { number: sums.len(), at: used };
        Ok(Shelf { bytes, used, size, index, sums, last, work: Vec::new() })
    }

    /// The used bytes.
    pub fn bytes(&self) -> &[u8] {
        &self.bytes[..self.used]
    }

    /// The checksums of the records, in order.
    pub fn sums(&self) -> &[u32] {
        &self.sums
    }

    /// The number of a record that is on the shelf.
    pub fn find(&self, record: &[u8]) -> Option<usize> {
        self.index.find(self.bytes(), record)
    }

    /// Shelves a record under this group table: its number, and whether it is new. The library reads it in either case.
    pub fn shelve(&mut self, table: &Table, record: &[u8]) -> Result<(usize, bool), Refusal> {
        let found = self.find(record);
        let work = work_for(record, &mut self.work);
        if let Some(number) = found {
            jurnadel::shelve(table, record, work, &mut vec![0; record.len()], 0)?;
            return Ok((number, false));
        }
        if self.used - self.last.at > LAST_PART {
            self.last = Place { number: self.sums.len(), at: self.used };
        }
        // No outcome depends on room past the record's length.
        let enough = self.used + record.len();
        let length = self.size.map_or(enough, |size| size.min(enough));
        self.bytes.resize(length, 0);
        let shelved = jurnadel::shelve(table, record, work, &mut self.bytes[self.last.at..], self.used - self.last.at)?;
        self.enter(record, self.last.at + shelved.used);
        Ok((self.last.number + shelved.number, true))
    }

    /// Copies a record that stands whole on another shelf, unless it is there already; its number. It is not read, so that one
    /// that no plan has is not lost.
    pub fn keep(&mut self, record: &[u8]) -> usize {
        self.find(record).unwrap_or_else(|| {
            self.bytes.truncate(self.used);
            self.bytes.extend(record);
            self.enter(record, self.bytes.len())
        })
    }

    /// Enters a record that was put just past the used bytes, with the used length now; its number.
    fn enter(&mut self, record: &[u8], used: usize) -> usize {
        let place = Place { number: self.sums.len(), at: self.used };
        self.used = used;
        self.index.add(&self.bytes, record, place);
        self.sums.push(sums::crc(record));
        place.number
    }

    /// Whether the library takes the whole as a shelf.
    pub fn judged(&self) -> Result<(), Refusal> {
        sound(self.bytes(), self.used)
    }
}

/// As much of the work area as the record needs, which grows if it is shorter.
fn work_for<'a>(record: &[u8], work: &'a mut Vec<u16>) -> &'a mut [u16] {
    let trails = match *record {
        [_, _, _, _, low, high, ..] => u16::from_le_bytes([low, high]),
        _ => 0,
    };
    let length = jurnadel::work_length(trails).min(jurnadel::MAX_WORK_LENGTH);
    work.resize(work.len().max(length), 0);
    &mut work[..length]
}

/// Refusal 14, if the library refuses the shelf; an empty one is sound.
pub fn sound(shelf: &[u8], used: usize) -> Result<(), Refusal> {
    match jurnadel::walk(shelf, used, 0) {
        Err(refusal) if refusal.number() == Refusal::SHELF_BROKEN => Err(refusal),
        _ => Ok(()),
    }
}

#[cfg(test)]
mod tests {
    use super::*;

    /// Records of stars, each larger than the one before.
    fn star(trails: u16) -> Vec<u8> {
        let order: Vec<u16> = (0..2 * trails).map(|dart| if dart % 2 == 0 { (dart + 2) % (2 * trails) } else { dart }).collect();
        jurnadel::record_of(&Table::standard(), &order, 0, 0, 2).unwrap()
    }

    #[test]
    fn the_same_as_calls_on_the_whole_shelf() {
        let (mut shelf, table) = (Shelf::new(Vec::new(), None).unwrap(), Table::standard());
        let (mut whole, mut used, mut work) = (vec![0; 1 << 20], 0, vec![0; jurnadel::work_length(700)]);
        let sizes = (1..600).chain((1..600).step_by(7)).chain(600..700);
        for record in sizes.map(star) {
            let wanted = jurnadel::shelve(&table, &record, &mut work, &mut whole, used).unwrap();
            assert_eq!(shelf.shelve(&table, &record), Ok((wanted.number, wanted.used > used)));
            used = wanted.used;
        }
        assert!(used > 2 * LAST_PART);
        assert_eq!(shelf.bytes(), &whole[..used]);
        assert_eq!(shelf.sums(), jurnadel::walk_from(&whole, used, 0).map(sums::crc).collect::<Vec<_>>());
        assert!(shelf.judged().is_ok());
    }

    #[test]
    fn a_shelf_of_one_size() {
        let (one, two, table) = (star(1), star(2), Table::standard());
        let mut shelf = Shelf::new(one.clone(), Some(15)).unwrap();
        assert_eq!(shelf.shelve(&table, &two).unwrap_err().number(), Refusal::SHELF_FULL);
        assert_eq!(shelf.shelve(&table, &one), Ok((0, false)));
        assert_eq!(shelf.shelve(&table, &one[..5]).unwrap_err().number(), Refusal::RECORD_CUT);
        assert_eq!(shelf.bytes(), one);
        assert_eq!(Shelf::new(one, Some(7)).err().map(Refusal::number), Some(Refusal::SHELF_BROKEN));
    }

    /// A record that no plan has, on a shelf from elsewhere: it is refused, whether or not it is there, but a copy is kept.
    #[test]
    fn what_no_plan_has() {
        let (one, two, table) = (star(1), star(2), Table::standard());
        let (odd, other) = ([7, 0, 1, 0, 2, 0, 0xCC], [6, 0, 3, 0, 1, 0]);
        let mut shelf = Shelf::new([&odd[..], &one].concat(), None).unwrap();
        for record in [&odd[..], &other, &odd] {
            assert_eq!(shelf.shelve(&table, record).unwrap_err().number(), Refusal::NO_FIT_PLAN);
        }
        assert_eq!(shelf.shelve(&table, &[7, 0, 1, 0, 0xFF, 0xFF, 0]).unwrap_err().number(), Refusal::BAD_COUNT);
        assert_eq!(shelf.shelve(&table, &one), Ok((1, false)));
        assert_eq!(shelf.shelve(&table, &two), Ok((2, true)));
        assert_eq!(shelf.bytes(), [&odd[..], &one, &two].concat());
        assert_eq!([&odd[..], &other, &two, &other].map(|record| shelf.keep(record)), [0, 3, 2, 3]);
        assert_eq!(shelf.shelve(&table, &star(3)), Ok((4, true)));
        assert_eq!(shelf.bytes(), [&odd[..], &one, &two, &other, &star(3)].concat());
        assert_eq!(shelf.sums(), jurnadel::walk_from(shelf.bytes(), shelf.bytes().len(), 0).map(sums::crc).collect::<Vec<_>>());
        assert!(shelf.judged().is_ok());
    }
}
