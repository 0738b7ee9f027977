//! Where each record of a shelf stands, by a hash of its bytes.
//!
//! A record begins with its length, so one that begins like another at its place is the same.

use std::collections::hash_map::{Entry, HashMap, RandomState};
use std::hash::BuildHasher as _;

/// The number and place of a record.
#[derive(Debug, Clone, Copy)]
pub struct Place {
    pub number: usize,
    pub at: usize,
}

/// For each record of a shelf the first place where it stands.
#[derive(Debug, Default)]
pub struct Index {
    hasher: RandomState,
    places: HashMap<u64, Place>,
    /// Records whose hash another one has.
    others: Vec<(u64, Place)>,
}

impl Index {
    /// The index of a shelf with these records, from its beginning to its end.
    pub fn of<'a>(shelf: &[u8], records: impl Iterator<Item = &'a [u8]>) -> Index {
        let mut index = Index::default();
        let mut at = 0;
        for (number, record) in records.enumerate() {
            index.add(shelf, record, Place { number, at });
            at += record.len();
        }
        index
    }

    /// The number of the first record of these bytes on the shelf.
    pub fn find(&self, shelf: &[u8], record: &[u8]) -> Option<usize> {
        let hash = self.hasher.hash_one(record);
        let others = self.others.iter().filter(|(other, _)| *other == hash).map(|(_, place)| place);
        let places = self.places.get(&hash).into_iter().chain(others);
        places.filter(|place| shelf[place.at..].starts_with(record)).map(|place| place.number).min()
    }

    /// Enters the record at a place past those entered before.
    pub fn add(&mut self, shelf: &[u8], record: &[u8], place: Place) {
        let hash = self.hasher.hash_one(record);
        match self.places.entry(hash) {
            Entry::Vacant(entry) => _ = entry.insert(place),
            Entry::Occupied(entry) if shelf[entry.get().at..].starts_with(record) => {}
            Entry::Occupied(_) => self.others.push((hash, place)),
        }
    }
}

#[cfg(test)]
mod tests {
    use super::*;

    #[test]
    fn the_first_place_is_found() {
        let records: [&[u8]; 4] = [b"ab", b"cde", b"ab", b"f"];
        let (shelf, index) = (records.concat(), Index::of(&records.concat(), records.into_iter()));
        assert_eq!(index.find(&shelf, b"ab"), Some(0));
        assert_eq!(index.find(&shelf, b"cde"), Some(1));
        assert_eq!(index.find(&shelf, b"f"), Some(3));
        assert_eq!(index.find(&shelf, b"cd"), None);
    }
}
