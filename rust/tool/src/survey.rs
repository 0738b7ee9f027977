//! What stands on a shelf file that may be damaged.
//!
//! Records are taken one after another. Where none stands, or one that no plan has and that no record follows, the search goes on
//! byte by byte to the next record that a plan has; what is passed over is a gap. So it does at a record of kind 3 that no plan has
//! and whose length no mesh's record has: a shelf may hold it with any length, and other records may stand within it. Up to the
//! first gap a record's number is how many stand before it. Past it the checksums tell, if they are kept: a run of records
//! stands where its checksums do.

use crate::{kinds, sums};
use jurnadel::{Refusal, Table};
use std::ops::Range;

/// A part of a shelf file.
#[derive(Debug)]
pub enum Part<'a> {
    Record(Found<'a>),
    /// Bytes that belong to no record.
    Gap(Range<usize>),
}

/// A record that stands on a shelf file.
#[derive(Debug)]
pub struct Found<'a> {
    pub record: &'a [u8],
    pub at: usize,
    /// Its number on the shelf before the damage, if that is known.
    pub number: Option<usize>,
    /// Why it cannot be read.
    pub unreadable: Option<Refusal>,
    /// Whether it has the checksum that is kept for it, if one is.
    pub sum_agrees: Option<bool>,
}

impl Found<'_> {
    /// Whether it is the record that was shelved, as far as one can tell.
    pub fn is_whole(&self) -> bool {
        self.sum_agrees.unwrap_or(self.unreadable.is_none())
    }
}

/// The parts of a shelf file of records under this group table, with the checksums that are kept for it.
pub fn parts<'a>(table: &Table, shelf: &'a [u8], kept: &[u32]) -> Vec<Part<'a>> {
    let mut parts = Vec::new();
    let (mut at, mut least) = (0, 0);
    while at < shelf.len() {
        let run = run_at(table, shelf, at, kept);
        let first = if at == 0 { Some(0) } else { first_number(&run, kept, least) };
        least = first.map_or(least, |first| first + run.len());
        for (index, record) in run.into_iter().enumerate() {
            parts.push(Part::Record(found(table, record, at, first.map(|first| first + index), kept)));
            at += record.len();
        }
        if at < shelf.len() {
            let end = next_record(table, shelf, at + 1);
            parts.push(Part::Gap(at..end));
            at = end;
        }
    }
    parts
}

/// The records that stand one after another from a place on.
fn run_at<'a>(table: &Table, shelf: &'a [u8], at: usize, kept: &[u32]) -> Vec<&'a [u8]> {
    let mut walk = jurnadel::walk_from(shelf, shelf.len(), at);
    let mut run = Vec::new();
    while let Some(record) = walk.next() {
        let followed = walk.place() == shelf.len() || walk.clone().next().is_some();
        let measured = || kinds::may_have_its_length(record) || kept.contains(&sums::crc(record));
        if !(followed && measured()) && jurnadel::plan_of(table, record).is_err() {
            break;
        }
        run.push(record);
    }
    run
}

/// The number of a run's first record, at least this one, by the first checksum that is kept.
fn first_number(run: &[&[u8]], kept: &[u32], least: usize) -> Option<usize> {
    let kept = kept.get(least..)?;
    run.iter().take(100).enumerate().find_map(|(index, record)| {
        let sum = sums::crc(record);
        let place = kept.iter().skip(index).position(|&kept| kept == sum)?;
        Some(least + place)
    })
}

fn found<'a>(table: &Table, record: &'a [u8], at: usize, number: Option<usize>, kept: &[u32]) -> Found<'a> {
    let unreadable = jurnadel::plan_of(table, record).err();
    let sum_agrees = number.and_then(|number| kept.get(number)).map(|&kept| kept == sums::crc(record));
    Found { record, at, number, unreadable, sum_agrees }
}

/// The next place of a record that a plan has, or the end.
fn next_record(table: &Table, shelf: &[u8], from: usize) -> usize {
    let stands = |at: &usize| {
        let record = jurnadel::walk_from(shelf, shelf.len(), *at).next();
        record.is_some_and(|record| jurnadel::plan_of(table, record).is_ok())
    };
    (from..shelf.len()).find(stands).unwrap_or(shelf.len())
}

#[cfg(test)]
mod tests {
    use super::*;

    const PAIR: [u8; 7] = [7, 0, 1, 0, 2, 0, 0xC8];
    const TRIANGLE: [u8; 8] = [8, 0, 1, 0, 3, 0, 0xE2, 0];
    const THREE: [u8; 8] = [8, 0, 1, 0, 3, 0, 0xD2, 0x80];
    const STICK: [u8; 8] = [8, 0, 2, 0, 1, 0, 0x80, 0xA2];
    const MESH: [u8; 8] = [8, 0, 3, 0, 6, 0, 0x70, 0x87];

    /// The shelf with one byte changed: its parts in a line, records by number or `?`, with `!` where not whole.
    fn line(place: usize, value: u8, sums: bool) -> String {
        line_of([&PAIR, &TRIANGLE, &THREE, &STICK], place, value, sums)
    }

    fn line_of(records: [&[u8]; 4], place: usize, value: u8, sums: bool) -> String {
        let kept: Vec<u32> = if sums { records.map(sums::crc).to_vec() } else { Vec::new() };
        let mut shelf = records.concat();
        shelf[place] = value;
        let words = parts(&Table::standard(), &shelf, &kept).into_iter().map(|part| match part {
            Part::Gap(gap) => format!("{gap:?}"),
            Part::Record(found) => {
                let number = found.number.map_or(String::from("?"), |number| number.to_string());
                number + if found.is_whole() { "" } else { "!" }
            }
        });
        words.collect::<Vec<_>>().join(" ")
    }

    #[test]
    fn damage_of_one_byte() {
        assert_eq!(line(0, 7, false), "0 1 2 3");
        assert_eq!(line(0, 9, true), "0..7 1 2 3");
        assert_eq!(line(0, 9, false), "0..7 ? ? ?");
        assert_eq!(line(9, 5, true), "0 7..15 2 3");
        assert_eq!(line(9, 5, false), "0 7..15 ? ?");
        // Another kind, in which its length is right, and one in which it isn't.
        assert_eq!(line(9, 3, true), "0 1! 2 3");
        assert_eq!(line(9, 3, false), "0 1! 2 3");
        assert_eq!(line(2, 3, true), "0..7 1 2 3");
        assert_eq!(line(2, 3, false), "0..7 ? ? ?");
        // Another plan's record, or none's.
        assert_eq!(line(13, 0xD2, true), "0 1! 2 3");
        assert_eq!(line(13, 0xFF, false), "0 1! 2 3");
        // The last record; a record whose length is another's.
        assert_eq!(line(23, 0, true), "0 1 2 23..31");
        assert_eq!(line(30, 0xFF, true), "0 1 2 3!");
        assert_eq!(line(30, 0xFF, false), "0 1 2 3!");
    }

    /// A record of kind 3 may have any length on a shelf; so it may reach over the next one, or over all the others.
    #[test]
    fn damage_of_a_mesh() {
        let line = |place, value, sums| line_of([&PAIR, &MESH, &THREE, &STICK], place, value, sums);
        for length in [16, 24] {
            assert_eq!(line(7, length, true), "0 7..15 2 3");
            assert_eq!(line(7, length, false), "0 7..15 ? ?");
        }
        // It ends within the next record, before its own payload, or past the shelf.
        for length in [6, 7, 9, 12, 25] {
            assert_eq!(line(7, length, true), "0 7..15 2 3");
        }
        // Another number of trails: a mesh's or not.
        assert_eq!(line(11, 9, true), "0 1! 2 3");
        assert_eq!(line(11, 7, true), "0 7..15 2 3");
        assert_eq!(line(13, 0x71, true), "0 1! 2 3");
        // A record that no plan has, but that has the checksum that is kept for it.
        let odd = [9, 0, 3, 0, 6, 0, 0x70, 0x87, 0];
        let shelf = |records| line_of(records, 0, 7, true);
        assert_eq!(shelf([&PAIR, &odd, &THREE, &STICK]), "0 1 2 3");
    }

    /// With checksums no turned bit goes unnoticed, and all records but one are whole; without them some do, which make another
    /// plan's record.
    #[test]
    fn a_turned_bit() {
        let valley =
            [26, 24, 15, 4, 3, 25, 29, 0, 7, 10, 28, 27, 22, 14, 16, 20, 13, 18, 17, 19, 1, 21, 11, 23, 2, 6, 8, 12, 9, 5];
        let valley = jurnadel::record_of(&Table::standard(), &valley, 7, 7, 2).unwrap();
        let shelf = [&PAIR[..], &MESH, &TRIANGLE, &valley, &STICK].concat();
        let kept: Vec<u32> = jurnadel::walk_from(&shelf, shelf.len(), 0).map(sums::crc).collect();
        let mut unnoticed = 0;
        for bit in 0..8 * shelf.len() {
            let mut turned = shelf.clone();
            turned[bit / 8] ^= 1 << (bit % 8);
            let whole = |kept: &[u32]| {
                let parts = parts(&Table::standard(), &turned, kept);
                let whole = parts.iter().filter(|part| matches!(part, Part::Record(found) if found.is_whole())).count();
                (whole, whole == parts.len())
            };
            assert_eq!(whole(&kept), (kept.len() - 1, false), "bit {bit}");
            unnoticed += usize::from(whole(&[]).1);
        }
        assert!(unnoticed > 0);
    }

    #[test]
    fn no_shelf_at_all() {
        let parts = |shelf| parts(&Table::standard(), shelf, &[]);
        assert!(parts(&[]).is_empty());
        assert!(matches!(&parts(&[1, 2, 3])[..], [Part::Gap(gap)] if *gap == (0..3)));
    }
}
