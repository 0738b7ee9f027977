//! Every safe function on arbitrary content and lengths: none panics, each meets the refusals of its list only, and what is
//! not refused is as long as it says.

use jurnadel::{Refusal, Table};
use std::collections::{HashMap, HashSet};

/// The kinds of records.
const KINDS: [u16; 7] = [1, 2, 3, 4, 0x101, 0x102, 0x104];

/// A sequence of numbers that look random.
struct Numbers(u64);

impl Numbers {
    fn below(&mut self, bound: usize) -> usize {
        self.0 ^= self.0 << 13;
        self.0 ^= self.0 >> 7;
        self.0 ^= self.0 << 17;
        (self.0 >> 20) as usize % bound
    }

    /// Mostly a number below the bound, sometimes any.
    fn mostly(&mut self, bound: usize) -> usize {
        if self.below(20) == 0 {
            self.0 as usize
        } else {
            self.below(bound)
        }
    }

    /// Mostly a kind of record, sometimes any number.
    fn kind(&mut self) -> u16 {
        let place = self.mostly(KINDS.len());
        KINDS.get(place).copied().unwrap_or(place as u16)
    }

    fn bytes(&mut self, length: usize) -> Vec<u8> {
        (0..length).map(|_| self.below(256) as u8).collect()
    }

    /// All bytes, in some order.
    fn all_bytes(&mut self) -> Vec<u8> {
        let mut bytes: Vec<u8> = (0..=255).collect();
        for last in (1..bytes.len()).rev() {
            bytes.swap(last, self.below(last + 1));
        }
        bytes
    }

    /// Mostly a table that loading gives; sometimes one with another byte somewhere, or of any content.
    fn table(&mut self) -> Table {
        let mut table = match self.below(3) {
            0 => Table::load(&self.all_bytes()[..243]).expect("243 different bytes"),
            _ => Table::standard(),
        };
        match self.below(24) {
            0 => table.bytes[self.below(243)] = self.below(256) as u8,
            1 => table.inverse[self.below(256)] = self.below(256) as u8,
            2 => table.bytes.fill_with(|| self.below(256) as u8),
            3 => table.inverse.fill_with(|| self.below(256) as u8),
            _ => {}
        }
        table
    }

    /// A turning order, most often of all darts in some order.
    fn order(&mut self) -> Vec<u16> {
        let darts = 2 * self.below(5) + self.below(15) / 14;
        let mut order: Vec<u16> = (0..darts as u16).collect();
        for last in (1..darts).rev() {
            order.swap(last, self.below(last + 1));
        }
        if self.below(10) == 0 {
            order.fill_with(|| self.mostly(10) as u16);
        }
        order
    }

    /// A turning order as [`Numbers::order`] gives it; of kind 3 mostly that of a triangle mesh.
    fn order_for(&mut self, kind: u16) -> Vec<u16> {
        match kind == 3 && self.below(4) > 0 {
            true => {
                let junctions = self.below(3);
                self.mesh(junctions)
            }
            false => self.order(),
        }
    }

    /// The turning order of a triangle mesh: a triangle in which so many junctions were put, each into an area and joined to its
    /// three corners.
    fn mesh(&mut self, junctions: usize) -> Vec<u16> {
        let mut order: Vec<u16> = vec![5, 2, 1, 4, 3, 0];
        for _ in 0..junctions {
            let (first, dart) = (self.below(order.len()), order.len());
            // The corners of an area in the order of its walk, each named by the dart that it follows.
            let after = |corner: usize| usize::from(order[corner]) ^ 1;
            let corners = [first, after(first), after(after(first))];
            // Around the new junction they come the other way round.
            for (place, corner) in corners.into_iter().enumerate() {
                let (at, next) = (dart + 2 * place, dart + 2 * ((place + 2) % 3) + 1);
                order.extend([order[corner], next as u16]);
                order[corner] = at as u16;
            }
        }
        order
    }

    /// A plan's record under this table, or bytes with the head of one; now and then a bit is turned, or it is cut.
    fn record(&mut self, table: &Table) -> Vec<u8> {
        let (kind, trails) = (KINDS[self.below(KINDS.len())], 1 + self.below(4) as u16);
        let length = jurnadel::record_length(kind, trails).unwrap_or(6 + self.below(4));
        let mut record = self.bytes(length);
        for (place, field) in [length as u16, kind, trails].into_iter().enumerate() {
            record[2 * place..][..2].copy_from_slice(&field.to_le_bytes());
        }
        let (order, outside) = (self.order_for(kind), self.mostly(4) as u16);
        record = jurnadel::record_of(table, &order, 0, outside, kind).unwrap_or(record);
        if self.below(5) == 0 {
            let place = self.below(record.len());
            record[place] ^= 1 << self.below(8);
        }
        if self.below(20) == 0 {
            record.truncate(self.below(9));
        }
        record
    }
}

/// Whether loading gives this table: then no call refuses it.
fn is_loaded(table: &Table) -> bool {
    Table::load(&table.bytes) == Ok(*table)
}

/// Whether the answer is 19 exactly when loading never gives the table.
fn tested<T>(answer: &Result<T, Refusal>, table: &Table) -> bool {
    answer.as_ref().is_err_and(|refusal| refusal.number() == Refusal::BAD_TABLE) != is_loaded(table)
}

fn met<T>(answer: Result<T, Refusal>, list: &[u16]) -> Option<T> {
    answer.map_err(|refusal| assert!(list.contains(&refusal.number()), "{refusal} is not in {list:?}")).ok()
}

#[test]
fn loading() {
    let mut numbers = Numbers(1719);
    let (mut loaded, mut refused) = (0, 0);
    for _ in 0..2000 {
        let mut bytes = numbers.all_bytes();
        bytes.truncate(if numbers.below(2) == 0 { 243 } else { numbers.below(257) });
        for _ in 0..numbers.below(3).min(bytes.len()) {
            let place = numbers.below(bytes.len());
            bytes[place] = numbers.below(256) as u8;
        }
        let different: HashSet<u8> = bytes.iter().copied().collect();
        match Table::load(&bytes) {
            Ok(table) => {
                assert!(bytes.len() == 243 && different.len() == 243);
                assert_eq!(table.bytes[..], bytes);
                for byte in 0..=255 {
                    let value = usize::from(table.inverse[usize::from(byte)]);
                    assert_eq!(bytes.get(value), different.get(&byte), "byte {byte}: value {value}");
                }
                loaded += 1;
            }
            Err(refusal) => {
                assert!(bytes.len() != 243 || different.len() < 243);
                assert_eq!(refusal.number(), Refusal::BAD_TABLE);
                refused += 1;
            }
        }
    }
    assert!(loaded > 100 && refused > 100, "{loaded} loaded, {refused} refused");
}

#[test]
fn plans_and_records() {
    let mut numbers = Numbers(2026);
    let (mut written, mut read, mut refused) = (HashMap::new(), HashMap::new(), 0);
    for _ in 0..60_000 {
        let table = numbers.table();
        refused += u32::from(!is_loaded(&table));
        let kind = numbers.kind();
        let (order, start, outside) = (numbers.order_for(kind), numbers.mostly(4) as u16, numbers.mostly(4) as u16);
        let (mut work, mut output) = (vec![7; numbers.below(200)], vec![7; numbers.below(14)]);
        let answer = jurnadel::write(&table, &order, start, outside, kind, &mut work, &mut output);
        assert!(tested(&answer, &table));
        met(answer, &[19, 2, 3, 4, 6, 7, 8, 9, 10, 11, 12, 17, 18]);
        assert!(kind > 0x100 || answer.map_err(Refusal::number) != Err(Refusal::BAD_OUTSIDE));
        assert!(kind == 3 || answer.map_err(Refusal::number) != Err(Refusal::NOT_TRIANGLES));
        assert!(work.iter().all(|&number| number == 0));
        assert!(output[answer.unwrap_or(0)..].iter().all(|&byte| byte == 7));
        let record = jurnadel::record_of(&table, &order, start, outside, kind);
        assert!(tested(&record, &table));
        if let Some(record) = met(record, &[19, 2, 3, 4, 6, 9, 10, 11, 12, 17, 18]) {
            assert!(Some(record.len()) <= jurnadel::record_room(kind, order.len() as u16 / 2));
            let plan = jurnadel::plan_of(&table, &record).expect("a record");
            assert_eq!(plan.order.len(), order.len());
            assert!(plan.outside == 0 || kind > 0x100);
            *written.entry(kind).or_insert(0) += 1;
        }
        let (mut work, mut order) = (vec![7; numbers.below(200)], vec![9; numbers.below(12)]);
        let record = numbers.record(&table);
        let answer = jurnadel::read(&table, &record, &mut work, &mut order);
        assert!(tested(&answer, &table));
        assert!(work.iter().all(|&number| number == 0));
        met(answer, &[19, 1, 2, 3, 5, 7, 8, 13]);
        assert!(record.get(2..4) != Some(&[3, 0]) || answer.map_err(Refusal::number) != Err(Refusal::BAD_LENGTH));
        assert!(order[answer.map_or(0, |read| 2 * read.trails)..].iter().all(|&entry| entry == 9));
        if let Some(plan) = met(jurnadel::plan_of(&table, &record), &[19, 1, 2, 3, 5, 13]) {
            let kind = u16::from_le_bytes([record[2], record[3]]);
            assert_eq!(jurnadel::record_of(&table, &plan.order, 0, plan.outside, kind), Ok(record));
            *read.entry(kind).or_insert(0) += 1;
        }
    }
    for kind in KINDS {
        let counts = [&written, &read].map(|count| count.get(&kind).copied().unwrap_or(0));
        assert!(counts.iter().all(|&count| count > 100), "kind {kind:X}h: {counts:?} written and read");
    }
    assert!(refused > 100, "{refused} tables refused");
}

/// Meshes up to the largest: each has a record of kind 3 that is read as the plan of its record of kind 1, within the room for it.
#[test]
fn meshes() {
    let (mut numbers, table) = (Numbers(1812), Table::standard());
    for junctions in (0..40).chain([300, 1363, 1364]) {
        let order = numbers.mesh(junctions);
        let start = numbers.below(order.len()) as u16;
        let record = |kind| jurnadel::record_of(&table, &order, start, u16::MAX, kind).expect("a mesh");
        let (mesh, bits) = (record(3), record(1));
        assert!(Some(mesh.len()) <= jurnadel::record_room(3, order.len() as u16 / 2));
        assert!(mesh.len() < bits.len() || junctions == 0);
        assert_eq!(jurnadel::plan_of(&table, &mesh), jurnadel::plan_of(&table, &bits));
        let longer = [&(mesh.len() as u16 + 1).to_le_bytes(), &mesh[2..], &[0]].concat();
        assert_eq!(jurnadel::plan_of(&table, &longer).map_err(Refusal::number), Err(Refusal::NO_FIT_PLAN));
    }
}

#[test]
fn areas() {
    let mut numbers = Numbers(424);
    let (mut listed, mut short) = (0, 0);
    for _ in 0..20_000 {
        let order = numbers.order();
        let (mut work, mut list) = (vec![7; numbers.below(200)], vec![9; numbers.below(8)]);
        let answer = jurnadel::area_lengths(&order, &mut work, &mut list);
        met(answer, &[3, 6, 7, 8, 9, 10]);
        assert!(work.iter().all(|&number| number == 0));
        assert!(list[answer.unwrap_or(0)..].iter().all(|&entry| entry == 9));
        let lengths = met(jurnadel::areas_of(&order), &[3, 6, 9, 10]);
        match answer {
            Ok(count) => assert_eq!(lengths.as_deref(), Some(&list[..count])),
            Err(refusal) if refusal.number() == Refusal::SHORT_OUTPUT => short += 1,
            Err(_) => {}
        }
        if let Some(lengths) = lengths {
            assert!(lengths.len() <= order.len() / 2 + 1);
            assert_eq!(lengths.iter().map(|&length| usize::from(length)).sum::<usize>(), order.len());
            listed += 1;
        }
    }
    assert!(listed > 100 && short > 100, "{listed} plans, {short} lists too short");
}

#[test]
fn shelves() {
    let mut numbers = Numbers(1105);
    let (mut shelved, mut short, mut unreadable) = (0, 0, 0);
    for _ in 0..20_000 {
        let table = numbers.table();
        let record = numbers.record(&table);
        let mut shelf: Vec<u8> = (0..numbers.below(3)).flat_map(|_| numbers.record(&table)).collect();
        if numbers.below(8) == 0 {
            shelf.extend(&record);
        }
        let used = if numbers.below(4) == 0 { numbers.mostly(30) } else { shelf.len() };
        shelf.resize(shelf.len() + numbers.below(20), 7);
        let (mut after, mut work) = (shelf.clone(), vec![7; numbers.below(400)]);
        let answer = jurnadel::shelve(&table, &record, &mut work, &mut after, used);
        assert!(tested(&answer, &table));
        assert!(work.iter().all(|&number| number == 0));
        assert!(answer.is_ok() || after == shelf);
        // As in reading, with 7 before 13; then what the shelf refuses.
        let number = answer.map_or_else(Refusal::number, |_| 0);
        let read = jurnadel::plan_of(&table, &record).map_or_else(Refusal::number, |_| 0);
        let needed = || jurnadel::work_length(u16::from_le_bytes([record[4], record[5]]));
        let is_short = matches!(read, 0 | Refusal::NO_FIT_PLAN) && work.len() < needed();
        let of_shelf = matches!(number, Refusal::SHELF_BROKEN | Refusal::SHELF_FULL);
        assert_eq!(if of_shelf { 0 } else { number }, if is_short { Refusal::SHORT_WORK } else { read });
        short += u32::from(is_short);
        unreadable += u32::from(number == Refusal::NO_FIT_PLAN);
        if let Some(answer) = met(answer, &[19, 1, 2, 3, 5, 7, 13, 14, 16]) {
            assert_eq!(jurnadel::fetch(&after, answer.used, answer.number), Ok(&record[..]));
            shelved += 1;
        }
        let (number, at) = (numbers.mostly(4), numbers.mostly(40));
        met(jurnadel::fetch(&shelf, used, number), &[14, 15]);
        if let Some(walk) = met(jurnadel::walk(&shelf, used, number), &[14, 15]) {
            assert_eq!(walk.map(<[u8]>::len).sum::<usize>(), used - jurnadel::walk(&shelf, used, number).unwrap().place());
        }
        assert!(jurnadel::walk_from(&shelf, used, at).all(|record| record.len() >= 6));
    }
    let counts = [shelved, short, unreadable];
    assert!(counts.iter().all(|&count| count > 100), "{counts:?} shelved, with too short a work area, unreadable");
}

/// A shelf that is built from nothing, under any tables and with refused calls between: each record on it is a plan's under the
/// table of the call that stored it.
#[test]
fn a_shelf_from_nothing() {
    let mut numbers = Numbers(613);
    let (mut stored, mut refused) = (0, 0);
    for _ in 0..300 {
        let (mut shelf, mut used, mut tables) = (numbers.bytes(200), 0, Vec::new());
        for _ in 0..60 {
            let (mut table, mut work) = (numbers.table(), vec![7; numbers.below(600)]);
            let record = numbers.record(&table);
            if numbers.below(4) == 0 {
                table = numbers.table();
            }
            match jurnadel::shelve(&table, &record, &mut work, &mut shelf, used) {
                Ok(shelved) if shelved.used > used => {
                    tables.push(table);
                    used = shelved.used;
                }
                Ok(shelved) => assert_eq!(shelved.used, used),
                Err(_) => refused += 1,
            }
        }
        let records: Vec<&[u8]> = jurnadel::walk_from(&shelf, used, 0).collect();
        assert_eq!((records.len(), records.concat()), (tables.len(), shelf[..used].to_vec()));
        assert!(records.iter().zip(&tables).all(|(record, table)| jurnadel::plan_of(table, record).is_ok()));
        stored += records.len();
    }
    assert!(stored > 1000 && refused > 1000, "{stored} stored, {refused} refused");
}

#[test]
fn sizes() {
    assert_eq!(jurnadel::work_length(jurnadel::MAX_TRAILS), jurnadel::MAX_WORK_LENGTH);
    let lengths = KINDS.map(|kind| jurnadel::record_length(kind, jurnadel::MAX_TRAILS));
    assert_eq!(lengths.into_iter().flatten().max(), Some(jurnadel::MAX_RECORD_LENGTH));
    assert!(KINDS.iter().all(|&kind| jurnadel::record_length(kind, jurnadel::MAX_TRAILS + 1).is_none()));
    assert!(KINDS.iter().all(|&kind| jurnadel::record_room(kind, jurnadel::MAX_TRAILS + 1).is_none()));
    for trails in 0..=jurnadel::MAX_TRAILS {
        assert_eq!(jurnadel::record_room(3, trails).is_some(), trails > 0 && trails % 3 == 0);
        let others = KINDS.iter().filter(|&&kind| kind != 3);
        assert!(others.copied().all(|kind| jurnadel::record_room(kind, trails) == jurnadel::record_length(kind, trails)));
    }
    assert_eq!(jurnadel::MAX_ORDER_LENGTH, 2 * usize::from(jurnadel::MAX_TRAILS));
    assert_eq!(jurnadel::MAX_AREAS_LENGTH, usize::from(jurnadel::MAX_TRAILS) + 1);
}
