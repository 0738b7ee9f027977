//! The three coders behind one face.

use second_coder::area_list::area_lengths;
use second_coder::{Landed, LentPlan};
use std::ffi::{c_int, c_uint};
use std::ptr;
use std::sync::LazyLock;

extern "C" {
    fn peer_load(bytes: *const u8, len: usize, table: *mut jurnadel::Table) -> c_int;
    fn peer_write(
        landed: c_uint,
        table: *const jurnadel::Table,
        kind: u16,
        start: u16,
        outside: u16,
        order: *const u16,
        n: usize,
        work: *mut u16,
        work_len: usize,
        out: *mut u8,
        out_len: usize,
        length: *mut usize,
        chi: *mut i32,
    ) -> c_int;
    fn peer_read(
        landed: c_uint,
        table: *const jurnadel::Table,
        record: *const u8,
        len: usize,
        work: *mut u16,
        work_len: usize,
        order: *mut u16,
        order_len: usize,
        m: *mut u16,
        outside: *mut u16,
    ) -> c_int;
    fn peer_areas(
        order: *const u16,
        n: usize,
        work: *mut u16,
        work_len: usize,
        list: *mut u16,
        list_len: usize,
        count: *mut usize,
        chi: *mut i32,
    ) -> c_int;
}

/// The requests of document 02 that have landed, a letter each.
const LETTERS: &str = include_str!("../../tests/landed").trim_ascii();

/// The same for the second coder.
pub static LANDED: LazyLock<Landed> = LazyLock::new(|| Landed::of(LETTERS).expect("letters"));

/// A group table, as each coder is handed it.
pub struct Table {
    pub proved: jurnadel::Table,
    pub second: second_coder::Table,
    /// The peer's has the form of the proved library's; or the peer is handed none, and has the standard one.
    peer: Option<jurnadel::Table>,
}

impl Table {
    /// The table of these bytes, which are 243 and all different.
    pub fn of(bytes: &[u8]) -> Table {
        let proved = jurnadel::Table::load(bytes).expect("a table");
        let second = second_coder::Table::load(bytes).expect("a table");
        Table {
            proved,
            second,
            peer: Some(proved),
        }
    }
}

/// The standard table, of which the peer is not told.
pub static STANDARD: LazyLock<Table> = LazyLock::new(|| Table {
    peer: None,
    ..Table::of(&jurnadel::Table::standard().bytes)
});

/// The letters for the peer, a bit each.
const PEER_LANDED: c_uint = {
    let (mut bits, mut i) = (0, 0);
    while i < LETTERS.len() {
        bits |= 1 << (LETTERS.as_bytes()[i] - b'a');
        i += 1;
    }
    bits
};

/// Loading a table: its bytes.
type Load = fn(&[u8]) -> bool;
/// Writing: table, kind, start, outside, order, work area, output.
type Write = fn(&Table, u16, u16, u16, &[u16], &mut [u16], &mut [u8]) -> usize;
/// Reading: table, record, work area, order.
type Read = fn(&Table, &[u8], &mut [u16], &mut [u16]) -> (usize, u16);
/// Measuring areas: order, work area, list.
type Areas = fn(&[u16], &mut [u16], &mut [u16]) -> usize;

/// A coder: loading tells whether it is done, writing gives the record's length, reading m and the outside, measuring the
/// number of areas; 0 if refused.
pub struct Coder {
    pub load: Load,
    pub write: Write,
    pub read: Read,
    pub areas: Areas,
}

/// The proved library, the second coder, the peer.
pub const CODERS: [Coder; 3] = [
    Coder {
        load: |bytes| jurnadel::Table::load(bytes).is_ok(),
        write: |table, kind, start, outside, order, work, output| {
            jurnadel::write(&table.proved, order, start, outside, kind, work, output).unwrap_or(0)
        },
        read: |table, record, work, order| {
            jurnadel::read(&table.proved, record, work, order)
                .map_or((0, 0), |read| (read.trails, read.outside))
        },
        areas: |order, work, list| jurnadel::area_lengths(order, work, list).unwrap_or(0),
    },
    Coder {
        load: |bytes| second_coder::Table::load(bytes).is_ok(),
        write: write_by_second,
        read: |table, record, work, order| {
            second_coder::read(*LANDED, &table.second, record, work, order)
                .map_or((0, 0), |read| (read.m, read.outside as u16))
        },
        areas: |order, work, list| area_lengths(order, work, list).unwrap_or(0),
    },
    Coder {
        load: load_by_peer,
        write: write_by_peer,
        read: read_by_peer,
        areas: areas_by_peer,
    },
];

fn write_by_second(
    table: &Table,
    kind: u16,
    start: u16,
    outside: u16,
    order: &[u16],
    work: &mut [u16],
    output: &mut [u8],
) -> usize {
    let plan = LentPlan {
        order,
        start,
        outside,
    };
    second_coder::write(*LANDED, &table.second, kind, plan, work, output).unwrap_or(0)
}

/// What the peer is handed of a table.
fn peer_table(table: &Table) -> *const jurnadel::Table {
    table.peer.as_ref().map_or(ptr::null(), ptr::from_ref)
}

fn load_by_peer(bytes: &[u8]) -> bool {
    let mut table = jurnadel::Table {
        bytes: [0; 243],
        inverse: [0; 256],
    };
    let refusal = unsafe { peer_load(bytes.as_ptr(), bytes.len(), &mut table) };
    refusal == 0 && std::hint::black_box(&table).bytes == bytes
}

fn write_by_peer(
    table: &Table,
    kind: u16,
    start: u16,
    outside: u16,
    order: &[u16],
    work: &mut [u16],
    output: &mut [u8],
) -> usize {
    let (mut length, mut characteristic) = (0, 0);
    let refusal = unsafe {
        peer_write(
            PEER_LANDED,
            peer_table(table),
            kind,
            start,
            outside,
            order.as_ptr(),
            order.len(),
            work.as_mut_ptr(),
            work.len(),
            output.as_mut_ptr(),
            output.len(),
            &mut length,
            &mut characteristic,
        )
    };
    if refusal == 0 {
        length
    } else {
        0
    }
}

fn read_by_peer(table: &Table, record: &[u8], work: &mut [u16], order: &mut [u16]) -> (usize, u16) {
    let (mut m, mut outside) = (0, 0);
    let refusal = unsafe {
        peer_read(
            PEER_LANDED,
            peer_table(table),
            record.as_ptr(),
            record.len(),
            work.as_mut_ptr(),
            work.len(),
            order.as_mut_ptr(),
            order.len(),
            &mut m,
            &mut outside,
        )
    };
    if refusal == 0 {
        (usize::from(m), outside)
    } else {
        (0, 0)
    }
}

fn areas_by_peer(order: &[u16], work: &mut [u16], list: &mut [u16]) -> usize {
    let (mut count, mut characteristic) = (0, 0);
    let refusal = unsafe {
        peer_areas(
            order.as_ptr(),
            order.len(),
            work.as_mut_ptr(),
            work.len(),
            list.as_mut_ptr(),
            list.len(),
            &mut count,
            &mut characteristic,
        )
    };
    if refusal == 0 {
        count
    } else {
        0
    }
}
