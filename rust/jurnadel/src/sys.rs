//! The C declarations of `include/jurnadel.h`, word for word.
//!
//! The safe functions of this crate are made of these. They are public for callers who lend raw memory; the header says
//! what each does and what a caller must see to.

/// A group table as the header has it: the same as [`Table`](crate::Table).
pub use crate::Table as jurnadel_table;

#[allow(missing_docs)]
extern "C" {
    pub fn jurnadel_load_table(bytes: *const u8, bytes_len: usize, refusal: *mut u16) -> jurnadel_table;
    pub fn jurnadel_standard_table() -> jurnadel_table;
    pub fn jurnadel_write(
        table: jurnadel_table,
        order: *const u16,
        darts: usize,
        start: u16,
        outside: u16,
        kind: u16,
        work: *mut u16,
        work_len: usize,
        output: *mut u8,
        output_len: usize,
        length: *mut u16,
        characteristic: *mut i32,
    ) -> u16;
    pub fn jurnadel_read(
        table: jurnadel_table,
        record: *const u8,
        record_len: usize,
        work: *mut u16,
        work_len: usize,
        order: *mut u16,
        order_len: usize,
        trails: *mut u16,
        outside: *mut u16,
    ) -> u16;
    pub fn jurnadel_area_lengths(
        order: *const u16,
        darts: usize,
        work: *mut u16,
        work_len: usize,
        list: *mut u16,
        list_len: usize,
        count: *mut u16,
        characteristic: *mut i32,
    ) -> u16;
    pub fn jurnadel_shelve(
        table: jurnadel_table,
        record: *const u8,
        record_len: usize,
        work: *mut u16,
        work_len: usize,
        shelf: *mut u8,
        shelf_len: usize,
        used: usize,
        number: *mut usize,
        new_used: *mut usize,
    ) -> u16;
    pub fn jurnadel_fetch(
        shelf: *const u8,
        shelf_len: usize,
        used: usize,
        number: usize,
        at: *mut usize,
        length: *mut usize,
    ) -> u16;
    pub fn jurnadel_walk_begin(shelf: *const u8, shelf_len: usize, used: usize, number: usize, at: *mut usize) -> u16;
    pub fn jurnadel_walk_step(shelf: *const u8, shelf_len: usize, used: usize, at: usize) -> usize;
    pub fn jurnadel_record_length(kind: u16, trails: u16) -> u16;
    pub fn jurnadel_work_length(trails: u16) -> usize;
}
