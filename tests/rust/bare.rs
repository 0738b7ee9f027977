//! A program without std and without a heap, over the crate without its features: loads a table, writes, reads, measures
//! areas, shelves, fetches and walks in lent buffers, and prints a refusal's text. Its exit status is the number of the first step that fails,
//! or 0.
#![no_std]
#![no_main]

use core::fmt::{self, Write};
use jurnadel::{area_lengths, fetch, read, shelve, walk, write, Refusal, Table};

#[panic_handler]
fn panicked(_: &core::panic::PanicInfo) -> ! {
    loop {}
}

/// The core library that is installed was compiled to unwind and wants this; nothing here does.
#[no_mangle]
extern "C" fn rust_eh_personality() {}

/// Whether what is printed is this text; it is looked at as it comes.
struct Rest<'a>(&'a str);

impl Write for Rest<'_> {
    fn write_str(&mut self, text: &str) -> fmt::Result {
        self.0 = self.0.strip_prefix(text).ok_or(fmt::Error)?;
        Ok(())
    }
}

fn prints(refusal: Refusal, text: &str) -> bool {
    let mut rest = Rest(text);
    write!(rest, "{refusal}").is_ok() && rest.0.is_empty()
}

fn steps() -> Result<bool, Refusal> {
    let (mut work, mut record, mut order, mut shelf, mut list) = ([7; 96], [0; 10], [0; 6], [0; 16], [0; 2]);
    let table = Table::load(&Table::standard().bytes)?;
    let length = write(&table, &[5, 2, 1, 4, 3, 0], 0, 5, 0x101, &mut work, &mut record)?;
    let back = read(&table, &record[..length], &mut work, &mut order)?;
    let areas = area_lengths(&order, &mut work, &mut list)?;
    let shelved = shelve(&table, &record, &mut work, &mut shelf, 0)?;
    let fetched = fetch(&shelf, shelved.used, shelved.number)? == record;
    let walked = walk(&shelf, shelved.used, 0)?.count();
    let mesh = write(&table, &order, 0, 0, 3, &mut work, &mut shelf)?;
    let told = back.trails == 3 && back.outside == 1 && order == [5, 2, 1, 4, 3, 0] && areas == 2 && list == [3, 3];
    Ok(told && fetched && walked == 1 && shelf[..mesh] == [8, 0, 3, 0, 3, 0, 0x80, 0xA2])
}

#[no_mangle]
pub extern "C" fn main() -> i32 {
    let crossing = write(&Table::standard(), &[3, 2, 4, 5, 1, 0], 0, 0, 2, &mut [0; 96], &mut [0; 8]);
    let refused = crossing.is_err_and(|refusal| prints(refusal, "refusal 10: It is not planar. Its characteristic is 0."));
    match (steps(), refused) {
        (Ok(true), true) => 0,
        (Ok(true), false) => 1,
        _ => 2,
    }
}
