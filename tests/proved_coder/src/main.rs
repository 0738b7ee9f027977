//! The line protocol of `tests/second_coder` (see the top of its `src/main.rs`), answered by the proved library: verbs and
//! options of the requests in `tests/landed`. Any other is `malformed`.
//!
//! Each call gets lent buffers between guards, with work area and out-numbers of a value that the call must replace. An
//! answer that begins `broken` tells that a call touched what it must leave alone, left its work area not all zeros, or set
//! an out-number to something else than the header says.

mod lent;
mod tables;
mod words;

use jurnadel::{sys, Table};
use lent::Lent;
use std::io::{self, BufRead, BufReader, BufWriter, Write as _};
use tables::with_inverse;
use words::{spaced, to_hex, Words};

/// What stands in work areas and outputs before a call.
const NUMBER: u16 = 0x5A5A;
const BYTE: u8 = 0xA5;

fn main() -> io::Result<()> {
    let mut input = BufReader::with_capacity(1 << 16, io::stdin());
    let mut output = BufWriter::with_capacity(1 << 16, io::stdout());
    let mut line = Vec::new();
    loop {
        line.clear();
        if input.read_until(b'\n', &mut line)? == 0 {
            break;
        }
        let answer = std::str::from_utf8(&line)
            .ok()
            .and_then(answer_to)
            .unwrap_or_else(|| String::from("malformed"));
        writeln!(output, "{answer}")?;
        if input.buffer().is_empty() {
            output.flush()?;
        }
    }
    output.flush()
}

/// The answer to a request, or nothing if the line is none.
fn answer_to(line: &str) -> Option<String> {
    let words = &mut Words::of(line);
    let answer = match words.next()? {
        "write" => asked_write(words)?,
        "read" => asked_read(words)?,
        "load" => asked_load(words)?,
        "areas" => asked_areas(words)?,
        "shelve" => asked_shelve(words)?,
        "fetch" => asked_of_shelf(fetch, words)?,
        "walk" => asked_of_shelf(walk, words)?,
        _ => return None,
    };
    Some(answer.unwrap_or_else(|what| format!("broken {what}")))
}

fn asked_write(words: &mut Words) -> Option<Answer> {
    let outside = words.outside()?;
    let table = words.table()?;
    let kind = words.number()?;
    let start = words.number()?;
    let work = words.length()?;
    let output = words.length()?;
    let order = words.numbers_to_end()?;
    Some(write(&table, kind, start, outside, work, output, &order))
}

fn asked_read(words: &mut Words) -> Option<Answer> {
    let table = words.table()?;
    let work = words.length()?;
    let output = words.length()?;
    let record = words.hex()?;
    words.end()?;
    Some(read(&table, work, output, &record))
}

fn asked_load(words: &mut Words) -> Option<Answer> {
    let bytes = words.hex()?;
    words.end()?;
    Some(load(&bytes))
}

fn asked_areas(words: &mut Words) -> Option<Answer> {
    let work = words.length()?;
    let list = words.length()?;
    let order = words.numbers_to_end()?;
    Some(areas(work, list, &order))
}

fn asked_shelve(words: &mut Words) -> Option<Answer> {
    let table = words.table()?;
    let work = words.shelving_work()?;
    let used = words.number()?;
    let length = words.length()?;
    let mut shelf = words.hex()?;
    let record = words.hex()?;
    words.end()?;
    shelf.resize(length, 0);
    Some(shelve(&table, work, used, &shelf, &record))
}

/// A call that takes used length, number and shelf.
fn asked_of_shelf(call: fn(usize, usize, &[u8]) -> Answer, words: &mut Words) -> Option<Answer> {
    let used = words.number()?;
    let number = words.number()?;
    let shelf = words.hex()?;
    words.end()?;
    Some(call(used, number, &shelf))
}

/// An answer, or what the call broke.
type Answer = Result<String, &'static str>;

/// Says what is broken, if it is.
fn hold(holds: bool, what: &'static str) -> Result<(), &'static str> {
    holds.then_some(()).ok_or(what)
}

fn write(
    table: &Table,
    kind: u16,
    start: u16,
    outside: u16,
    work: usize,
    output: usize,
    order: &[u16],
) -> Answer {
    let order = Lent::of(order, NUMBER);
    let mut work = Lent::filled(work, NUMBER);
    let mut output = Lent::filled(output, BYTE);
    let (mut length, mut characteristic) = (NUMBER, 0x5A5A_5A5A);
    let refusal = unsafe {
        sys::jurnadel_write(
            *table,
            order.lend(),
            order.len(),
            start,
            outside,
            kind,
            work.lend_mut(),
            work.len(),
            output.lend_mut(),
            output.len(),
            &mut length,
            &mut characteristic,
        )
    };
    hold(order.untouched(), "order")?;
    hold(work.all(0), "work area")?;
    hold(output.untouched_but(0, usize::from(length)), "output")?;
    hold((refusal == 0) == (length != 0), "length")?;
    hold(refusal == 10 || characteristic == 0, "characteristic")?;
    if refusal != 0 {
        return Ok(refused(refusal, characteristic));
    }
    let m = (order.len() / 2).min(1 << 15) as u16;
    let fixed = unsafe { sys::jurnadel_record_length(kind, m) };
    let record = &output.now()[..usize::from(length)];
    hold(
        match kind {
            // m does not fix the length; the record has it in its head.
            3 => fixed == 0 && record.starts_with(&length.to_le_bytes()),
            _ => fixed == length,
        },
        "record length",
    )?;
    Ok(format!("ok {}", to_hex(record)))
}

/// A refusal of a plan; 10 with the characteristic.
fn refused(number: u16, characteristic: i32) -> String {
    match number {
        10 => format!("refused 10 {characteristic}"),
        _ => format!("refused {number}"),
    }
}

fn read(table: &Table, work: usize, output: usize, record: &[u8]) -> Answer {
    let record = Lent::of(record, BYTE);
    let mut work = Lent::filled(work, NUMBER);
    let mut order = Lent::filled(output, NUMBER);
    let (mut trails, mut outside) = (NUMBER, NUMBER);
    let refusal = unsafe {
        sys::jurnadel_read(
            *table,
            record.lend(),
            record.len(),
            work.lend_mut(),
            work.len(),
            order.lend_mut(),
            order.len(),
            &mut trails,
            &mut outside,
        )
    };
    let filled = 2 * usize::from(trails);
    hold(record.untouched(), "record")?;
    hold(work.all(0), "work area")?;
    hold(order.untouched_but(0, filled), "output")?;
    hold((refusal == 0) == (trails != 0), "trails")?;
    if refusal != 0 {
        hold(outside == 0, "outside")?;
        return Ok(format!("refused {refusal}"));
    }
    let entries = spaced(&order.now()[..filled]);
    Ok(format!("ok {trails} {outside}{entries}"))
}

fn load(bytes: &[u8]) -> Answer {
    let bytes = Lent::of(bytes, BYTE);
    let mut refusal = NUMBER;
    let table = unsafe { sys::jurnadel_load_table(bytes.lend(), bytes.len(), &mut refusal) };
    hold(bytes.untouched(), "bytes")?;
    if refusal != 0 {
        let zeros = Table {
            bytes: [0; 243],
            inverse: [0; 256],
        };
        hold(table == zeros, "refused table")?;
        return Ok(format!("refused {refusal}"));
    }
    hold(
        table.bytes[..] == *bytes.now() && table == with_inverse(table.bytes),
        "table",
    )?;
    Ok(String::from("ok"))
}

fn areas(work: usize, list: usize, order: &[u16]) -> Answer {
    let order = Lent::of(order, NUMBER);
    let mut work = Lent::filled(work, NUMBER);
    let mut list = Lent::filled(list, NUMBER);
    let (mut count, mut characteristic) = (NUMBER, 0x5A5A_5A5A);
    let refusal = unsafe {
        sys::jurnadel_area_lengths(
            order.lend(),
            order.len(),
            work.lend_mut(),
            work.len(),
            list.lend_mut(),
            list.len(),
            &mut count,
            &mut characteristic,
        )
    };
    let filled = usize::from(count);
    hold(order.untouched(), "order")?;
    hold(work.all(0), "work area")?;
    hold(list.untouched_but(0, filled), "list")?;
    hold((refusal == 0) == (count != 0), "count")?;
    hold(refusal == 10 || characteristic == 0, "characteristic")?;
    Ok(match refusal {
        0 => format!("ok {count}{}", spaced(&list.now()[..filled])),
        _ => refused(refusal, characteristic),
    })
}

fn shelve(table: &Table, work: usize, used: usize, shelf: &[u8], record: &[u8]) -> Answer {
    let record = Lent::of(record, BYTE);
    let mut work = Lent::filled(work, NUMBER);
    let mut shelf = Lent::of(shelf, BYTE);
    let (mut number, mut new_used) = (usize::MAX, usize::MAX);
    let refusal = unsafe {
        sys::jurnadel_shelve(
            *table,
            record.lend(),
            record.len(),
            work.lend_mut(),
            work.len(),
            shelf.lend_mut(),
            shelf.len(),
            used,
            &mut number,
            &mut new_used,
        )
    };
    hold(record.untouched(), "record")?;
    hold(work.all(0), "work area")?;
    if refusal != 0 {
        hold(shelf.untouched(), "shelf")?;
        hold(number == 0, "number")?;
        hold(new_used == used, "used length")?;
        return Ok(format!("refused {refusal}"));
    }
    hold(
        new_used == used || new_used == used + record.len(),
        "used length",
    )?;
    hold(shelf.untouched_but(used, new_used - used), "shelf")?;
    Ok(format!("ok {number} {new_used} {}", to_hex(shelf.now())))
}

fn fetch(used: usize, number: usize, shelf: &[u8]) -> Answer {
    let shelf = Lent::of(shelf, BYTE);
    let (mut at, mut length) = (usize::MAX, usize::MAX);
    let refusal = unsafe {
        sys::jurnadel_fetch(
            shelf.lend(),
            shelf.len(),
            used,
            number,
            &mut at,
            &mut length,
        )
    };
    hold(shelf.untouched(), "shelf")?;
    if refusal != 0 {
        hold(at == 0 && length == 0, "part")?;
        return Ok(format!("refused {refusal}"));
    }
    let part = at
        .checked_add(length)
        .and_then(|end| shelf.now().get(at..end))
        .ok_or("part")?;
    Ok(format!("ok {}", to_hex(part)))
}

fn walk(used: usize, number: usize, shelf: &[u8]) -> Answer {
    let shelf = Lent::of(shelf, BYTE);
    let mut at = usize::MAX;
    let refusal =
        unsafe { sys::jurnadel_walk_begin(shelf.lend(), shelf.len(), used, number, &mut at) };
    hold(shelf.untouched(), "shelf")?;
    if refusal != 0 {
        hold(at == used, "place")?;
        return Ok(format!("refused {refusal}"));
    }
    let mut text = String::from("ok");
    loop {
        let length = unsafe { sys::jurnadel_walk_step(shelf.lend(), shelf.len(), used, at) };
        hold(shelf.untouched(), "shelf")?;
        if length == 0 {
            return Ok(text);
        }
        let part = at
            .checked_add(length)
            .and_then(|end| shelf.now().get(at..end))
            .ok_or("part")?;
        text.push(' ');
        text.push_str(&to_hex(part));
        at += length;
    }
}
