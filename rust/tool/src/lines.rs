//! A plan or a record in one line, and the one line that answers it.
//!
//! A plan is its start and its entries in decimal, with its outside after the start and a `/` if it names one; a record is
//! hexadecimal. What is refused is answered `refused NUMBER`, with the characteristic after number 10; a line that is neither
//! is `malformed`.

use crate::kinds::{self, in_kind};
use crate::record_file::{from_hex, push_hex};
use jurnadel::{ReadBack, Refusal, Table, MAX_ORDER_LENGTH, MAX_RECORD_LENGTH, MAX_WORK_LENGTH};
use std::io::Write as _;

/// The most bytes of a line, its end not counted. The longest plan takes 49 kB; a longer line is malformed, so that memory
/// is bounded whatever comes.
pub const LONGEST: usize = 1 << 20;

/// Which way lines are coded.
#[derive(Debug, Clone, Copy)]
pub enum Way {
    /// From plans to records of this kind; see [`in_kind`].
    Write(Option<u16>),
    /// From records to plans.
    Read,
}

/// Why a line has no other answer.
enum Untaken {
    Malformed,
    Refused(Refusal),
}

impl From<Refusal> for Untaken {
    fn from(refusal: Refusal) -> Untaken {
        Untaken::Refused(refusal)
    }
}

/// Answers lines one way, under one group table, with buffers that serve every plan.
#[derive(Clone)]
pub struct Coder {
    way: Way,
    table: Table,
    work: Vec<u16>,
    numbers: Vec<u16>,
    record: Vec<u8>,
}

impl Coder {
    pub fn new(way: Way, table: Table) -> Coder {
        let work = vec![0; MAX_WORK_LENGTH];
        Coder { way, table, work, numbers: vec![0; MAX_ORDER_LENGTH], record: vec![0; MAX_RECORD_LENGTH] }
    }

    /// Adds the answer to a line, and says whether it is a plan or a record.
    pub fn answer(&mut self, line: &[u8], answers: &mut Vec<u8>) -> bool {
        let line = without_end(line);
        let done = match self.way {
            _ if line.len() > LONGEST => Err(Untaken::Malformed),
            Way::Write(kind) => self.write(line, kind, answers),
            Way::Read => self.read(line, answers),
        };
        match &done {
            Ok(()) => {}
            Err(Untaken::Malformed) => answers.extend(b"malformed"),
            Err(Untaken::Refused(refusal)) => push_refusal(*refusal, answers),
        }
        answers.push(b'\n');
        done.is_ok()
    }

    fn write(&mut self, line: &[u8], kind: Option<u16>, answers: &mut Vec<u8>) -> Result<(), Untaken> {
        let (before, line) = before_slash(line).map_or((None, line), |(start, line)| (Some(start), line));
        // The start or the outside, and one entry more than a plan has: a longer one is refused for its count alone.
        take_numbers(line, 1 + MAX_ORDER_LENGTH + 1, &mut self.numbers).ok_or(Untaken::Malformed)?;
        let (&first, order) = self.numbers.split_first().ok_or(Untaken::Malformed)?;
        let (start, outside) = (before.unwrap_or(first), first);
        let work = for_trails(&mut self.work, order.len() / 2);
        let write = |kind| jurnadel::write(&self.table, order, start, outside, kind, work, &mut self.record);
        let length = in_kind(kind, before.is_some(), write)?;
        push_hex(&self.record[..length], answers);
        Ok(())
    }

    fn read(&mut self, line: &[u8], answers: &mut Vec<u8>) -> Result<(), Untaken> {
        self.record.clear();
        from_hex(line, &mut self.record).filter(|()| !self.record.is_empty()).ok_or(Untaken::Malformed)?;
        let trails = self.record.get(4..6).map_or(0, |field| u16::from_le_bytes([field[0], field[1]]));
        let work = for_trails(&mut self.work, trails.into());
        let ReadBack { trails, outside } = jurnadel::read(&self.table, &self.record, work, &mut self.numbers)?;
        let outside = kinds::has_outside(kinds::of(&self.record)).then_some(outside);
        push_plan(0, outside, &self.numbers[..2 * trails], answers);
        Ok(())
    }
}

/// The part of the work area that so many trails need. A call leaves all that it is lent zeros, so more would take time.
fn for_trails(work: &mut [u16], trails: usize) -> &mut [u16] {
    &mut work[..jurnadel::work_length(trails.min(jurnadel::MAX_TRAILS.into()) as u16)]
}

/// A line without LF or CR LF at its end.
fn without_end(line: &[u8]) -> &[u8] {
    let line = line.strip_suffix(b"\n").unwrap_or(line);
    line.strip_suffix(b"\r").unwrap_or(line)
}

/// The start that a line begins with, where a `/` and another number follow it at once, and the line from that number on.
fn before_slash(line: &[u8]) -> Option<(u16, &[u8])> {
    let line = &line[line.iter().position(|&byte| !is_blank(byte))?..];
    let slash = line.iter().position(|byte| !byte.is_ascii_digit()).filter(|&at| at > 0 && line[at] == b'/')?;
    let rest = &line[slash + 1..];
    let start = line[..slash].iter().fold(0, |number, &digit| with_digit(number, digit));
    rest.first().is_some_and(u8::is_ascii_digit).then_some((start as u16, rest))
}

fn is_blank(byte: u8) -> bool {
    matches!(byte, b' ' | b'\t')
}

/// A number with one digit more, 65,535 at most.
fn with_digit(number: u32, digit: u8) -> u32 {
    (10 * number + u32::from(digit - b'0')).min(u16::MAX.into())
}

/// The decimal numbers of a line, with blanks between, as far as `most` of them; nothing if there is anything else. A number
/// above 65,535 is taken as that one, as in a plan file.
fn take_numbers(line: &[u8], most: usize, numbers: &mut Vec<u16>) -> Option<()> {
    numbers.clear();
    let mut number = None;
    for &byte in line {
        match byte {
            b'0'..=b'9' => number = Some(with_digit(number.unwrap_or(0), byte)),
            _ if is_blank(byte) => push_number(&mut number, most, numbers),
            _ => return None,
        }
    }
    push_number(&mut number, most, numbers);
    Some(())
}

fn push_number(number: &mut Option<u32>, most: usize, numbers: &mut Vec<u16>) {
    if let Some(number) = number.take().filter(|_| numbers.len() < most) {
        numbers.push(number as u16);
    }
}

fn push_plan(start: u16, outside: Option<u16>, order: &[u16], line: &mut Vec<u8>) {
    push_decimal(start, line);
    if let Some(outside) = outside {
        line.push(b'/');
        push_decimal(outside, line);
    }
    for &entry in order {
        line.push(b' ');
        push_decimal(entry, line);
    }
}

fn push_decimal(number: u16, line: &mut Vec<u8>) {
    let digit = |value: u16| b'0' + (value % 10) as u8;
    match number {
        0..10 => line.push(digit(number)),
        10..100 => line.extend([digit(number / 10), digit(number)]),
        _ => {
            push_decimal(number / 100, line);
            line.extend([digit(number / 10), digit(number)]);
        }
    }
}

fn push_refusal(refusal: Refusal, line: &mut Vec<u8>) {
    let _ = match refusal.characteristic() {
        Some(characteristic) => write!(line, "refused 10 {characteristic}"),
        None => write!(line, "refused {}", refusal.number()),
    };
}

#[cfg(test)]
mod tests {
    use super::*;

    fn answers(way: Way, lines: &[u8]) -> String {
        answers_under(Table::standard(), way, lines)
    }

    fn answers_under(table: Table, way: Way, lines: &[u8]) -> String {
        let mut coder = Coder::new(way, table);
        let mut answers = Vec::new();
        for line in lines.split_inclusive(|&byte| byte == b'\n') {
            let before = answers.len();
            let taken = coder.answer(line, &mut answers);
            let answer = &answers[before..];
            assert_eq!(taken, !answer.starts_with(b"refused") && !answer.starts_with(b"malformed"));
        }
        String::from_utf8(answers).unwrap()
    }

    fn written(lines: &str) -> String {
        answers(Way::Write(None), lines.as_bytes())
    }

    #[test]
    fn plans() {
        assert_eq!(written("0 3 2 1 0\n0 0 1\n0 1 0\n"), "070001000200C8\n08000200010080A2\n070004000100B0\n");
        assert_eq!(answers(Way::Write(Some(2)), b"0 3 2 1 0"), "080002000200C051\n");
        assert_eq!(answers(Way::Write(Some(4)), b"0 5 2 1 4 3 0"), "0800040003000970\n");
        assert_eq!(answers(Way::Write(Some(3)), b"0 5 2 1 4 3 0\n1/5 5 2 1 4 3 0"), "08000300030080A2\n".repeat(2));
        assert_eq!(written(" 0\t3  2 1 0 \r\n000 3 2 0001 0"), "070001000200C8\n070001000200C8\n");
    }

    #[test]
    fn plans_with_an_outside() {
        let triangle = "0/0 5 2 1 4 3 0\n0/1 5 2 1 4 3 0\n 000/04\t5 2 1 4 3 0\n";
        assert_eq!(written(triangle), "0A00010103000000E200\n0A00010103000100E200\n0A00010103000000E200\n");
        assert_eq!(written("0/1 4 2 1 0 3 5\n0/1 1 0\n"), "0A00020103000100CC12\n0900040101000100B0\n");
        // The start is not where the numbering begins: dart 0 becomes 1.
        assert_eq!(written("1/0 2 1 0 3\n"), written("0/1 0 2 1 3\n"));
        assert_eq!(answers(Way::Write(Some(1)), b"0/1 5 2 1 4 3 0\n0/6 5 2 1 4 3 0\n"), "080001000300E200\n".repeat(2));
        assert_eq!(answers(Way::Write(Some(0x101)), b"1 5 2 1 4 3 0\n"), answers(Way::Write(None), b"1/1 5 2 1 4 3 0\n"));
        assert_eq!(
            written("0/6 5 2 1 4 3 0\n6/6 5 2 1 4 3 0\n0/65536 3 3 1 0\n0/0\n"),
            "refused 17\nrefused 4\nrefused 17\nrefused 3\n"
        );
        for line in
            ["0/", "/0", "/0 1 0", "0 /0 1 0", "0/ 0 1 0", "0/0/0 1 0", "0//0 1 0", "0 1/0 1 0", "0/x", "0/0x", "0/-1 1 0"]
        {
            assert_eq!(written(&format!("{line}\n")), "malformed\n", "{line:?}");
        }
    }

    #[test]
    fn refused_plans() {
        assert_eq!(written("0 0 1 2\n4 3 2 1 0\n0 3 3 1 0\n"), "refused 3\nrefused 4\nrefused 6\n");
        assert_eq!(written("0 0 1 2 3\n0 3 2 4 5 1 0\n"), "refused 9\nrefused 10 0\n");
        assert_eq!(answers(Way::Write(Some(2)), b"0 1 0\n"), "refused 11\n");
        assert_eq!(answers(Way::Write(Some(1)), b"0 0 1\n"), "refused 12\n");
        assert_eq!(answers(Way::Write(Some(5)), b"0 0 1\n"), "refused 2\n");
        assert_eq!(answers(Way::Write(Some(3)), b"0 0 1\n0 1 0\n0 5 2 4 0 1 3\n"), "refused 18\nrefused 11\nrefused 18\n");
        assert_eq!(written("0\n0 0 65536\n99999999999999999999999 0 1\n"), "refused 3\nrefused 6\nrefused 4\n");
        assert_eq!(written(&"0 ".repeat(9000)), "refused 3\n");
        let path: String = (0..8192).map(|dart| format!(" {dart}")).collect();
        assert_eq!(written(&format!("0{path}\n0{path} 8192\n0{path} 8192 8193\n")), "refused 9\nrefused 3\nrefused 3\n");
    }

    #[test]
    fn no_plans() {
        for line in ["", " ", "\r", "x", "-1 0 1", "0 0 1 #", "0 0\r1", "0,0,1", "0 0 1\0", "\u{feff}0 0 1"] {
            assert_eq!(written(&format!("{line}\n")), "malformed\n", "{line:?}");
        }
        assert_eq!(answers(Way::Write(None), b"0 0 \xB9\n\xFF\xFE\n"), "malformed\nmalformed\n");
        assert_eq!(written(&format!("0 0 1{}\r\n", " ".repeat(LONGEST - 5))), "08000200010080A2\n");
        assert_eq!(written(&format!("0 0 1{}\n", " ".repeat(LONGEST - 4))), "malformed\n");
    }

    #[test]
    fn records() {
        let read = |line: &[u8]| answers(Way::Read, line);
        assert_eq!(read(b"070001000200C8\n07 00 01 00\t02 00 c8\r\n"), "0 3 2 1 0\n0 3 2 1 0\n");
        assert_eq!(read(b"07\n070005000200C8\n070001000000C8\n"), "refused 1\nrefused 2\nrefused 3\n");
        assert_eq!(read(b"070001000300C8\n070001000200CC\n"), "refused 5\nrefused 13\n");
        assert_eq!(read(b"070004000100B0\n070004000100B8\n"), "0 1 0\nrefused 13\n");
        assert_eq!(read(b"08000300030080A2\n07000300030080\n070003000200C8\n"), "0 5 2 1 4 3 0\nrefused 13\nrefused 13\n");
        assert_eq!(read(b"0A00010103000100E200\n0900040101000000B0\n"), "0/1 5 2 1 4 3 0\n0/0 1 0\n");
        // No lowest dart of an area; no dart; a kind with no outside in its head.
        assert_eq!(
            read(b"0A00010103000200E200\n0A00010103000600E200\n080001010300E200\n"),
            "refused 13\nrefused 13\nrefused 5\n"
        );
        assert_eq!(read(b"0A00030103000000E200\n"), "refused 2\n");
        assert_eq!(read(b"\n \n0\n070\n0G\n0x07\nC8\xFF\n"), "malformed\n".repeat(7));
        // As long as a length field can say, and longer.
        assert_eq!(read(format!("FFFF0100FFFF{}\n", "00".repeat(65_529)).as_bytes()), "refused 3\n");
        assert_eq!(read("00".repeat(65_536).as_bytes()), "refused 1\n");
    }

    #[test]
    fn under_another_table() {
        let bytes: Vec<u8> = (13..=255).collect();
        let shifted = Table::load(&bytes).unwrap();
        let record = b"08000200010080AF\n";
        assert_eq!(answers_under(shifted, Way::Write(None), b"0 0 1\n").as_bytes(), record);
        assert_eq!(answers_under(shifted, Way::Read, record), "0 0 1\n");
        assert_eq!(answers(Way::Read, record), "refused 13\n");
        assert_eq!(answers_under(shifted, Way::Read, b"08000200010080A2\n"), "refused 13\n");
        assert_eq!(answers_under(shifted, Way::Write(None), b"0 3 2 1 0\n0 1 0\n"), "070001000200C8\n070004000100B0\n");
    }

    #[test]
    fn there_and_back() {
        let largest = |kind| {
            let order: String =
                (0..4096).map(|trail| format!(" {} {}", (2 * trail + 8191) % 8192, (2 * trail + 2) % 8192)).collect();
            let record = answers(Way::Write(Some(kind)), format!("0/8191{order}\n").as_bytes());
            let plan = answers(Way::Read, record.as_bytes());
            assert_eq!(answers(Way::Write(Some(kind)), plan.as_bytes()), record);
            record.len()
        };
        assert_eq!([1, 2, 4].map(largest), [1542, 1850, 2054].map(|length| 2 * length + 1));
        assert_eq!([0x101, 0x102, 0x104].map(largest), [1544, 1852, 2056].map(|length| 2 * length + 1));
    }
}
