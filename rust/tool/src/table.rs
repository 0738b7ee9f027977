//! The group table: the bytes under which records of kinds 2, 3 and 102h have their groups.

use crate::commands::counted;
use crate::files::bytes_of;
use crate::options::Options;
use crate::report::{with_number, Problem};
use jurnadel::Table;

/// The option that names the file of a table.
pub const TABLE: &str = "--table";

/// The table of the file that the option names; without it the standard one. A command asks for it before it reads anything else.
pub fn of(options: &Options) -> Result<Table, Problem> {
    let Some(path) = options.value(TABLE) else {
        return Ok(Table::standard());
    };
    let bytes = bytes_of(path)?;
    Table::load(&bytes).map_err(|refusal| {
        let words = format!("a group table is 243 bytes, all different; this file has {}", fault(&bytes));
        Problem::Refused(format!("{path}: {}", with_number(&words, refusal)))
    })
}

/// Whether bytes are a table.
pub fn is_table(bytes: &[u8]) -> bool {
    Table::load(bytes).is_ok()
}

/// What bytes have that are no table: another number of them, or one that stands twice.
fn fault(bytes: &[u8]) -> String {
    let twice =
        || bytes.iter().enumerate().find_map(|(later, byte)| Some((bytes[..later].iter().position(|b| b == byte)?, later)));
    match twice().filter(|_| bytes.len() == 243) {
        Some((value, later)) => format!("{:02X}h for both group values {value} and {later}", bytes[value]),
        None => counted(bytes.len(), "byte"),
    }
}

#[cfg(test)]
mod tests {
    use super::*;

    #[test]
    fn faults() {
        let mut bytes: Vec<u8> = (0..243).collect();
        assert!(is_table(&bytes));
        assert_eq!([0, 1, 242].map(|length| fault(&bytes[..length])), ["0 bytes", "1 byte", "242 bytes"]);
        assert_eq!(fault(&[&bytes[..], &[0]].concat()), "244 bytes");
        bytes[200] = 7;
        bytes[100] = 7;
        assert!(!is_table(&bytes));
        assert_eq!(fault(&bytes), "07h for both group values 7 and 100");
    }

    /// The inverses of FORMAT.md: two bytes exchanged, and bytes from 0Dh on.
    #[test]
    fn inverses() {
        let inverse = |bytes: Vec<u8>| Table::load(&bytes).unwrap().inverse;
        let mut exchanged: Vec<u8> = (0..243).collect();
        exchanged.swap(54, 81);
        assert_eq!((exchanged[54], exchanged[81]), (0x51, 0x36));
        let wanted = |b| match b {
            0x36 => 81,
            0x51 => 54,
            0..=0xF2 => b,
            _ => 243,
        };
        assert!(inverse(exchanged).into_iter().eq((0..=255).map(wanted)));
        let wanted = |b: u8| if b <= 0x0C { 243 } else { b - 13 };
        assert!(inverse((0x0D..=0xFF).collect()).into_iter().eq((0..=255).map(wanted)));
    }
}
