//! The kinds of records: their names, and which of them a plan gets.
//!
//! Kinds 101h, 102h and 104h are 1, 2 and 4 with the area that is outside. Kind 3 is for triangle meshes; a plan gets it where it
//! is asked for, so that what has a record keeps it.

use jurnadel::Refusal;

/// The kinds without the outside, as [`in_kind`] tries them. The last takes every plan.
const PLAIN: [u16; 3] = [1, 2, ANY];

/// The kind without the outside that takes every plan.
pub const ANY: u16 = 4;

/// The kind of triangle meshes.
pub const MESH: u16 = 3;

/// What is added to a kind for the one with the outside.
const OUTSIDE: u16 = 0x100;

/// The kinds with the outside, or those without, as [`in_kind`] tries them. The last takes every plan.
pub fn group(outside: bool) -> [u16; 3] {
    PLAIN.map(|kind| if outside { kind + OUTSIDE } else { kind })
}

/// All kinds with the outside, or all without: those that may hold a plan. The last takes every plan.
pub fn all(outside: bool) -> Vec<u16> {
    let mut kinds = group(outside).to_vec();
    kinds.extend((!outside).then_some(MESH));
    kinds.sort_unstable();
    kinds
}

/// Whether records of this kind have the outside.
pub fn has_outside(kind: u16) -> bool {
    group(true).contains(&kind)
}

/// Whether records of this kind have groups, in the bytes of the group table.
pub fn has_groups(kind: u16) -> bool {
    matches!(kind, 2 | MESH | 0x102)
}

/// The kind of a record.
pub fn of(record: &[u8]) -> u16 {
    u16::from_le_bytes([record[2], record[3]])
}

/// Whether a record that passes on a shelf has a length that its kind and its number of trails allow. Only in kind 3 another one
/// passes: a mesh of 3k trails whose tree has p nodes with two children takes 3k - 2 + p bits and k - p digits, five in a byte.
pub fn may_have_its_length(record: &[u8]) -> bool {
    let trails = usize::from(u16::from_le_bytes([record[4], record[5]]));
    let k = trails / 3;
    let mut lengths = (0..k.div_ceil(2)).map(|p| 6 + (3 * k - 2 + p).div_ceil(8) + (k - p).div_ceil(5));
    of(record) != MESH || trails % 3 == 0 && lengths.any(|length| length == record.len())
}

/// A kind as the papers write it, in hexadecimal with an h behind it from 100h on.
pub fn name(kind: u16) -> String {
    match kind {
        0..OUTSIDE => kind.to_string(),
        _ => format!("{kind:X}h"),
    }
}

/// The kind that a word names: a number, in hexadecimal where an h stands behind it.
pub fn named(word: &str) -> Option<u16> {
    let (digits, radix) = word.strip_suffix('h').map_or((word, 10), |digits| (digits, 16));
    // A sign would be taken too.
    u16::from_str_radix(digits, radix).ok().filter(|_| digits.bytes().all(|byte| byte.is_ascii_hexdigit()))
}

/// Writes a plan in this kind; with none given in the first that takes it, of those with the outside if the plan names one: in kind
/// 1 or 101h, in 2 or 102h where a dead end other than the start keeps it from that, or in 4 or 104h where a loop does.
pub fn in_kind<T>(kind: Option<u16>, outside: bool, mut write: impl FnMut(u16) -> Result<T, Refusal>) -> Result<T, Refusal> {
    let [first, second, any] = group(outside);
    match kind {
        Some(kind) => write(kind),
        None => write(first).or_else(|refusal| match refusal.number() {
            Refusal::HAS_DEGREE_ONE => write(second),
            Refusal::HAS_LOOP => write(any),
            _ => Err(refusal),
        }),
    }
}

#[cfg(test)]
mod tests {
    use super::*;

    #[test]
    fn names() {
        assert_eq!(group(false).map(name), ["1", "2", "4"]);
        assert_eq!(group(true).map(name), ["101h", "102h", "104h"]);
        assert_eq!(all(false).iter().copied().map(name).collect::<Vec<_>>(), ["1", "2", "3", "4"]);
        assert_eq!(all(true), group(true));
        for kind in [0, 3, 255, 256, 0x103, u16::MAX] {
            assert_eq!(named(&name(kind)), Some(kind));
            assert!(!has_outside(kind));
        }
        assert_eq!(["1", "04", "101h", "4h", "257"].map(named), [1, 4, 257, 4, 257].map(Some));
        for word in ["", "h", "+1", "-1", "+1h", "101", "0x101", "101H", "1 ", "65536", "10000h", "a"] {
            assert!(named(word).is_none_or(|kind| word == "101" && kind == 101), "{word}");
        }
    }

    #[test]
    fn lengths_of_meshes() {
        let lengths = |trails: u16| {
            let head = |length: u16| [length, MESH, trails].map(u16::to_le_bytes).concat();
            let record = |length: u16| [head(length), vec![0; usize::from(length) - 6]].concat();
            (6..800).filter(|&length| may_have_its_length(&record(length))).collect::<Vec<u16>>()
        };
        assert_eq!([3, 6, 9].map(lengths), [[8], [8], [8]]);
        assert_eq!([1, 2, 4, 4094, 4096].map(lengths), [const { Vec::new() }; 5]);
        assert_eq!(lengths(4095), (740..=792).collect::<Vec<_>>());
        for trails in (3..=4095).step_by(3) {
            let most = lengths(trails).last().map(|&most| usize::from(most));
            assert!(most.is_some() && most <= jurnadel::record_room(MESH, trails));
        }
        assert!(may_have_its_length(&[7, 0, 1, 0, 2, 0, 0xC8]));
    }
}
