//! Refusals: their numbers and meanings.

use core::fmt;

/// Makes the constants of the refusals, by the names that `jurnadel.h` has for them, and `meaning_of`.
macro_rules! refusals {
    ($($name:ident = $number:literal: $meaning:literal,)*) => {
        /// The numbers.
        impl Refusal {
            $(#[doc = $meaning] pub const $name: u16 = $number;)*
        }

        /// What each refusal means, in the words of documents 01 and 02.
        fn meaning_of(number: u16) -> &'static str {
            match number {
                $($number => $meaning,)*
                _ => "Not in the list of refusals.",
            }
        }

        #[cfg(test)]
        const NAMES: &[(&str, u16)] = &[$((stringify!($name), $number)),*];
    };
}

refusals! {
    RECORD_CUT = 1: "The record has fewer than 6 bytes, or its length field isn't the number of bytes lent.",
    BAD_KIND = 2: "The kind is not 1, 2, 3, 4, 101h, 102h or 104h.",
    BAD_COUNT = 3: "The dart count is 0, odd or above 8,192; in a record, m is 0 or above 4,096.",
    BAD_START = 4: "The start is not below the dart count.",
    BAD_LENGTH = 5: "The kind is not 3, and the length is not the one for this kind and m.",
    BAD_ENTRY = 6: "An entry of the turning order is not below the dart count, or two entries are equal.",
    SHORT_WORK = 7: "The work area (16-bit numbers) is shorter than 32 x m.",
    SHORT_OUTPUT = 8: "The output is shorter than the record, than 2m entries, or than the list of areas.",
    NOT_CONNECTED = 9: "The plan is not connected.",
    NOT_PLANAR = 10: "It is not planar.",
    HAS_LOOP = 11: "Kind 1, 2, 3, 101h or 102h, and it has a loop.",
    HAS_DEGREE_ONE = 12: "Kind 1 or 101h, and a junction other than the start's has degree one.",
    NO_FIT_PLAN = 13: "No fit plan of this kind has this record.",
    SHELF_BROKEN = 14: "The used length exceeds the shelf, or the used bytes are not records end to end that each pass 1, 2, 3 and 5.",
    NO_SUCH_RECORD = 15: "The shelf holds no record with this number, counting from 0.",
    SHELF_FULL = 16: "The record isn't on the shelf and exceeds the bytes past the used length.",
    BAD_OUTSIDE = 17: "Kind 101h, 102h or 104h, and the outside dart is not below the dart count.",
    NOT_TRIANGLES = 18: "Kind 3, and an area is not three darts of three different trails.",
    BAD_TABLE = 19: "The group table is not 243 bytes, or two of them are equal, or a call is handed a table that loading never gives.",
}

/// A refusal: its number in documents 01 and 02 and, of refusal 10, the characteristic.
///
/// ```
/// let crossing = [3, 2, 4, 5, 1, 0];
/// let refusal = jurnadel::write(&jurnadel::Table::standard(), &crossing, 0, 0, 2, &mut [0; 96], &mut [0; 8]).unwrap_err();
/// assert_eq!(refusal.number(), jurnadel::Refusal::NOT_PLANAR);
/// assert_eq!(refusal.meaning(), "It is not planar.");
/// assert_eq!(refusal.characteristic(), Some(0));
/// assert_eq!(refusal.to_string(), "refusal 10: It is not planar. Its characteristic is 0.");
/// ```
#[derive(Clone, Copy, PartialEq, Eq, Hash)]
pub struct Refusal {
    number: u16,
    characteristic: i32,
}

impl Refusal {
    /// The refusal of this number, which is not 0; `characteristic` counts with number 10 alone.
    pub(crate) fn new(number: u16, characteristic: i32) -> Refusal {
        Refusal { number, characteristic }
    }

    /// Its number, 1 to 19.
    #[must_use]
    pub fn number(self) -> u16 {
        self.number
    }

    /// What it means, in the words of documents 01 and 02.
    #[must_use]
    pub fn meaning(self) -> &'static str {
        meaning_of(self.number)
    }

    /// Of refusal 10: junctions minus trails plus areas.
    #[must_use]
    pub fn characteristic(self) -> Option<i32> {
        (self.number == Refusal::NOT_PLANAR).then_some(self.characteristic)
    }
}

impl fmt::Display for Refusal {
    fn fmt(&self, f: &mut fmt::Formatter<'_>) -> fmt::Result {
        write!(f, "refusal {}: {}", self.number, self.meaning())?;
        match self.characteristic() {
            Some(characteristic) => write!(f, " Its characteristic is {characteristic}."),
            None => Ok(()),
        }
    }
}

/// What `unwrap` prints has the text too.
impl fmt::Debug for Refusal {
    fn fmt(&self, f: &mut fmt::Formatter<'_>) -> fmt::Result {
        let mut fields = f.debug_struct("Refusal");
        fields.field("number", &self.number).field("meaning", &self.meaning());
        if let Some(characteristic) = self.characteristic() {
            fields.field("characteristic", &characteristic);
        }
        fields.finish()
    }
}

impl core::error::Error for Refusal {}

#[cfg(test)]
mod tests {
    extern crate std;
    use super::*;
    use std::{format, string::ToString, vec::Vec};

    #[test]
    fn a_refusal_carries_its_text() {
        for &(_, number) in NAMES {
            let refusal = Refusal::new(number, -2);
            assert!(refusal.to_string().starts_with(&format!("refusal {number}: {}", meaning_of(number))), "{refusal}");
            assert!(format!("{refusal:?}").contains(meaning_of(number)), "{refusal:?}");
            for print in [refusal.to_string(), format!("{refusal:?}")] {
                assert_eq!(print.contains("-2"), number == Refusal::NOT_PLANAR, "{print}");
            }
        }
    }

    /// The header has the same names, numbers and meanings; of the characteristic it says more.
    #[test]
    fn the_header_says_the_same() {
        let header = include_str!("../../../include/jurnadel.h");
        let lines = header.lines().filter_map(|line| line.trim().strip_prefix("JURNADEL_")?.split_once(" = "));
        let listed: Vec<(&str, &str)> = lines.filter(|(name, _)| *name != "DONE").collect();
        assert_eq!(listed.len(), NAMES.len());
        for ((name, rest), &(our_name, number)) in listed.into_iter().zip(NAMES) {
            let (value, comment) = rest.split_once("/*").unwrap();
            assert_eq!((name, value.trim().trim_end_matches(',')), (our_name, &number.to_string()[..]));
            let meaning = meaning_of(number).trim_end_matches('.');
            assert!(comment.contains(meaning), "{number}: {comment} | {meaning}");
        }
    }
}
