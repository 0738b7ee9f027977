//! Group tables.

use crate::{settle, sys, Refusal};

/// A group table: which byte stands for each value of a group of five, of labels in the payloads of kinds 2 and 0x102, of node
/// types in those of kind 3.
///
/// [`Table::standard`] has the byte v for value v, from 0 to 242. A maker who stores groups under other bytes loads those by
/// [`Table::load`]. Records written under a table are read under the same one; equal bytes under two tables may be two
/// plans. Records of the other kinds have no groups and are the same under every table.
///
/// The fields are plain data, and may have any content: each call that is handed a table tests all of it, whatever the kind,
/// and refuses one that loading never gives, by 19 and before every other refusal.
///
/// ```
/// use jurnadel::Table;
///
/// // A maker's bytes: 13 more than the value, so 0D to FF.
/// let bytes: [u8; 243] = core::array::from_fn(|value| value as u8 + 13);
/// let maker = Table::load(&bytes)?;
///
/// let (mut work, mut record, mut order) = ([0; 32], [0; 8], [0; 2]);
/// jurnadel::write(&Table::standard(), &[0, 1], 0, 0, 2, &mut work, &mut record)?;
/// assert_eq!(record[6..], [0x80, 0xA2]);
/// jurnadel::write(&maker, &[0, 1], 0, 0, 2, &mut work, &mut record)?;
/// assert_eq!(record[6..], [0x80, 0xAF]);
///
/// // Read under its own table, and under another.
/// assert_eq!(jurnadel::read(&maker, &record, &mut work, &mut order)?.trails, 1);
/// assert_eq!(order, [0, 1]);
/// let other = jurnadel::read(&Table::standard(), &record, &mut work, &mut order);
/// assert_eq!(other.unwrap_err().number(), 13);
///
/// // A byte that stands for no value is 13 too.
/// record[7] = 0x05;
/// assert_eq!(jurnadel::read(&maker, &record, &mut work, &mut order).unwrap_err().number(), 13);
///
/// // A table that loading never gives.
/// let spoiled = Table { inverse: [0; 256], ..maker };
/// assert_eq!(jurnadel::read(&spoiled, &record, &mut work, &mut order).unwrap_err().number(), 19);
/// # Ok::<(), jurnadel::Refusal>(())
/// ```
#[repr(C)]
#[derive(Debug, Clone, Copy, PartialEq, Eq, Hash)]
pub struct Table {
    /// Entry v: the byte for group value v.
    pub bytes: [u8; 243],
    /// Entry b: the group value whose byte is b; 243 if there is none.
    pub inverse: [u8; 256],
}

impl Table {
    /// Loads a maker's bytes, entry v being the byte for group value v.
    ///
    /// # Errors
    ///
    /// Refusal 19: they are not 243, or two of them are equal.
    ///
    /// ```
    /// use jurnadel::Table;
    ///
    /// let mut bytes: [u8; 243] = core::array::from_fn(|value| value as u8);
    /// assert_eq!(Table::load(&bytes)?, Table::standard());
    /// assert_eq!(Table::load(&bytes[..242]).unwrap_err().number(), 19);
    /// bytes[7] = 8;
    /// assert_eq!(Table::load(&bytes).unwrap_err().number(), 19);
    /// # Ok::<(), jurnadel::Refusal>(())
    /// ```
    pub fn load(bytes: &[u8]) -> Result<Table, Refusal> {
        let mut refusal = 0;
        // SAFETY: as in `write`.
        let table = unsafe { sys::jurnadel_load_table(bytes.as_ptr(), bytes.len(), &mut refusal) };
        settle(refusal, 0, table)
    }

    /// The table in which each group value is its own byte. It is [`Default`]'s too.
    ///
    /// ```
    /// let standard = jurnadel::Table::standard();
    /// assert_eq!((standard.bytes[0xA2], standard.inverse[0xA2]), (0xA2, 0xA2));
    /// assert_eq!(standard.inverse[0xFF], 243);
    /// ```
    #[must_use]
    pub fn standard() -> Table {
        // SAFETY: no pointer is handed over.
        unsafe { sys::jurnadel_standard_table() }
    }
}

impl Default for Table {
    fn default() -> Table {
        Table::standard()
    }
}
