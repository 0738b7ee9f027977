//! Group tables as the lines have them.

use jurnadel::Table;

/// These bytes, whatever they are, with their inverse; of a byte that comes twice the last value.
pub fn with_inverse(bytes: [u8; 243]) -> Table {
    let mut inverse = [243; 256];
    for (value, &byte) in (0..).zip(&bytes) {
        inverse[usize::from(byte)] = value;
    }
    Table { bytes, inverse }
}

/// The table that the library loads from these bytes; one that it does not load, as it would be.
pub fn loaded(bytes: [u8; 243]) -> Table {
    Table::load(&bytes).unwrap_or_else(|_| with_inverse(bytes))
}
