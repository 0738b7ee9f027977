//! Shelving in plain Rust: the same passes over a shelf as the proved library, unproved. The record is not read.

fn field(bytes: &[u8], place: usize) -> usize {
    usize::from(u16::from_le_bytes([bytes[place], bytes[place + 1]]))
}

/// Whether the record passes checks 1, 2, 3 and 5.
fn passes(record: &[u8]) -> bool {
    if record.len() < 6 || field(record, 0) != record.len() {
        return false;
    }
    let (kind, m) = (field(record, 2), field(record, 4));
    let length = match kind {
        1 => 6 + (3 * m).div_ceil(8),
        2 => 6 + (2 * m).div_ceil(8) + m.div_ceil(5),
        3 => record.len(),
        4 => 6 + m.div_ceil(2),
        0x101 => 8 + (3 * m).div_ceil(8),
        0x102 => 8 + (2 * m).div_ceil(8) + m.div_ceil(5),
        0x104 => 8 + m.div_ceil(2),
        _ => return false,
    };
    (1..=4096).contains(&m) && record.len() == length
}

/// The record's number and the new used length, if it can be shelved: one pass over the heads, lengths compared first.
pub fn shelve(record: &[u8], shelf: &mut [u8], used: usize) -> Option<(usize, usize)> {
    if !passes(record) {
        return None;
    }
    let (mut place, mut count, mut found) = (0, 0, None);
    while place < used {
        let rest = shelf.get(place..used).filter(|rest| rest.len() >= 6)?;
        let here = rest.get(..field(rest, 0))?;
        if !passes(here) {
            return None;
        }
        if found.is_none() && here.len() == record.len() && here == record {
            found = Some(count);
        }
        place += here.len();
        count += 1;
    }
    if let Some(number) = found {
        return Some((number, used));
    }
    shelf
        .get_mut(used..used + record.len())?
        .copy_from_slice(record);
    Some((count, used + record.len()))
}
