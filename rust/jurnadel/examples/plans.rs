//! Writes plans, shelves them, tries to shelve a damaged record, fetches one, reads it back, measures its areas and walks the shelf;
//! then writes and reads under a maker's own group table. Prints what `examples/c/plans.c` does.

use jurnadel::{areas_of, fetch, plan_of, record_of, shelve, walk, Plan, Refusal, Table};

fn hex(bytes: &[u8]) -> String {
    bytes.iter().map(|byte| format!(" {byte:02X}")).collect()
}

fn list(numbers: &[u16]) -> String {
    numbers.iter().map(|number| format!(" {number}")).collect()
}

/// A plan in kind 2, stored by a maker whose bytes for groups are 13 more than their values.
fn makers_table() -> Result<(), Refusal> {
    let bytes: [u8; 243] = std::array::from_fn(|value| value as u8 + 13);
    let table = Table::load(&bytes)?;
    let record = record_of(&table, &[4, 2, 1, 0, 3, 5], 0, 0, 2)?;
    println!("dead end inside a pair, under a maker's table:{}", hex(&record));
    let Plan { order, .. } = plan_of(&table, &record)?;
    println!("read under that table: {} trails, order{}", order.len() / 2, list(&order));
    let refusal = plan_of(&Table::standard(), &record).map_or_else(Refusal::number, |_| 0);
    println!("read under the standard table: refusal {refusal}");
    Ok(())
}

fn main() -> Result<(), Refusal> {
    let table = Table::standard();
    // Name, kind, outside, turning order.
    let plans: [(&str, u16, u16, [u16; 6]); 10] = [
        ("triangle", 1, 0, [5, 2, 1, 4, 3, 0]),
        ("triangle, the other area outside", 0x101, 5, [5, 2, 1, 4, 3, 0]),
        ("three parallel trails", 1, 0, [5, 2, 4, 0, 1, 3]),
        ("dead end inside a pair", 2, 0, [4, 2, 1, 0, 3, 5]),
        ("triangle, numbered otherwise", 1, 0, [3, 4, 5, 0, 1, 2]),
        ("triangle, as a mesh", 3, 0, [5, 2, 1, 4, 3, 0]),
        ("three parallel trails, as a mesh", 3, 0, [5, 2, 4, 0, 1, 3]),
        ("one trail in from the start", 1, 0, [0, 2, 5, 4, 3, 1]),
        ("a loop around a dead end", 4, 0, [2, 1, 4, 0, 3, 5]),
        ("trails that cross", 4, 0, [3, 2, 4, 5, 1, 0]),
    ];
    // The plans have 3 trails: 32 numbers for each.
    let (mut work, mut shelf) = ([0; 96], [0; 64]);
    let mut used = 0;

    for (name, kind, outside, order) in plans {
        let record = match record_of(&table, &order, 0, outside, kind) {
            Ok(record) => record,
            Err(refusal) => {
                let characteristic = refusal.characteristic().unwrap_or(0);
                println!("{name}: refusal {}, characteristic {characteristic}", refusal.number());
                continue;
            }
        };
        let shelved = shelve(&table, &record, &mut work, &mut shelf, used)?;
        let news = if shelved.used > used { "new" } else { "already there" };
        println!("{name}: record {}, {news}:{}", shelved.number, hex(&record));
        used = shelved.used;
    }

    // As it may come by radio: the triangle with a bit turned.
    let damaged = [0x08, 0, 0x01, 0, 0x03, 0, 0xE3, 0];
    let refusal = shelve(&table, &damaged, &mut work, &mut shelf, used).map_or_else(Refusal::number, |_| 0);
    println!("triangle with a bit turned: refusal {refusal}");

    let record = fetch(&shelf, used, 1)?;
    println!("fetched 1:{}", hex(record));
    let Plan { order, outside } = plan_of(&table, record)?;
    println!("read 1: {} trails, outside {outside}, order{}", order.len() / 2, list(&order));
    let areas = areas_of(&order)?;
    println!("its {} areas, by trails walked along:{}", areas.len(), list(&areas));

    for (number, record) in (1..).zip(walk(&shelf, used, 1)?) {
        println!("walked to {number}:{}", hex(record));
    }
    println!("none left; {used} bytes used");
    makers_table()
}
