//! Times the proved library beside the second coder and the unverified peer, in one run.
//!
//! Each number is the least of many rounds; a round calls one coder many times, and the coders take turns, so that what
//! else the machine does meets all three alike. All three must give the same bytes and entries, or the run fails.

mod coders;
mod plain;
mod plans;

use coders::{Coder, Table, CODERS, LANDED, STANDARD};
use plans::Plan;
use second_coder::grow::{grow, Rng, Shape};
use std::array::from_fn;
use std::collections::HashSet;
use std::hint::black_box;
use std::time::Instant;

const SIZES: [usize; 5] = [16, 64, 256, 1024, 4096];
/// Sizes of meshes: multiples of three.
const MESH_SIZES: [usize; 5] = [15, 63, 255, 1023, 4095];
/// Sizes under group tables, which are tested in each call: short records show it.
const TABLE_SIZES: [usize; 3] = [16, 40, 256];
/// The kinds without the outside, and those with it, which are `OUTSIDE` more.
const KINDS: [u16; 4] = [1, 2, 3, 4];
const WITH_OUTSIDE: [u16; 3] = [0x101, 0x102, 0x104];
const OUTSIDE: u16 = 0x100;
const ROUNDS: usize = 60;
/// A round takes about this long, or one call.
const ROUND_NS: f64 = 200_000.0;
const SHELVED: usize = 31_000;
const SHELVED_TRAILS: usize = 40;

/// The least time of one call, for each of the calls, in ns.
fn least<const N: usize>(mut calls: [&mut dyn FnMut(); N]) -> [f64; N] {
    let time = |call: &mut dyn FnMut(), times: usize| {
        let begin = Instant::now();
        for _ in 0..times {
            call();
        }
        begin.elapsed().as_nanos() as f64 / times as f64
    };
    let mut times = [1; N];
    for (call, times) in calls.iter_mut().zip(&mut times) {
        call();
        *times = ((ROUND_NS / time(call, 3).max(1.0)) as usize).max(1);
    }
    let mut least = [f64::INFINITY; N];
    for _ in 0..ROUNDS {
        for ((call, &times), least) in calls.iter_mut().zip(&times).zip(&mut least) {
            *least = least.min(time(call, times));
        }
    }
    least
}

/// A coder, and what is lent to it for one plan in one kind under one table.
struct Lent<'a> {
    coder: Coder,
    table: &'a Table,
    plan: &'a Plan,
    kind: u16,
    work: Vec<u16>,
    record: Vec<u8>,
    order: Vec<u16>,
    list: Vec<u16>,
}

/// The length of the plan's record, which in kind 3 is the plan's own.
fn length(table: &Table, plan: &Plan, kind: u16) -> usize {
    let Plan {
        order,
        start,
        outside,
        ..
    } = plan;
    let record = jurnadel::record_of(&table.proved, order, *start, *outside, kind);
    record.expect("a fit plan").len()
}

impl<'a> Lent<'a> {
    fn new(coder: Coder, table: &'a Table, plan: &'a Plan, kind: u16) -> Self {
        let m = plan.order.len() / 2;
        Lent {
            coder,
            table,
            plan,
            kind,
            work: vec![0; jurnadel::work_length(m as u16)],
            record: vec![0; length(table, plan, kind)],
            order: vec![0; 2 * m],
            list: vec![0; m + 1],
        }
    }

    fn write(&mut self) -> usize {
        black_box((self.coder.write)(
            self.table,
            self.kind,
            self.plan.start,
            self.plan.outside,
            black_box(&self.plan.order),
            &mut self.work,
            &mut self.record,
        ))
    }

    fn read(&mut self) -> (usize, u16) {
        black_box((self.coder.read)(
            self.table,
            black_box(&self.record),
            &mut self.work,
            &mut self.order,
        ))
    }

    fn areas(&mut self) -> usize {
        black_box((self.coder.areas)(
            black_box(&self.plan.order),
            &mut self.work,
            &mut self.list,
        ))
    }
}

/// Fails if the coders do not write one record, read one plan from it and find the same areas.
fn hold_alike(lent: &mut [Lent; 3]) {
    let mut outsides = [0; 3];
    for (i, lent) in lent.iter_mut().enumerate() {
        let (kind, m) = (lent.kind, lent.plan.order.len() / 2);
        let (length, (trails, outside)) = (lent.write(), lent.read());
        assert_eq!(
            (length, trails),
            (lent.record.len(), m),
            "coder {i}, kind {kind}, m {m}"
        );
        assert!(lent.areas() > 0, "coder {i}, areas, m {m}");
        outsides[i] = outside;
    }
    let [proved, others @ ..] = lent;
    let (kind, m) = (proved.kind, proved.plan.order.len() / 2);
    assert!(
        others.iter().all(|other| other.record == proved.record),
        "the records differ, kind {kind}, m {m}"
    );
    assert!(
        others.iter().all(|other| other.order == proved.order) && outsides == [outsides[0]; 3],
        "the plans differ, kind {kind}, m {m}"
    );
    assert!(
        others.iter().all(|other| other.list == proved.list),
        "the areas differ, m {m}"
    );
}

/// Times of the three coders for one plan in one kind under one table, in ns per edge: writing, reading.
fn time_plan(table: &Table, plan: &Plan, kind: u16) -> [[f64; 3]; 2] {
    let mut lent = CODERS.map(|coder| Lent::new(coder, table, plan, kind));
    hold_alike(&mut lent);
    let [proved, second, peer] = &mut lent;
    let writing = least([
        &mut || _ = proved.write(),
        &mut || _ = second.write(),
        &mut || _ = peer.write(),
    ]);
    let reading = least([
        &mut || _ = proved.read(),
        &mut || _ = second.read(),
        &mut || _ = peer.read(),
    ]);
    let m = plan.order.len() / 2;
    [writing, reading].map(|times| times.map(|time| time / m as f64))
}

/// Times of the three coders for the areas of one plan, in ns per edge.
fn time_areas(plan: &Plan) -> [f64; 3] {
    let mut lent = CODERS.map(|coder| Lent::new(coder, &STANDARD, plan, 4));
    hold_alike(&mut lent);
    let [proved, second, peer] = &mut lent;
    let times = least([
        &mut || _ = proved.areas(),
        &mut || _ = second.areas(),
        &mut || _ = peer.areas(),
    ]);
    times.map(|time| time / (plan.order.len() / 2) as f64)
}

/// What was timed, and its times, as `time_plan` gives them.
struct Row {
    name: &'static str,
    kind: u16,
    m: usize,
    times: [[f64; 3]; 2],
}

/// Ratios of writing and of reading.
type Ratios = [f64; 2];

/// A kind as the papers write it.
fn named(kind: u16) -> String {
    match kind {
        OUTSIDE.. => format!("{kind:X}h"),
        _ => kind.to_string(),
    }
}

impl Row {
    /// The proved library's time by the peer's.
    fn to_peer(&self) -> Ratios {
        self.times.map(|[proved, _, peer]| proved / peer)
    }

    fn print(&self) {
        print!("{:<16}{:>5}{:>6}", self.name, named(self.kind), self.m);
        self.times.into_iter().for_each(print_times);
        println!();
    }
}

/// The times of the three coders, and their ratios.
fn print_times([proved, second, peer]: [f64; 3]) {
    let (to_second, to_peer) = (proved / second, proved / peer);
    print!("  {proved:>8.2}{second:>8.2}{peer:>8.2}{to_second:>7.2}{to_peer:>7.2}");
}

/// The heading over `print_times`.
fn print_columns() {
    print!("  {:>8}{:>8}{:>8}", "proved", "second", "peer");
    print!("{:>7}{:>7}", "/sec.", "/peer");
}

/// The heading over rows that begin with this.
fn print_heading(first: &str) {
    println!("{:<27}  {:-^38}  {:-^38}", "", " write ", " read ");
    print!("{first:<16}{:>5}{:>6}", "kind", "m");
    print_columns();
    print_columns();
    println!();
}

fn print_growths(rows: &[Row]) {
    println!();
    println!("growth of the proved library's time per edge from m = 256 to m = 4,096, of meshes from 255 to 4,095 (1 is linear)");
    println!();
    for Row {
        name,
        kind,
        m,
        times,
    } in rows.iter().filter(|row| row.m >= 4095)
    {
        let of_same = |row: &&Row| (row.name, row.kind, row.m) == (*name, *kind, m / 16);
        if let Some(before) = rows.iter().find(of_same) {
            let [write, read] = [0, 1].map(|i| times[i][0] / before.times[i][0]);
            let kind = named(*kind);
            println!("{name:<16}{kind:>5}  write {write:.2}  read {read:.2}");
        }
    }
}

fn geometric_mean<const N: usize>(ratios: &[[f64; N]]) -> [f64; N] {
    from_fn(|i| (ratios.iter().map(|ratio| ratio[i].ln()).sum::<f64>() / ratios.len() as f64).exp())
}

fn worst<const N: usize>(ratios: &[[f64; N]]) -> [f64; N] {
    from_fn(|i| ratios.iter().map(|ratio| ratio[i]).fold(0.0, f64::max))
}

/// The proved library's times of one plan in one kind and under one table by those in another; they take turns.
fn time_beside(plan: &Plan, choices: [(u16, &Table); 2]) -> Ratios {
    let [mut one, mut other] = choices.map(|(kind, table)| {
        let [proved, ..] = CODERS;
        Lent::new(proved, table, plan, kind)
    });
    let writing = least([&mut || _ = one.write(), &mut || _ = other.write()]);
    let reading = least([&mut || _ = one.read(), &mut || _ = other.read()]);
    [writing, reading].map(|[one, other]| one / other)
}

/// A kind beside another: geometric means over all of these plans that both take, and the worst.
fn print_kinds(plans: impl Iterator<Item = Timed>, kind: u16, other: u16) {
    let mut names = Vec::new();
    let mut ratios = Vec::new();
    let takes = |plan: &Plan| {
        [kind, other]
            .iter()
            .all(|kind| plan.kinds.contains(&(kind % OUTSIDE)))
    };
    for (name, m, plan) in plans.filter(|(_, _, plan)| takes(plan)) {
        names.push(format!("{name}, m = {m}"));
        ratios.push(time_beside(&plan, [(kind, &STANDARD), (other, &STANDARD)]));
    }
    let (count, mean) = (ratios.len(), geometric_mean(&ratios));
    let [write, read] = [0, 1].map(|i| {
        let by_ratio = |&a: &usize, &b: &usize| ratios[a][i].total_cmp(&ratios[b][i]);
        let worst = (0..count).max_by(by_ratio).unwrap_or_default();
        let (mean, worst, name) = (mean[i], ratios[worst][i], &names[worst]);
        format!("{mean:.2} (worst {worst:.2}: {name})")
    });
    let (kind, other) = (named(kind), named(other));
    println!(
        "kind {kind} by kind {other}, geometric mean of {count} plans: write {write}, read {read}"
    );
}

/// The ratios to the peer: their geometric means, for each kind, for all without the outside, for all with it and for areas,
/// then the worst.
fn print_ratios(rows: &[Row], areas: &[[f64; 1]]) {
    let ratios = |kinds: &[u16]| -> Vec<Ratios> {
        let of_kinds = rows.iter().filter(|row| kinds.contains(&row.kind));
        of_kinds.map(Row::to_peer).collect()
    };
    let print_mean = |kinds: &[u16], name: &str| {
        let ratios = ratios(kinds);
        let (count, [write, read]) = (ratios.len(), geometric_mean(&ratios));
        println!(
            "geometric mean of {count} ratios to peer{name}: write {write:.2}, read {read:.2}"
        );
    };
    for kind in KINDS.into_iter().chain(WITH_OUTSIDE) {
        print_mean(&[kind], &format!(", kind {}", named(kind)));
    }
    print_mean(&WITH_OUTSIDE, ", with the outside");
    print_mean(&KINDS, "");
    let (count, [mean]) = (areas.len(), geometric_mean(areas));
    println!("geometric mean of {count} ratios to peer, areas: {mean:.2}");
    let [write, read] = worst(&ratios(&WITH_OUTSIDE));
    println!("worst ratio to peer, with the outside: write {write:.2}, read {read:.2}");
    let ([write, read], [areas]) = (worst(&ratios(&KINDS)), worst(areas));
    println!("worst ratio to peer: write {write:.2}, read {read:.2}, areas {areas:.2}");
}

/// The name of a shape, a size, and the plan.
type Timed = (&'static str, usize, Plan);

/// The plans that are timed: of each shape one of each size.
fn all_plans() -> impl Iterator<Item = Timed> {
    let of_shape =
        |(name, shape)| SIZES.map(|m| (name, m, plans::plan(shape, m, &mut Rng::new(m as u64))));
    plans::SHAPES.into_iter().flat_map(of_shape)
}

/// The same of meshes.
fn all_meshes() -> impl Iterator<Item = Timed> {
    let of_shape = |(name, shape)| {
        MESH_SIZES.map(|m| (name, m, plans::mesh(shape, m, &mut Rng::new(m as u64))))
    };
    plans::MESHES.into_iter().flat_map(of_shape)
}

/// Times of the coders for these plans, in kinds without the outside (`more` 0) or with it (`OUTSIDE`).
fn time_coders(plans: impl Iterator<Item = Timed>, more: u16) -> Vec<Row> {
    print_heading("shape");
    let mut rows = Vec::new();
    for (name, m, plan) in plans {
        for kind in plan.kinds.iter().map(|kind| more + kind) {
            let times = time_plan(&STANDARD, &plan, kind);
            let row = Row {
                name,
                kind,
                m,
                times,
            };
            row.print();
            rows.push(row);
        }
    }
    print_growths(&rows);
    rows
}

/// How many bits of the payload of a mesh there are to an edge, in each kind without the outside; then kind 3 beside the others.
fn print_meshes() {
    println!();
    println!("bits an edge of meshes, without the six bytes of the head");
    println!();
    print!("{:<16}{:>11}", "shape", "m");
    for kind in KINDS {
        print!("{:>9}", format!("kind {kind}"));
    }
    println!();
    for (name, m, plan) in all_meshes() {
        print!("{name:<16}{m:>11}");
        for kind in KINDS {
            let bits = 8 * (length(&STANDARD, &plan, kind) - 6);
            print!("{:>9.2}", bits as f64 / m as f64);
        }
        println!();
    }
    println!();
    for other in [1, 2, 4] {
        print_kinds(all_meshes(), 3, other);
    }
}

/// Times of the coders for the areas of all plans; the proved library's by the peer's.
fn time_all_areas() -> Vec<[f64; 1]> {
    println!();
    println!("the lengths of areas, which have no kind");
    println!();
    print!("{:<16}{:>11}", "shape", "m");
    print_columns();
    println!();
    let timed = all_plans().map(|(name, m, plan)| {
        let times = time_areas(&plan);
        print!("{name:<16}{m:>11}");
        print_times(times);
        println!();
        [times[0] / times[2]]
    });
    timed.collect()
}

/// Times of the three coders, in ns.
fn print_calls(name: &str, [proved, second, peer]: [f64; 3]) {
    println!("{name}: proved {proved:.0} ns, second coder {second:.0} ns, peer {peer:.0} ns");
}

/// What group tables cost: kind 2 under the standard table and under an own one, which all coders are handed here; loading a
/// table; and a call that goes no further than the test of its table, since its kind is none.
fn time_tables() {
    let bytes: [u8; 243] = from_fn(|value| (5 * value + 7) as u8);
    let [standard, own] = [STANDARD.proved.bytes, bytes].map(|bytes| Table::of(&bytes));
    println!();
    println!("kind 2 under group tables, which the peer is handed too; ns per edge, a mixed plan");
    println!();
    print_heading("table");
    let mut ratios = Vec::new();
    for m in TABLE_SIZES {
        let mixed = |m, rng: &mut Rng| grow(Shape::Mixed, m, rng);
        let plan = plans::plan(mixed, m, &mut Rng::new(m as u64));
        for (name, table) in [("standard", &standard), ("own", &own)] {
            let times = time_plan(table, &plan, 2);
            let row = Row {
                name,
                kind: 2,
                m,
                times,
            };
            row.print();
        }
        ratios.push(time_beside(&plan, [(2, &own), (2, &standard)]));
    }
    println!();
    for (m, [write, read]) in TABLE_SIZES.into_iter().zip(ratios) {
        println!("own table by the standard one, m = {m}: write {write:.2}, read {read:.2}");
    }
    let [mut proved, mut second, mut peer] =
        CODERS.map(|coder| move || assert!((coder.load)(black_box(&bytes))));
    print_calls(
        "loading a table",
        least([&mut proved, &mut second, &mut peer]),
    );
    let [mut proved, mut second, mut peer] = CODERS.map(|coder| {
        let own = &own;
        move || {
            assert_eq!(
                (coder.write)(black_box(own), 9, 0, 0, &[], &mut [], &mut []),
                0
            )
        }
    });
    print_calls(
        "testing a table, with a call around it",
        least([&mut proved, &mut second, &mut peer]),
    );
}

/// The record of kind 2 of a random plan.
fn random_record(edges: usize, rng: &mut Rng) -> Vec<u8> {
    let order = grow(Shape::Mixed, edges, rng).renumbered(rng);
    jurnadel::record_of(&STANDARD.proved, &order, 0, 0, 2).expect("a fit plan")
}

/// So many different records.
fn different_records(count: usize) -> Vec<Vec<u8>> {
    let mut rng = Rng::new(SHELVED as u64);
    let mut seen = HashSet::new();
    let mut records = Vec::new();
    while records.len() < count {
        let record = random_record(SHELVED_TRAILS, &mut rng);
        if seen.insert(record.clone()) {
            records.push(record);
        }
    }
    records
}

fn print_shelf_row(name: &str, [proved, second]: [f64; 2]) {
    println!(
        "{name:<34}{:>10.1}{:>10.1}{:>7.2}",
        proved / 1e3,
        second / 1e3,
        proved / second
    );
}

/// A work area that just serves a record.
fn work_for(record: &[u8]) -> Vec<u16> {
    let m = u16::from_le_bytes([record[4], record[5]]);
    vec![0; jurnadel::work_length(m)]
}

/// The record is shelved again and again on a shelf of this used length.
fn time_shelve(name: &str, record: &[u8], shelf: &[u8], used: usize) {
    let [mut shelf, mut other] = [shelf.to_vec(), shelf.to_vec()];
    let [mut work, mut other_work] = [work_for(record), work_for(record)];
    let times = least([
        &mut || {
            let table = &STANDARD.proved;
            let shelved = jurnadel::shelve(table, record, &mut work, &mut shelf, used);
            assert!(black_box(shelved).is_ok())
        },
        &mut || {
            let (table, work) = (&STANDARD.second, &mut other_work);
            let shelved = second_coder::shelve(*LANDED, table, &mut other, used, record, work);
            assert!(black_box(shelved).is_ok())
        },
    ]);
    print_shelf_row(name, times);
}

fn time_fetch(name: &str, number: usize, shelf: &[u8], used: usize) {
    let mut refusal = 0;
    let times = least([
        &mut || assert!(black_box(jurnadel::fetch(shelf, used, number)).is_ok()),
        &mut || {
            let part = second_coder::fetch(*LANDED, shelf, used, number, &mut refusal);
            assert!(!black_box(part).is_empty())
        },
    ]);
    print_shelf_row(name, times);
}

fn time_walk(name: &str, shelf: &[u8], used: usize) {
    let times = least([
        &mut || {
            let walk = black_box(jurnadel::walk(shelf, used, 0));
            assert_eq!(walk.map(Iterator::count), Ok(SHELVED))
        },
        &mut || {
            let walk = black_box(second_coder::begin_walk(*LANDED, shelf, used, 0));
            assert_eq!(walk.map(Iterator::count), Ok(SHELVED))
        },
    ]);
    print_shelf_row(name, times);
}

/// Times of the proved library and the second coder on a large shelf.
fn time_shelf() {
    let mut records = different_records(SHELVED + 1);
    let new = records.pop().unwrap_or_default();
    let longer = random_record(SHELVED_TRAILS + 1, &mut Rng::new(0));
    let mut shelf = records.concat();
    let used = shelf.len();
    shelf.resize(used + longer.len(), 0);
    let last = SHELVED - 1;
    assert_eq!(jurnadel::fetch(&shelf, used, last), Ok(&records[last][..]));

    println!();
    println!("a shelf of {SHELVED} records of {SHELVED_TRAILS} edges, {used} bytes; us per call, and the proved library's time by the second coder's");
    println!();
    println!("{:<34}{:>10}{:>10}{:>7}", "", "proved", "second", "/sec.");
    time_shelve("shelve, new", &new, &shelf, used);
    time_shelve("shelve, new and of another length", &longer, &shelf, used);
    time_shelve("shelve, the last one again", &records[last], &shelf, used);
    time_shelve("shelve, the first one again", &records[0], &shelf, used);
    time_fetch("fetch the last", last, &shelf, used);
    time_fetch("fetch the middle one", last / 2, &shelf, used);
    time_walk("walk all", &shelf, used);
    // Here reading is most of it.
    let large = random_record(jurnadel::MAX_TRAILS.into(), &mut Rng::new(0));
    let empty = vec![0; large.len()];
    time_shelve("shelve, 4096 edges on an empty one", &large, &empty, 0);
    time_shelving(&records, used);
}

/// Shelves a record on a shelf of this used length; its number and the used length after it.
type Shelve = dyn FnMut(&[u8], &mut [u8], usize) -> Option<(usize, usize)>;

/// All records shelved one after another into an empty shelf, by the proved library and by the same loop in plain Rust, which
/// reads none of them.
fn time_shelving(records: &[Vec<u8>], length: usize) {
    let (mut shelf, mut work) = (vec![0; length], work_for(&records[0]));
    let mut seconds = |shelve: &mut Shelve| {
        let begun = Instant::now();
        let mut used = 0;
        for (number, record) in records.iter().enumerate() {
            let stored = shelve(record, &mut shelf, used);
            assert_eq!(stored, Some((number, used + record.len())));
            used += record.len();
        }
        begun.elapsed().as_secs_f64()
    };
    let proved = seconds(&mut move |record, shelf, used| {
        let stored = jurnadel::shelve(&STANDARD.proved, record, &mut work, shelf, used).ok()?;
        Some((stored.number, stored.used))
    });
    let plain = seconds(&mut plain::shelve);
    println!();
    println!(
        "all {} shelved one after another into an empty shelf: proved {proved:.2} s, which reads each record too, plain Rust {plain:.2} s, ratio {:.2}",
        records.len(),
        proved / plain
    );
}

fn main() {
    println!("least of {ROUNDS} rounds. Buffers are made once for each plan and lent again: a work area of 32 m numbers, not cleared");
    println!("before a call (each call leaves it zeros, and that is timed), and outputs of just the length, not cleared either.");
    println!();
    println!("ns per edge (proved, second coder, peer), and the proved library's time by that of the others");
    println!();
    let mut rows = time_coders(all_plans(), 0);
    println!();
    println!("the same with the outside area in the record");
    println!();
    rows.extend(time_coders(all_plans(), OUTSIDE));
    println!();
    println!("meshes of triangles; of these rows, those of kind 3 count in the means at the end");
    println!();
    let meshes = time_coders(all_meshes(), 0);
    rows.extend(meshes.into_iter().filter(|row| row.kind == 3));
    print_meshes();
    let areas = time_all_areas();
    time_tables();
    time_shelf();
    println!();
    print_kinds(all_plans(), 4, 2);
    for kind in WITH_OUTSIDE {
        print_kinds(all_plans(), kind, kind - OUTSIDE);
    }
    print_ratios(&rows, &areas);
}
