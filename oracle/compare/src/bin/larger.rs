//! larger N SEED [slip]: N pairs of requests, the second with every index of the first, to random plans, both modes: each scan that
//! is left under the first is left under the second and reads no column less. Says nothing about the Rust.
//!
//! Scans are told apart by giving each a table of its own, with the names of the table that it had. `slip` exchanges the two
//! requests of each pair, which must be noticed.
use compare::Library;
use generator::{Case, Mix, Random, case, line};
use model::{Catalogue, File, Plan, TableKey, accept, read, write};
use simmerroof::Mode;
use std::collections::BTreeMap;
use tools::{ended, numbers};

/// The plan with a table of its own for each scan, which has the key of the scan's table.
fn apart(file: &File) -> File {
    let catalogue = Catalogue { version: file.catalogue.version, tables: vec![], keys: vec![] };
    let mut out = File { catalogue, plan: file.plan.clone() };
    number(&mut out.plan, &file.catalogue, &mut out.catalogue);
    out
}

fn number(plan: &mut Plan, old: &Catalogue, new: &mut Catalogue) {
    match plan {
        Plan::Scan { table, .. } => {
            let own = new.tables.len() as u8;
            new.tables.push(old.tables[*table as usize].clone());
            let key = old.keys.iter().find(|k| k.table == *table);
            new.keys.extend(key.map(|k| TableKey { table: own, ..k.clone() }));
            *table = own;
        }
        _ => plan.children_mut().into_iter().for_each(|c| number(c, old, new)),
    }
}

/// The columns that each scan of a rewritten plan reads, by its table.
fn scans(plan: &Plan, out: &mut BTreeMap<u8, Vec<u16>>) {
    if let Plan::Scan { table, columns, .. } = plan {
        out.insert(*table, columns.clone().expect("a rewritten scan names its columns"));
    }
    plan.children().into_iter().for_each(|c| scans(c, out));
}

fn reads(bytes: &[u8]) -> BTreeMap<u8, Vec<u16>> {
    let mut out = BTreeMap::new();
    scans(&read(bytes).expect("a result reads").plan, &mut out);
    out
}

fn no_less(small: &BTreeMap<u8, Vec<u16>>, large: &BTreeMap<u8, Vec<u16>>) -> bool {
    small.iter().all(|(t, is)| large.get(t).is_some_and(|js| is.iter().all(|i| js.contains(i))))
}

/// Two requests of a root with so many fields, the first a part of the second.
fn requests(r: &mut Random, width: usize) -> (Vec<u16>, Vec<u16>) {
    let large: Vec<u16> = r.subset(width).into_iter().map(|i| i as u16).collect();
    let small = r.subset(large.len()).into_iter().map(|i| large[i]).collect();
    (small, large)
}

fn run(n: usize, seed: u64, slip: bool) -> bool {
    let mut r = Random::new(seed);
    let mix = Mix { wide: true, second: 50, keys: 40, most_nodes: 256, most_bytes: 12000 };
    let mut library = Library::new(false);
    let (mut pairs, mut fewer, mut gone, mut large, mut of_two) = (0, 0, 0, 0, 0);
    while pairs < n {
        let drawn = case(&mut r, mix);
        let file = apart(&read(&drawn.file).expect("accepted"));
        if file.catalogue.tables.len() > 16 {
            continue;
        }
        let width = accept(&file.plan, &file.catalogue).expect("accepted").len();
        let (small, wide) = requests(&mut r, width);
        let (small, wide) = if slip { (wide, small) } else { (small, wide) };
        let (mode, number) = *r.pick(&[(Mode::Crate, 0), (Mode::House, 1)]);
        let [first, second] = [small, wide].map(|q| Case { mask: drawn.mask, request: Some(q), file: write(&file) });
        let (Ok(a), Ok(b)) = (library.answer(mode, &first), library.answer(mode, &second)) else {
            large += 1;
            continue;
        };
        let (a, b) = (reads(&a), reads(&b));
        if !no_less(&a, &b) {
            println!(
                "READS LESS\n  {}\n  {}\n  {a:?}\n  {b:?}",
                line(&first, number, 65536),
                line(&second, number, 65536)
            );
            println!("failed: 1 of {} pairs, seed {seed}", pairs + 1);
            return false;
        }
        pairs += 1;
        of_two += (file.catalogue.version.number == 2) as usize;
        fewer += (a != b) as usize;
        gone += (a.len() < b.len()) as usize;
    }
    println!(
        "  {of_two} pairs of version 2; {fewer} pairs read more under the larger request, {gone} of them a scan more; {large} more pairs were LARGE"
    );
    println!("passed: {n} pairs of requests, seed {seed}: no scan reads less under the larger request");
    true
}

fn main() {
    let (n, seed, [slip]) = numbers("larger N SEED [slip]", ["slip"]);
    ended(move || run(n, seed, slip));
}
