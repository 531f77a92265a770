//! damage N SEED [slip]: N damaged files, requests, settings and output lengths through the library and through the model of
//! document 01, both modes; code, length, place and result compared. Says nothing about the Rust. Exit status 1 if one differs.
use compare::{Library, ROOM};
use generator::{Case, Mix, Random, case, hex, line};
use model::{Expr, File, Join, Pair, Plan, TableKey, fields, read, write};
use simmerroof::Mode;
use std::collections::BTreeMap;
use tools::{ended, numbers};

fn damage(r: &mut Random, case: &mut Case) {
    let n = case.file.len();
    let second = case.file[3] == 2;
    match r.below(if second { 14 } else { 12 }) {
        0 => case.file.truncate(r.below(n + 1)),
        1 => case.file.push(r.below(256) as u8),
        2..=4 => {
            let at = r.below(n);
            case.file[at] = *r.pick(&[0, 1, 2, 3, 4, 5, 9, 11, 12, 13, 17, 65, 129, 255]);
        }
        5 => {
            let at = r.below(n);
            case.file.remove(at);
        }
        6 => {
            let from = r.below(n);
            let part = case.file[from..(from + r.below(40)).min(n)].to_vec();
            let at = r.below(n);
            case.file.splice(at..at, part);
        }
        7 => case.file = broadened(r, &case.file),
        8 => case.file = doubled(r, &case.file),
        // the other version's number
        9 => case.file[3] ^= 3,
        10 => case.file = uneven(r, &case.file),
        12 => case.file = bad_keys(r, &case.file),
        13 => case.file = bad_filter(r, &case.file),
        _ => {
            let mut request = case.request.clone().unwrap_or_default();
            request.push(r.below(12) as u16);
            r.shuffle(&mut request);
            case.request = Some(request);
            case.mask = *r.pick(&[case.mask, case.mask, 4096, 65535]);
        }
    }
}

/// A union of the plan and an Empty of as many fields, or of up to two more or less.
fn uneven(r: &mut Random, file: &[u8]) -> Vec<u8> {
    let File { catalogue, plan } = read(file).expect("accepted");
    let n = (fields(&plan, &catalogue).len() + r.below(5)).saturating_sub(2).min(catalogue.version.items);
    let empty = Plan::Empty { one_row: true, fields: (0..n).map(|i| (99, 20000 + i as u16)).collect() };
    let inputs = if r.percent(50) { (plan, empty) } else { (empty, plan) };
    write(&File { catalogue, plan: Plan::Union(Box::new(inputs.0), Box::new(inputs.1)) })
}

/// The keys with one made wrong: a table that is not there or has two, a column that is not there or stands there twice, no column
/// at all or over 512; or with a 17th key.
fn bad_keys(r: &mut Random, file: &[u8]) -> Vec<u8> {
    let mut file = read(file).expect("accepted");
    let tables = file.catalogue.tables.len();
    let table = r.below(tables) as u8;
    let width = file.catalogue.tables[table as usize].len() as u16;
    let column = if width == 0 { 0 } else { r.below(width as usize) as u16 };
    let columns = match r.below(6) {
        0 => vec![column, width],
        1 => vec![column, column],
        2 => vec![],
        3 => vec![0; *r.pick(&[512, 513, 700])],
        4 => vec![65535],
        _ => vec![column],
    };
    let keys = &mut file.catalogue.keys;
    let at = r.between(0, keys.len());
    keys.insert(at, TableKey { table: if r.percent(20) { tables as u8 } else { table }, columns });
    while r.percent(15) && keys.len() < 18 {
        keys.extend(keys.clone());
    }
    write(&file)
}

/// The plan with one more filter on its first scan that is met, over a pair that the table may lack or have twice.
fn bad_filter(r: &mut Random, file: &[u8]) -> Vec<u8> {
    let mut file = read(file).expect("accepted");
    if r.percent(50)
        && let Some(names) = file.catalogue.tables.iter_mut().find(|names| !names.is_empty())
    {
        // keys and scans go on naming the columns that they named
        names.push(names[0]);
    }
    let names: Vec<u16> = file.catalogue.tables.concat().into_iter().chain([9]).collect();
    let pair = (*r.pick(&[0, 1, 2, 3]), *r.pick(&names));
    let times = *r.pick(&[1, 1, 1, 17]);
    filter_first(&mut file.plan, pair, times);
    write(&file)
}

fn filter_first(plan: &mut Plan, pair: Pair, times: usize) -> bool {
    match plan {
        Plan::Scan { filters, .. } => {
            filters.extend((0..times).map(|_| Expr::Not(Box::new(Expr::Column(pair)))));
            true
        }
        _ => plan.children_mut().into_iter().any(|c| filter_first(c, pair, times)),
    }
}

/// The plan joined with an Empty, so that both have two fields less than the limit to three more together; beneath up to two
/// more nodes.
fn broadened(r: &mut Random, file: &[u8]) -> Vec<u8> {
    let File { catalogue, plan } = read(file).expect("accepted");
    let limit = catalogue.version.fields;
    let more = r.between(limit - 2, limit + 3) - fields(&plan, &catalogue).len().min(limit - 2);
    let empty = Plan::Empty { one_row: true, fields: (0..more.min(limit)).map(|i| (99, 20000 + i as u16)).collect() };
    let sides = if r.percent(50) { (plan, empty) } else { (empty, plan) };
    let join = Join { kind: r.below(4) as u8, on: vec![], condition: None };
    let mut plan = Plan::Join(join, Box::new(sides.0), Box::new(sides.1));
    for _ in 0..r.below(3) {
        plan = Plan::Distinct(Box::new(plan));
    }
    write(&File { catalogue, plan })
}

/// The plan joined with itself under another qualifier, so that names alone fit two fields: one of them as a half of the join, in
/// its condition or in a filter over it, at times with a name that no field has.
fn doubled(r: &mut Random, file: &[u8]) -> Vec<u8> {
    let File { catalogue, plan } = read(file).expect("accepted");
    let mut names: Vec<u16> = fields(&plan, &catalogue).iter().map(|f| f.1).collect();
    names.extend([1, 9]);
    let place = r.below(3);
    let mut name = || Expr::Column((*r.pick(&[0, 0, 0, 98]), *r.pick(&names)));
    let test = Expr::Binary(8, Box::new(name()), Box::new(name()));
    let on = if place == 0 { vec![(name(), name())] } else { vec![] };
    let condition = (place == 1).then(|| test.clone());
    let again = Plan::SubqueryAlias(98, Box::new(plan.clone()));
    let join = Plan::Join(Join { kind: r.below(8) as u8, on, condition }, Box::new(plan), Box::new(again));
    let plan = if place == 2 { Plan::Filter(test, Box::new(join)) } else { join };
    write(&File { catalogue, plan })
}

/// The length of the output: mostly more than enough, else the result's, one less, or less than most results have.
fn room(r: &mut Random, result: &model::Answer) -> usize {
    let length = result.as_ref().map_or(20, Vec::len);
    match r.below(20) {
        0 => length,
        1 => length - 1,
        2 => r.below(100),
        _ => ROOM,
    }
}

fn shown(answer: &model::Answer) -> String {
    answer.as_ref().map_or_else(|f| format!("refuses: code {}, place {}", f.code, f.place), |bytes| hex(bytes))
}

/// Where two results part.
fn first_difference(got: &model::Answer, want: &model::Answer) -> String {
    let (Ok(got), Ok(want)) = (got, want) else { return "no bytes to compare: a refusal".into() };
    let at = got.iter().zip(want).take_while(|(a, b)| a == b).count();
    let byte = |bytes: &[u8]| bytes.get(at).map_or("the end".into(), |b| format!("{b:02x}"));
    format!("first differing byte: {at}: library {}, model {}", byte(got), byte(want))
}

fn run(n: usize, seed: u64, slip: bool) -> bool {
    let mut r = Random::new(seed);
    let mix = Mix { wide: true, second: 50, keys: 40, most_nodes: 256, most_bytes: 12000 };
    let mut library = Library::new(slip);
    let (mut codes, mut differ, mut second) = (BTreeMap::<u64, usize>::new(), 0, 0);
    for _ in 0..n {
        let mut case = case(&mut r, mix);
        second += (case.file[3] == 2) as usize;
        if r.percent(80) {
            damage(&mut r, &mut case);
        }
        let (mode, number) = *r.pick(&[(Mode::Crate, 0), (Mode::House, 1)]);
        let model = |room| model::answer(number, case.mask, &case.file, case.request.as_deref(), room);
        let room = room(&mut r, &model(ROOM));
        let want = model(room);
        let got = library.answer_in(mode, &case, room);
        if got != want {
            differ += 1;
            if differ <= 3 {
                println!(
                    "DIFFERS {}\n  library {}\n  model   {}",
                    line(&case, number, room),
                    shown(&got),
                    shown(&want)
                );
                println!("  {}", first_difference(&got, &want));
            }
        }
        *codes.entry(want.map_or_else(|f| f.code, |_| 0)).or_default() += 1;
    }
    let codes: Vec<String> = codes.iter().map(|(code, n)| format!("{code}: {n}")).collect();
    println!("cases by code: {}; {second} were files of version 2 before they were damaged", codes.join(", "));
    let verdict = if differ == 0 { "passed" } else { "failed" };
    println!("{verdict}: {n} cases, seed {seed}: library and model agree on {}, differ on {differ}", n - differ);
    differ == 0
}

fn main() {
    let (n, seed, [slip]) = numbers("oracle/damage N SEED [slip]", ["slip"]);
    ended(move || run(n, seed, slip));
}
