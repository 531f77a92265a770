//! A smaller case of the same kind.
use generator::Case;
use model::{Call, Catalogue, File, Join, Plan, TableKey, accept, read, write};

/// Puts inputs in the place of their nodes, leaves out entries of lists and tables, asks for all fields or sets the mask
/// to 0, as long as `same` holds.
pub fn shrink(case: &Case, same: &mut dyn FnMut(&Case) -> bool) -> Case {
    let mut best = case.clone();
    while let Some(smaller) = candidates(&best).into_iter().find(|c| same(c)) {
        best = smaller;
    }
    best
}

fn candidates(case: &Case) -> Vec<Case> {
    let mut out = vec![];
    if case.request.is_some() {
        out.push(Case { request: None, ..case.clone() });
    }
    if case.mask != 0 {
        out.push(Case { mask: 0, ..case.clone() });
    }
    let Ok(file) = read(&case.file) else {
        return out;
    };
    let shorter = shorter(&file.catalogue).into_iter().map(|c| File { catalogue: c, plan: file.plan.clone() });
    let smaller = smaller(&file.plan).into_iter().map(|p| File { catalogue: file.catalogue.clone(), plan: p });
    for file in shorter.chain(smaller) {
        let bytes = write(&file);
        // a plan may name what a shorter catalogue no longer has
        let Ok(fields) = read(&bytes).and_then(|f| accept(&f.plan, &f.catalogue)) else {
            continue;
        };
        let request = case.request.as_ref();
        let request = request.map(|r| r.iter().copied().filter(|i| (*i as usize) < fields.len()).collect());
        out.push(Case { mask: case.mask, request, file: bytes });
    }
    out
}

/// Every catalogue with a table, a key, a column of a key, or the last columns of a table left out.
fn shorter(c: &Catalogue) -> Vec<Catalogue> {
    let mut out = vec![];
    for at in 0..c.tables.len() {
        let after = |k: &TableKey| TableKey { table: k.table - (k.table as usize > at) as u8, ..k.clone() };
        let keys = c.keys.iter().filter(|k| k.table as usize != at).map(after).collect();
        out.push(Catalogue { tables: less_one(&c.tables, at), keys, ..c.clone() });
        for n in [c.tables[at].len() / 2, c.tables[at].len().saturating_sub(1)] {
            let mut tables = c.tables.clone();
            tables[at].truncate(n);
            out.push(Catalogue { tables, ..c.clone() });
        }
    }
    out.retain(|less| less != c);
    out.extend(less(&c.keys).map(|keys| Catalogue { keys, ..c.clone() }));
    for (at, key) in c.keys.iter().enumerate().filter(|(_, k)| k.columns.len() > 1) {
        for columns in less(&key.columns) {
            let mut keys = c.keys.clone();
            keys[at].columns = columns;
            out.push(Catalogue { keys, ..c.clone() });
        }
    }
    out
}

/// Every plan with one node replaced by one of its inputs, or one entry of its list left out.
fn smaller(plan: &Plan) -> Vec<Plan> {
    let mut out: Vec<Plan> = plan.children().into_iter().cloned().collect();
    match plan {
        Plan::Projection(items, c) => {
            out.extend(less(items).map(|l| Plan::Projection(l, c.clone())));
            out.extend(inside(c, |c| Plan::Projection(items.clone(), c)));
        }
        Plan::Filter(e, c) => out.extend(inside(c, |c| Plan::Filter(e.clone(), c))),
        Plan::Sort(k, c) => {
            out.extend(less(k).filter(|l| !l.is_empty()).map(|l| Plan::Sort(l, c.clone())));
            out.extend(inside(c, |c| Plan::Sort(k.clone(), c)));
        }
        Plan::Limit(s, f, c) => out.extend(inside(c, |c| Plan::Limit(*s, *f, c))),
        Plan::Aggregate(g, m, c) => {
            if g.len() + m.len() > 1 {
                out.extend(less(g).map(|l| Plan::Aggregate(l, m.clone(), c.clone())));
                out.extend(less(m).map(|l| Plan::Aggregate(g.clone(), l, c.clone())));
            }
            out.extend(inside(c, |c| Plan::Aggregate(g.clone(), m.clone(), c)));
        }
        Plan::Window(w, c) => {
            out.extend(less(w).filter(|l| !l.is_empty()).map(|l| Plan::Window(l, c.clone())));
            out.extend(simpler(w).map(|l| Plan::Window(l, c.clone())));
            out.extend(inside(c, |c| Plan::Window(w.clone(), c)));
        }
        Plan::SubqueryAlias(q, c) => out.extend(inside(c, |c| Plan::SubqueryAlias(*q, c))),
        Plan::Distinct(c) => out.extend(inside(c, Plan::Distinct)),
        Plan::Union(l, r) => {
            out.extend(inside(l, |c| Plan::Union(c, r.clone())));
            out.extend(inside(r, |c| Plan::Union(l.clone(), c)));
        }
        Plan::Join(j, l, r) => {
            let lists = less(&j.on).map(|on| Join { on, ..j.clone() });
            let bare = j.condition.is_some().then(|| Join { condition: None, ..j.clone() });
            out.extend(lists.chain(bare).map(|j| Plan::Join(j, l.clone(), r.clone())));
            out.extend(inside(l, |c| Plan::Join(j.clone(), c, r.clone())));
            out.extend(inside(r, |c| Plan::Join(j.clone(), l.clone(), c)));
        }
        Plan::Empty { one_row, fields } => {
            out.extend(less(fields).map(|fields| Plan::Empty { one_row: *one_row, fields }));
        }
        Plan::Scan { table, qualifier, columns, filters } => {
            let with = |columns: &Option<Vec<u16>>, filters| Plan::Scan {
                table: *table,
                qualifier: *qualifier,
                columns: columns.clone(),
                filters,
            };
            out.extend(less(filters).map(|filters| with(columns, filters)));
            for list in columns.iter().flat_map(|list| less(list)) {
                out.push(with(&Some(list), filters.clone()));
            }
        }
    }
    out
}

fn inside(child: &Plan, around: impl Fn(Box<Plan>) -> Plan) -> Vec<Plan> {
    smaller(child).into_iter().map(|c| around(Box::new(c))).collect()
}

/// A window's calls with one partition or order entry of one of them left out.
fn simpler(calls: &[Call]) -> impl Iterator<Item = Vec<Call>> {
    (0..calls.len()).flat_map(move |i| {
        let call = &calls[i];
        let partitions = less(&call.partition).map(|partition| Call { partition, ..call.clone() });
        let orders = less(&call.order).map(|order| Call { order, ..call.clone() });
        partitions.chain(orders).map(move |c| [&calls[..i], &[c], &calls[i + 1..]].concat())
    })
}

fn less<T: Clone>(list: &[T]) -> impl Iterator<Item = Vec<T>> {
    (0..list.len()).map(|i| less_one(list, i))
}

fn less_one<T: Clone>(list: &[T], at: usize) -> Vec<T> {
    [&list[..at], &list[at + 1..]].concat()
}
