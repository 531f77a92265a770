//! Plans of a given size, for the bench.
use crate::plans::{Maker, tables};
use crate::random::Random;
use model::*;

fn col(q: u16, n: u16) -> Expr {
    Expr::Column((q, n))
}
fn binary(tag: u8, l: Expr, r: Expr) -> Expr {
    Expr::Binary(tag, Box::new(l), Box::new(r))
}
fn plus_one(e: Expr) -> Expr {
    binary(5, e, Expr::Literal(1))
}
fn equals(e: Expr, v: i64) -> Expr {
    binary(8, e, Expr::Literal(v))
}
fn scan(table: u8, qualifier: u16) -> Box<Plan> {
    Box::new(Plan::Scan { table, qualifier, columns: None, filters: vec![] })
}

/// Five nodes: a sort over a projection over a filter over an aliased scan. Shows (0, 70) and (0, 71).
fn five() -> Plan {
    let filter = Plan::Filter(equals(col(41, 2), 3), Box::new(Plan::SubqueryAlias(41, scan(0, 1))));
    let items = vec![Item::alias((0, 70), plus_one(col(41, 1))), Item::alias((0, 71), col(41, 2))];
    let key = Key { flags: 0, expr: col(0, 70) };
    Plan::Sort(vec![key], Box::new(Plan::Projection(items, Box::new(filter))))
}

/// One side of the join: an alias over a projection over a filter over a scan.
fn side(q: u16, table: u8, names: [u16; 2]) -> Box<Plan> {
    let filter = Plan::Filter(equals(col(q, names[0]), 3), scan(table, q));
    let items = vec![Item::alias((0, 20 + q), plus_one(col(q, names[0]))), Item::alias((0, 30 + q), col(q, names[1]))];
    Box::new(Plan::SubqueryAlias(q + 40, Box::new(Plan::Projection(items, Box::new(filter)))))
}

/// Twenty nodes: two sides joined, a window, a filter, a limit, a union with two projections that merge, an aggregate, a
/// projection. Shows (0, 70) and (0, 71). The pass adds one projection and merges one away.
fn twenty() -> Plan {
    let on = vec![(col(41, 21), col(42, 22))];
    let condition = Some(binary(9, col(41, 31), col(42, 32)));
    let join = Plan::Join(Join { kind: 1, on, condition }, side(1, 0, [1, 2]), side(2, 1, [4, 5]));
    let number = Call {
        pair: (0, 50),
        function: 0,
        partition: vec![col(41, 21)],
        order: vec![Key { flags: 0, expr: col(42, 32) }],
        argument: None,
    };
    let total = Call { pair: (0, 51), function: 2, partition: vec![], order: vec![], argument: Some(col(41, 31)) };
    let window = Plan::Window(vec![number, total], Box::new(join));
    let first = Plan::Filter(binary(9, col(0, 50), Expr::Literal(4)), Box::new(window));
    let left = vec![Item::alias((0, 60), col(41, 21)), Item::alias((0, 61), col(42, 32))];
    let left = Plan::Projection(left, Box::new(Plan::Limit(0, 100, Box::new(first))));
    let lower = vec![Item::alias((0, 62), plus_one(col(9, 1))), Item::column((9, 3))];
    let lower = Plan::Projection(lower, Box::new(Plan::Filter(equals(col(9, 2), 1), scan(0, 9))));
    let right = vec![Item::alias((0, 60), plus_one(col(0, 62))), Item::alias((0, 61), col(9, 3))];
    let right = Plan::Projection(right, Box::new(lower));
    let union = Plan::Union(Box::new(left), Box::new(right));
    let measure = |pair, function| Measure { pair, function, argument: Some(col(0, 61)) };
    let measures = vec![measure((0, 80), 2), measure((0, 81), 3)];
    let aggregate = Plan::Aggregate(vec![Item::column((0, 60))], measures, Box::new(union));
    let shown = vec![Item::alias((0, 70), binary(6, col(0, 60), Expr::Literal(2))), Item::alias((0, 71), col(0, 80))];
    Plan::Projection(shown, Box::new(aggregate))
}

/// A plan of exactly n nodes (5 or more): a union of plans of twenty and five nodes, padded with sorts, filters and
/// limits.
pub fn sized(version: Version, n: usize) -> Vec<u8> {
    let block = |room: usize| if room >= 20 { twenty() } else { five() };
    let mut plan = block(n);
    while nodes_in(&plan) + 6 <= n {
        let room = n - nodes_in(&plan) - 1;
        plan = Plan::Union(Box::new(plan), Box::new(block(room)));
    }
    let mut turn = 0;
    while nodes_in(&plan) < n {
        plan = match turn % 3 {
            0 => Plan::Sort(vec![Key { flags: 0, expr: col(0, 71) }], Box::new(plan)),
            1 => Plan::Filter(equals(col(0, 70), 8), Box::new(plan)),
            _ => Plan::Limit(1, 50, Box::new(plan)),
        };
        turn += 1;
    }
    let catalogue = Catalogue { version, ..Catalogue::first(vec![vec![1, 2, 3], vec![4, 5]]) };
    write(&File { catalogue, plan })
}

/// Twenty nodes over two tables of w columns: a projection to two columns over a limit, three times a sort, a filter and a
/// limit, and a join of two sides with an alias, a filter, a sort and a scan each. Few columns are asked for. Where both sides
/// together pass the field limit the join is a semi join, and what is above it reads the left side. With `filters` each scan has
/// two, on columns that nothing else reads.
pub fn broad(version: Version, w: u16, filters: bool) -> Vec<u8> {
    let semi = 2 * w as usize > version.fields;
    let last = if semi { col(41, 4) } else { col(42, 102) };
    let key = |e| vec![Key { flags: 0, expr: e }];
    let side = |q: u16, first: u16| {
        let own = |n: u16| equals(col(q, first + n), n as i64);
        let filters = if filters { vec![own(w - 1), own(w / 2)] } else { vec![] };
        let scan = Plan::Scan { table: q as u8 - 1, qualifier: q, columns: None, filters };
        let sort = Plan::Sort(key(col(q, first + 1)), Box::new(scan));
        Box::new(Plan::SubqueryAlias(q + 40, Box::new(Plan::Filter(equals(col(q, first), 3), Box::new(sort)))))
    };
    let join = Join { kind: if semi { 4 } else { 0 }, on: vec![(col(41, 1), col(42, 101))], condition: None };
    let mut plan = Plan::Join(join, side(1, 1), side(2, 101));
    for _ in 0..3 {
        plan = Plan::Limit(0, 100, Box::new(plan));
        plan = Plan::Filter(equals(col(41, 2), 8), Box::new(plan));
        plan = Plan::Sort(key(last.clone()), Box::new(plan));
    }
    let shown = if semi { (41, 4) } else { (42, 102) };
    let items = vec![Item::column((41, 1)), Item::column(shown)];
    let plan = Plan::Projection(items, Box::new(Plan::Limit(1, 50, Box::new(plan))));
    let tables = vec![(1..=w).collect(), (101..=100 + w).collect()];
    write(&File { catalogue: Catalogue { version, ..Catalogue::first(tables) }, plan })
}

/// `count` random plans of exactly n nodes, scans only, no name alone, at least one column in each table.
pub fn random_of(n: usize, count: usize, seed: u64) -> Vec<Vec<u8>> {
    let mut r = Random::new(seed);
    let mut out = vec![];
    while out.len() < count {
        let tables = tables(&mut r, false);
        if tables.iter().any(Vec::is_empty) {
            continue;
        }
        let catalogue = Catalogue::first(tables);
        let mut maker = Maker { r: &mut r, catalogue, empties: 0, keyed: false, alone: false, wide: false };
        let (plan, _) = maker.plan(9, false);
        let catalogue = maker.catalogue;
        if nodes_in(&plan) == n && accept(&plan, &catalogue).is_ok() {
            out.push(write(&File { catalogue, plan }));
        }
    }
    out
}
