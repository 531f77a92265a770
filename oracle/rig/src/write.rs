//! Stand-in plans to plan files.
use crate::fields::Version;
use datafusion_common::{JoinType, ScalarValue, TableReference};
use datafusion_expr::expr::{Alias, Sort as Key};
use datafusion_expr::{Expr, LogicalPlan};

/// In document 01's order.
pub const JOINS: [JoinType; 8] = [
    JoinType::Inner,
    JoinType::Left,
    JoinType::Right,
    JoinType::Full,
    JoinType::LeftSemi,
    JoinType::LeftAnti,
    JoinType::RightSemi,
    JoinType::RightAnti,
];

/// The number behind `c17` or `q3`.
fn number(s: &str) -> u16 {
    s[1..].bytes().fold(0, |a, b| a * 10 + (b - b'0') as u16)
}
fn put_pair(out: &mut Vec<u8>, q: Option<&TableReference>, n: &str) {
    out.extend(q.map_or(0, |q| number(q.table())).to_le_bytes());
    out.extend(number(n).to_le_bytes());
}
fn put(out: &mut Vec<u8>, e: &Expr) {
    match e {
        Expr::Column(c) => {
            out.push(0);
            put_pair(out, c.relation.as_ref(), &c.name);
        }
        Expr::Literal(ScalarValue::Int64(Some(v)), _) => {
            out.push(1);
            out.extend(v.to_le_bytes());
        }
        Expr::Literal(..) => out.push(2),
        Expr::Not(e) => {
            out.push(3);
            put(out, e);
        }
        Expr::IsNull(e) => {
            out.push(4);
            put(out, e);
        }
        Expr::BinaryExpr(b) => {
            out.push(5 + b.op as u8);
            put(out, &b.left);
            put(out, &b.right);
        }
        Expr::Alias(a) => {
            out.push(12);
            put_pair(out, a.relation.as_ref(), &a.name);
            put(out, &a.expr);
        }
        _ => panic!("no tag for {e:?}"),
    }
}
fn put_list<'a>(out: &mut Vec<u8>, es: impl ExactSizeIterator<Item = &'a Expr>) {
    out.push(es.len() as u8);
    es.for_each(|e| put(out, e));
}
fn put_keys(out: &mut Vec<u8>, keys: &[Key]) {
    out.push(keys.len() as u8);
    for k in keys {
        out.push(!k.asc as u8 | (k.nulls_first as u8) << 1);
        put(out, &k.expr);
    }
}
fn put_number(out: &mut Vec<u8>, e: &Option<Box<Expr>>) {
    let v = match e.as_deref() {
        None => u32::MAX,
        Some(Expr::Literal(ScalarValue::Int64(Some(v)), _)) => *v as u32,
        e => panic!("limit {e:?}"),
    };
    out.extend(v.to_le_bytes());
}

/// A count or an index of the version's width.
fn put_wide(out: &mut Vec<u8>, version: Version, n: usize) {
    out.extend(&(n as u16).to_le_bytes()[..version.wide]);
}
fn put_items(out: &mut Vec<u8>, version: Version, items: &[Expr]) {
    put_wide(out, version, items.len());
    items.iter().for_each(|e| put(out, e));
}

pub fn write_plan(out: &mut Vec<u8>, version: Version, plan: &LogicalPlan) {
    match plan {
        LogicalPlan::Projection(n) => {
            out.push(1);
            put_items(out, version, &n.expr);
        }
        LogicalPlan::Filter(n) => {
            out.push(2);
            put(out, &n.predicate);
        }
        LogicalPlan::Sort(n) => {
            out.push(3);
            put_keys(out, &n.expr);
        }
        LogicalPlan::Limit(n) => {
            out.push(4);
            put_number(out, &n.skip);
            put_number(out, &n.fetch);
        }
        LogicalPlan::Aggregate(n) => {
            out.push(5);
            put_items(out, version, &n.group_expr);
            put_wide(out, version, n.aggr_expr.len());
            for e in &n.aggr_expr {
                let Expr::Alias(Alias { expr, relation, name, .. }) = e else { panic!("{e:?}") };
                let Expr::AggregateFunction(a) = &**expr else { panic!("{e:?}") };
                put_pair(out, relation.as_ref(), name);
                out.push(a.func);
                a.args.iter().for_each(|e| put(out, e));
            }
        }
        LogicalPlan::Window(n) => {
            out.push(6);
            put_wide(out, version, n.window_expr.len());
            for e in &n.window_expr {
                let Expr::Alias(Alias { expr, relation, name, .. }) = e else { panic!("{e:?}") };
                let Expr::WindowFunction(w) = &**expr else { panic!("{e:?}") };
                put_pair(out, relation.as_ref(), name);
                out.push(w.fun);
                put_list(out, w.partition_by.iter());
                put_keys(out, &w.order_by);
                w.args.iter().for_each(|e| put(out, e));
            }
        }
        LogicalPlan::SubqueryAlias(n) => {
            out.push(7);
            out.extend(number(n.alias.table()).to_le_bytes());
        }
        LogicalPlan::Union(_) => out.push(8),
        LogicalPlan::Distinct(_) => out.push(9),
        LogicalPlan::Join(n) => {
            out.push(10);
            out.push(JOINS.iter().position(|t| *t == n.join_type).unwrap() as u8);
            out.push(n.on.len() as u8);
            for (l, r) in &n.on {
                put(out, l);
                put(out, r);
            }
            out.push(n.filter.is_some() as u8);
            n.filter.iter().for_each(|e| put(out, e));
        }
        LogicalPlan::TableScan(n) => {
            out.push(11);
            out.push(n.source.number);
            out.extend(number(n.table_name.table()).to_le_bytes());
            out.push(n.projection.is_some() as u8);
            if let Some(p) = &n.projection {
                put_wide(out, version, p.len());
                p.iter().for_each(|&i| put_wide(out, version, i));
            }
            if version.late {
                put_list(out, n.filters.iter());
            }
        }
        LogicalPlan::EmptyRelation(n) => {
            out.push(12);
            out.push(n.produce_one_row as u8);
            put_wide(out, version, n.schema.fields().len());
            n.schema.iter().for_each(|(q, f)| put_pair(out, q, f.name()));
        }
        _ => panic!("no node for {plan:?}"),
    }
    plan.inputs().into_iter().for_each(|i| write_plan(out, version, i));
}
