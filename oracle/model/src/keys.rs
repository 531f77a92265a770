//! Keys, document 02's request 5: which fields of a plan are a key of its rows, and which groups an Aggregate keeps by it. All of it is judged on the
//! old plan.
use crate::accept::{fields, find};
use crate::plan::*;

/// Of each item the place of the field that it is; none where it is computed.
fn places(items: &[Item], fields: &[Pair]) -> Vec<Option<usize>> {
    let place = |i: &Item| match &i.expr {
        Expr::Column(p) => find(*p, fields),
        _ => None,
    };
    items.iter().map(place).collect()
}

/// A key carried on to a list of items: of each column the first item that is it; no key where one lacks.
fn carried(key: &[usize], places: &[Option<usize>]) -> Option<Vec<usize>> {
    key.iter().map(|k| places.iter().position(|p| *p == Some(*k))).collect()
}

/// The places of the key among the plan's fields.
fn key_of(plan: &Plan, catalogue: &Catalogue) -> Option<Vec<usize>> {
    match plan {
        Plan::Scan { table, columns, .. } => {
            let key = catalogue.keys.iter().find(|k| k.table == *table)?;
            let key: Vec<usize> = key.columns.iter().map(|c| *c as usize).collect();
            match columns {
                Some(list) => carried(&key, &list.iter().map(|c| Some(*c as usize)).collect::<Vec<_>>()),
                None => Some(key),
            }
        }
        Plan::Projection(items, c) => carried(&key_of(c, catalogue)?, &places(items, &fields(c, catalogue))),
        Plan::Filter(_, c) | Plan::Sort(_, c) | Plan::Limit(_, _, c) | Plan::SubqueryAlias(_, c) => {
            key_of(c, catalogue)
        }
        _ => None,
    }
}

/// The groups of an Aggregate over `child` that stay: those that are asked for and those that are a key column, where each key column is a group;
/// else all.
pub fn kept_groups(groups: &[Item], child: &Plan, request: &[usize], catalogue: &Catalogue) -> Vec<usize> {
    let all = 0..groups.len();
    let places = places(groups, &fields(child, catalogue));
    match key_of(child, catalogue) {
        Some(key) if carried(&key, &places).is_some() => {
            all.filter(|g| request.contains(g) || places[*g].is_some_and(|p| key.contains(&p))).collect()
        }
        _ => all.collect(),
    }
}
