//! The fields of each node, how a column is found among them, and codes 7 to 10 and 17.
use crate::exprs::{columns_of, own_exprs};
use crate::plan::*;
use crate::read::{Fault, Read};
use std::collections::HashSet;

/// Two equal pairs, or one name both with and without qualifier.
pub fn clash(fields: &[Pair]) -> bool {
    let mut all = HashSet::new();
    let bare: HashSet<u16> = fields.iter().filter(|p| p.0 == 0).map(|p| p.1).collect();
    fields.iter().any(|p| !all.insert(p) || (p.0 != 0 && bare.contains(&p.1)))
}

/// "A column reference without a qualifier shall also find a qualified field of that name; a reference with one still needs
/// the exact pair."
pub fn fits(reference: Pair, field: Pair) -> bool {
    reference.1 == field.1 && (reference.0 == 0 || reference.0 == field.0)
}

/// The place of the first field that fits.
pub fn find(reference: Pair, fields: &[Pair]) -> Option<usize> {
    fields.iter().position(|f| fits(reference, *f))
}

pub fn fitting(reference: Pair, fields: &[Pair]) -> usize {
    fields.iter().filter(|f| fits(reference, **f)).count()
}

/// A node's references, each with the fields among which it is looked up: a join's halves each on their own side, its
/// condition over both together; a scan's filters among all columns of its table, of which two may have one name.
fn references(plan: &Plan, catalogue: &Catalogue, inputs: &[Vec<Pair>]) -> Vec<(Pair, Vec<Pair>)> {
    let over = |columns: Vec<Pair>, fields: &[Pair]| columns.into_iter().map(|c| (c, fields.to_vec())).collect();
    match plan {
        Plan::Join(join, ..) => {
            let left: Vec<_> = over(columns_of(join.on.iter().map(|p| &p.0)), &inputs[0]);
            let right = over(columns_of(join.on.iter().map(|p| &p.1)), &inputs[1]);
            [left, right, over(columns_of(&join.condition), &inputs.concat())].concat()
        }
        Plan::Scan { table, qualifier, filters, .. } => {
            over(columns_of(filters), &catalogue.all_of(*table, *qualifier))
        }
        _ => inputs.first().map_or(vec![], |fields| over(columns_of(own_exprs(plan)), fields)),
    }
}

/// How many references of the plan find a field of another pair: by their name alone.
pub fn names_alone(plan: &Plan, catalogue: &Catalogue) -> usize {
    let inputs: Vec<_> = plan.children().into_iter().map(|c| fields(c, catalogue)).collect();
    let own = references(plan, catalogue, &inputs).iter().filter(|(c, fields)| !fields.contains(c)).count();
    own + plan.children().into_iter().map(|c| names_alone(c, catalogue)).sum::<usize>()
}

/// A node's fields from its inputs' fields.
fn shown(plan: &Plan, catalogue: &Catalogue, inputs: &[Vec<Pair>]) -> Vec<Pair> {
    match plan {
        Plan::Filter(..) | Plan::Sort(..) | Plan::Limit(..) | Plan::Distinct(_) | Plan::Union(..) => inputs[0].clone(),
        Plan::Projection(items, _) => items.iter().map(|i| i.pair).collect(),
        Plan::Aggregate(groups, measures, _) => {
            groups.iter().map(|i| i.pair).chain(measures.iter().map(|m| m.pair)).collect()
        }
        Plan::Window(calls, _) => inputs[0].iter().copied().chain(calls.iter().map(|c| c.pair)).collect(),
        Plan::SubqueryAlias(q, _) => inputs[0].iter().map(|p| (*q, p.1)).collect(),
        Plan::Join(join, ..) => match join.sides() {
            Sides::Both => [&inputs[0][..], &inputs[1]].concat(),
            Sides::Left => inputs[0].clone(),
            Sides::Right => inputs[1].clone(),
        },
        Plan::Scan { table, qualifier, columns, .. } => {
            let all = catalogue.all_of(*table, *qualifier);
            columns.as_ref().map_or(all.clone(), |c| c.iter().map(|i| all[*i as usize]).collect())
        }
        Plan::Empty { fields, .. } => fields.clone(),
    }
}

pub fn fields(plan: &Plan, catalogue: &Catalogue) -> Vec<Pair> {
    let inputs: Vec<_> = plan.children().into_iter().map(|c| fields(c, catalogue)).collect();
    shown(plan, catalogue, &inputs)
}

/// The fields of an accepted plan's root; the first refusal otherwise, children first, left before right.
pub fn accept(plan: &Plan, catalogue: &Catalogue) -> Read<Vec<Pair>> {
    node(plan, catalogue, &mut 0)
}

fn node(plan: &Plan, catalogue: &Catalogue, next: &mut u64) -> Read<Vec<Pair>> {
    let place = *next;
    *next += 1;
    let mut inputs = vec![];
    for child in plan.children() {
        inputs.push(node(child, catalogue, next)?);
    }
    let refuse = |code| Err(Fault { code, place });
    let found: Vec<usize> =
        references(plan, catalogue, &inputs).iter().map(|(c, fields)| fitting(*c, fields)).collect();
    if found.contains(&0) {
        return refuse(8);
    }
    if found.iter().any(|n| *n > 1) {
        return refuse(17);
    }
    if matches!(plan, Plan::Union(..)) && inputs[0].len() != inputs[1].len() {
        return refuse(9);
    }
    let own = shown(plan, catalogue, &inputs);
    if own.len() > catalogue.version.fields {
        return refuse(10);
    }
    let together = match plan {
        Plan::Join(..) => clash(&inputs.concat()),
        _ => clash(&own),
    };
    if together { refuse(7) } else { Ok(own) }
}
