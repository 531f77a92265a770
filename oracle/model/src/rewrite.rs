//! The walk. With ways it follows the Rust instead of the documents (ways.rs). `Stale` is its flag: a SubqueryAlias, Union or Join shows its old fields
//! unless an input was reported changed, and an Aggregate that lost groups or aggregates, or a Window that went, over an unchanged input is not
//! reported.
use crate::accept::{fields, find};
use crate::exprs::{call_exprs, columns_of, own_exprs};
use crate::merge::{Large, merge};
use crate::plan::*;
use crate::ways::{Way, Ways};
use crate::{dependencies, keys};
use std::collections::HashSet;

pub struct Setting<'a> {
    pub catalogue: &'a Catalogue,
    pub mask: u16,
    pub house: bool,
    /// document 01's limits hold
    pub limits: bool,
    pub ways: Ways,
}

/// A rewritten node: the plan, the fields that it shows, and the Rust's flag.
struct Done {
    plan: Plan,
    shown: Vec<Pair>,
    changed: bool,
}
type Walk<T> = Result<T, Large>;

pub fn rewrite(plan: &Plan, request: &[usize], set: &Setting) -> Result<Plan, Large> {
    set.node(plan, request, false).map(|d| d.plan)
}

/// The request and, for each column, the place of the first field that fits, in order.
fn union(request: &[usize], fields: &[Pair], columns: &[Pair]) -> Vec<usize> {
    let found: HashSet<usize> = columns.iter().filter_map(|c| find(*c, fields)).collect();
    (0..fields.len()).filter(|i| request.contains(i) || found.contains(i)).collect()
}

fn at<T: Clone>(list: &[T], request: &[usize], first: usize) -> Vec<T> {
    request.iter().filter(|i| **i >= first).map(|i| list[*i - first].clone()).collect()
}

fn top_up(child: Done, request: &[usize], old: &[Pair]) -> Done {
    if child.shown.len() <= request.len() {
        return child;
    }
    let shown: Vec<Pair> = request.iter().map(|i| old[*i]).collect();
    let items = shown.iter().map(|p| Item::column(*p)).collect();
    Done { plan: Plan::Projection(items, Box::new(child.plan)), shown, changed: true }
}

impl Setting<'_> {
    fn fields(&self, plan: &Plan) -> Vec<Pair> {
        fields(plan, self.catalogue)
    }
    /// A child asked for a request, topped up.
    fn topped(&self, child: &Plan, request: &[usize], flag: bool) -> Walk<Done> {
        Ok(top_up(self.node(child, request, flag)?, request, &self.fields(child)))
    }
    /// A node that keeps its own field list in the Rust: `shown` is what it would show worked out anew.
    fn keeps_list(&self, old: &Plan, plan: Plan, shown: Vec<Pair>, changed: bool) -> Done {
        let shown = if self.ways.has(Way::Stale) && !changed { self.fields(old) } else { shown };
        Done { plan, shown, changed }
    }

    /// `flag`: the request comes from a Filter, Sort, Union, SubqueryAlias or Join with only Limits and Windows between.
    fn node(&self, plan: &Plan, request: &[usize], flag: bool) -> Walk<Done> {
        Ok(match plan {
            Plan::Projection(items, child) => self.projection(items, child, request)?,
            Plan::Aggregate(groups, measures, child) => self.aggregate(groups, measures, child, request)?,
            Plan::Window(calls, child) => self.window(calls, child, request, flag)?,
            Plan::Filter(e, child) => {
                let c = self.small(plan, child, request)?;
                Done { plan: Plan::Filter(e.clone(), Box::new(c.plan)), ..c }
            }
            Plan::Sort(keys, child) => {
                let c = self.small(plan, child, request)?;
                Done { plan: Plan::Sort(keys.clone(), Box::new(c.plan)), ..c }
            }
            Plan::SubqueryAlias(q, child) => {
                let c = self.small(plan, child, request)?;
                let shown = c.shown.iter().map(|p| (*q, p.1)).collect();
                self.keeps_list(plan, Plan::SubqueryAlias(*q, Box::new(c.plan)), shown, c.changed)
            }
            Plan::Union(l, r) => {
                let (l, r) = (self.small(plan, l, request)?, self.small(plan, r, request)?);
                let new = Plan::Union(Box::new(l.plan), Box::new(r.plan));
                self.keeps_list(plan, new, l.shown, l.changed || r.changed)
            }
            Plan::Limit(skip, fetch, child) => {
                let mut c = self.node(child, request, flag)?;
                if flag {
                    c = top_up(c, request, &self.fields(child));
                }
                Done { plan: Plan::Limit(*skip, *fetch, Box::new(c.plan)), ..c }
            }
            Plan::Distinct(child) => {
                let all: Vec<usize> = (0..self.fields(child).len()).collect();
                let c = self.node(child, &all, false)?;
                Done { plan: Plan::Distinct(Box::new(c.plan)), ..c }
            }
            Plan::Join(join, l, r) => self.join(plan, join, l, r, request)?,
            Plan::Scan { table, qualifier, columns, filters } => {
                let columns = Some(match columns {
                    Some(old) => at(old, request, 0),
                    None => request.iter().map(|i| *i as u16).collect(),
                });
                let plan = Plan::Scan { table: *table, qualifier: *qualifier, columns, filters: filters.clone() };
                Done { shown: self.fields(&plan), plan, changed: true }
            }
            Plan::Empty { fields, .. } => Done { plan: plan.clone(), shown: fields.clone(), changed: false },
        })
    }
    /// A child of a Filter, Sort, Union or SubqueryAlias.
    fn small(&self, plan: &Plan, child: &Plan, request: &[usize]) -> Walk<Done> {
        let columns = columns_of(own_exprs(plan));
        self.topped(child, &union(request, &self.fields(child), &columns), true)
    }
    fn projection(&self, items: &[Item], child: &Plan, request: &[usize]) -> Walk<Done> {
        let (items, child) = merge(items, child, self)?;
        let items = at(&items, request, 0);
        let columns = columns_of(items.iter().map(|i| &i.expr));
        let c = self.node(child, &union(&[], &self.fields(child), &columns), false)?;
        let shown: Vec<Pair> = items.iter().map(|i| i.pair).collect();
        if items.iter().all(|i| !i.aliased) && shown == c.shown {
            return Ok(Done { changed: true, ..c });
        }
        Ok(Done { plan: Plan::Projection(items, Box::new(c.plan)), shown, changed: true })
    }
    fn aggregate(&self, groups: &[Item], measures: &[Measure], child: &Plan, request: &[usize]) -> Walk<Done> {
        let measures = at(measures, request, groups.len());
        let kept = match self.ways {
            Ways::NONE => keys::kept_groups(groups, child, request, self.catalogue),
            ways => dependencies::kept_groups(groups, child, request, self.catalogue, ways),
        };
        let groups = at(groups, &kept, 0);
        if groups.is_empty() && measures.is_empty() {
            let plan = Plan::Empty { one_row: true, fields: vec![] };
            return Ok(Done { plan, shown: vec![], changed: true });
        }
        let arguments = measures.iter().filter_map(|m| m.argument.as_ref());
        let columns = columns_of(groups.iter().map(|i| &i.expr).chain(arguments));
        let c = self.topped(child, &union(&[], &self.fields(child), &columns), false)?;
        let shown = groups.iter().map(|i| i.pair).chain(measures.iter().map(|m| m.pair)).collect();
        let plan = Plan::Aggregate(groups, measures, Box::new(c.plan));
        Ok(Done { plan, shown, changed: c.changed })
    }
    fn window(&self, calls: &[Call], child: &Plan, request: &[usize], flag: bool) -> Walk<Done> {
        let old = self.fields(child);
        let calls = at(calls, request, old.len());
        let columns = columns_of(calls.iter().flat_map(call_exprs));
        let asked = union(request, &old, &columns);
        let mut c = self.node(child, &asked, flag)?;
        if calls.is_empty() {
            return Ok(c);
        }
        c = top_up(c, &asked, &old);
        let shown = c.shown.iter().copied().chain(calls.iter().map(|c| c.pair)).collect();
        Ok(Done { plan: Plan::Window(calls, Box::new(c.plan)), shown, changed: true })
    }
    fn join(&self, plan: &Plan, join: &Join, l: &Plan, r: &Plan, request: &[usize]) -> Walk<Done> {
        let (lf, rf) = (self.fields(l), self.fields(r));
        let n = lf.len();
        let (below, above): (Vec<usize>, Vec<usize>) = match join.sides() {
            Sides::Both => (
                request.iter().copied().filter(|i| *i < n).collect(),
                request.iter().filter(|i| **i >= n).map(|i| i - n).collect(),
            ),
            Sides::Left => (request.to_vec(), vec![]),
            Sides::Right => (vec![], request.to_vec()),
        };
        // every reference of the node is looked up on each side
        let columns = columns_of(join.on.iter().flat_map(|(l, r)| [l, r]).chain(&join.condition));
        let a = self.topped(l, &union(&below, &lf, &columns), true)?;
        let b = self.topped(r, &union(&above, &rf, &columns), true)?;
        let shown = match join.sides() {
            Sides::Both => [&a.shown[..], &b.shown].concat(),
            Sides::Left => a.shown,
            Sides::Right => b.shown,
        };
        let new = Plan::Join(join.clone(), Box::new(a.plan), Box::new(b.plan));
        Ok(self.keeps_list(plan, new, shown, a.changed || b.changed))
    }
}
