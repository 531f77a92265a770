//! Which groups of an Aggregate the Rust keeps, with the given ways: with none of them keys.rs, document 02's rule, with all of them what the texts do on
//! the stand-ins. A second reading, so that a difference is foretold from the plan, and not named because it is one.
use crate::accept::{fields, find};
use crate::plan::*;
use crate::ways::{Way, Ways};

/// Fields that determine others: all of them (`None`), or those of a list.
#[derive(Clone)]
struct Determined {
    by: Vec<usize>,
    what: Option<Vec<usize>>,
    /// where a join left one of its sides absent
    absent: bool,
}

struct Reading<'a> {
    catalogue: &'a Catalogue,
    ways: Ways,
}

/// Where each of the places stands in the list, if all do.
fn all_in(places: &[usize], list: &[Option<usize>]) -> Option<Vec<usize>> {
    places.iter().map(|p| list.iter().position(|i| *i == Some(*p))).collect()
}

impl Reading<'_> {
    fn place(&self, reference: Pair, fields: &[Pair]) -> Option<usize> {
        let alone = self.ways.has(Way::NameAlone);
        if alone { fields.iter().position(|f| *f == reference) } else { find(reference, fields) }
    }

    fn carried(&self, known: Vec<Determined>, list: &[Option<usize>]) -> Vec<Determined> {
        let one = |d: Determined| {
            let within = |what: Vec<usize>| {
                what.iter().filter_map(|p| list.iter().position(|i| *i == Some(*p))).collect::<Vec<usize>>()
            };
            Some(Determined { by: all_in(&d.by, list)?, what: d.what.map(within), absent: d.absent })
        };
        known.into_iter().filter_map(one).collect()
    }

    fn items(&self, items: &[Item], child: &Plan) -> Vec<Determined> {
        let known = self.known(child);
        if known.is_empty() {
            return known;
        }
        let fields = fields(child, self.catalogue);
        let place = |i: &Item| match &i.expr {
            Expr::Column(p) => self.place(*p, &fields),
            _ => None,
        };
        let mut list: Vec<Option<usize>> = items.iter().map(place).collect();
        if self.ways.has(Way::CountedPlace) {
            list.retain(Option::is_some);
        }
        self.carried(known, &list)
    }

    fn side(&self, plan: &Plan, offset: usize, absent: bool) -> Vec<Determined> {
        let width = fields(plan, self.catalogue).len();
        let mut known = self.known(plan);
        known.retain(|d| !(absent && d.absent));
        for d in &mut known {
            let what = d.what.take().unwrap_or((0..width).collect());
            d.what = Some(what.into_iter().map(|i| i + offset).collect());
            d.by.iter_mut().for_each(|i| *i += offset);
            d.absent |= absent;
        }
        known
    }

    fn join(&self, join: &Join, left: &Plan, right: &Plan) -> Vec<Determined> {
        match join.kind {
            0..=2 if self.ways.has(Way::ThroughJoin) => {
                let width = fields(left, self.catalogue).len();
                [self.side(left, 0, join.kind == 2), self.side(right, width, join.kind == 1)].concat()
            }
            4 | 5 if self.ways.has(Way::ThroughSemi) => self.known(left),
            6 | 7 if self.ways.has(Way::ThroughSemi) => self.known(right),
            _ => vec![],
        }
    }

    fn window(&self, calls: &[Call], child: &Plan) -> Vec<Determined> {
        let mut out = if self.ways.has(Way::ThroughWindow) { self.known(child) } else { vec![] };
        if self.ways.has(Way::FromNumber) {
            let first = fields(child, self.catalogue).len();
            let numbers = calls.iter().enumerate().filter(|(_, c)| c.function == 0 && c.partition.is_empty());
            out.extend(numbers.map(|(i, _)| Determined { by: vec![first + i], what: None, absent: false }));
        }
        out
    }

    /// An Aggregate's groups are told by their pairs; of all rows a group list is a key that may be missing.
    fn aggregate(&self, groups: &[Item], measures: &[Measure], child: &Plan) -> Vec<Determined> {
        if groups.is_empty() || !self.ways.has(Way::FromAggregate) {
            return vec![];
        }
        let (known, fields) = (self.known(child), fields(child, self.catalogue));
        let places: Vec<Option<usize>> = groups.iter().map(|g| fields.iter().position(|f| *f == g.pair)).collect();
        let reached = |places: &[Option<usize>]| {
            let within = known.iter().filter(|d| all_in(&d.by, places).is_some());
            let all = within.flat_map(|d| d.what.clone().unwrap_or((0..fields.len()).collect()));
            all.collect::<std::collections::BTreeSet<usize>>()
        };
        let all = || (0..groups.len() + measures.len()).collect();
        let mut out = vec![];
        for d in &known {
            if let Some(mut by) = all_in(&d.by, &places) {
                let own: Vec<Option<usize>> = d.by.iter().map(|p| Some(*p)).collect();
                by.sort_unstable();
                let single = d.what.is_none() || (!reached(&own).is_empty() && reached(&own) == reached(&places));
                out.push(Determined { by, what: (!single).then(all), absent: d.absent });
            }
        }
        if out.is_empty() {
            out.push(Determined { by: (0..groups.len()).collect(), what: None, absent: true });
        }
        out
    }

    fn known(&self, plan: &Plan) -> Vec<Determined> {
        match plan {
            Plan::Scan { table, columns, .. } => {
                let key = self.catalogue.keys.iter().find(|k| k.table == *table);
                let by = |k: &TableKey| k.columns.iter().map(|c| *c as usize).collect();
                let all = key.map(|k| Determined { by: by(k), what: None, absent: false }).into_iter().collect();
                let Some(columns) = columns else { return all };
                self.carried(all, &columns.iter().map(|c| Some(*c as usize)).collect::<Vec<_>>())
            }
            Plan::Projection(items, c) => self.items(items, c),
            Plan::Filter(_, c) | Plan::Sort(_, c) | Plan::Limit(_, _, c) | Plan::SubqueryAlias(_, c) => self.known(c),
            Plan::Distinct(c) if self.ways.has(Way::ThroughDistinct) => self.known(c),
            Plan::Window(calls, c) => self.window(calls, c),
            Plan::Join(join, l, r) => self.join(join, l, r),
            Plan::Aggregate(groups, measures, c) => self.aggregate(groups, measures, c),
            Plan::Distinct(_) | Plan::Union(..) | Plan::Empty { .. } => vec![],
        }
    }

    /// The field that a group is, if it is one; the outer `None` says that all groups stay.
    fn group(&self, group: &Item, fields: &[Pair]) -> Option<Option<usize>> {
        let named = fields.iter().position(|f| *f == group.pair);
        match (group.aliased, named) {
            (false, None) if self.ways.has(Way::NameAlone) => None,
            (true, Some(_)) if self.ways.has(Way::BorrowedName) => Some(named),
            (true, None) if self.ways.has(Way::AliasedGroup) => None,
            _ => Some(match &group.expr {
                Expr::Column(p) => find(*p, fields),
                _ => None,
            }),
        }
    }
}

/// The lists of fields that determine others of a plan.
pub fn determining(plan: &Plan, catalogue: &Catalogue, ways: Ways) -> Vec<Vec<usize>> {
    Reading { catalogue, ways }.known(plan).into_iter().map(|d| d.by).collect()
}

/// The groups of an Aggregate over `child` that stay.
pub fn kept_groups(groups: &[Item], child: &Plan, request: &[usize], catalogue: &Catalogue, ways: Ways) -> Vec<usize> {
    let reading = Reading { catalogue, ways };
    let (known, all) = (reading.known(child), 0..groups.len());
    let fields = fields(child, catalogue);
    let places: Option<Vec<Option<usize>>> = groups.iter().map(|g| reading.group(g, &fields)).collect();
    let (false, Some(places)) = (known.is_empty(), places) else { return all.collect() };
    let mut left: Vec<usize> = places.iter().flatten().copied().collect();
    let mut whole = false;
    for d in known {
        if d.by.iter().all(|p| left.contains(p)) {
            left.retain(|p| d.what.as_ref().is_some_and(|what| !what.contains(p)));
            left.extend(&d.by);
            whole |= d.what.is_none();
        }
    }
    let stays = |g: &usize| places[*g].map_or(!whole, |p| left.contains(&p));
    all.filter(|g| request.contains(g) || stays(g)).collect()
}
