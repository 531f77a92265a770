//! Random plans. Beneath an Aggregate there is no Aggregate and no row-numbering Window, and a Union's inputs have the
//! same pairs field by field: document 01's domain of equality. `wide` lifts both.
use crate::cases::Mix;
use crate::exprs::*;
use crate::random::Random;
use model::*;

pub struct Maker<'a> {
    pub r: &'a mut Random,
    pub catalogue: Catalogue,
    /// how many of a hundred leaves are Empties
    pub empties: usize,
    /// also references by their name alone
    pub alone: bool,
    /// there are keys: groups and projections are often made of them
    pub keyed: bool,
    pub wide: bool,
}

/// A plan with its fields.
type Made = (Plan, Vec<Pair>);

/// A catalogue. Broad tables have 30 to 64 columns, so that requests reach past 64 fields; in version 2 up to 512.
pub fn catalogue(r: &mut Random, broad: bool, second: bool, mix: Mix) -> Catalogue {
    if !second {
        return Catalogue::first(tables(r, broad));
    }
    let mut tables = if broad { broad_tables(r) } else { tables(r, false) };
    if mix.wide && r.percent(10) {
        // a table with two columns of one name
        let t = r.below(tables.len());
        let twice = tables[t].first().copied().filter(|_| tables[t].len() < VERSION2.columns);
        tables[t].extend(twice);
    }
    let mut keys: Vec<TableKey> = vec![];
    for (t, names) in tables.iter_mut().enumerate() {
        if mix.keys > 0 && !names.is_empty() && r.percent(mix.keys) {
            if r.percent(60) {
                // enough columns for groups beside the key
                let more: Vec<u16> = (1..=8).filter(|n| !names.contains(n)).collect();
                names.extend(more.into_iter().take(5usize.saturating_sub(names.len())));
            }
            let mut columns: Vec<u16> = r.subset(names.len()).into_iter().map(|i| i as u16).collect();
            r.shuffle(&mut columns);
            columns.truncate(if columns.len() > 20 { columns.len() } else { *r.pick(&[1, 1, 1, 2, 2, 3]) });
            keys.push(TableKey { table: t as u8, columns: if columns.is_empty() { vec![0] } else { columns } });
        }
    }
    r.shuffle(&mut keys);
    Catalogue { version: VERSION2, tables, keys }
}

/// One to three tables of up to 512 columns: a join of two has up to 512 fields, and at times more, which is refused.
fn broad_tables(r: &mut Random) -> Vec<Vec<u16>> {
    (0..r.between(1, 3))
        .map(|_| {
            let mut names: Vec<u16> = (1..=700).collect();
            r.shuffle(&mut names);
            let (least, most) = *r.pick(&[(30, 64), (65, 130), (131, 256), (250, 260), (257, 511), (512, 512)]);
            names.truncate(r.between(least, most));
            names
        })
        .collect()
}

pub fn tables(r: &mut Random, broad: bool) -> Vec<Vec<u16>> {
    (0..r.between(1, 4))
        .map(|_| {
            let mut names: Vec<u16> = if broad { (1..=90).collect() } else { (1..=8).collect() };
            r.shuffle(&mut names);
            let few = *r.pick(&[0, 1, 2, 3, 3, 4, 4, 5, 6]);
            names.truncate(if broad { r.between(30, 64) } else { few });
            names
        })
        .collect()
}

const KINDS: [&str; 17] = [
    "projection",
    "projection",
    "projection",
    "projection",
    "filter",
    "sort",
    "limit",
    "limit",
    "aggregate",
    "window",
    "window",
    "alias",
    "alias",
    "union",
    "distinct",
    "join",
    "join",
];

/// What is put over a scan with a key.
const PASSED: [&str; 21] = [
    "projection",
    "projection",
    "projection",
    "projection",
    "filter",
    "filter",
    "filter",
    "sort",
    "sort",
    "limit",
    "limit",
    "alias",
    "alias",
    "alias",
    "window",
    "distinct",
    "union",
    "join",
    "join",
    "join",
    "join",
];

impl Maker<'_> {
    pub fn leaf(&mut self) -> Made {
        if self.r.percent(self.empties) {
            let mut fields = vec![];
            for _ in 0..self.r.between(0, 3) {
                fields.push(fresh(self.r, &fields));
            }
            return (Plan::Empty { one_row: self.r.percent(50), fields: fields.clone() }, fields);
        }
        let table = self.r.below(self.catalogue.tables.len());
        let names = self.catalogue.tables[table].clone();
        let twice = (1..names.len()).any(|i| names[..i].contains(&names[i]));
        let columns = (self.r.percent(40) || twice).then(|| {
            let mut list: Vec<u16> = self.r.subset(names.len()).into_iter().map(|i| i as u16).collect();
            self.r.shuffle(&mut list);
            let mut seen = vec![];
            list.retain(|i| !seen.contains(&names[*i as usize]) && (seen.push(names[*i as usize]), true).1);
            list
        });
        let (table, qualifier) = (table as u8, self.r.between(1, 3) as u16);
        let filters = self.filters(table, qualifier);
        let plan = Plan::Scan { table, qualifier, columns, filters };
        let fields = fields(&plan, &self.catalogue);
        (plan, fields)
    }

    /// A scan's filters: over all columns of its table, whatever it reads. None in version 1.
    fn filters(&mut self, table: u8, qualifier: u16) -> Vec<Expr> {
        let Some(most) = self.catalogue.version.late else { return vec![] };
        if self.r.percent(55) {
            return vec![];
        }
        let all = self.catalogue.all_of(table, qualifier);
        let once: Vec<Pair> = all.iter().copied().filter(|p| fitting(*p, &all) == 1).collect();
        let seen = self.references(&once);
        let n = *self.r.pick(&[1, 1, 1, 2, 2, 3, most as usize]);
        (0..n).map(|_| expr(self.r, &seen, 2)).collect()
    }

    /// The references that find one of the fields: their pairs and, where names alone are drawn, those that one field fits.
    fn references(&mut self, fields: &[Pair]) -> Vec<Pair> {
        let mut out = fields.to_vec();
        if self.alone && self.r.percent(70) {
            let names = fields.iter().map(|f| (0, f.1));
            out.extend(names.filter(|p| !fields.contains(p) && fitting(*p, fields) == 1));
        }
        out
    }

    /// `under`: beneath an Aggregate.
    pub fn plan(&mut self, depth: usize, under: bool) -> Made {
        if depth == 0 || self.r.percent(6) {
            return self.leaf();
        }
        match *self.r.pick(&KINDS) {
            "union" => self.union(depth, under),
            "join" => self.join(depth, under),
            "aggregate" if under && !self.wide => self.plan(depth - 1, under),
            kind => {
                let below = under || kind == "aggregate";
                let input = self.plan(depth - 1, below);
                self.unary(kind, input, under)
            }
        }
    }

    fn unary(&mut self, kind: &str, (child, fields): Made, under: bool) -> Made {
        if kind == "projection" {
            return self.projection(child, fields);
        }
        let seen = self.references(&fields);
        let made_of = if kind == "aggregate" { self.key_items(&child, &fields, 85) } else { None };
        let r = &mut *self.r;
        match kind {
            "filter" => (Plan::Filter(expr(r, &seen, 2), Box::new(child)), fields),
            "sort" => (Plan::Sort(keys(r, &seen, 1), Box::new(child)), fields),
            "limit" => {
                let fetch = *r.pick(&[u32::MAX, 5, 0]);
                (Plan::Limit(r.below(4) as u32, fetch, Box::new(child)), fields)
            }
            "aggregate" => {
                let n = r.between(0, 2);
                let groups = made_of.unwrap_or_else(|| items(r, &seen, n));
                let mut shown: Vec<Pair> = groups.iter().map(|i| i.pair).collect();
                let mut measures = vec![];
                for _ in 0..r.between(groups.is_empty() as usize, 3) {
                    let (pair, function) = (fresh(r, &shown), r.below(5) as u8);
                    shown.push(pair);
                    let argument = (function != 0).then(|| expr(r, &seen, 1));
                    measures.push(Measure { pair, function, argument });
                }
                (Plan::Aggregate(groups, measures, Box::new(child)), shown)
            }
            "window" => {
                let (mut shown, mut calls) = (fields.clone(), vec![]);
                for _ in 0..r.between(1, 2) {
                    let pair = fresh(r, &shown);
                    shown.push(pair);
                    let function = r.between((under && !self.wide) as usize, 4) as u8;
                    let partition = (0..r.between(0, 2)).map(|_| expr(r, &seen, 1)).collect();
                    let order = keys(r, &seen, 0);
                    let argument = (function != 0).then(|| expr(r, &seen, 1));
                    calls.push(Call { pair, function, partition, order, argument });
                }
                (Plan::Window(calls, Box::new(child)), shown)
            }
            "alias" => {
                let q = r.between(1, 5) as u16;
                let shown: Vec<Pair> = fields.iter().map(|p| (q, p.1)).collect();
                if clash(&shown) {
                    return (child, fields);
                }
                (Plan::SubqueryAlias(q, Box::new(child)), shown)
            }
            _ => (Plan::Distinct(Box::new(child)), fields),
        }
    }

    fn projection(&mut self, child: Plan, fields: Vec<Pair>) -> Made {
        let again = match &child {
            Plan::Projection(list, _) if self.r.percent(20) && uses_only(list, &fields) => Some(list.clone()),
            _ => self.key_items(&child, &fields, 75),
        };
        let few = *self.r.pick(&[0, 1, 1, 2, 2, 3, 4]);
        let n = if fields.len() > 20 && self.r.percent(60) { self.r.between(10, fields.len()) } else { few };
        let list = again.unwrap_or_else(|| {
            let seen = self.references(&fields);
            items(self.r, &seen, n)
        });
        let shown = list.iter().map(|i| i.pair).collect();
        (Plan::Projection(list, Box::new(child)), shown)
    }

    /// So many times of a hundred, where there are keys: a list with the columns of one that document 02 or the Rust sees here, at times not all of them,
    /// and up to four other items, mostly bare columns.
    fn key_items(&mut self, child: &Plan, fields: &[Pair], percent: usize) -> Option<Vec<Item>> {
        if !self.keyed || !self.r.percent(percent) {
            return None;
        }
        let mut keys = determining(child, &self.catalogue, Ways::NONE);
        if keys.is_empty() || self.r.percent(20) {
            keys = determining(child, &self.catalogue, Ways::ALL);
        }
        let mut key = if keys.is_empty() { vec![] } else { self.r.pick(&keys).clone() };
        if self.r.percent(7) {
            key.pop();
        }
        let seen = self.references(fields);
        let mut list: Vec<Item> = vec![];
        for at in key {
            let written: Vec<Pair> = seen.iter().copied().filter(|p| find(*p, fields) == Some(at)).collect();
            let pair = if self.r.percent(90) { fields[at] } else { *self.r.pick(&written) };
            self.add(&mut list, Expr::Column(pair), 93);
        }
        for _ in 0..self.r.between(1, 4) {
            if fields.is_empty() || self.r.percent(5) {
                let e = expr(self.r, &seen, 1);
                self.add(&mut list, e, 0);
            } else {
                let pair = if self.r.percent(90) { *self.r.pick(fields) } else { *self.r.pick(&seen) };
                self.add(&mut list, Expr::Column(pair), 95);
            }
        }
        self.r.shuffle(&mut list);
        Some(list)
    }

    /// One more item, if its pair clashes with none: a bare column so many times of a hundred, else an alias, new or of a column that is referred to.
    fn add(&mut self, list: &mut Vec<Item>, e: Expr, bare: usize) {
        let used: Vec<Pair> = list.iter().map(|i| i.pair).collect();
        let item = match e {
            Expr::Column(p) if self.r.percent(bare) => Item::column(p),
            Expr::Column(p) if self.r.percent(30) => Item::alias(p, Expr::Column(p)),
            e => Item::alias(fresh(self.r, &used), e),
        };
        if !clashes(&used, item.pair) {
            list.push(item);
        }
    }

    /// An Aggregate, mostly over nodes that a key may pass, with up to two nodes above it.
    pub fn grouped(&mut self, depth: usize) -> Made {
        let input = if self.r.percent(90) { self.keyed_input() } else { self.plan(depth.min(7) - 1, true) };
        let mut made = self.unary("aggregate", input, false);
        for _ in 0..self.r.between(0, 2) {
            let kind = *self.r.pick(&["projection", "projection", "filter", "sort", "limit", "alias", "distinct"]);
            made = self.unary(kind, made, false);
        }
        made
    }

    /// A scan of a table with a key, all of which it reads.
    fn keyed_leaf(&mut self) -> Made {
        let TableKey { table, columns: key } = self.r.pick(&self.catalogue.keys).clone();
        let names = self.catalogue.tables[table as usize].clone();
        let twice = |list: &[u16]| clash(&list.iter().map(|i| (1, names[*i as usize])).collect::<Vec<_>>());
        let all: Vec<u16> = (0..names.len() as u16).collect();
        let columns = if self.r.percent(50) && !twice(&all) {
            None
        } else {
            let mut list = key;
            for i in self.r.subset(names.len()).into_iter().map(|i| i as u16) {
                if !list.iter().any(|j| names[*j as usize] == names[i as usize]) {
                    list.push(i);
                }
            }
            if twice(&list) {
                return self.leaf();
            }
            self.r.shuffle(&mut list);
            Some(list)
        };
        let qualifier = self.r.between(1, 3) as u16;
        let filters = self.filters(table, qualifier);
        let plan = Plan::Scan { table, qualifier, columns, filters };
        let fields = fields(&plan, &self.catalogue);
        (plan, fields)
    }

    /// Up to six nodes over a scan with a key, which passes most of them in document 02 or in the Rust, and no Union.
    fn keyed_input(&mut self) -> Made {
        let mut made = self.keyed_leaf();
        for _ in 0..*self.r.pick(&[0, 0, 1, 1, 2, 2, 3, 4, 6]) {
            made = match *self.r.pick(&PASSED) {
                "join" => {
                    let other = if self.r.percent(60) { self.keyed_leaf() } else { self.plan(2, true) };
                    if self.r.percent(50) { self.joined(made, other) } else { self.joined(other, made) }
                }
                "union" => self.united(made, 3, true),
                kind => self.unary(kind, made, true),
            };
        }
        made
    }

    /// Projections over a leaf, some of them equal to the one beneath.
    pub fn chain(&mut self) -> Made {
        let mut made = self.leaf();
        for _ in 0..self.r.between(2, 8) {
            made = self.projection(made.0, made.1);
        }
        made
    }

    /// [y + y as y] over and over: under a mask that pushes sums, each merge step doubles the list.
    pub fn doubling(&mut self) -> Made {
        let y = Expr::Column((0, 8));
        let mut plan = Plan::Projection(vec![Item::alias((0, 8), Expr::Literal(1))], Box::new(self.leaf().0));
        for i in 0..self.r.between(8, 13) {
            let sum = Expr::Binary(5 + (i % 2) as u8, Box::new(y.clone()), Box::new(y.clone()));
            plan = Plan::Projection(vec![Item::alias((0, 8), sum)], Box::new(plan));
        }
        (plan, vec![(0, 8)])
    }

    fn union(&mut self, depth: usize, under: bool) -> Made {
        let first = self.plan(depth - 1, under);
        self.united(first, depth, under)
    }

    /// With itself, or with another plan brought to the same pairs.
    fn united(&mut self, (first, fields): Made, depth: usize, under: bool) -> Made {
        let second = if self.r.percent(30) {
            first.clone()
        } else {
            let (input, below) = self.plan(depth.saturating_sub(2), under);
            let below = self.references(&below);
            let list = if self.wide && self.r.percent(30) {
                let list = items(self.r, &below, fields.len());
                if list.len() < fields.len() {
                    return (first, fields);
                }
                list
            } else {
                fields.iter().map(|p| self.same_pair(*p, &below)).collect()
            };
            Plan::Projection(list, Box::new(input))
        };
        (Plan::Union(Box::new(first), Box::new(second)), fields)
    }
    fn same_pair(&mut self, p: Pair, below: &[Pair]) -> Item {
        if below.contains(&p) && self.r.percent(70) {
            return Item::column(p);
        }
        Item::alias(p, expr(self.r, below, 1))
    }

    fn join(&mut self, depth: usize, under: bool) -> Made {
        let less = |r: &mut Random| depth.saturating_sub(1 + if depth > 3 { r.below(3) } else { 0 });
        let (d, e) = (less(self.r), less(self.r));
        let left = self.plan(d, under);
        let right = self.plan(e, under);
        self.joined(left, right)
    }

    /// The right side renamed where names clash; the left side alone where they still do.
    fn joined(&mut self, (left, lf): Made, (mut right, mut rf): Made) -> Made {
        if clash(&[&lf[..], &rf].concat()) {
            let q = self.r.between(4, 11) as u16;
            right = Plan::SubqueryAlias(q, Box::new(right));
            rf = rf.iter().map(|p| (q, p.1)).collect();
            if clash(&rf) || clash(&[&lf[..], &rf].concat()) {
                return (left, lf);
            }
        }
        let both = [&lf[..], &rf].concat();
        let [left_seen, right_seen, seen] = [&lf, &rf, &both].map(|fields| self.references(fields));
        let on =
            (0..self.r.between(0, 2)).map(|_| (expr(self.r, &left_seen, 1), expr(self.r, &right_seen, 1))).collect();
        let condition = self.r.percent(50).then(|| expr(self.r, &seen, 2));
        let join = Join { kind: self.r.below(8) as u8, on, condition };
        let shown = match join.sides() {
            Sides::Both => both,
            Sides::Left => lf,
            Sides::Right => rf,
        };
        (Plan::Join(join, Box::new(left), Box::new(right)), shown)
    }
}

fn uses_only(list: &[Item], fields: &[Pair]) -> bool {
    let mut columns = vec![];
    list.iter().for_each(|i| i.expr.columns(&mut columns));
    columns.iter().all(|c| fitting(*c, fields) == 1)
}
