//! Plans to bytes, and their counts of nodes and tags.
use crate::plan::*;

pub fn write(file: &File) -> Vec<u8> {
    let Catalogue { version, tables, keys } = &file.catalogue;
    let mut w = Writer { version: *version, out: b"CPL".to_vec(), tags: 0 };
    w.out.extend([version.number, 0, tables.len() as u8]);
    for names in tables {
        w.wide(names.len());
        names.iter().for_each(|n| w.u16(*n));
    }
    w.late(keys, |w, key| {
        w.out.push(key.table);
        w.wide(key.columns.len());
        key.columns.iter().for_each(|c| w.wide(*c as usize));
    });
    w.node(&file.plan);
    w.out
}

pub fn nodes_in(plan: &Plan) -> usize {
    1 + plan.children().into_iter().map(nodes_in).sum::<usize>()
}

pub fn tags_in(plan: &Plan) -> usize {
    let mut w = Writer { version: VERSION2, out: vec![], tags: 0 };
    w.node(plan);
    w.tags
}

struct Writer {
    version: Version,
    out: Vec<u8>,
    tags: usize,
}

impl Writer {
    fn u16(&mut self, n: u16) {
        self.out.extend(n.to_le_bytes());
    }
    /// A count or an index of the version's width.
    fn wide(&mut self, n: usize) {
        self.out.extend(&(n as u16).to_le_bytes()[..self.version.wide]);
    }
    /// Keys or filters, of which version 1 has none.
    fn late<T>(&mut self, list: &[T], part: fn(&mut Self, &T)) {
        match self.version.late {
            None => assert!(list.is_empty(), "version 1 has neither keys nor filters"),
            Some(_) => {
                self.out.push(list.len() as u8);
                list.iter().for_each(|x| part(self, x));
            }
        }
    }
    fn pair(&mut self, p: Pair) {
        self.u16(p.0);
        self.u16(p.1);
    }
    fn expr(&mut self, e: &Expr) {
        self.tags += 1;
        self.out.push(e.tag());
        match e {
            Expr::Column(p) => self.pair(*p),
            Expr::Literal(v) => self.out.extend(v.to_le_bytes()),
            Expr::Missing => {}
            Expr::Not(e) | Expr::IsMissing(e) => self.expr(e),
            Expr::Binary(_, l, r) => {
                self.expr(l);
                self.expr(r);
            }
        }
    }
    fn items(&mut self, list: &[Item]) {
        self.wide(list.len());
        for i in list {
            if i.aliased {
                self.tags += 1;
                self.out.push(12);
                self.pair(i.pair);
            }
            self.expr(&i.expr);
        }
    }
    fn keys(&mut self, list: &[Key]) {
        self.out.push(list.len() as u8);
        for k in list {
            self.out.push(k.flags);
            self.expr(&k.expr);
        }
    }
    fn node(&mut self, plan: &Plan) {
        match plan {
            Plan::Projection(list, _) => {
                self.out.push(1);
                self.items(list);
            }
            Plan::Filter(e, _) => {
                self.out.push(2);
                self.expr(e);
            }
            Plan::Sort(list, _) => {
                self.out.push(3);
                self.keys(list);
            }
            Plan::Limit(skip, fetch, _) => {
                self.out.push(4);
                self.out.extend(skip.to_le_bytes());
                self.out.extend(fetch.to_le_bytes());
            }
            Plan::Aggregate(groups, measures, _) => {
                self.out.push(5);
                self.items(groups);
                self.wide(measures.len());
                for m in measures {
                    self.pair(m.pair);
                    self.out.push(m.function);
                    m.argument.iter().for_each(|e| self.expr(e));
                }
            }
            Plan::Window(calls, _) => {
                self.out.push(6);
                self.wide(calls.len());
                calls.iter().for_each(|c| self.call(c));
            }
            Plan::SubqueryAlias(q, _) => {
                self.out.push(7);
                self.u16(*q);
            }
            Plan::Union(..) => self.out.push(8),
            Plan::Distinct(_) => self.out.push(9),
            Plan::Join(join, ..) => self.join(join),
            Plan::Scan { table, qualifier, columns, filters } => {
                self.out.extend([11, *table]);
                self.u16(*qualifier);
                self.out.push(columns.is_some() as u8);
                if let Some(list) = columns {
                    self.wide(list.len());
                    list.iter().for_each(|i| self.wide(*i as usize));
                }
                self.late(filters, Self::expr);
            }
            Plan::Empty { one_row, fields } => {
                self.out.extend([12, *one_row as u8]);
                self.wide(fields.len());
                fields.iter().for_each(|p| self.pair(*p));
            }
        }
        plan.children().into_iter().for_each(|c| self.node(c));
    }
    fn call(&mut self, c: &Call) {
        self.pair(c.pair);
        self.out.extend([c.function, c.partition.len() as u8]);
        c.partition.iter().for_each(|e| self.expr(e));
        self.keys(&c.order);
        c.argument.iter().for_each(|e| self.expr(e));
    }
    fn join(&mut self, join: &Join) {
        self.out.extend([10, join.kind, join.on.len() as u8]);
        for (l, r) in &join.on {
            self.expr(l);
            self.expr(r);
        }
        self.out.push(join.condition.is_some() as u8);
        join.condition.iter().for_each(|e| self.expr(e));
    }
}
