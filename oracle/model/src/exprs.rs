//! What expressions use, and putting definitions in the place of columns.
use crate::plan::*;

impl Expr {
    /// every occurrence of a column
    pub fn columns(&self, out: &mut Vec<Pair>) {
        match self {
            Expr::Column(p) => out.push(*p),
            Expr::Literal(_) | Expr::Missing => {}
            Expr::Not(e) | Expr::IsMissing(e) => e.columns(out),
            Expr::Binary(_, l, r) => {
                l.columns(out);
                r.columns(out);
            }
        }
    }
    /// how many tags the expression has in a file
    pub fn tags(&self) -> usize {
        match self {
            Expr::Column(_) | Expr::Literal(_) | Expr::Missing => 1,
            Expr::Not(e) | Expr::IsMissing(e) => 1 + e.tags(),
            Expr::Binary(_, l, r) => 1 + l.tags() + r.tags(),
        }
    }
    pub fn tag(&self) -> u8 {
        match self {
            Expr::Column(_) => 0,
            Expr::Literal(_) => 1,
            Expr::Missing => 2,
            Expr::Not(_) => 3,
            Expr::IsMissing(_) => 4,
            Expr::Binary(t, ..) => *t,
        }
    }
    pub fn replace(&self, definition: &dyn Fn(Pair) -> Expr) -> Expr {
        let go = |e: &Expr| Box::new(e.replace(definition));
        match self {
            Expr::Column(p) => definition(*p),
            Expr::Literal(_) | Expr::Missing => self.clone(),
            Expr::Not(e) => Expr::Not(go(e)),
            Expr::IsMissing(e) => Expr::IsMissing(go(e)),
            Expr::Binary(t, l, r) => Expr::Binary(*t, go(l), go(r)),
        }
    }
}

impl Item {
    pub fn tags(&self) -> usize {
        self.aliased as usize + self.expr.tags()
    }
}

/// The expressions of a node with one input: what UNKNOWN looks at, and what is asked of the input.
pub fn own_exprs(plan: &Plan) -> Vec<&Expr> {
    match plan {
        Plan::Projection(items, _) => items.iter().map(|i| &i.expr).collect(),
        Plan::Filter(e, _) => vec![e],
        Plan::Sort(keys, _) => keys.iter().map(|k| &k.expr).collect(),
        Plan::Aggregate(groups, measures, _) => {
            let groups = groups.iter().map(|i| &i.expr);
            groups.chain(measures.iter().filter_map(|m| m.argument.as_ref())).collect()
        }
        Plan::Window(calls, _) => calls.iter().flat_map(call_exprs).collect(),
        _ => vec![],
    }
}

pub fn call_exprs(c: &Call) -> impl Iterator<Item = &Expr> {
    c.partition.iter().chain(c.order.iter().map(|k| &k.expr)).chain(&c.argument)
}

pub fn columns_of<'a>(exprs: impl IntoIterator<Item = &'a Expr>) -> Vec<Pair> {
    let mut out = vec![];
    exprs.into_iter().for_each(|e| e.columns(&mut out));
    out
}
