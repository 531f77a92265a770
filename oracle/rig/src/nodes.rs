//! Nodes of a plan file, and the whole file.
use crate::fields::{Reader, VERSIONS, Version, name};
use crate::write::JOINS;
use crate::{Answer, words};
use datafusion_common::{DFSchema, ScalarValue, number_field};
use datafusion_expr::expr::{AggregateFunction, WindowFunction};
use datafusion_expr::*;
use std::sync::Arc;

pub struct File {
    /// the bytes before the plan: mark, version, tables and keys
    pub head: Vec<u8>,
    pub version: Version,
    pub plan: LogicalPlan,
}

impl Reader<'_> {
    fn child(&mut self) -> Answer<Arc<LogicalPlan>> {
        self.node().map(Arc::new)
    }
    fn node(&mut self) -> Answer<LogicalPlan> {
        self.nodes += 1;
        if self.nodes > 256 {
            return Err("many nodes".into());
        }
        let plan = match self.u8()? {
            1 => {
                let n = self.wide_count(self.version.items)?;
                let items = self.exprs(n, true)?;
                LogicalPlan::Projection(Projection::try_new(items, self.child()?).map_err(words)?)
            }
            2 => {
                let e = self.expr(false)?;
                LogicalPlan::Filter(Filter::try_new(e, self.child()?).map_err(words)?)
            }
            3 => self.sort()?,
            4 => {
                let skip = limit(self.u32()?);
                let fetch = match self.u32()? {
                    u32::MAX => None,
                    v => limit(v),
                };
                LogicalPlan::Limit(Limit { skip, fetch, input: self.child()? })
            }
            5 => self.aggregate()?,
            6 => self.window()?,
            7 => {
                let q = self.u16()?;
                if q == 0 {
                    return self.bad("qualifier 0");
                }
                let alias = self.qualifier(q);
                let node = SubqueryAlias::try_new(self.child()?, alias).map_err(words)?;
                LogicalPlan::SubqueryAlias(node)
            }
            8 => {
                let inputs = vec![self.child()?, self.child()?];
                LogicalPlan::Union(Union::try_new(inputs).map_err(words)?)
            }
            9 => LogicalPlan::Distinct(Distinct::All(self.child()?)),
            10 => self.join()?,
            11 => self.scan()?,
            12 => self.empty()?,
            _ => return self.bad("node tag"),
        };
        let most = self.version.fields;
        if plan.schema().fields().len() > most {
            return Err(format!("over {most} fields"));
        }
        Ok(plan)
    }
    fn sort(&mut self) -> Answer<LogicalPlan> {
        let n = self.count(16)?;
        if n == 0 {
            return self.bad("no keys");
        }
        let expr = self.keys(n)?;
        let input = self.child()?;
        for k in &expr {
            check_columns(&k.expr, input.schema()).map_err(words)?;
        }
        Ok(LogicalPlan::Sort(Sort { expr, input }))
    }
    fn aggregate(&mut self) -> Answer<LogicalPlan> {
        let g = self.wide_count(self.version.items)?;
        let groups = self.exprs(g, true)?;
        let a = self.wide_count(self.version.items)?;
        if g + a == 0 {
            return self.bad("empty aggregate");
        }
        let mut calls = Vec::with_capacity(a);
        for _ in 0..a {
            let (q, n) = self.pair()?;
            let func = self.function()?;
            let args = self.argument(func)?;
            let call = Expr::AggregateFunction(AggregateFunction { func, args });
            calls.push(call.alias_qualified(q, n));
        }
        let node = Aggregate::try_new(self.child()?, groups, calls).map_err(words)?;
        Ok(LogicalPlan::Aggregate(node))
    }
    fn window(&mut self) -> Answer<LogicalPlan> {
        let n = self.wide_count(self.version.items)?;
        if n == 0 {
            return self.bad("empty window");
        }
        let mut calls = Vec::with_capacity(n);
        for _ in 0..n {
            let (q, name) = self.pair()?;
            let fun = self.function()?;
            let p = self.count(16)?;
            let partition_by = self.exprs(p, false)?;
            let k = self.count(16)?;
            let order_by = self.keys(k)?;
            let args = self.argument(fun)?;
            let call = WindowFunction { fun, args, partition_by, order_by };
            calls.push(Expr::WindowFunction(Box::new(call)).alias_qualified(q, name));
        }
        Ok(LogicalPlan::Window(Window::try_new(calls, self.child()?).map_err(words)?))
    }
    fn join(&mut self) -> Answer<LogicalPlan> {
        let t = self.u8()? as usize;
        if t > 7 {
            return self.bad("join type");
        }
        let n = self.count(16)?;
        let mut on = Vec::with_capacity(n);
        for _ in 0..n {
            on.push((self.expr(false)?, self.expr(false)?));
        }
        let filter = match self.u8()? {
            0 => None,
            1 => Some(self.expr(false)?),
            _ => return self.bad("condition flag"),
        };
        let (left, right) = (self.child()?, self.child()?);
        for (l, r) in &on {
            check_columns(l, left.schema()).map_err(words)?;
            check_columns(r, right.schema()).map_err(words)?;
        }
        // both sides together: CLASH, and the condition's columns
        let sides = left.schema().iter().chain(right.schema().iter());
        let both = sides.map(|(q, f)| (q.cloned(), Arc::clone(f))).collect();
        let both = DFSchema::new_qualified(both).map_err(words)?;
        if let Some(e) = &filter {
            check_columns(e, &both).map_err(words)?;
        }
        let node = Join::try_new(left, right, on, filter, JOINS[t]).map_err(words)?;
        Ok(LogicalPlan::Join(node))
    }
    fn scan(&mut self) -> Answer<LogicalPlan> {
        let t = self.u8()? as usize;
        let Some(source) = self.tables.get(t).cloned() else {
            return self.bad("table");
        };
        let q = self.u16()?;
        if q == 0 {
            return self.bad("qualifier 0");
        }
        let projection = match self.u8()? {
            0 => None,
            1 => {
                let n = self.wide_count(self.version.columns)?;
                let mut p = Vec::with_capacity(n);
                for _ in 0..n {
                    let c = self.wide()?;
                    if c >= source.names.len() {
                        return self.bad("column");
                    }
                    p.push(c);
                }
                Some(p)
            }
            _ => return self.bad("projection flag"),
        };
        let q = self.qualifier(q);
        let n = if self.version.late { self.count(16)? } else { 0 };
        let filters = self.exprs(n, false)?;
        let node = TableScan::try_new(q, source, projection, filters).map_err(words)?;
        Ok(LogicalPlan::TableScan(node))
    }
    fn empty(&mut self) -> Answer<LogicalPlan> {
        let one = self.u8()?;
        if one > 1 {
            return self.bad("one-row flag");
        }
        let n = self.wide_count(self.version.items)?;
        let mut fields = Vec::with_capacity(n);
        for _ in 0..n {
            let (q, name) = self.pair()?;
            fields.push((q, number_field(name)));
        }
        let schema = Arc::new(DFSchema::new_qualified(fields).map_err(words)?);
        Ok(LogicalPlan::EmptyRelation(EmptyRelation { produce_one_row: one == 1, schema }))
    }
}

impl Reader<'_> {
    fn table_keys(&mut self, tables: &mut [TableSource]) -> Answer<()> {
        for _ in 0..self.count(16)? {
            let t = self.u8()? as usize;
            if tables.get(t).is_none_or(|t| t.key.is_some()) {
                return self.bad("a key's table");
            }
            let n = self.wide_count(self.version.columns)?;
            if n == 0 {
                return self.bad("empty key");
            }
            let mut key = Vec::with_capacity(n);
            for _ in 0..n {
                let c = self.wide()?;
                if c >= tables[t].names.len() || key.contains(&c) {
                    return self.bad("a key's column");
                }
                key.push(c);
            }
            tables[t].key = Some(key);
        }
        Ok(())
    }
}

fn limit(v: u32) -> Option<Box<Expr>> {
    Some(Box::new(Expr::Literal(ScalarValue::Int64(Some(v as i64)), None)))
}

pub fn read(src: &[u8]) -> Answer<File> {
    let version = match src.get(..5) {
        Some(b"CPL\x01\x00") => VERSIONS[0],
        Some(b"CPL\x02\x00") => VERSIONS[1],
        _ => return Err("mark".into()),
    };
    let mut r = Reader { src, at: 5, version, tables: vec![], qualifiers: vec![], nodes: 0, tags: 0 };
    let mut tables = vec![];
    for number in 0..r.count(16)? as u8 {
        let n = r.wide_count(version.columns)?;
        let mut names = Vec::with_capacity(n);
        for _ in 0..n {
            match r.u16()? {
                0 => return r.bad("name 0"),
                c => names.push(name(c)),
            }
        }
        tables.push(TableSource { number, names, key: None });
    }
    if version.late {
        r.table_keys(&mut tables)?;
    }
    r.tables = tables.into_iter().map(Arc::new).collect();
    let head = src[..r.at].to_vec();
    let plan = r.node()?;
    if r.at < src.len() {
        return Err(format!("tail at {}", r.at));
    }
    Ok(File { head, version, plan })
}
