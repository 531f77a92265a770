//! Nodes of a plan file, and the whole file, with codes 2 to 6.
use crate::plan::*;
use crate::read::*;

impl Reader<'_> {
    fn child(&mut self) -> Read<Box<Plan>> {
        self.node().map(Box::new)
    }
    fn node(&mut self) -> Read<Plan> {
        let at = self.at;
        let tag = self.u8()?;
        self.nodes += 1;
        if self.nodes > 256 {
            return fault(MANY, at);
        }
        Ok(match tag {
            1 => {
                let n = self.wide_count(0, self.catalogue.version.items)?;
                Plan::Projection(self.list(n, Self::item)?, self.child()?)
            }
            2 => Plan::Filter(self.expr()?, self.child()?),
            3 => {
                let n = self.count(1, 16)?;
                Plan::Sort(self.list(n, Self::key)?, self.child()?)
            }
            4 => Plan::Limit(self.u32()?, self.u32()?, self.child()?),
            5 => {
                let most = self.catalogue.version.items;
                let g = self.wide_count(0, most)?;
                let groups = self.list(g, Self::item)?;
                let a = self.wide_count((g == 0) as usize, most)?;
                Plan::Aggregate(groups, self.list(a, Self::measure)?, self.child()?)
            }
            6 => {
                let n = self.wide_count(1, self.catalogue.version.items)?;
                Plan::Window(self.list(n, Self::call)?, self.child()?)
            }
            7 => Plan::SubqueryAlias(self.nonzero()?, self.child()?),
            8 => Plan::Union(self.child()?, self.child()?),
            9 => Plan::Distinct(self.child()?),
            10 => {
                let kind = self.at_most(7)?;
                let n = self.count(0, 16)?;
                let on = self.list(n, |r| Ok((r.expr()?, r.expr()?)))?;
                let condition = match self.at_most(1)? {
                    0 => None,
                    _ => Some(self.expr()?),
                };
                Plan::Join(Join { kind, on, condition }, self.child()?, self.child()?)
            }
            11 => self.scan()?,
            12 => {
                let one_row = self.at_most(1)? == 1;
                let n = self.wide_count(0, self.catalogue.version.items)?;
                Plan::Empty { one_row, fields: self.list(n, Self::pair)? }
            }
            _ => return fault(VALUE, at),
        })
    }
    fn measure(&mut self) -> Read<Measure> {
        let (pair, function) = (self.pair()?, self.at_most(4)?);
        Ok(Measure { pair, function, argument: self.argument(function)? })
    }
    fn call(&mut self) -> Read<Call> {
        let (pair, function) = (self.pair()?, self.at_most(4)?);
        let p = self.count(0, 16)?;
        let partition = self.list(p, Self::expr)?;
        let k = self.count(0, 16)?;
        let order = self.list(k, Self::key)?;
        Ok(Call { pair, function, partition, order, argument: self.argument(function)? })
    }
    /// A table's number, below how many there are.
    fn table(&mut self) -> Read<u8> {
        let at = self.at;
        let table = self.u8()?;
        if table as usize >= self.catalogue.tables.len() { fault(VALUE, at) } else { Ok(table) }
    }
    fn scan(&mut self) -> Read<Plan> {
        let table = self.table()?;
        let width = self.catalogue.tables[table as usize].len();
        let qualifier = self.nonzero()?;
        let mut columns = None;
        if self.at_most(1)? == 1 {
            let n = self.wide_count(0, self.catalogue.version.columns)?;
            columns = Some((0..n).map(|_| self.index(width)).collect::<Read<_>>()?);
        }
        let n = self.late_count()?;
        Ok(Plan::Scan { table, qualifier, columns, filters: self.list(n, Self::expr)? })
    }
    /// A key: a table that has none yet, and columns of it, at least one and none twice.
    fn key_of_table(&mut self) -> Read<TableKey> {
        let at = self.at;
        let table = self.table()?;
        if self.catalogue.keys.iter().any(|k| k.table == table) {
            return fault(VALUE, at);
        }
        let width = self.catalogue.tables[table as usize].len();
        let mut columns = vec![];
        for _ in 0..self.wide_count(1, self.catalogue.version.columns)? {
            let at = self.at;
            let column = self.index(width)?;
            if columns.contains(&column) {
                return fault(VALUE, at);
            }
            columns.push(column);
        }
        Ok(TableKey { table, columns })
    }
    fn catalogue(&mut self) -> Read<()> {
        for _ in 0..self.count(0, 16)? {
            let n = self.wide_count(0, self.catalogue.version.columns)?;
            let names = self.list(n, Self::nonzero)?;
            self.catalogue.tables.push(names);
        }
        for _ in 0..self.late_count()? {
            let key = self.key_of_table()?;
            self.catalogue.keys.push(key);
        }
        Ok(())
    }
}

/// The version behind the mark.
fn version(src: &[u8]) -> Option<Version> {
    let number = src.get(..5)?.strip_prefix(b"CPL")?;
    [VERSION1, VERSION2].into_iter().find(|v| number == [v.number, 0])
}

pub fn read(src: &[u8]) -> Read<File> {
    let Some(version) = version(src) else {
        return fault(2, 0);
    };
    let catalogue = Catalogue { version, tables: vec![], keys: vec![] };
    let mut r = Reader { src, at: 5, nodes: 0, tags: 0, catalogue };
    r.catalogue()?;
    let plan = r.node()?;
    if r.at < src.len() {
        return fault(TAIL, r.at);
    }
    Ok(File { catalogue: r.catalogue, plan })
}
