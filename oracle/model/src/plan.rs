//! Plans as documents 01 and 02 have them, in both versions of the file.

/// What a version of the file decides.
#[derive(Clone, Copy, PartialEq, Eq, Debug)]
pub struct Version {
    pub number: u8,
    /// bytes of a count that `columns` or `items` limits, and of a column index
    pub wide: usize,
    /// columns of a table, of a scan's list, of a key
    pub columns: usize,
    /// items, groups, aggregates, windows, an Empty's pairs
    pub items: usize,
    /// fields of a node
    pub fields: usize,
    /// keys and scan filters: are they in the file, and how many at most of each
    pub late: Option<u8>,
}

pub const VERSION1: Version = Version { number: 1, wide: 1, columns: 64, items: 128, fields: 128, late: None };
pub const VERSION2: Version = Version { number: 2, wide: 2, columns: 512, items: 512, fields: 512, late: Some(16) };

/// A table's key: its table and the columns.
#[derive(Clone, PartialEq, Eq, Debug)]
pub struct TableKey {
    pub table: u8,
    pub columns: Vec<u16>,
}

/// What stands before the plan.
#[derive(Clone, PartialEq, Eq, Debug)]
pub struct Catalogue {
    pub version: Version,
    /// the names of each table's columns
    pub tables: Vec<Vec<u16>>,
    pub keys: Vec<TableKey>,
}

impl Catalogue {
    pub fn first(tables: Vec<Vec<u16>>) -> Catalogue {
        Catalogue { version: VERSION1, tables, keys: vec![] }
    }
    /// All columns of a table under a qualifier: what a scan's filters are over.
    pub fn all_of(&self, table: u8, qualifier: u16) -> Vec<Pair> {
        self.tables[table as usize].iter().map(|n| (qualifier, *n)).collect()
    }
}

/// qualifier (0 = none) and name
pub type Pair = (u16, u16);

#[derive(Clone, PartialEq, Eq, Debug)]
pub enum Expr {
    Column(Pair),
    Literal(i64),
    Missing,
    Not(Box<Expr>),
    IsMissing(Box<Expr>),
    /// tags 5 to 11: add, subtract, multiply, equal, less, and, or
    Binary(u8, Box<Expr>, Box<Expr>),
}

/// An item of a projection or group list: a bare column of the pair, or an alias.
#[derive(Clone, PartialEq, Eq, Debug)]
pub struct Item {
    pub pair: Pair,
    pub aliased: bool,
    pub expr: Expr,
}

#[derive(Clone, PartialEq, Eq, Debug)]
pub struct Key {
    /// 1 descending, 2 missing first
    pub flags: u8,
    pub expr: Expr,
}

#[derive(Clone, PartialEq, Eq, Debug)]
pub struct Measure {
    pub pair: Pair,
    pub function: u8,
    pub argument: Option<Expr>,
}

#[derive(Clone, PartialEq, Eq, Debug)]
pub struct Call {
    pub pair: Pair,
    pub function: u8,
    pub partition: Vec<Expr>,
    pub order: Vec<Key>,
    pub argument: Option<Expr>,
}

#[derive(Clone, PartialEq, Eq, Debug)]
pub enum Plan {
    Projection(Vec<Item>, Box<Plan>),
    Filter(Expr, Box<Plan>),
    Sort(Vec<Key>, Box<Plan>),
    Limit(u32, u32, Box<Plan>),
    Aggregate(Vec<Item>, Vec<Measure>, Box<Plan>),
    Window(Vec<Call>, Box<Plan>),
    SubqueryAlias(u16, Box<Plan>),
    Union(Box<Plan>, Box<Plan>),
    Distinct(Box<Plan>),
    Join(Join, Box<Plan>, Box<Plan>),
    /// rows on which a filter is not yes are left out; filters stay as they are
    Scan {
        table: u8,
        qualifier: u16,
        columns: Option<Vec<u16>>,
        filters: Vec<Expr>,
    },
    Empty {
        one_row: bool,
        fields: Vec<Pair>,
    },
}

#[derive(Clone, PartialEq, Eq, Debug)]
pub struct Join {
    /// 0 to 7: Inner, Left, Right, Full, LeftSemi, LeftAnti, RightSemi, RightAnti
    pub kind: u8,
    pub on: Vec<(Expr, Expr)>,
    pub condition: Option<Expr>,
}

#[derive(Clone, PartialEq, Eq, Debug)]
pub struct File {
    pub catalogue: Catalogue,
    pub plan: Plan,
}

/// Which of a join's sides its fields come from.
#[derive(Clone, Copy, PartialEq, Eq, Debug)]
pub enum Sides {
    Both,
    Left,
    Right,
}

impl Join {
    pub fn sides(&self) -> Sides {
        match self.kind {
            0..=3 => Sides::Both,
            4 | 5 => Sides::Left,
            _ => Sides::Right,
        }
    }
}

impl Item {
    pub fn column(pair: Pair) -> Item {
        Item { pair, aliased: false, expr: Expr::Column(pair) }
    }
    pub fn alias(pair: Pair, expr: Expr) -> Item {
        Item { pair, aliased: true, expr }
    }
}

/// The inputs of a plan, lent as the plan is.
macro_rules! inputs {
    ($plan:expr) => {
        match $plan {
            Plan::Projection(_, c)
            | Plan::Filter(_, c)
            | Plan::Sort(_, c)
            | Plan::Limit(_, _, c)
            | Plan::Aggregate(_, _, c)
            | Plan::Window(_, c)
            | Plan::SubqueryAlias(_, c)
            | Plan::Distinct(c) => vec![c],
            Plan::Union(l, r) | Plan::Join(_, l, r) => vec![l, r],
            Plan::Scan { .. } | Plan::Empty { .. } => vec![],
        }
    };
}

impl Plan {
    pub fn children(&self) -> Vec<&Plan> {
        inputs!(self)
    }

    pub fn children_mut(&mut self) -> Vec<&mut Plan> {
        inputs!(self)
    }

    pub fn kind(&self) -> &'static str {
        match self {
            Plan::Projection(..) => "projection",
            Plan::Filter(..) => "filter",
            Plan::Sort(..) => "sort",
            Plan::Limit(..) => "limit",
            Plan::Aggregate(..) => "aggregate",
            Plan::Window(..) => "window",
            Plan::SubqueryAlias(..) => "subqueryalias",
            Plan::Union(..) => "union",
            Plan::Distinct(..) => "distinct",
            Plan::Join(..) => "join",
            Plan::Scan { .. } => "scan",
            Plan::Empty { .. } => "empty",
        }
    }
}
