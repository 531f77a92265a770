//! Stand-in for `datafusion_expr::expr`.
pub use crate::expr_name::SchemaName;
pub use crate::expr_types::*;
use crate::nodes::Subquery;
use datafusion_common::tree_node::{Transformed, TreeNode, TreeNodeRecursion};
use datafusion_common::{Column, HashMap, ScalarValue, TableReference};
use std::collections::HashSet;
use std::sync::atomic::{AtomicU16, Ordering};

/// [D24] Two expressions are equal if they are built alike (the merge's equal-lists step asks this).
#[derive(Debug, Clone, PartialEq, Eq, Hash)]
pub enum Expr {
    Alias(Alias),
    Column(Column),
    Literal(ScalarValue, Option<FieldMetadata>),
    Not(Box<Expr>),
    IsNull(Box<Expr>),
    BinaryExpr(BinaryExpr),
    AggregateFunction(AggregateFunction),
    WindowFunction(Box<WindowFunction>),
    // never built here:
    Exists(Exists),
    InSubquery(InSubquery),
    SetComparison(SetComparison),
    ScalarSubquery(Subquery),
    OuterReferenceColumn((), Column),
}

impl From<Column> for Expr {
    fn from(c: Column) -> Self {
        Expr::Column(c)
    }
}

/// [D8] Bit t of the mask: a definition whose outermost tag beneath the alias is t pushes to leaves (document 01,
/// Merge). A global, since `placement()` takes nothing but the expression.
pub static PUSH_MASK: AtomicU16 = AtomicU16::new(0);

pub struct ExpressionPlacement(bool);
impl ExpressionPlacement {
    pub fn should_push_to_leaves(&self) -> bool {
        self.0
    }
}

impl Expr {
    /// Document 01's tag of the outermost operation beneath aliases.
    pub fn cpl_tag(&self) -> u8 {
        match self {
            Expr::Alias(a) => a.expr.cpl_tag(),
            Expr::Column(_) => 0,
            Expr::Literal(v, _) => 1 + v.is_null() as u8,
            Expr::Not(_) => 3,
            Expr::IsNull(_) => 4,
            Expr::BinaryExpr(b) => 5 + b.op as u8,
            _ => unreachable!("not a document 01 expression"),
        }
    }
    pub fn placement(&self) -> ExpressionPlacement {
        ExpressionPlacement(PUSH_MASK.load(Ordering::Relaxed) >> self.cpl_tag() & 1 == 1)
    }

    pub fn alias_qualified(self, relation: Option<TableReference>, name: String) -> Expr {
        Expr::Alias(Alias { expr: Box::new(self), relation, name, metadata: None })
    }

    /// [D9] The pair of an item: a column's or an alias's own; anything else has no qualifier and its text as name.
    pub fn qualified_name(&self) -> (Option<TableReference>, String) {
        match self {
            Expr::Column(c) => (c.relation.clone(), c.name.clone()),
            Expr::Alias(a) => (a.relation.clone(), a.name.clone()),
            e => (None, e.schema_name().to_string()),
        }
    }
    pub fn schema_name(&self) -> SchemaName<'_> {
        SchemaName(self)
    }

    /// [D10] Every occurrence of a column counts.
    pub fn add_column_ref_counts<'a>(&'a self, map: &mut HashMap<&'a Column, usize>) {
        self.apply(|e| {
            if let Expr::Column(c) = e {
                *map.at(c) += 1;
            }
            Ok(TreeNodeRecursion::Continue)
        })
        .expect("no failure");
    }
    pub fn column_refs(&self) -> HashSet<&Column> {
        let mut s = HashSet::new();
        self.apply(|e| {
            if let Expr::Column(c) = e {
                s.insert(c);
            }
            Ok(TreeNodeRecursion::Continue)
        })
        .expect("no failure");
        s
    }

    /// [D11] Document 01: the definition, "stripped of alias". In a plan file an alias stands only outermost, so
    /// nested ones are not looked for.
    pub fn unalias_nested(self) -> Transformed<Expr> {
        match self {
            Expr::Alias(a) => Transformed::yes(a.expr.unalias_nested().data),
            e => Transformed::no(e),
        }
    }
}
