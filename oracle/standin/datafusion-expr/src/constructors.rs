//! Constructors, with the fields of document 01's "Fields and meaning".
use crate::Expr;
use crate::nodes::*;
use datafusion_common::tree_node::{TreeNode, TreeNodeRecursion};
use datafusion_common::{
    Column, DFSchema, DFSchemaRef, DataFusionError, FunctionalDependencies, JoinType, Result, TableReference,
    column_places, number_field,
};
use std::sync::Arc;

/// [D13] Every column of an expression must be found in the input, and only once.
pub fn check_columns(e: &Expr, input: &DFSchema) -> Result<()> {
    e.apply(|e| {
        if let Expr::Column(c) = e {
            input.field_from_column(c)?;
        }
        Ok(TreeNodeRecursion::Continue)
    })
    .map(|_| ())
}

/// [D14] The fields of a list of items: each keeps its pair, a column the one that is written; a column's field is the
/// input's own, anything else gets a fresh one.
fn fields_of<'a>(
    exprs: impl IntoIterator<Item = &'a Expr>,
    input: &DFSchema,
    out: &mut Vec<(Option<TableReference>, arrow::datatypes::FieldRef)>,
) -> Result<()> {
    for e in exprs {
        out.push(match e {
            Expr::Column(c) => (c.relation.clone(), Arc::clone(input.field_from_column(c)?)),
            e => {
                check_columns(e, input)?;
                let (q, n) = e.qualified_name();
                (q, number_field(n))
            }
        });
    }
    Ok(())
}

/// The column that an item is, aliased or not.
fn column_of(e: &Expr) -> Option<&Column> {
    match e {
        Expr::Column(c) => Some(c),
        Expr::Alias(a) => match &*a.expr {
            Expr::Column(c) => Some(c),
            _ => None,
        },
        _ => None,
    }
}

/// [D26] A projection's dependencies: its items are looked up by their texts beneath the alias, and a place is counted among those that are found.
fn of_items(expr: &[Expr], input: &DFSchema) -> FunctionalDependencies {
    let all = input.functional_dependencies();
    if all.is_empty() {
        return FunctionalDependencies::NONE;
    }
    all.project(&column_places(expr.iter().map(column_of), input), expr.len())
}

impl Projection {
    pub fn try_new(expr: Vec<Expr>, input: Arc<LogicalPlan>) -> Result<Self> {
        let mut fields = Vec::with_capacity(expr.len());
        fields_of(&expr, input.schema(), &mut fields)?;
        let all = of_items(&expr, input.schema());
        let schema = Arc::new(DFSchema::new_qualified(fields)?.with_functional_dependencies(all)?);
        Self::try_new_with_schema(expr, input, schema)
    }
    pub fn try_new_with_schema(expr: Vec<Expr>, input: Arc<LogicalPlan>, schema: DFSchemaRef) -> Result<Self> {
        if expr.len() != schema.fields().len() {
            return Err(DataFusionError::Plan("projection width".into()));
        }
        Ok(Self { expr, input, schema })
    }
}

impl Aggregate {
    pub fn try_new(input: Arc<LogicalPlan>, group_expr: Vec<Expr>, aggr_expr: Vec<Expr>) -> Result<Self> {
        let mut fields = Vec::with_capacity(group_expr.len() + aggr_expr.len());
        fields_of(group_expr.iter().chain(&aggr_expr), input.schema(), &mut fields)?;
        let schema = DFSchema::new_qualified(fields)?;
        let groups: Vec<String> = group_expr.iter().map(|e| e.schema_name().to_string()).collect();
        let all = FunctionalDependencies::aggregate(input.schema(), &groups, &schema);
        let schema = Arc::new(schema.with_functional_dependencies(all)?);
        Ok(Self { input, group_expr, aggr_expr, schema })
    }
    /// [D21] No grouping sets: each group is a field.
    pub fn group_expr_len(&self) -> Result<usize> {
        Ok(self.group_expr.len())
    }
}

/// [D28] A row number over all rows. The alias is the rig's way to name the field; the crate's windows have none here.
fn numbers_all(e: &Expr) -> bool {
    let Expr::Alias(a) = e else { return false };
    matches!(&*a.expr, Expr::WindowFunction(w) if w.fun == 0 && w.partition_by.is_empty())
}

impl Window {
    /// [D28] The input's dependencies, and each row number over all rows determines the row.
    pub fn try_new(window_expr: Vec<Expr>, input: Arc<LogicalPlan>) -> Result<Self> {
        let mut fields: Vec<_> = owned(input.schema()).collect();
        let first = fields.len();
        fields_of(&window_expr, input.schema(), &mut fields)?;
        let width = fields.len();
        let mut all = input.schema().functional_dependencies().clone().widen(width);
        for (i, _) in window_expr.iter().enumerate().filter(|(_, e)| numbers_all(e)) {
            all = all.and(FunctionalDependencies::single(vec![first + i], width, false));
        }
        let schema = Arc::new(DFSchema::new_qualified(fields)?.with_functional_dependencies(all)?);
        Ok(Self { input, window_expr, schema })
    }
}

impl Filter {
    pub fn try_new(predicate: Expr, input: Arc<LogicalPlan>) -> Result<Self> {
        check_columns(&predicate, input.schema())?;
        Ok(Self { predicate, input })
    }
}

impl SubqueryAlias {
    pub fn try_new(input: Arc<LogicalPlan>, alias: TableReference) -> Result<Self> {
        let fields = input.schema().fields().iter().map(|f| (Some(alias.clone()), Arc::clone(f))).collect();
        let all = input.schema().functional_dependencies().clone();
        let schema = Arc::new(DFSchema::new_qualified(fields)?.with_functional_dependencies(all)?);
        Ok(Self { input, alias, schema })
    }
}

impl Union {
    /// "A Union takes the first input's pairs." [D26] It has no dependencies.
    pub fn try_new(inputs: Vec<Arc<LogicalPlan>>) -> Result<Self> {
        let mut schema = Arc::clone(inputs[0].schema());
        if !schema.functional_dependencies().is_empty() {
            let bare = DFSchema::clone(&schema).with_functional_dependencies(FunctionalDependencies::NONE)?;
            schema = Arc::new(bare);
        }
        if inputs.iter().any(|i| i.schema().fields().len() != schema.fields().len()) {
            return Err(DataFusionError::Plan("union width".into()));
        }
        Ok(Self { inputs, schema })
    }
}

fn owned(s: &DFSchema) -> impl Iterator<Item = (Option<TableReference>, arrow::datatypes::FieldRef)> {
    s.iter().map(|(q, f)| (q.cloned(), Arc::clone(f)))
}

impl Join {
    pub fn try_new(
        left: Arc<LogicalPlan>,
        right: Arc<LogicalPlan>,
        on: Vec<(Expr, Expr)>,
        filter: Option<Expr>,
        join_type: JoinType,
    ) -> Result<Self> {
        use JoinType::*;
        let (l, r) = (left.schema(), right.schema());
        let schema = match join_type {
            Inner | Left | Right | Full => {
                let both = DFSchema::new_qualified(owned(l).chain(owned(r)).collect())?;
                let all = l.functional_dependencies();
                let all = all.join(r.functional_dependencies(), join_type, l.fields().len());
                Arc::new(both.with_functional_dependencies(all)?)
            }
            LeftSemi | LeftAnti => Arc::clone(l),
            RightSemi | RightAnti => Arc::clone(r),
            LeftMark | RightMark => unreachable!("no mark joins in the rig"),
        };
        Ok(Self { left, right, on, filter, join_type, schema })
    }
}

/// [D25] A scan's filters are over all columns of its table under the scan's name, whatever the projection has. Each of their
/// columns must be found there, and only once; the columns themselves may have one name twice.
fn check_filter(e: &Expr, table_name: &TableReference, source: &TableSource) -> Result<()> {
    e.apply(|e| {
        if let Expr::Column(c) = e {
            let own = c.relation.as_ref().is_none_or(|q| q == table_name);
            let fitting = source.names.iter().filter(|n| own && **n == c.name).count();
            if fitting != 1 {
                return Err(DataFusionError::Plan(format!("{fitting} columns fit a filter's {}", c.name)));
            }
        }
        Ok(TreeNodeRecursion::Continue)
    })
    .map(|_| ())
}

/// [D25] The builder keeps the filters.
pub struct TableScanBuilder(TableScan);
impl From<TableScan> for TableScanBuilder {
    fn from(s: TableScan) -> Self {
        Self(s)
    }
}
impl TableScanBuilder {
    pub fn with_projection(mut self, p: Option<Vec<usize>>) -> Self {
        self.0.projection = p;
        self
    }
    pub fn build(self) -> Result<TableScan> {
        let TableScan { table_name, source, projection, filters, .. } = self.0;
        TableScan::try_new(table_name, source, projection, filters)
    }
}
impl TableScan {
    /// "A scan has its qualifier with the names at its projection, or all." [D2] Its table's key determines the row.
    pub fn try_new(
        table_name: TableReference,
        source: Arc<TableSource>,
        projection: Option<Vec<usize>>,
        filters: Vec<Expr>,
    ) -> Result<Self> {
        filters.iter().try_for_each(|e| check_filter(e, &table_name, &source))?;
        let field = |i: usize| (Some(table_name.clone()), number_field(source.names[i].as_str()));
        let fields = match &projection {
            Some(p) => p.iter().map(|&i| field(i)).collect(),
            None => (0..source.names.len()).map(field).collect(),
        };
        let all = match (&source.key, &projection) {
            (None, _) => FunctionalDependencies::NONE,
            (Some(key), None) => FunctionalDependencies::single(key.clone(), source.names.len(), false),
            (Some(key), Some(p)) => {
                FunctionalDependencies::single(key.clone(), source.names.len(), false).project(p, p.len())
            }
        };
        let projected_schema = Arc::new(DFSchema::new_qualified(fields)?.with_functional_dependencies(all)?);
        Ok(Self { table_name, source, projection, projected_schema, filters })
    }
}
