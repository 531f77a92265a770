//! The plan nodes.
use crate::expr::{Expr, Sort as SortExpr};
use datafusion_common::{DFSchemaRef, JoinType, TableReference};
use std::fmt;
use std::sync::Arc;

/// The payload of node kinds that document 01 leaves out: never built.
#[derive(Debug, Clone, PartialEq, Eq, Hash)]
pub enum Absent {}

#[derive(Debug, Clone)]
pub enum LogicalPlan {
    Projection(Projection),
    Filter(Filter),
    Sort(Sort),
    Limit(Limit),
    Aggregate(Aggregate),
    Window(Window),
    SubqueryAlias(SubqueryAlias),
    Union(Union),
    Distinct(Distinct),
    Join(Join),
    TableScan(TableScan),
    EmptyRelation(EmptyRelation),
    /// [D20] only as a root, to ask for other fields than all (the rig's `Asking`)
    Extension(Extension),
    // never built, but named by the texts' matches:
    Unnest(Unnest),
    Repartition(Absent),
    Copy(Absent),
    Ddl(Absent),
    Dml(Absent),
    Explain(Absent),
    Analyze(Absent),
    Subquery(Absent),
    Statement(Absent),
    Values(Absent),
    DescribeTable(Absent),
    RecursiveQuery(Absent),
}

#[derive(Debug, Clone)]
pub struct Projection {
    pub expr: Vec<Expr>,
    pub input: Arc<LogicalPlan>,
    pub schema: DFSchemaRef,
}
#[derive(Debug, Clone)]
pub struct Filter {
    pub predicate: Expr,
    pub input: Arc<LogicalPlan>,
}
#[derive(Debug, Clone)]
pub struct Sort {
    pub expr: Vec<SortExpr>,
    pub input: Arc<LogicalPlan>,
}
#[derive(Debug, Clone)]
pub struct Limit {
    pub skip: Option<Box<Expr>>,
    pub fetch: Option<Box<Expr>>,
    pub input: Arc<LogicalPlan>,
}
#[derive(Debug, Clone)]
pub struct Aggregate {
    pub input: Arc<LogicalPlan>,
    pub group_expr: Vec<Expr>,
    pub aggr_expr: Vec<Expr>,
    pub schema: DFSchemaRef,
}
#[derive(Debug, Clone)]
pub struct Window {
    pub input: Arc<LogicalPlan>,
    pub window_expr: Vec<Expr>,
    pub schema: DFSchemaRef,
}
#[derive(Debug, Clone)]
pub struct SubqueryAlias {
    pub input: Arc<LogicalPlan>,
    pub alias: TableReference,
    pub schema: DFSchemaRef,
}
#[derive(Debug, Clone)]
pub struct Union {
    pub inputs: Vec<Arc<LogicalPlan>>,
    pub schema: DFSchemaRef,
}
#[derive(Debug, Clone)]
pub enum Distinct {
    All(Arc<LogicalPlan>),
    On(Absent),
}
#[derive(Debug, Clone)]
pub struct Join {
    pub left: Arc<LogicalPlan>,
    pub right: Arc<LogicalPlan>,
    pub on: Vec<(Expr, Expr)>,
    pub filter: Option<Expr>,
    pub join_type: JoinType,
    pub schema: DFSchemaRef,
}
/// A table of the catalogue: its number, its column names and its key. [D2] A key is the crate's primary key: no value of it is missing.
#[derive(Debug, PartialEq, Eq)]
pub struct TableSource {
    pub number: u8,
    pub names: Vec<String>,
    pub key: Option<Vec<usize>>,
}
#[derive(Debug, Clone)]
pub struct TableScan {
    pub table_name: TableReference,
    pub source: Arc<TableSource>,
    pub projection: Option<Vec<usize>>,
    pub projected_schema: DFSchemaRef,
    pub filters: Vec<Expr>,
}
#[derive(Debug, Clone)]
pub struct EmptyRelation {
    pub produce_one_row: bool,
    pub schema: DFSchemaRef,
}
#[derive(Debug, Clone)]
pub struct Unnest {
    pub input: Arc<LogicalPlan>,
    pub dependency_indices: Vec<usize>,
    pub never: Absent,
}
pub trait UserDefinedLogicalNode: fmt::Debug {
    fn necessary_children_exprs(&self, output: &[usize]) -> Option<Vec<Vec<usize>>>;
    fn inputs(&self) -> Vec<&LogicalPlan>;
    fn with_input(&self, input: LogicalPlan) -> Arc<dyn UserDefinedLogicalNode>;
}
/// [D20] A node with one input, the same fields and no expressions.
#[derive(Debug, Clone)]
pub struct Extension {
    pub node: Arc<dyn UserDefinedLogicalNode>,
}
#[derive(Debug, Clone, PartialEq, Eq, Hash)]
pub struct Subquery {
    pub outer_ref_columns: Vec<Expr>,
    pub never: Absent,
}
