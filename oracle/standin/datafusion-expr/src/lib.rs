//! Stand-in for `datafusion-expr`: what the texts of `optimize_projections` and `utils.rs` name, and no more.
//! Marks `[D..]`: oracle/README.md.
mod constructors;
pub mod expr;
mod expr_name;
pub mod expr_rewriter;
mod expr_tree;
mod expr_types;
mod nodes;
mod plan;
mod plan_tree;

pub use constructors::{TableScanBuilder, check_columns};
pub use expr::Expr;
pub use nodes::*;

pub mod logical_plan {
    pub use crate::nodes::LogicalPlan;
}

/// Named by a part of utils.rs that the pass never calls, like the two modules below.
pub enum ColumnarValue {
    Array(arrow::array::ArrayRef),
    Scalar(datafusion_common::ScalarValue),
}
pub mod execution_props {
    #[derive(Default)]
    pub struct ExecutionProps;
}
pub mod physical_planning_context {
    #[derive(Default)]
    pub struct PhysicalPlanningContext;
}
