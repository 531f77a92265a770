//! Stand-in for `optimizer.rs` (the text itself names every other rule). The trait, the configuration and the order as
//! the text declares them, less what the pass does not touch.
use datafusion_common::tree_node::Transformed;
use datafusion_common::{DataFusionError, Result};
use datafusion_expr::LogicalPlan;
use std::fmt::Debug;

pub trait OptimizerRule: Debug {
    fn name(&self) -> &str;
    fn apply_order(&self) -> Option<ApplyOrder> {
        None
    }
    fn supports_rewrite(&self) -> bool {
        true
    }
    fn rewrite(
        &self,
        plan: LogicalPlan,
        config: &dyn OptimizerConfig,
    ) -> Result<Transformed<LogicalPlan>, DataFusionError>;
}

pub trait OptimizerConfig {}
pub struct OptimizerContext;
impl OptimizerConfig for OptimizerContext {}

#[derive(Debug, Clone, Copy, PartialEq)]
pub enum ApplyOrder {
    TopDown,
    BottomUp,
}
