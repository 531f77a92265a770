//! One run of the published pass.
use crate::{Answer, File, read, words, write_plan};
use datafusion_expr::expr::PUSH_MASK;
use datafusion_expr::{Extension, LogicalPlan, UserDefinedLogicalNode};
use datafusion_optimizer::OptimizerRule;
use datafusion_optimizer::optimize_projections::OptimizeProjections;
use datafusion_optimizer::optimizer::OptimizerContext;
use std::sync::Arc;
use std::sync::atomic::Ordering;

/// The push mask of the runs that follow, in the whole process (D8).
pub fn set_mask(mask: u16) {
    PUSH_MASK.store(mask, Ordering::Relaxed);
}
/// One run of the published pass, all fields requested.
pub fn pass(plan: LogicalPlan) -> Answer<LogicalPlan> {
    OptimizeProjections::new().rewrite(plan, &OptimizerContext).map(|t| t.data).map_err(words)
}
/// A root that asks its input for the given fields. The texts' own arm for Extension nodes turns the answer of
/// `necessary_children_exprs` into the request, so the texts serve any request without a change: their public entry
/// asks for all.
#[derive(Debug)]
struct Asking {
    request: Vec<usize>,
    input: LogicalPlan,
}
impl UserDefinedLogicalNode for Asking {
    fn necessary_children_exprs(&self, _: &[usize]) -> Option<Vec<Vec<usize>>> {
        Some(vec![self.request.clone()])
    }
    fn inputs(&self) -> Vec<&LogicalPlan> {
        vec![&self.input]
    }
    fn with_input(&self, input: LogicalPlan) -> Arc<dyn UserDefinedLogicalNode> {
        Arc::new(Self { request: self.request.clone(), input })
    }
}
/// One run of the published pass for a request.
pub fn pass_asking(input: LogicalPlan, request: &[usize]) -> Answer<LogicalPlan> {
    let node = Arc::new(Asking { request: request.to_vec(), input });
    match pass(LogicalPlan::Extension(Extension { node }))? {
        LogicalPlan::Extension(e) => Ok(e.node.inputs()[0].clone()),
        p => Err(format!("the root is gone: {p:?}")),
    }
}

/// Plan file in, plan file out; `None` asks for all fields, through the texts' public entry.
pub fn run(src: &[u8], request: Option<&[usize]>) -> Answer<Vec<u8>> {
    let File { head: mut out, version, plan } = read(src)?;
    let plan = match request {
        None => pass(plan)?,
        Some(r) => pass_asking(plan, r)?,
    };
    write_plan(&mut out, version, &plan);
    Ok(out)
}
