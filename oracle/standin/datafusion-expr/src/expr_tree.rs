//! Walks over an expression.
use crate::Expr;
use crate::expr::{Alias, BinaryExpr};
use datafusion_common::Result;
use datafusion_common::tree_node::{Transformed, TreeNode, TreeNodeContainer, TreeNodeRecursion};

impl<'a> TreeNodeContainer<'a, Self> for Expr {
    fn map_elements<F>(self, mut f: F) -> Result<Transformed<Self>>
    where
        F: FnMut(Self) -> Result<Transformed<Self>>,
    {
        f(self)
    }
}

impl TreeNode for Expr {
    fn apply_children<'n, F>(&'n self, mut f: F) -> Result<TreeNodeRecursion>
    where
        F: FnMut(&'n Self) -> Result<TreeNodeRecursion>,
    {
        match self {
            Expr::Alias(a) => f(&a.expr),
            Expr::Not(e) | Expr::IsNull(e) => f(e),
            Expr::BinaryExpr(b) => {
                f(&b.left)?;
                f(&b.right)
            }
            Expr::AggregateFunction(a) => {
                for e in &a.args {
                    f(e)?;
                }
                Ok(TreeNodeRecursion::Continue)
            }
            Expr::WindowFunction(w) => {
                for e in w.args.iter().chain(&w.partition_by) {
                    f(e)?;
                }
                for k in &w.order_by {
                    f(&k.expr)?;
                }
                Ok(TreeNodeRecursion::Continue)
            }
            _ => Ok(TreeNodeRecursion::Continue),
        }
    }

    fn map_children<F>(self, mut f: F) -> Result<Transformed<Self>>
    where
        F: FnMut(Self) -> Result<Transformed<Self>>,
    {
        Ok(match self {
            Expr::Alias(Alias { expr, relation, name, metadata }) => {
                expr.map_elements(f)?.update_data(|expr| Expr::Alias(Alias { expr, relation, name, metadata }))
            }
            Expr::Not(e) => e.map_elements(f)?.update_data(Expr::Not),
            Expr::IsNull(e) => e.map_elements(f)?.update_data(Expr::IsNull),
            Expr::BinaryExpr(BinaryExpr { left, op, right }) => {
                let l = left.map_elements(&mut f)?;
                let r = right.map_elements(&mut f)?;
                Transformed::new(
                    Expr::BinaryExpr(BinaryExpr { left: l.data, op, right: r.data }),
                    l.transformed | r.transformed,
                )
            }
            // The pass only rewrites items of projections, which hold no calls.
            e => Transformed::no(e),
        })
    }
}
