//! Walks over a plan.
use crate::nodes::*;
use datafusion_common::Result;
use datafusion_common::tree_node::{Transformed, TreeNode, TreeNodeContainer, TreeNodeRecursion};

impl<'a> TreeNodeContainer<'a, Self> for LogicalPlan {
    fn map_elements<F>(self, mut f: F) -> Result<Transformed<Self>>
    where
        F: FnMut(Self) -> Result<Transformed<Self>>,
    {
        f(self)
    }
}

impl TreeNode for LogicalPlan {
    fn apply_children<'n, F>(&'n self, mut f: F) -> Result<TreeNodeRecursion>
    where
        F: FnMut(&'n Self) -> Result<TreeNodeRecursion>,
    {
        for i in self.inputs() {
            f(i)?;
        }
        Ok(TreeNodeRecursion::Continue)
    }

    /// [D18] Children from left to right; the node itself (its stored fields too) stays as it is; the flag is the or
    /// of the children's.
    fn map_children<F>(self, mut f: F) -> Result<Transformed<Self>>
    where
        F: FnMut(Self) -> Result<Transformed<Self>>,
    {
        Ok(match self {
            Self::Filter(Filter { predicate, input }) => {
                input.map_elements(f)?.update_data(|input| Self::Filter(Filter { predicate, input }))
            }
            Self::Sort(Sort { expr, input }) => {
                input.map_elements(f)?.update_data(|input| Self::Sort(Sort { expr, input }))
            }
            Self::Limit(Limit { skip, fetch, input }) => {
                input.map_elements(f)?.update_data(|input| Self::Limit(Limit { skip, fetch, input }))
            }
            Self::SubqueryAlias(SubqueryAlias { input, alias, schema }) => {
                input.map_elements(f)?.update_data(|input| Self::SubqueryAlias(SubqueryAlias { input, alias, schema }))
            }
            Self::Distinct(Distinct::All(input)) => {
                input.map_elements(f)?.update_data(|i| Self::Distinct(Distinct::All(i)))
            }
            Self::Union(Union { inputs, schema }) => {
                inputs.map_elements(f)?.update_data(|inputs| Self::Union(Union { inputs, schema }))
            }
            Self::Join(Join { left, right, on, filter, join_type, schema }) => {
                let l = left.map_elements(&mut f)?;
                let r = right.map_elements(&mut f)?;
                Transformed::new(
                    Self::Join(Join { left: l.data, right: r.data, on, filter, join_type, schema }),
                    l.transformed | r.transformed,
                )
            }
            Self::Extension(Extension { node }) => {
                f(node.inputs()[0].clone())?.update_data(|i| Self::Extension(Extension { node: node.with_input(i) }))
            }
            _ => unreachable!("the texts do not ask this node kind"),
        })
    }
}
