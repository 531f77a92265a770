//! Merging a projection with those beneath it.
use crate::accept::fits;
use crate::exprs::columns_of;
use crate::plan::*;
use crate::rewrite::Setting;
use std::collections::HashMap;

/// A merge step's list is over 4,096 tags.
pub struct Large;

/// The merged list and what stands beneath it.
pub fn merge<'a>(items: &[Item], child: &'a Plan, set: &Setting) -> Result<(Vec<Item>, &'a Plan), Large> {
    let (mut items, mut child) = (items.to_vec(), child);
    while let Plan::Projection(below, input) = child {
        let kept = |i: &Item| !i.aliased || columns_of([&i.expr]).is_empty();
        if items == *below && (!set.house || items.iter().all(kept)) {
            child = input;
            continue;
        }
        // uses by written pair; the definition is the one that the reference finds
        let mut uses: HashMap<Pair, usize> = HashMap::new();
        for c in columns_of(items.iter().map(|i| &i.expr)) {
            *uses.entry(c).or_default() += 1;
        }
        let definition = |p: Pair| below.iter().find(|i| fits(p, i.pair)).map_or(&Expr::Missing, |i| &i.expr);
        let pushes = |p: Pair| set.mask >> definition(p).tag() & 1 == 1;
        if uses.is_empty() || uses.iter().any(|(p, n)| *n > 1 && !pushes(*p)) {
            break;
        }
        let grown: usize = uses.iter().map(|(p, n)| n * (definition(*p).tags() - 1)).sum();
        if set.limits && items.iter().map(|i| i.expr.tags()).sum::<usize>() + grown > 4096 {
            return Err(Large);
        }
        items = items.iter().map(|i| step(i, &|p| definition(p).clone())).collect();
        if set.limits && items.iter().map(Item::tags).sum::<usize>() > 4096 {
            return Err(Large);
        }
        child = input;
    }
    Ok((items, child))
}

/// "Each item keeps its pair, aliased only where its expression is not a column of that pair, except that an item
/// aliased with a nonzero qualifier stays aliased."
fn step(item: &Item, definition: &dyn Fn(Pair) -> Expr) -> Item {
    let expr = item.expr.replace(definition);
    let own = expr == Expr::Column(item.pair) && !(item.aliased && item.pair.0 != 0);
    Item { pair: item.pair, aliased: !own, expr }
}
