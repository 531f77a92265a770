//! The two functions of eliminate_cross_join.rs, and one run of them. Document 02 refuses a 65th pair in any set; the texts know no limit, so their
//! largest set is asked for.
use crate::join_key_set::JoinKeySet;
use crate::standin::{BinaryExpr, Expr, Operator, largest};

include!(concat!(env!("OUT_DIR"), "/functions.rs"));

const MOST: usize = 64;

pub type Pair = (Expr, Expr);

/// The keys of a predicate, in insertion order; none where a set has a 65th.
pub fn keys(predicate: &Expr) -> Option<Vec<Pair>> {
    largest();
    let mut set = JoinKeySet::new();
    extract_possible_join_keys(predicate, &mut set);
    (largest() <= MOST).then(|| set.iter().map(|(l, r)| (l.clone(), r.clone())).collect())
}

/// What is left of a predicate without the given keys; none where their set has a 65th.
pub fn without(predicate: &Expr, given: &[Pair]) -> Option<Option<Expr>> {
    largest();
    let mut set = JoinKeySet::new();
    set.insert_all(given);
    (largest() <= MOST).then(|| remove_join_expressions(predicate.clone(), &set))
}
