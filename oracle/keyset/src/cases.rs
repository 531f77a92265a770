//! Random predicates with few different operands, so that keys come again, mirrored and on both sides of an `or`; and keys to take from them.
use crate::standin::{BinaryExpr, Expr, Operator};
use crate::texts::Pair;
use generator::Random;

fn binary(op: Operator, left: Expr, right: Expr) -> Expr {
    Expr::BinaryExpr(BinaryExpr::new(Box::new(left), op, Box::new(right)))
}

/// One of `width` operands, most of them columns.
fn operand(r: &mut Random, width: usize) -> Expr {
    let x = r.below(width);
    match r.below(20) {
        0 => Expr::Missing,
        1 | 2 => Expr::Literal(x as i64 - 1),
        3 => binary(Operator::Plus, Expr::Column(1, x as u16 + 1), Expr::Literal(1)),
        4 => Expr::Not(Box::new(Expr::Column(1, x as u16 + 1))),
        5 => Expr::IsMissing(Box::new(Expr::Column(2, x as u16 + 1))),
        n => Expr::Column(n as u16 % 3, x as u16 + 1),
    }
}

/// A leaf of a predicate: an equality, or something that is not looked into.
fn leaf(r: &mut Random, width: usize) -> Expr {
    let (a, b) = (operand(r, width), operand(r, width));
    match r.below(20) {
        0 => Expr::Not(Box::new(binary(Operator::Eq, a, b))),
        1 => a,
        2 => binary(*r.pick(&[Operator::Plus, Operator::Minus, Operator::Multiply]), a, b),
        3 => binary(Operator::Lt, a, b),
        4 => binary(Operator::Eq, binary(Operator::And, a.clone(), b.clone()), binary(Operator::Eq, b, a)),
        _ => binary(Operator::Eq, a, b),
    }
}

fn tree(r: &mut Random, leaves: usize, width: usize, ors: usize) -> Expr {
    if leaves == 1 {
        return leaf(r, width);
    }
    let first = r.between(1, leaves - 1);
    let op = if r.percent(ors) { Operator::Or } else { Operator::And };
    let left = tree(r, first, width, ors);
    // the same again on the other side, now and then
    let right = if r.percent(15) { left.clone() } else { tree(r, leaves - first, width, ors) };
    binary(op, left, right)
}

pub fn predicate(r: &mut Random) -> Expr {
    let leaves = match r.below(10) {
        0 => r.between(60, 130),
        1 | 2 => r.between(10, 30),
        _ => r.between(1, 9),
    };
    let width = *r.pick(&[1, 2, 3, 5, 9, 200]);
    let ors = *r.pick(&[0, 10, 30, 50, 80]);
    tree(r, leaves, width, ors)
}

/// All equalities of an expression.
fn equalities(e: &Expr, out: &mut Vec<Pair>) {
    if let Expr::BinaryExpr(b) = e {
        if b.op == Operator::Eq {
            out.push(((*b.left).clone(), (*b.right).clone()));
        }
        equalities(&b.left, out);
        equalities(&b.right, out);
    }
}

/// Keys for the second entry: the predicate's own, or some of its equalities, as they are or mirrored, again and again, with others among them.
pub fn given(r: &mut Random, predicate: &Expr, own: Option<&Vec<Pair>>) -> Vec<Pair> {
    if let (Some(own), true) = (own, r.percent(40)) {
        return own.clone();
    }
    let mut all = vec![];
    equalities(predicate, &mut all);
    let share = *r.pick(&[0, 20, 50, 100]);
    let mut list: Vec<Pair> = all.into_iter().filter(|_| r.percent(share)).collect();
    for _ in 0..*r.pick(&[0, 0, 1, 5, 80]) {
        list.push((operand(r, 12), operand(r, 12)));
    }
    for (a, b) in list.iter_mut() {
        if r.percent(30) {
            std::mem::swap(a, b);
        }
    }
    if r.percent(20) {
        let again = list.clone();
        list.extend(again);
    }
    r.shuffle(&mut list);
    list.truncate(255);
    list
}
