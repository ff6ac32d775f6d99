//! Fillings, and which pairs they make of patterns (01, "Sets, filling and
//! splitting"). This is written apart from the substitutions of the walk.

use std::collections::{BTreeSet, HashMap};

use crate::expression::{Expression, Kind, Variable};
use crate::restriction::NonEquality;

/// Ground values for the variables of a pattern.
pub type Filling = HashMap<Variable, Expression>;

/// Whether some filling that satisfies the non-equalities makes this pair.
pub fn lies_in(patterns: &[Expression], wanted: &Expression, neqs: &[NonEquality], inputs: &[Expression], output: &Expression) -> bool {
    let mut filling = Filling::new();
    patterns.iter().zip(inputs).all(|(p, v)| matches(p, v, &mut filling))
        && matches(wanted, output, &mut filling)
        && satisfies(neqs, &filling)
}

fn matches(pattern: &Expression, value: &Expression, filling: &mut Filling) -> bool {
    match (pattern, value) {
        (Expression::Variable(variable), _) => {
            if variable.kind == Kind::A && !value.is_atomic() {
                return false;
            }
            *filling.entry(*variable).or_insert_with(|| value.clone()) == *value
        }
        (Expression::Pair(p), Expression::Pair(v)) => matches(&p.head, &v.head, filling) && matches(&p.tail, &v.tail, filling),
        _ => pattern == value,
    }
}

/// Both sides of each non-equality become different; a side that the
/// filling leaves open can still be made so, unless it faces itself.
pub fn satisfies(neqs: &[NonEquality], filling: &Filling) -> bool {
    neqs.iter().all(|neq| fill(&neq.left, filling) != fill(&neq.right, filling))
}

pub fn fill(tree: &Expression, filling: &Filling) -> Expression {
    match tree {
        Expression::Atom(_) => tree.clone(),
        Expression::Variable(variable) => filling.get(variable).unwrap_or(tree).clone(),
        Expression::Pair(_) if tree.is_ground() => tree.clone(),
        Expression::Pair(pair) => Expression::pair(fill(&pair.head, filling), fill(&pair.tail, filling)),
    }
}

pub fn variables_of<'e>(items: impl Iterator<Item = &'e Expression>) -> Vec<Variable> {
    let mut found = BTreeSet::new();
    for item in items {
        item.each_variable(&mut |variable| {
            found.insert(variable);
        });
    }
    found.into_iter().collect()
}
