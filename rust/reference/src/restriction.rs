//! Restrictions: lists of non-equalities between atomic items (001,
//! Definitions 4 to 9 and 14). A contradiction is `None`.

use std::collections::HashSet;
use std::rc::Rc;

use crate::expression::{Expression, Kind, Name, Variable};
use crate::substitution::Binding;

#[derive(Clone, Debug, PartialEq, Eq)]
pub struct NonEquality {
    pub left: Expression,
    pub right: Expression,
}

/// Non-equalities, oldest first, simplified: none of two atoms, none of an
/// item against itself, none a repeat in either order of sides.
#[derive(Clone, Debug)]
pub struct Restriction {
    items: Rc<Vec<NonEquality>>,
}

/// An atomic item that can be ordered and hashed.
#[derive(Clone, Copy, PartialEq, Eq, PartialOrd, Ord, Hash)]
enum Leaf {
    Atom(Name),
    Variable(Variable),
}

fn leaf(item: &Expression) -> Leaf {
    match item {
        Expression::Atom(name) => Leaf::Atom(*name),
        Expression::Variable(variable) => Leaf::Variable(*variable),
        Expression::Pair(_) => unreachable!("01 has no non-equalities of whole expressions"),
    }
}

impl NonEquality {
    /// Equal for repeats "in either order of sides".
    fn unordered(&self) -> (Leaf, Leaf) {
        let (left, right) = (leaf(&self.left), leaf(&self.right));
        if left <= right {
            (left, right)
        } else {
            (right, left)
        }
    }

    fn is_tautology(&self) -> bool {
        let atoms = (&self.left, &self.right);
        matches!(atoms, (Expression::Atom(a), Expression::Atom(b)) if a != b)
    }

    fn is_contradiction(&self) -> bool {
        self.left == self.right
    }
}

impl Restriction {
    /// 001, Definition 8; the first of repeats stays where it stood.
    pub fn simplified(items: impl Iterator<Item = NonEquality>) -> Option<Restriction> {
        let mut kept = Vec::new();
        let mut seen = HashSet::new();
        for item in items {
            if item.is_contradiction() {
                return None;
            }
            if !item.is_tautology() && seen.insert(item.unordered()) {
                kept.push(item);
            }
        }
        Some(Restriction { items: Rc::new(kept) })
    }

    /// 001, Definition 9, for one more non-equality, as written.
    pub fn add(&self, item: NonEquality) -> Option<Restriction> {
        if item.is_contradiction() {
            return None;
        }
        let mut sum = self.clone();
        let repeat = |other: &NonEquality| other.unordered() == item.unordered();
        if !item.is_tautology() && !self.items.iter().any(repeat) {
            Rc::make_mut(&mut sum.items).push(item);
        }
        Some(sum)
    }

    /// 001, Definition 14.
    pub fn fill(&self, binding: &Binding) -> Option<Restriction> {
        let variable = Expression::Variable(binding.variable);
        let touched = |item: &NonEquality| item.left == variable || item.right == variable;
        if binding.variable.kind == Kind::E || !self.items.iter().any(touched) {
            return Some(self.clone());
        }
        let fill = |side: &Expression| match *side == variable {
            true => binding.value.clone(),
            false => side.clone(),
        };
        let filled = |item: &NonEquality| NonEquality { left: fill(&item.left), right: fill(&item.right) };
        Restriction::simplified(self.items.iter().map(filled))
    }

    pub fn items(&self) -> &[NonEquality] {
        &self.items
    }

    /// 2 for each non-equality.
    pub fn nodes(&self) -> usize {
        2 * self.items.len()
    }
}
