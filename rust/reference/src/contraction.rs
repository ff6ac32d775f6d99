//! Contractions and the splits made of them (001, section 4.4).

use crate::expression::{Expression, Kind, Variable};
use crate::restriction::NonEquality;
use crate::substitution::Binding;

/// A substitution or a restriction; the identity is the substitution that
/// binds nothing, the contradiction the restriction that nothing satisfies.
#[derive(Clone, Debug)]
pub enum Contraction {
    Substitution(Option<Binding>),
    Restriction(Option<NonEquality>),
}

impl Contraction {
    pub const IDENTITY: Contraction = Contraction::Substitution(None);
    pub const CONTRADICTION: Contraction = Contraction::Restriction(None);

    fn bind(variable: Variable, value: Expression) -> Contraction {
        Contraction::Substitution(Some(Binding { variable, value }))
    }

    /// What this side of a split makes of the subject of a `cons?`: if
    /// anything is bound, it is the subject.
    pub fn subject<'s>(&'s self, subject: &'s Expression) -> &'s Expression {
        match self {
            Contraction::Substitution(Some(binding)) => &binding.value,
            _ => subject,
        }
    }

    pub fn is_contradiction(&self) -> bool {
        matches!(self, Contraction::Restriction(None))
    }
}

/// The contraction of the true branch and that of the false one.
pub struct Split {
    pub yes: Contraction,
    pub no: Contraction,
}

impl Split {
    fn decided(holds: bool) -> Split {
        let (yes, no) = (Contraction::IDENTITY, Contraction::CONTRADICTION);
        if holds {
            Split { yes, no }
        } else {
            Split { yes: no, no: yes }
        }
    }

    /// The split of `eqa?`: left is bound to right if left is a variable,
    /// else right to left; the non-equality is added as written.
    pub fn of_eqa([left, right]: [Expression; 2]) -> Split {
        let yes = match (&left, &right) {
            _ if left == right => return Split::decided(true),
            (Expression::Variable(variable), _) => Contraction::bind(*variable, right.clone()),
            (_, Expression::Variable(variable)) => Contraction::bind(*variable, left.clone()),
            _ => return Split::decided(false),
        };
        Split { yes, no: Contraction::Restriction(Some(NonEquality { left, right })) }
    }

    /// The split of `cons?`; the counter moves on only if a `?e` is split.
    pub fn of_cons(subject: &Expression, counter: Counter) -> (Split, Counter) {
        match subject {
            Expression::Variable(variable) if variable.kind == Kind::E => {
                let (fresh, next) = counter.three();
                let pair = Expression::pair(Expression::variable(Kind::E, fresh.head), Expression::variable(Kind::E, fresh.tail));
                let atom = Expression::variable(Kind::A, fresh.atom);
                let yes = Contraction::bind(*variable, pair);
                (Split { yes, no: Contraction::bind(*variable, atom) }, next)
            }
            Expression::Pair(_) => (Split::decided(true), counter),
            _ => (Split::decided(false), counter),
        }
    }
}

/// The path's counter of fresh numbers.
#[derive(Clone, Copy, Debug)]
pub struct Counter {
    next: u32,
}

pub struct Fresh {
    pub head: u32,
    pub tail: u32,
    pub atom: u32,
}

impl Counter {
    /// Starts one above the largest K of either kind.
    pub fn above(largest: u32) -> Counter {
        Counter { next: largest + 1 }
    }

    /// Three numbers, which both branches of a split use up.
    pub fn three(self) -> (Fresh, Counter) {
        let fresh = Fresh { head: self.next, tail: self.next + 1, atom: self.next + 2 };
        (fresh, Counter { next: self.next + 3 })
    }
}
