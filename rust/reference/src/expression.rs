//! Expressions: values with variables in them, as shared trees.
//!
//! A pair keeps the number of nodes of its tree, so that 21 and 22 are
//! judged without walking it, and a summary of its variables, so that a
//! substitution leaves subtrees alone that cannot hold the variable.

use std::rc::Rc;

pub const NAME_LENGTH: usize = 16;

/// 1 to 16 letters or digits, padded with noughts (which are no letters).
#[derive(Clone, Copy, Debug, PartialEq, Eq, PartialOrd, Ord, Hash)]
pub struct Name([u8; NAME_LENGTH]);

impl Name {
    /// The name of these bytes, of which the first 16 count.
    pub fn new(text: &[u8]) -> Name {
        let mut bytes = [0; NAME_LENGTH];
        for (to, from) in bytes.iter_mut().zip(text) {
            *to = *from;
        }
        Name(bytes)
    }

    pub fn text(&self) -> &[u8] {
        let length = self.0.iter().position(|&b| b == 0).unwrap_or(NAME_LENGTH);
        &self.0[..length]
    }
}

/// Any value (`e`) or atoms only (`a`), for program and job variables.
#[derive(Clone, Copy, Debug, PartialEq, Eq, PartialOrd, Ord, Hash)]
pub enum Kind {
    E,
    A,
}

/// `?eK` or `?aK`; the two kinds of one number are two variables.
#[derive(Clone, Copy, Debug, PartialEq, Eq, PartialOrd, Ord, Hash)]
pub struct Variable {
    pub kind: Kind,
    pub number: u32,
}

impl Variable {
    /// The variable's bit in the summaries of trees.
    fn bit(self) -> u64 {
        let kind = match self.kind {
            Kind::E => 0,
            Kind::A => 32,
        };
        1 << ((self.number + kind) % 64)
    }
}

#[derive(Clone)]
pub enum Expression {
    Atom(Name),
    Variable(Variable),
    Pair(Rc<Pair>),
}

pub struct Pair {
    pub head: Expression,
    pub tail: Expression,
    nodes: usize,
    variables: u64,
}

impl Expression {
    pub fn atom(text: &str) -> Expression {
        Expression::Atom(Name::new(text.as_bytes()))
    }

    pub fn variable(kind: Kind, number: u32) -> Expression {
        Expression::Variable(Variable { kind, number })
    }

    pub fn pair(head: Expression, tail: Expression) -> Expression {
        // Trees of one transition stay far below this bound; only the
        // unlimited runs of the ground check could ever reach it.
        let nodes = head.nodes().saturating_add(tail.nodes()).saturating_add(1);
        let variables = head.summary() | tail.summary();
        Expression::Pair(Rc::new(Pair { head, tail, nodes, variables }))
    }

    /// Every atom, variable and pair, written as a tree.
    pub fn nodes(&self) -> usize {
        match self {
            Expression::Pair(pair) => pair.nodes,
            _ => 1,
        }
    }

    fn summary(&self) -> u64 {
        match self {
            Expression::Atom(_) => 0,
            Expression::Variable(variable) => variable.bit(),
            Expression::Pair(pair) => pair.variables,
        }
    }

    /// An atom or a `?a`: what may stand where an ea is due.
    pub fn is_atomic(&self) -> bool {
        match self {
            Expression::Atom(_) => true,
            Expression::Variable(variable) => variable.kind == Kind::A,
            Expression::Pair(_) => false,
        }
    }

    pub fn is_ground(&self) -> bool {
        self.summary() == 0
    }

    /// False only if the variable stands nowhere in the tree.
    pub fn may_hold(&self, variable: Variable) -> bool {
        self.summary() & variable.bit() != 0
    }

    pub fn occurs(&self, variable: Variable) -> bool {
        match self {
            Expression::Atom(_) => false,
            Expression::Variable(other) => *other == variable,
            Expression::Pair(pair) => self.may_hold(variable) && (pair.head.occurs(variable) || pair.tail.occurs(variable)),
        }
    }

    /// Calls `visit` on every variable, in the order of the text.
    pub fn each_variable(&self, visit: &mut impl FnMut(Variable)) {
        match self {
            Expression::Atom(_) => {}
            Expression::Variable(variable) => visit(*variable),
            Expression::Pair(pair) => {
                if pair.variables != 0 {
                    pair.head.each_variable(visit);
                    pair.tail.each_variable(visit);
                }
            }
        }
    }
}

/// As it is printed, so that a message can be read.
impl std::fmt::Debug for Expression {
    fn fmt(&self, f: &mut std::fmt::Formatter<'_>) -> std::fmt::Result {
        let mut text = Vec::new();
        crate::print::print_expression(&mut text, self);
        f.write_str(&String::from_utf8_lossy(&text))
    }
}

impl PartialEq for Expression {
    fn eq(&self, other: &Expression) -> bool {
        match (self, other) {
            (Expression::Atom(a), Expression::Atom(b)) => a == b,
            (Expression::Variable(a), Expression::Variable(b)) => a == b,
            (Expression::Pair(a), Expression::Pair(b)) => Rc::ptr_eq(a, b) || (a.nodes == b.nodes && a.head == b.head && a.tail == b.tail),
            _ => false,
        }
    }
}

impl Eq for Expression {}

/// The nodes of several trees together.
pub fn total_nodes(trees: &[Expression]) -> usize {
    trees.iter().fold(0, |sum, tree| sum.saturating_add(tree.nodes()))
}
