//! The program as it stands in the text, with offsets for the check.

use crate::cursor::Located;
use crate::expression::{Kind, Name};

pub type ProgramVariable = (Kind, Name);

pub struct Definition {
    pub name: Located<Name>,
    pub parameters: Vec<Located<ProgramVariable>>,
    pub body: Term,
}

pub enum Term {
    Call { function: Located<Name>, arguments: Vec<Exp> },
    If { condition: Condition, branches: Box<(Term, Term)> },
    Exp(Exp),
}

pub enum Condition {
    Eqa { left: Exp, right: Exp },
    Cons { subject: Exp, names: ConsNames },
}

/// The two xe and the xa of a `cons?`.
pub struct ConsNames {
    pub head: Located<ProgramVariable>,
    pub tail: Located<ProgramVariable>,
    pub atom: Located<ProgramVariable>,
}

/// An e; its offset is that of its opening bracket or of its word.
pub type Exp = Located<Shape>;

pub enum Shape {
    Cons(Box<(Exp, Exp)>),
    Variable(ProgramVariable),
    Symbol(Name),
}
