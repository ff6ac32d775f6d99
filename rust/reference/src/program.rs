//! A checked program: functions by index, variables by their place in the
//! environment.
//!
//! Which variables are in reach depends on the place in the text alone, so
//! every variable has one slot there. A `cons?` binds new names alone (02,
//! request 1), which take the next slots.

use crate::expression::{Expression, Kind, Name};

pub struct Program {
    pub definitions: Vec<Definition>,
    /// The call of main on its own parameters, the term of the start.
    pub start: Term,
}

pub struct Definition {
    pub parameters: Vec<Kind>,
    pub body: Term,
}

pub enum Term {
    Call { function: usize, arguments: Vec<Exp> },
    If { condition: Condition, yes: Box<Term>, no: Box<Term> },
    End(Exp),
}

pub enum Condition {
    Eqa { left: Exp, right: Exp },
    Cons { subject: Exp },
}

pub enum Exp {
    Cons(Box<Exp>, Box<Exp>),
    Slot(usize),
    Symbol(Name),
}

impl Program {
    pub fn new(definitions: Vec<Definition>) -> Program {
        let arguments = (0..definitions[0].parameters.len()).map(Exp::Slot).collect();
        Program { definitions, start: Term::Call { function: 0, arguments } }
    }

    pub fn main_parameters(&self) -> &[Kind] {
        &self.definitions[0].parameters
    }
}

/// A value for each variable in reach, by slot.
#[derive(Clone)]
pub struct Environment {
    pub values: Vec<Expression>,
}

impl Environment {
    pub fn new(values: Vec<Expression>) -> Environment {
        Environment { values }
    }

    /// The value of an e: figure 4 of 001, e/sigma.
    pub fn value(&self, exp: &Exp) -> Expression {
        match exp {
            Exp::Cons(head, tail) => Expression::pair(self.value(head), self.value(tail)),
            Exp::Slot(slot) => self.values[*slot].clone(),
            Exp::Symbol(symbol) => Expression::Atom(*symbol),
        }
    }

    /// The fresh environment of a call: all arguments are valued in the old
    /// one, and nothing else is bound.
    pub fn called(&self, arguments: &[Exp]) -> Environment {
        Environment::new(arguments.iter().map(|e| self.value(e)).collect())
    }

    /// Binds a new name at the next slot.
    pub fn bind(&mut self, value: Expression) {
        self.values.push(value);
    }
}
