//! The check of the program: refusals 6, then 13 (02, request 1), then 7, 8
//! and 9 at the earliest token. While it looks at every name it also finds
//! its place.

use std::collections::{HashMap, HashSet};

use crate::cursor::Located;
use crate::expression::{Kind, Name};
use crate::fault::{earliest, Fault};
use crate::program::{self, Program};
use crate::syntax::{Condition, ConsNames, Definition, Exp, ProgramVariable, Shape, Term};

pub fn check_program(definitions: &[Definition]) -> Result<Program, Fault> {
    earliest(repeated_names(definitions))?;
    earliest(rebound_names(definitions))?;
    let mut check = Check { functions: functions(definitions), faults: Vec::new() };
    let checked = definitions.iter().map(|d| check.definition(d)).collect();
    earliest(check.faults)?;
    Ok(Program::new(checked))
}

/// Refusal 6: of equal names every one but the first is at fault.
fn repeated_names(definitions: &[Definition]) -> Vec<Fault> {
    let mut faults = Vec::new();
    repeats(definitions.iter().map(|d| d.name), &mut faults);
    for definition in definitions {
        repeats(definition.parameters.iter().copied(), &mut faults);
        repeats_in_term(&definition.body, &mut faults);
    }
    faults
}

fn repeats<T: std::hash::Hash + Eq>(names: impl Iterator<Item = Located<T>>, faults: &mut Vec<Fault>) {
    let mut seen = HashSet::new();
    for name in names {
        if !seen.insert(name.item) {
            faults.push(Fault::new(6, name.offset));
        }
    }
}

fn repeats_in_term(term: &Term, faults: &mut Vec<Fault>) {
    if let Term::If { condition, branches } = term {
        if let Condition::Cons { names, .. } = condition {
            // `e.h` and `a.h` are two variables, so only the xe can repeat.
            repeats([names.head, names.tail].into_iter(), faults);
        }
        repeats_in_term(&branches.0, faults);
        repeats_in_term(&branches.1, faults);
    }
}

/// Refusal 13: a name that a `cons?` binds although it is in reach there,
/// `e.x` and `a.x` being two. Who calls the definition is not asked.
fn rebound_names(definitions: &[Definition]) -> Vec<Fault> {
    let mut faults = Vec::new();
    for definition in definitions {
        rebound_in_term(&definition.body, &parameters(definition), &mut faults);
    }
    faults
}

fn rebound_in_term(term: &Term, reach: &Reach, faults: &mut Vec<Fault>) {
    let Term::If { condition, branches } = term else { return };
    let (if_true, if_false) = match condition {
        Condition::Eqa { .. } => (reach.clone(), reach.clone()),
        Condition::Cons { names, .. } => {
            let rebound = [names.head, names.tail, names.atom].into_iter().filter(|name| reach.contains(&name.item));
            faults.extend(rebound.map(|name| Fault::new(13, name.offset)));
            branch_reaches(names, reach)
        }
    };
    rebound_in_term(&branches.0, &if_true, faults);
    rebound_in_term(&branches.1, &if_false, faults);
}

type Functions = HashMap<Name, (usize, Vec<Kind>)>;

fn functions(definitions: &[Definition]) -> Functions {
    let kinds = |d: &Definition| d.parameters.iter().map(|p| p.item.0).collect();
    definitions.iter().enumerate().map(|(i, d)| (d.name.item, (i, kinds(d)))).collect()
}

/// The variables in reach, each at its slot.
type Reach = Vec<ProgramVariable>;

fn parameters(definition: &Definition) -> Reach {
    definition.parameters.iter().map(|p| p.item).collect()
}

/// The true branch has the two xe, the false one the xa, neither the
/// other's.
fn branch_reaches(names: &ConsNames, reach: &Reach) -> (Reach, Reach) {
    let with = |new: &[ProgramVariable]| [reach, new].concat();
    (with(&[names.head.item, names.tail.item]), with(&[names.atom.item]))
}

struct Check {
    functions: Functions,
    faults: Vec<Fault>,
}

impl Check {
    fn definition(&mut self, definition: &Definition) -> program::Definition {
        let reach = parameters(definition);
        program::Definition { parameters: reach.iter().map(|variable| variable.0).collect(), body: self.term(&definition.body, &reach) }
    }

    fn term(&mut self, term: &Term, reach: &Reach) -> program::Term {
        match term {
            Term::Exp(exp) => program::Term::End(self.exp(exp, reach)),
            Term::Call { function, arguments } => self.call(function, arguments, reach),
            Term::If { condition, branches } => self.conditional(condition, &branches.0, &branches.1, reach),
        }
    }

    fn call(&mut self, function: &Located<Name>, arguments: &[Exp], reach: &Reach) -> program::Term {
        let known = self.functions.get(&function.item).cloned();
        let (index, kinds) = known.unwrap_or((usize::MAX, Vec::new()));
        if index == usize::MAX || kinds.len() != arguments.len() {
            self.faults.push(Fault::new(7, function.offset));
        }
        for (argument, kind) in arguments.iter().zip(&kinds) {
            if *kind == Kind::A {
                self.atomic(argument);
            }
        }
        let arguments = arguments.iter().map(|e| self.exp(e, reach)).collect();
        program::Term::Call { function: index, arguments }
    }

    fn conditional(&mut self, condition: &Condition, yes: &Term, no: &Term, reach: &Reach) -> program::Term {
        match condition {
            Condition::Eqa { left, right } => {
                self.atomic(left);
                self.atomic(right);
                let (left, right) = (self.exp(left, reach), self.exp(right, reach));
                program::Term::If {
                    condition: program::Condition::Eqa { left, right },
                    yes: Box::new(self.term(yes, reach)),
                    no: Box::new(self.term(no, reach)),
                }
            }
            Condition::Cons { subject, names } => {
                // The subject stands outside both branches, so it is valued
                // where the names of this `cons?` are not yet in reach.
                let subject = self.exp(subject, reach);
                let (if_pair, if_atom) = branch_reaches(names, reach);
                program::Term::If {
                    condition: program::Condition::Cons { subject },
                    yes: Box::new(self.term(yes, &if_pair)),
                    no: Box::new(self.term(no, &if_atom)),
                }
            }
        }
    }

    fn exp(&mut self, exp: &Exp, reach: &Reach) -> program::Exp {
        match &exp.item {
            Shape::Symbol(symbol) => program::Exp::Symbol(*symbol),
            Shape::Cons(parts) => program::Exp::Cons(Box::new(self.exp(&parts.0, reach)), Box::new(self.exp(&parts.1, reach))),
            Shape::Variable(variable) => {
                let slot = reach.iter().position(|v| v == variable);
                if slot.is_none() {
                    self.faults.push(Fault::new(9, exp.offset));
                }
                program::Exp::Slot(slot.unwrap_or(usize::MAX))
            }
        }
    }

    /// Refusal 8 where an ea is due.
    fn atomic(&mut self, exp: &Exp) {
        let atomic = match &exp.item {
            Shape::Symbol(_) => true,
            Shape::Variable((kind, _)) => *kind == Kind::A,
            Shape::Cons(_) => false,
        };
        if !atomic {
            self.faults.push(Fault::new(8, exp.offset));
        }
    }
}
