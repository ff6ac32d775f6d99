//! The intersection at an end: the output u meets the wanted w (01, "At an
//! end"; 001, Definition 36).

use crate::configuration::{Configuration, NODES};
use crate::expression::{total_nodes, Expression, Kind, Variable};
use crate::restriction::Restriction;
use crate::substitution::{Binding, Filling};

/// How the meeting went.
pub enum Outcome {
    /// Failure or contradiction: the end gives no line.
    NoLine,
    /// Over 4,096 nodes at the start or after a binding.
    Stop21,
    Line(Meeting),
}

/// Inputs, w, u and non-equalities, all under the bindings so far.
pub struct Meeting {
    pub inputs: Vec<Expression>,
    pub wanted: Expression,
    pub output: Expression,
    pub restriction: Restriction,
    /// What has still to meet, w before u, the next pair last.
    remaining: Vec<(Expression, Expression)>,
}

/// What two items do when they meet.
enum Encounter {
    Same,
    Bind(Binding),
    GoInside,
    Fail,
}

pub fn intersect(end: &Configuration, output: Expression) -> Outcome {
    let wanted = end.class.wanted.clone();
    let mut meeting = Meeting {
        inputs: end.class.inputs.clone(),
        remaining: vec![(wanted.clone(), output.clone())],
        wanted,
        output,
        restriction: end.restriction.clone(),
    };
    if meeting.nodes() > NODES {
        return Outcome::Stop21;
    }
    while let Some((wanted, output)) = meeting.remaining.pop() {
        match encounter(&wanted, &output) {
            Encounter::Same => {}
            Encounter::Fail => return Outcome::NoLine,
            Encounter::GoInside => meeting.go_inside(&wanted, &output),
            // A binding is tested for contradiction before 21.
            Encounter::Bind(binding) => match meeting.fill(&binding) {
                None => return Outcome::NoLine,
                Some(filled) if filled.nodes() > NODES => return Outcome::Stop21,
                Some(filled) => meeting = filled,
            },
        }
    }
    Outcome::Line(meeting)
}

/// The rules in the order of 01.
fn encounter(wanted: &Expression, output: &Expression) -> Encounter {
    use Expression::{Atom, Pair};
    if let (Pair(_), Pair(_)) = (wanted, output) {
        return Encounter::GoInside;
    }
    if wanted == output {
        return Encounter::Same;
    }
    if let Some(variable) = variable_of(wanted, Kind::E) {
        return bind_unless_inside(variable, output);
    }
    if let Some(variable) = variable_of(output, Kind::E) {
        return bind_unless_inside(variable, wanted);
    }
    match (variable_of(wanted, Kind::A), variable_of(output, Kind::A), wanted) {
        (Some(variable), _, _) if output.is_atomic() => bind(variable, output),
        (_, Some(variable), Atom(_)) => bind(variable, wanted),
        _ => Encounter::Fail,
    }
}

fn variable_of(item: &Expression, kind: Kind) -> Option<Variable> {
    match item {
        Expression::Variable(variable) if variable.kind == kind => Some(*variable),
        _ => None,
    }
}

fn bind(variable: Variable, value: &Expression) -> Encounter {
    Encounter::Bind(Binding { variable, value: value.clone() })
}

fn bind_unless_inside(variable: Variable, value: &Expression) -> Encounter {
    if value.occurs(variable) {
        Encounter::Fail
    } else {
        bind(variable, value)
    }
}

impl Meeting {
    /// The output u stands for the environment.
    fn nodes(&self) -> usize {
        total_nodes(&self.inputs)
            .saturating_add(self.wanted.nodes())
            .saturating_add(self.output.nodes())
            .saturating_add(self.restriction.nodes())
    }

    /// Head before tail: the head is taken next.
    fn go_inside(&mut self, wanted: &Expression, output: &Expression) {
        if let (Expression::Pair(w), Expression::Pair(u)) = (wanted, output) {
            self.remaining.push((w.tail.clone(), u.tail.clone()));
            self.remaining.push((w.head.clone(), u.head.clone()));
        }
    }

    /// Applies a binding to all; none if it contradicts.
    fn fill(&self, binding: &Binding) -> Option<Meeting> {
        let restriction = self.restriction.fill(binding)?;
        let mut filling = Filling::new(binding);
        Some(Meeting {
            inputs: filling.apply_all(&self.inputs),
            wanted: filling.apply(&self.wanted),
            output: filling.apply(&self.output),
            remaining: self.remaining.iter().map(|(w, u)| (filling.apply(w), filling.apply(u))).collect(),
            restriction,
        })
    }
}
