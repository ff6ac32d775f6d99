//! The forward runner (001, figure 4).

use crate::expression::{total_nodes, Expression};
use crate::program::{Condition, Environment, Program, Term};

/// How a run ended.
pub enum Ending {
    Value {
        steps: u32,
        value: Expression,
    },
    /// Over the limit of nodes.
    TooLarge,
    /// No end in N steps.
    Longer,
}

/// Runs main on ground inputs. The nodes are those of the inputs and the
/// environment values, at an end of the inputs and the output.
pub fn run(program: &Program, inputs: &[Expression], steps: u32, limit: usize) -> Ending {
    let mut state = State { term: &program.start, environment: Environment::new(inputs.to_vec()) };
    for step in 0..=steps {
        if let Term::End(exp) = state.term {
            let value = state.environment.value(exp);
            let nodes = total_nodes(inputs).saturating_add(value.nodes());
            return match nodes > limit {
                true => Ending::TooLarge,
                false => Ending::Value { steps: step, value },
            };
        }
        let nodes = total_nodes(&state.environment.values);
        if total_nodes(inputs).saturating_add(nodes) > limit {
            return Ending::TooLarge;
        }
        if step < steps {
            state.transition(program);
        }
    }
    Ending::Longer
}

/// A term with an environment.
struct State<'p> {
    term: &'p Term,
    environment: Environment,
}

impl<'p> State<'p> {
    fn transition(&mut self, program: &'p Program) {
        match self.term {
            Term::End(_) => {}
            Term::Call { function, arguments } => {
                self.environment = self.environment.called(arguments);
                self.term = &program.definitions[*function].body;
            }
            Term::If { condition, yes, no } => {
                self.term = if self.decide(condition) { yes } else { no };
            }
        }
    }

    /// Whether the condition holds; `cons?` also binds.
    fn decide(&mut self, condition: &Condition) -> bool {
        match condition {
            Condition::Eqa { left, right } => self.environment.value(left) == self.environment.value(right),
            Condition::Cons { subject } => match self.environment.value(subject) {
                Expression::Pair(pair) => {
                    self.environment.bind(pair.head.clone());
                    self.environment.bind(pair.tail.clone());
                    true
                }
                other => {
                    self.environment.bind(other);
                    false
                }
            },
        }
    }
}
