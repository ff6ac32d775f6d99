//! Configurations and their transitions (001, figure 10 and the extended
//! relation of section 6.2, which carries the class along).

use std::rc::Rc;

use crate::contraction::{Contraction, Counter, Split};
use crate::expression::{total_nodes, Expression};
use crate::job_check::Job;
use crate::program::{Condition, Environment, Program, Term};
use crate::restriction::{NonEquality, Restriction};
use crate::substitution::{Binding, Filling};

/// 21: more nodes than this stop the walk and the runner.
pub const NODES: usize = 4_096;

/// The job's inputs and wanted output under the path's substitution.
pub struct Class {
    pub inputs: Vec<Expression>,
    pub wanted: Expression,
}

impl Class {
    pub fn nodes(&self) -> usize {
        total_nodes(&self.inputs).saturating_add(self.wanted.nodes())
    }
}

#[derive(Clone)]
pub struct Configuration<'p> {
    pub term: &'p Term,
    pub environment: Environment,
    pub class: Rc<Class>,
    pub restriction: Restriction,
    pub counter: Counter,
    /// Transitions from the start.
    pub steps: u32,
}

/// The true branch and the false one, as far as they can be gone.
pub type Branches<'p> = [Option<Configuration<'p>>; 2];

impl<'p> Configuration<'p> {
    /// The call of main on the inputs; none if the job is contradictory.
    pub fn start(program: &'p Program, job: &Job) -> Option<Configuration<'p>> {
        let restriction = Restriction::simplified(job.neqs.iter().cloned())?;
        let class = Class { inputs: job.inputs.clone(), wanted: job.wanted.clone() };
        Some(Configuration {
            term: &program.start,
            environment: Environment::new(job.inputs.clone()),
            class: Rc::new(class),
            restriction,
            counter: Counter::above(largest_number(job)),
            steps: 0,
        })
    }

    pub fn nodes(&self) -> usize {
        total_nodes(&self.environment.values).saturating_add(self.class.nodes()).saturating_add(self.restriction.nodes())
    }

    /// The value of the term if this is an end.
    pub fn output(&self) -> Option<Expression> {
        match self.term {
            Term::End(exp) => Some(self.environment.value(exp)),
            _ => None,
        }
    }

    /// What the transitions lead to: the true branch, then the false one.
    /// A branch that contradicts is no transition.
    pub fn transitions(mut self, program: &'p Program) -> Branches<'p> {
        self.steps += 1;
        match self.term {
            Term::End(_) => [None, None],
            Term::Call { function, arguments } => {
                self.environment = self.environment.called(arguments);
                self.term = &program.definitions[*function].body;
                [Some(self), None]
            }
            Term::If { condition, yes, no } => self.decide(condition, [yes, no]),
        }
    }

    fn decide(mut self, condition: &Condition, terms: [&'p Term; 2]) -> Branches<'p> {
        match condition {
            Condition::Eqa { left, right } => {
                let sides = [left, right].map(|exp| self.environment.value(exp));
                self.branch(&Split::of_eqa(sides), terms)
            }
            Condition::Cons { subject } => {
                let value = self.environment.value(subject);
                let (split, counter) = Split::of_cons(&value, self.counter);
                self.counter = counter;
                let [mut yes, mut no] = self.branch(&split, terms);
                if let (Some(yes), Expression::Pair(pair)) = (&mut yes, split.yes.subject(&value)) {
                    yes.environment.bind(pair.head.clone());
                    yes.environment.bind(pair.tail.clone());
                }
                if let Some(no) = &mut no {
                    no.environment.bind(split.no.subject(&value).clone());
                }
                [yes, no]
            }
        }
    }

    /// Contracts by both sides of a split; the copy is made only if both
    /// branches can be gone.
    fn branch(self, split: &Split, terms: [&'p Term; 2]) -> Branches<'p> {
        let mut branches = if split.no.is_contradiction() {
            [self.contract(&split.yes), None]
        } else if split.yes.is_contradiction() {
            [None, self.contract(&split.no)]
        } else {
            [self.clone().contract(&split.yes), self.contract(&split.no)]
        };
        for (branch, term) in branches.iter_mut().zip(terms) {
            if let Some(configuration) = branch {
                configuration.term = term;
            }
        }
        branches
    }

    /// 001, Definition 25; none if it contradicts.
    fn contract(mut self, by: &Contraction) -> Option<Configuration<'p>> {
        match by {
            Contraction::Substitution(None) => Some(self),
            Contraction::Substitution(Some(binding)) => self.fill(binding),
            Contraction::Restriction(None) => None,
            Contraction::Restriction(Some(neq)) => {
                self.restriction = self.restriction.add(NonEquality::clone(neq))?;
                Some(self)
            }
        }
    }

    fn fill(self, binding: &Binding) -> Option<Configuration<'p>> {
        let restriction = self.restriction.fill(binding)?;
        let mut filling = Filling::new(binding);
        let values = filling.apply_all(&self.environment.values);
        let class = Class { inputs: filling.apply_all(&self.class.inputs), wanted: filling.apply(&self.class.wanted) };
        let environment = Environment::new(values);
        Some(Configuration { environment, class: Rc::new(class), restriction, ..self })
    }
}

fn largest_number(job: &Job) -> u32 {
    let sides = job.neqs.iter().flat_map(|neq| [&neq.left, &neq.right]);
    let mut largest = 0;
    for item in job.inputs.iter().chain([&job.wanted]).chain(sides) {
        item.each_variable(&mut |variable| largest = largest.max(variable.number));
    }
    largest
}
