//! The answers of the two tools, as data.

use crate::expression::{total_nodes, Expression, Variable};
use crate::job_check::Job;
use crate::restriction::NonEquality;
use crate::unify::Meeting;

/// How a walk ended.
#[derive(Clone, Copy, Debug, PartialEq, Eq)]
pub enum Word {
    Whole,
    Cut,
    Stop21,
    Stop22,
    Stop23,
}

#[derive(Clone, Debug)]
pub struct Line {
    /// From the start to the line's end.
    pub steps: u32,
    /// The job's inputs and output under the line's bindings.
    pub inputs: Vec<Expression>,
    pub output: Expression,
    /// Oldest first.
    pub nonequalities: Vec<NonEquality>,
    /// The job variables that were bound, in order of first standing.
    pub bindings: Vec<(Variable, Expression)>,
}

/// The answer of `list`: the refusal has letter, number and offset.
#[derive(Clone, Debug)]
pub enum Listing {
    Refused { letter: char, number: u32, offset: usize },
    Listed { word: Word, lines: Vec<Line>, count: u32 },
}

/// The answer of `run`.
#[derive(Clone, Debug)]
pub enum Run {
    Refused { letter: char, number: u32, offset: usize },
    Value { steps: u32, value: Expression },
    Stop21,
    NotWithin,
}

impl Line {
    pub fn new(job: &Job, steps: u32, meeting: Meeting) -> Line {
        let mut bindings = Vec::new();
        for (before, after) in job.inputs.iter().zip(&meeting.inputs) {
            collect_bindings(before, after, &mut bindings);
        }
        collect_bindings(&job.wanted, &meeting.wanted, &mut bindings);
        let unbound = |(v, value): &(Variable, Expression)| *value == Expression::Variable(*v);
        bindings.retain(|binding| !unbound(binding));
        Line { steps, inputs: meeting.inputs, output: meeting.wanted, nonequalities: meeting.restriction.items().to_vec(), bindings }
    }

    /// 22: inputs, output, 2 for each non-equality.
    pub fn nodes(&self) -> usize {
        total_nodes(&self.inputs) + self.output.nodes() + 2 * self.nonequalities.len()
    }
}

/// Reads off what each variable has become, by walking the job's item and
/// the line's together.
fn collect_bindings(before: &Expression, after: &Expression, bindings: &mut Vec<(Variable, Expression)>) {
    match (before, after) {
        (Expression::Variable(variable), value) => {
            let known = bindings.iter().any(|(known, _)| known == variable);
            bindings.extend((!known).then(|| (*variable, value.clone())));
        }
        (Expression::Pair(b), Expression::Pair(a)) => {
            collect_bindings(&b.head, &a.head, bindings);
            collect_bindings(&b.tail, &a.tail, bindings);
        }
        _ => {}
    }
}
