//! The check of the job: refusals 10, 11 and 12, in this order.

use crate::cursor::Located;
use crate::expression::{Expression, Kind, Variable};
use crate::fault::{earliest, Fault};
use crate::job_reader::{Item, JobText};
use crate::program::Program;
use crate::restriction::NonEquality;

const STEPS: u32 = 1_000;
const WALK: u32 = 1_000_000;
const TABLE: u32 = 256;

/// Who asks: the runner allows no variable in an input.
#[derive(Clone, Copy, PartialEq, Eq)]
pub enum Tool {
    List,
    Run,
}

pub struct Job {
    pub inputs: Vec<Expression>,
    pub wanted: Expression,
    pub neqs: Vec<NonEquality>,
    pub steps: u32,
    pub walk: u32,
    pub table: u32,
}

pub fn check_job(text: JobText, program: &Program, tool: Tool) -> Result<Job, Fault> {
    check_inputs(&text, program.main_parameters(), tool)?;
    check_neqs(&text)?;
    check_numbers(&text)?;
    let side = |item: Item| item.expression;
    let neq = |(left, right)| NonEquality { left: side(left), right: side(right) };
    Ok(Job {
        inputs: text.inputs.into_iter().map(side).collect(),
        wanted: text.wanted.expression,
        neqs: text.neqs.into_iter().map(neq).collect(),
        steps: text.steps.item,
        walk: text.walk.item,
        table: text.table.item,
    })
}

/// Refusal 10: number, kind and, for the runner, variables.
fn check_inputs(text: &JobText, parameters: &[Kind], tool: Tool) -> Result<(), Fault> {
    let mut faults = Vec::new();
    if text.inputs.len() != parameters.len() {
        faults.push(Fault::new(10, text.in_word));
    }
    for (input, kind) in text.inputs.iter().zip(parameters) {
        if *kind == Kind::A && !input.expression.is_atomic() {
            faults.push(Fault::new(10, input.offset));
        }
    }
    if tool == Tool::Run {
        let variables = text.inputs.iter().filter_map(|input| input.variable);
        faults.extend(variables.map(|offset| Fault::new(10, offset)));
    }
    earliest(faults)
}

/// Refusal 11: a side not atomic, or a `?a` in neither input nor output.
fn check_neqs(text: &JobText) -> Result<(), Fault> {
    let stands = |variable: Variable| {
        let mut items = text.inputs.iter().chain([&text.wanted]);
        items.any(|item| item.expression.occurs(variable))
    };
    for side in text.neqs.iter().flat_map(|(left, right)| [left, right]) {
        let right = match &side.expression {
            Expression::Variable(variable) => variable.kind == Kind::A && stands(*variable),
            other => other.is_atomic(),
        };
        if !right {
            return Err(Fault::new(11, side.offset));
        }
    }
    Ok(())
}

/// Refusal 12: N, then W, then T.
fn check_numbers(text: &JobText) -> Result<(), Fault> {
    let within = |number: Located<u32>, limit| match number.item > limit {
        true => Err(Fault::new(12, number.offset)),
        false => Ok(()),
    };
    within(text.steps, STEPS)?;
    within(text.walk, WALK)?;
    within(text.table, TABLE)
}
