//! Small ground values to fill variables with.

use std::collections::BTreeSet;

use super::filling::Filling;
use crate::expression::{Expression, Kind, Name, Variable};
use crate::generate::Random;
use crate::token::token_at;

/// Small values over a few atoms, two of which stand in neither text.
pub struct Universe {
    atoms: Vec<Expression>,
    pub(super) values: Vec<Expression>,
}

impl Universe {
    pub fn new(program: &[u8], job: &[u8]) -> Universe {
        let mut names = symbols(job);
        names.extend(symbols(program));
        names.truncate(4);
        let known: BTreeSet<Name> = [symbols(job), symbols(program)].concat().into_iter().collect();
        let strange = (0..).map(|i| Name::new(format!("Strange{i}").as_bytes()));
        names.extend(strange.filter(|name| !known.contains(name)).take(2));
        let names: BTreeSet<Name> = names.into_iter().collect();
        let atoms: Vec<Expression> = names.into_iter().map(Expression::Atom).collect();
        Universe { values: values(&atoms), atoms }
    }

    fn choices(&self, variable: Variable) -> &[Expression] {
        match variable.kind {
            Kind::E => &self.values,
            Kind::A => &self.atoms,
        }
    }

    /// Fillings of these variables: all of them if they are few, else as
    /// many at random.
    pub(super) fn fillings(&self, variables: &[Variable], budget: usize) -> Vec<Filling> {
        let sizes = variables.iter().map(|v| self.choices(*v).len());
        let all = sizes.fold(1usize, |product, size| product.saturating_mul(size));
        let mut random = Random::new(all as u64 ^ budget as u64);
        let number = |i: usize, random: &mut Random| match all <= budget {
            true => i as u64,
            false => random.draw(),
        };
        (0..all.min(budget)).map(|i| self.filling(variables, number(i, &mut random))).collect()
    }

    /// The filling of this number, whose digits choose the values.
    fn filling(&self, variables: &[Variable], mut number: u64) -> Filling {
        let mut filling = Filling::new();
        for variable in variables {
            let choices = self.choices(*variable);
            let size = choices.len() as u64;
            filling.insert(*variable, choices[(number % size) as usize].clone());
            number /= size;
        }
        filling
    }
}

/// The different symbols of a text, in order of first standing.
fn symbols(text: &[u8]) -> Vec<Name> {
    let mut found = Vec::new();
    let mut at = 0;
    while let Some(token) = token_at(text, at) {
        at = token.offset + token.bytes.len();
        if let Some(name) = token.bytes.strip_prefix(b"'").map(Name::new) {
            if !found.contains(&name) {
                found.push(name);
            }
        }
    }
    found
}

/// Atoms, all pairs of the first and last of them, and some larger trees.
fn values(atoms: &[Expression]) -> Vec<Expression> {
    let mut values = atoms.to_vec();
    let (first, last) = (&atoms[0], &atoms[atoms.len() - 1]);
    for head in [first, last] {
        for tail in [first, last] {
            values.push(Expression::pair(head.clone(), tail.clone()));
        }
    }
    let small = values[atoms.len()].clone();
    values.push(Expression::pair(small.clone(), first.clone()));
    values.push(Expression::pair(last.clone(), small.clone()));
    values.push(Expression::pair(small.clone(), small));
    values
}
