//! Samples (02, request 2): for each line one known input with its output.

use std::collections::HashSet;

use crate::cursor::Symbols;
use crate::expression::{Expression, Name, Variable};
use crate::listing::Line;
use crate::token;

/// One known input, with its output: no variable is left in them.
#[derive(Clone, Debug, PartialEq, Eq)]
pub struct Sample {
    pub inputs: Vec<Expression>,
    pub output: Expression,
}

/// The symbols of two accepted texts, wherever they stand in them:
/// definitions that nobody calls and dropped non-equalities have theirs too.
pub fn symbols(program: &[u8], job: &[u8]) -> Symbols {
    let mut found = HashSet::new();
    for text in [program, job] {
        let mut at = 0;
        while let Some(token) = token::token_at(text, at) {
            found.extend(token::symbol(token.bytes).ok());
            at = token.offset + token.bytes.len();
        }
    }
    found
}

/// "Q and a number from 1 up, .. leaving out symbols of program or job".
fn names(symbols: &Symbols) -> impl Iterator<Item = Name> + '_ {
    (1u32..).map(|n| Name::new(format!("Q{n}").as_bytes())).filter(|name| !symbols.contains(name))
}

fn replaced(tree: &Expression, atoms: &[(Variable, Name)]) -> Expression {
    match tree {
        Expression::Atom(_) => tree.clone(),
        Expression::Variable(variable) => {
            let atom = atoms.iter().find(|(known, _)| known == variable).map(|(_, name)| *name);
            Expression::Atom(atom.expect("every variable of the line has its atom"))
        }
        Expression::Pair(pair) => Expression::pair(replaced(&pair.head, atoms), replaced(&pair.tail, atoms)),
    }
}

/// "giving every variable left in the line an atom of its own", "by first
/// standing in inputs, then output".
pub fn sample(line: &Line, symbols: &Symbols) -> Sample {
    let mut names = names(symbols);
    let mut atoms: Vec<(Variable, Name)> = Vec::new();
    let mut meet = |variable: Variable| {
        if atoms.iter().all(|(known, _)| *known != variable) {
            atoms.extend(names.next().map(|name| (variable, name)));
        }
    };
    line.inputs.iter().for_each(|input| input.each_variable(&mut meet));
    line.output.each_variable(&mut meet);
    Sample { inputs: line.inputs.iter().map(|input| replaced(input, &atoms)).collect(), output: replaced(&line.output, &atoms) }
}
