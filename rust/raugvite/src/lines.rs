//! The lines of a listing.
use crate::expressions::{first, Expression};
use std::fmt::{self, Display, Formatter};

/// A line of a listing: the pairs of inputs and output that its variables' values give, as far as the two sides of each non-equality differ.
///
/// It is displayed as a job writes such pairs, and with `{:#}` with the expressions in infix notation. How the printed listing has it, by what became
/// of the job's variables, is a [`PrintedLine`].
///
/// ```
/// let program = b"(define pair [e.x] (if (cons? e.x e.h e.t a.p) 'Yes 'No))";
/// let job = b"(job (in ?e1) (out 'Yes) (neq) (steps 9) (walk 9) (table 9))";
/// let whole = raugvite::list_whole(program, job)?;
/// assert_eq!(whole.lines()[0].to_string(), "(in (cons ?e2 ?e3)) (out 'Yes) (neq)");
/// assert_eq!(format!("{:#}", whole.lines()[0]), "(in ?e2:?e3) (out 'Yes) (neq)");
/// # Ok::<(), raugvite::NotWhole>(())
/// ```
#[derive(Clone, Debug, PartialEq, Eq)]
pub struct Line {
    /// The calls and decided conditions from the start to this line's end.
    pub steps: usize,
    /// The job's inputs, as many as main has parameters, with what became of its variables.
    pub inputs: Vec<Expression>,
    /// The wanted output in the same way.
    pub output: Expression,
    /// The non-equalities, oldest first: two atoms each that have to differ.
    pub unequal: Vec<(Expression, Expression)>,
}

// An expression in the notation that was asked for.
fn write(f: &mut Formatter<'_>, expression: &Expression) -> fmt::Result {
    Display::fmt(expression, f)
}

// Inputs and output as a job writes them.
fn write_pair(f: &mut Formatter<'_>, inputs: &[Expression], output: &Expression) -> fmt::Result {
    f.write_str("(in")?;
    for input in inputs {
        f.write_str(" ")?;
        write(f, input)?;
    }
    f.write_str(") (out ")?;
    write(f, output)?;
    f.write_str(")")
}

impl Display for Line {
    fn fmt(&self, f: &mut Formatter<'_>) -> fmt::Result {
        write_pair(f, &self.inputs, &self.output)?;
        f.write_str(" (neq")?;
        for (left, right) in &self.unequal {
            f.write_str(" [")?;
            write(f, left)?;
            f.write_str(" ")?;
            write(f, right)?;
            f.write_str("]")?;
        }
        f.write_str(")")
    }
}

/// The sample of a line: one known input that lies in it, with its output. Each variable that the line has left is an atom of its own in it, which is
/// none of the symbols of program and job: Q and a number.
///
/// It is displayed as it is printed under its line, and with `{:#}` with the expressions in infix notation.
///
/// ```
/// let program = b"(define pair [e.x] (if (cons? e.x e.h e.t a.p) 'Yes 'No))";
/// let job = b"(job (in ?e1) (out 'Yes) (neq) (steps 9) (walk 9) (table 9))";
/// let whole = raugvite::list_whole(program, job)?;
/// assert_eq!(whole.samples()[0].to_string(), "(in (cons 'Q1 'Q2)) (out 'Yes)");
/// assert_eq!(whole.listing().sampled_text(), b"whole 1 3\n1 2 ?e1=(cons ?e2 ?e3)\n(in (cons 'Q1 'Q2)) (out 'Yes)\n");
/// # Ok::<(), raugvite::NotWhole>(())
/// ```
#[derive(Clone, Debug, PartialEq, Eq)]
pub struct Sample {
    /// The inputs, as many as main has parameters, without variables.
    pub inputs: Vec<Expression>,
    /// The output that the program gives on them, in the line's steps.
    pub output: Expression,
}

impl Display for Sample {
    fn fmt(&self, f: &mut Formatter<'_>) -> fmt::Result {
        write_pair(f, &self.inputs, &self.output)
    }
}

/// What became of a variable of the job in a line. It is displayed as `?e1=(cons ?e3 ?e4)`, with `{:#}` as `?e1=?e3:?e4`.
#[derive(Clone, Debug, PartialEq, Eq)]
pub struct Binding {
    /// The variable: [`Expression::AnyValue`] or [`Expression::AnyAtom`].
    pub variable: Expression,
    /// What it is in this line.
    pub value: Expression,
}

impl Display for Binding {
    fn fmt(&self, f: &mut Formatter<'_>) -> fmt::Result {
        write(f, &self.variable)?;
        f.write_str("=")?;
        write(f, &self.value)
    }
}

/// A line as the printed listing has it, by what became of the job's variables; a variable that is not named stayed as it is.
///
/// It is displayed as it is printed, without the line feed, and with `{:#}` with the expressions in infix notation.
#[derive(Clone, Debug, PartialEq, Eq)]
pub struct PrintedLine<'a> {
    /// The line's number in its listing, from 1.
    pub number: usize,
    /// The line itself.
    pub line: &'a Line,
    /// The job's variables that were bound, in order of first standing in the job.
    pub bindings: Vec<Binding>,
}

impl Display for PrintedLine<'_> {
    fn fmt(&self, f: &mut Formatter<'_>) -> fmt::Result {
        write!(f, "{} {}", self.number, self.line.steps)?;
        for binding in &self.bindings {
            f.write_str(" ")?;
            Display::fmt(binding, f)?;
        }
        for (left, right) in &self.line.unequal {
            f.write_str(" # ")?;
            write(f, left)?;
            f.write_str(" ")?;
            write(f, right)?;
        }
        Ok(())
    }
}

// The binding at the beginning of a text, and what stands behind it.
fn binding(text: &str) -> Option<(Binding, &str)> {
    let (variable, rest) = text.trim_start_matches(' ').split_once('=')?;
    let (value, rest) = first(rest)?;
    Some((Binding { variable: variable.parse().ok()?, value }, rest))
}

// The bindings of a printed line: they stand behind its number and its steps, and the non-equalities behind them.
fn bindings(printed: &str) -> Vec<Binding> {
    let bound = printed.split_once(" # ").map_or(printed, |(before, _)| before);
    let mut rest = bound.splitn(3, ' ').nth(2).unwrap_or("");
    let mut found = Vec::new();
    while let Some((next, behind)) = binding(rest) {
        found.push(next);
        rest = behind;
    }
    found
}

/// The lines of a listing with what became of the job's variables, which is read from the printed text.
pub fn printed<'a>(text: &'a str, lines: &'a [Line]) -> impl Iterator<Item = PrintedLine<'a>> + 'a {
    let below = text.lines().skip(1);
    below.zip(lines).enumerate().map(|(i, (text, line))| PrintedLine { number: i + 1, line, bindings: bindings(text) })
}

#[cfg(test)]
mod tests {
    use super::*;

    #[test]
    fn bindings_of_a_printed_line() {
        let shown = |text: &str| bindings(text).iter().map(Binding::to_string).collect::<Vec<_>>();
        assert_eq!(shown("3 4 ?e1=?a5 ?e2=(cons ?a8 'A) # ?a5 ?a8 # ?a5 'A"), ["?e1=?a5", "?e2=(cons ?a8 'A)"]);
        assert_eq!(shown("3 4 # ?a5 ?a8"), [""; 0]);
        assert_eq!(shown("3 4"), [""; 0]);
        assert_eq!(bindings("3 4 ?e1=?a5")[0].variable, Expression::AnyValue(1));
    }
}
