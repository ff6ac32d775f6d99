//! A check of listings by their meaning: small ground inputs are run
//! forwards, and each pair of input and output has to lie where 01 says.

mod filling;
mod universe;

pub use universe::Universe;

use crate::expression::{total_nodes, Expression};
use crate::job_check::{Job, Tool};
use crate::listing::{Line, Listing, Word};
use crate::program::Program;
use crate::runner::{run, Ending};
use crate::walk::walk;
use filling::{fill, lies_in, satisfies, variables_of};

/// Ground runs may grow larger than the configurations they belong to; only
/// runs over this many nodes are left undecided.
const RUN_NODES: usize = 8_192;

/// Checks the listing of two texts on about `budget` ground inputs and
/// gives the number of pairs that were judged.
pub fn check_texts(program: &[u8], job: &[u8], budget: usize) -> Result<usize, String> {
    let Ok((checked, read)) = crate::read_texts(program, job, Tool::List) else {
        return Ok(0);
    };
    let listing = walk(&checked, &read);
    let universe = Universe::new(program, job);
    check_listing(&checked, &read, &universe, &listing, budget)
}

/// The same for a listing from elsewhere. Refusals promise nothing about
/// pairs, stopped walks only what their lines say.
pub fn check_listing(program: &Program, job: &Job, universe: &Universe, listing: &Listing, budget: usize) -> Result<usize, String> {
    let Listing::Listed { word, lines, .. } = listing else {
        return Ok(0);
    };
    let mut check = Check { program, job, word: *word, lines, judged: 0 };
    check.lines_are_true(universe, budget)?;
    if matches!(word, Word::Whole | Word::Cut) {
        check.inputs_are_listed(universe, budget)?;
    }
    Ok(check.judged)
}

struct Check<'c> {
    program: &'c Program,
    job: &'c Job,
    word: Word,
    lines: &'c [Line],
    judged: usize,
}

impl Check<'_> {
    /// Every pair of a line is of the class and runs as the line says.
    fn lines_are_true(&mut self, universe: &Universe, budget: usize) -> Result<(), String> {
        for line in self.lines {
            let variables = variables_of(line.inputs.iter().chain([&line.output]));
            for filling in universe.fillings(&variables, budget / 8 + 1) {
                if !satisfies(&line.nonequalities, &filling) {
                    continue;
                }
                let inputs: Vec<_> = line.inputs.iter().map(|e| fill(e, &filling)).collect();
                let output = fill(&line.output, &filling);
                if total_nodes(&inputs) + output.nodes() > RUN_NODES {
                    continue;
                }
                self.judge_line_pair(line, &inputs, &output)?;
            }
        }
        Ok(())
    }

    fn judge_line_pair(&mut self, line: &Line, inputs: &[Expression], output: &Expression) -> Result<(), String> {
        self.judged += 1;
        if !self.in_class(inputs, output) {
            return Err(format!("a pair of a line is not of the class: {inputs:?} {output:?}"));
        }
        match run(self.program, inputs, self.job.steps, RUN_NODES) {
            Ending::TooLarge => Ok(()),
            Ending::Value { steps, value } if steps == line.steps && value == *output => self.expect_lines(inputs, output, Some(steps)),
            _ => Err(format!("a pair of a line runs otherwise: {inputs:?} {output:?}")),
        }
    }

    /// Every input of the class has its pairs where they belong.
    fn inputs_are_listed(&mut self, universe: &Universe, budget: usize) -> Result<(), String> {
        let variables = variables_of(self.job.inputs.iter());
        for filling in universe.fillings(&variables, budget) {
            // Atoms never run out, so a non-equality with a variable of the
            // wanted output alone can always be satisfied.
            if !satisfies(&self.job.neqs, &filling) {
                continue;
            }
            let inputs: Vec<_> = self.job.inputs.iter().map(|e| fill(e, &filling)).collect();
            self.judge_input(universe, &inputs)?;
        }
        Ok(())
    }

    fn judge_input(&mut self, universe: &Universe, inputs: &[Expression]) -> Result<(), String> {
        let ending = run(self.program, inputs, self.job.steps, RUN_NODES);
        let reached = match &ending {
            Ending::TooLarge => return Ok(()),
            Ending::Longer if self.word == Word::Whole => {
                return Err(format!("whole, but this input runs longer: {inputs:?}"));
            }
            Ending::Longer => None,
            Ending::Value { steps, value } => {
                self.judged += 1;
                let steps = self.in_class(inputs, value).then_some(*steps);
                self.expect_lines(inputs, value, steps)?;
                Some(value)
            }
        };
        for other in universe.values.iter().filter(|other| reached != Some(*other)) {
            self.judged += 1;
            self.expect_lines(inputs, other, None)?;
        }
        Ok(())
    }

    /// The pair lies in exactly one line, of these steps, or in none.
    fn expect_lines(&self, inputs: &[Expression], output: &Expression, steps: Option<u32>) -> Result<(), String> {
        let lies = |line: &&Line| lies_in(&line.inputs, &line.output, &line.nonequalities, inputs, output);
        let found: Vec<u32> = self.lines.iter().filter(lies).map(|line| line.steps).collect();
        if found == steps.into_iter().collect::<Vec<u32>>() {
            return Ok(());
        }
        Err(format!("pair {inputs:?} {output:?}: due {steps:?}, lines of steps {found:?}"))
    }

    fn in_class(&self, inputs: &[Expression], output: &Expression) -> bool {
        lies_in(&self.job.inputs, &self.job.wanted, &self.job.neqs, inputs, output)
    }
}
