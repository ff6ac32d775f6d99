//! The walk: depth first, true branch first, N transitions deep, with the
//! stops 21, 22 and 23.

use crate::configuration::{Configuration, NODES};
use crate::expression::Expression;
use crate::job_check::Job;
use crate::listing::{Line, Listing, Word};
use crate::program::Program;
use crate::unify::{intersect, Outcome};

/// 22: the nodes of all lines together.
const LINE_NODES: usize = 16_384;

pub fn walk(program: &Program, job: &Job) -> Listing {
    let mut walker = Walker::new(program, job);
    let word = match walker.walk() {
        Err(stop) => stop,
        Ok(()) if walker.cut => Word::Cut,
        Ok(()) => Word::Whole,
    };
    Listing::Listed { word, lines: walker.lines, count: walker.count }
}

struct Walker<'p> {
    program: &'p Program,
    job: &'p Job,
    /// Configurations one transition further on, which has still to be
    /// made and counted; the next one last. To backtrack is to take the
    /// last, so no path is worked out again.
    pending: Vec<Configuration<'p>>,
    lines: Vec<Line>,
    line_nodes: usize,
    count: u32,
    cut: bool,
}

impl<'p> Walker<'p> {
    fn new(program: &'p Program, job: &'p Job) -> Walker<'p> {
        Walker { program, job, pending: Vec::new(), lines: Vec::new(), line_nodes: 0, count: 0, cut: false }
    }

    fn walk(&mut self) -> Result<(), Word> {
        match Configuration::start(self.program, self.job) {
            Some(start) => self.arrive(start)?,
            None => return Ok(()),
        }
        while let Some(next) = self.pending.pop() {
            // W is asked before the transition is made, nodes after it.
            if self.count == self.job.walk {
                return Err(Word::Stop23);
            }
            self.count += 1;
            self.arrive(next)?;
        }
        Ok(())
    }

    fn arrive(&mut self, at: Configuration<'p>) -> Result<(), Word> {
        if at.nodes() > NODES {
            return Err(Word::Stop21);
        }
        if let Some(output) = at.output() {
            return self.end(&at, output);
        }
        if at.steps == self.job.steps {
            self.cut = true;
            return Ok(());
        }
        let [yes, no] = at.transitions(self.program);
        self.pending.extend(no);
        self.pending.extend(yes);
        Ok(())
    }

    fn end(&mut self, end: &Configuration<'p>, output: Expression) -> Result<(), Word> {
        let meeting = match intersect(end, output) {
            Outcome::NoLine => return Ok(()),
            Outcome::Stop21 => return Err(Word::Stop21),
            Outcome::Line(meeting) => meeting,
        };
        let line = Line::new(self.job, end.steps, meeting);
        let nodes = self.line_nodes + line.nodes();
        if self.lines.len() == self.job.table as usize || nodes > LINE_NODES {
            return Err(Word::Stop22);
        }
        self.line_nodes = nodes;
        self.lines.push(line);
        Ok(())
    }
}
