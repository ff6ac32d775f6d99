//! Samples: what `sample_in` leaves in lent storage, what they are against the other implementation, and what each gives when it is run forwards.
use crate::lent::Lent;
use crate::listings::tree;
use raugvite::{list_in, list_lengths, sample_in, sample_length, Expression, Line, Listed, Listing, Ran, Sample, Sampled, Text};
use reference::generate::Case;
use reference::job_check::Tool;

/// How often a sample's run came to each of what 02 allows.
#[derive(Default)]
pub struct Runs {
    value: usize,
    refused: [usize; 2],
    stopped: usize,
}

impl Runs {
    /// Each of them came.
    pub fn all_met(&self) -> Result<(), String> {
        let met = [self.value, self.refused[0], self.refused[1], self.stopped].iter().all(|&n| n > 0);
        met.then_some(()).ok_or_else(|| self.to_string())
    }
}

impl std::fmt::Display for Runs {
    fn fmt(&self, f: &mut std::fmt::Formatter<'_>) -> std::fmt::Result {
        let Runs { value, refused: [one, five], stopped } = self;
        write!(f, "samples run forwards: {value} value and steps, {one} by 1, {five} by 5, {stopped} by 21")
    }
}

// A tree with 2 to the power of `depth` leaves.
fn balanced(depth: u32, leaf: &str) -> String {
    match depth {
        0 => leaf.to_string(),
        _ => format!("(cons {} {})", balanced(depth - 1, leaf), balanced(depth - 1, leaf)),
    }
}

/// Texts that are accepted though samples of their lines pass a limit: the job of one is over 8,192 bytes, which is 1, as each of 256 variables became three
/// atoms; the run of one has 64 copies of its whole input, where the walk had 64 variables.
pub fn limits() -> [Case; 2] {
    let case = |program: String, job: String| Case { program: program.into_bytes(), job: job.into_bytes() };
    let numbers = "(neq) (steps 200) (walk 1000) (table 256)";
    let first = "(define first [e.x e.y] (if (cons? e.y e.h e.t a.p) (if (cons? e.h e.i e.j a.q) 'Pair 'Atom) 'Atom))".to_string();
    let copies = balanced(6, "e.x");
    let taken = "(define take [e.x] (if (cons? e.x e.h e.t a.p) (call take [e.t]) 'End))";
    let copied = format!("(define copy [e.x] (call drop [{copies} e.x]))(define drop [e.c e.x] (call take [e.x])){taken}");
    [
        case(first, format!("(job (in {} ?e1) (out 'Pair) {numbers})", balanced(8, "?e1"))),
        case(copied, format!("(job (in ?e1) (out 'End) {numbers})")),
    ]
}

/// The same texts with symbols whose names new atoms would have: one of them has a leading nought and takes no name away.
pub fn renamed(texts: &Case) -> Case {
    let names = [("'A", "'Q1"), ("'B", "'Q3"), ("'nil", "'Q01"), ("'7", "'Q2")];
    let with = |text: &[u8]| {
        let text: String = text.iter().map(|&b| char::from(b)).collect();
        let text = names.iter().fold(text, |text, (old, new)| text.replace(old, new));
        text.chars().map(|c| c as u8).collect()
    };
    Case { program: with(&texts.program), job: with(&texts.job) }
}

// Each line's sample in storage that is a little longer than it must be; a line that is not there and storage that is too short touch nothing.
fn storage(program: &[u8], job: &[u8], seed: u64) -> Result<(), String> {
    let (work, answer) = list_lengths();
    let (mut work, mut answer) = (vec![0; work], vec![0; answer]);
    let lines = list_in(program, job, &mut work, &mut answer).lines_found();
    for line in 1..=lines {
        let mut sample = Lent::new(sample_length() + (seed % 5) as usize, seed ^ line as u64);
        let Sampled::Done { inputs, output } = sample_in(&answer, line, sample.cells()) else {
            return Err(format!("line {line} has no sample"));
        };
        sample.guarded()?;
        sample.zero_from(inputs + output, "sample")?;
    }
    let refused =
        [(1, sample_length() - 1, Sampled::Short), (0, sample_length(), Sampled::Absent), (lines + 1, sample_length(), Sampled::Absent)];
    for (line, length, due) in refused {
        let mut sample = Lent::new(length, seed);
        let said = sample_in(&answer, line, sample.cells());
        if said != due {
            return Err(format!("line {line}: {said:?} and not {due:?}"));
        }
        sample.guarded()?;
        sample.untouched("sample")?;
    }
    Ok(())
}

fn same(ours: &Sample, theirs: &reference::Sample) -> bool {
    let inputs: Vec<_> = ours.inputs.iter().map(tree).collect();
    inputs == theirs.inputs && tree(&ours.output) == theirs.output
}

// "The published evaluation gives the wanted output on it, in the line's number of steps .. and so does the forward runner unless the sample passes a
// limit of 1, 5 or 21."
fn run(program: &[u8], line: &Line, sample: &Sample, steps: u32, runs: &mut Runs) -> Result<(), String> {
    let ran = raugvite::run(program, format!("(job {sample} (neq) (steps {steps}) (walk 0) (table 0))").as_bytes());
    match ran.answer() {
        Ran::Value { steps, .. } if steps == line.steps && ran.value() == Some(&sample.output) => runs.value += 1,
        Ran::Refused(refusal) if refusal.text == Text::Job && refusal.number == 1 => runs.refused[0] += 1,
        Ran::Refused(refusal) if refusal.text == Text::Job && refusal.number == 5 => runs.refused[1] += 1,
        Ran::Stopped => runs.stopped += 1,
        _ => return Err(format!("{sample} runs to {ran}, due in {} steps", line.steps)),
    }
    Ok(())
}

fn ground(e: &Expression) -> bool {
    match e {
        Expression::Symbol(_) => true,
        Expression::Pair(head, tail) => ground(head) && ground(tail),
        _ => false,
    }
}

fn each(program: &[u8], job: &[u8], listing: &Listing, runs: &mut Runs) -> Result<(), String> {
    let reference::Listing::Listed { lines, .. } = reference::list_texts(program, job) else {
        return Ok(());
    };
    let Ok((_, read)) = reference::read_texts(program, job, Tool::List) else {
        return Err("refused".into());
    };
    let symbols = reference::sample::symbols(program, job);
    if listing.samples_found().len() != lines.len() {
        return Err(format!("{} samples of {} lines", listing.samples_found().len(), lines.len()));
    }
    for ((line, sample), theirs) in listing.lines_found().iter().zip(listing.samples_found()).zip(&lines) {
        let due = reference::sample(theirs, &symbols);
        if !same(sample, &due) || !sample.inputs.iter().all(ground) {
            return Err(format!("{sample} and not {due:?}"));
        }
        run(program, line, sample, read.steps, runs)?;
    }
    Ok(())
}

/// All of it, of two texts that may be refused.
pub fn check(texts: &Case, seed: u64, runs: &mut Runs) -> Result<(), String> {
    let (program, job) = (&texts.program[..], &texts.job[..]);
    let listing = raugvite::list(program, job);
    crate::entry::same(&listing.sampled_text(), &reference::print_samples(program, job))?;
    if matches!(listing.answer(), Listed::Refused(_)) {
        return Ok(());
    }
    storage(program, job, seed)?;
    each(program, job, &listing, runs)
}
