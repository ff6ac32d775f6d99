//! A plain implementation of the resolver that 01 describes, written from
//! 01, its list of readings and document 001 alone, so that its answers are
//! evidence for those of others; the check of 13 (02, request 1) was added
//! later, with the definitions of the proved one in view; samples (02, request
//! 2) are from its sentences and their readings alone. It keeps trees on
//! the heap and uses the standard library freely; it knows nothing of lent
//! storage (20).

pub mod configuration;
pub mod contraction;
pub mod cursor;
pub mod expression;
pub mod fault;
pub mod generate;
pub mod ground;
pub mod job_check;
pub mod job_reader;
pub mod listing;
pub mod print;
pub mod program;
pub mod program_check;
pub mod program_reader;
pub mod restriction;
pub mod runner;
pub mod sample;
pub mod substitution;
pub mod syntax;
pub mod token;
pub mod unify;
pub mod walk;

pub use listing::{Line, Listing, Run, Word};
pub use print::{print_listing, print_run, print_sampled};
pub use sample::{sample, Sample};

use fault::Fault;
use job_check::{Job, Tool};
use program::Program;
use runner::Ending;

/// A refusal together with the letter of its text.
pub struct Refusal {
    pub letter: char,
    pub fault: Fault,
}

/// Reads and checks both texts: the program first, then the job.
pub fn read_texts(program: &[u8], job: &[u8], tool: Tool) -> Result<(Program, Job), Refusal> {
    let in_program = |fault| Refusal { letter: 'p', fault };
    let in_job = |fault| Refusal { letter: 'j', fault };
    let (definitions, symbols) = program_reader::read_program(program).map_err(in_program)?;
    let program = program_check::check_program(&definitions).map_err(in_program)?;
    let text = job_reader::read_job(job, symbols).map_err(in_job)?;
    let job = job_check::check_job(text, &program, tool).map_err(in_job)?;
    Ok((program, job))
}

/// The listing of a job.
pub fn list_texts(program: &[u8], job: &[u8]) -> Listing {
    match read_texts(program, job, Tool::List) {
        Ok((program, job)) => walk::walk(&program, &job),
        Err(Refusal { letter, fault: Fault { offset, number } }) => Listing::Refused { letter, number, offset },
    }
}

/// The printed listing of a job with a sample under each line.
pub fn print_samples(program: &[u8], job: &[u8]) -> Vec<u8> {
    match list_texts(program, job) {
        refused @ Listing::Refused { .. } => print_listing(&refused),
        listing => print_sampled(&listing, &sample::symbols(program, job)),
    }
}

/// The forward run of a job's inputs. It uses only the inputs and N.
pub fn run_texts(program: &[u8], job: &[u8]) -> Run {
    let (program, job) = match read_texts(program, job, Tool::Run) {
        Ok(texts) => texts,
        Err(Refusal { letter, fault: Fault { offset, number } }) => return Run::Refused { letter, number, offset },
    };
    match runner::run(&program, &job.inputs, job.steps, configuration::NODES) {
        Ending::Value { steps, value } => Run::Value { steps, value },
        Ending::TooLarge => Run::Stop21,
        Ending::Longer => Run::NotWithin,
    }
}
