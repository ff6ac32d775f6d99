//! Runs: what `run` says, prints and leaves.
use crate::entry::Entry;
use raugvite::{print_run, run_in, run_lengths, Ran};

pub struct Run;

impl Entry for Run {
    type Said = Ran;
    const SHORT: Ran = Ran::Short;

    fn lengths() -> (usize, usize) {
        run_lengths()
    }

    fn call(program: &[u8], job: &[u8], work: &mut [u16], answer: &mut [u16]) -> Ran {
        run_in(program, job, work, answer)
    }

    fn printed(program: &[u8], job: &[u8], said: Ran, answer: &[u16]) -> Vec<u8> {
        print_run(program, job, said, answer)
    }

    fn due(program: &[u8], job: &[u8]) -> Vec<u8> {
        reference::print_run(&reference::run_texts(program, job))
    }

    fn filled(said: Ran, _: &[u16]) -> Option<usize> {
        match said {
            Ran::Value { length, .. } => Some(length),
            Ran::Stopped | Ran::NotWithin => Some(0),
            Ran::Refused(_) | Ran::Short => None,
        }
    }
}
