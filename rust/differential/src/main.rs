//! The resolver against an implementation written apart from it.
//!
//! ```text
//! differential [SEED [COUNT]]                COUNT generated cases from SEED on
//! differential program PATH [SEED [COUNT]]   the same texts as files, given to the program at PATH, and what it prints
//! ```
//!
//! Each case is two texts, sound or damaged. Listing, run and what is left in every storage are compared, the storages lie between guard cells
//! and are full of garbage before; and for some cases ground inputs are enumerated and each pair has to lie in the one line that demand 3
//! gives it. Samples are compared, their storage too, and each is run forwards: its line's output and steps have to come, or 1, 5 or 21, which is
//! counted. The last line counts the checks: 'N passed, M failed'.
mod entry;
mod lent;
mod listings;
mod program;
mod runs;
mod samples;

use entry::{compare, short};
use listings::{List, ListPrint};
use reference::generate::{case, limit_cases, Case};
use runs::Run;
use samples::Runs;
use std::time::Instant;

/// How many checks went well, and what the others said.
#[derive(Default)]
struct Tally {
    passed: usize,
    failed: usize,
    runs: Runs,
}

impl Tally {
    fn add(&mut self, name: &str, result: Result<(), String>) {
        match result {
            Ok(()) => self.passed += 1,
            Err(said) => {
                self.failed += 1;
                println!("{name}: {said}");
            }
        }
    }
}

fn entries(name: &str, seed: u64, texts: &Case, tally: &mut Tally) {
    let (p, j) = (&texts.program[..], &texts.job[..]);
    tally.add(&format!("{name}, listing"), compare::<List>(p, j, seed));
    tally.add(&format!("{name}, listing with its first page"), compare::<ListPrint<false>>(p, j, seed));
    tally.add(&format!("{name}, listing with samples"), compare::<ListPrint<true>>(p, j, seed));
    tally.add(&format!("{name}, run"), compare::<Run>(p, j, seed));
    tally.add(&format!("{name}, short storage"), short::<List>(p, j, seed));
    tally.add(&format!("{name}, short storage of both"), short::<ListPrint<false>>(p, j, seed));
    tally.add(&format!("{name}, short storage with samples"), short::<ListPrint<true>>(p, j, seed));
    tally.add(&format!("{name}, short storage of a run"), short::<Run>(p, j, seed));
}

// The samples of the texts, and of the same with the names of new atoms among their symbols.
fn sampled(name: &str, seed: u64, texts: &Case, tally: &mut Tally) {
    for (texts, more) in [(texts, ""), (&samples::renamed(texts), ", renamed")] {
        let result = samples::check(texts, seed, &mut tally.runs);
        tally.add(&format!("{name}, samples{more}"), result);
    }
}

// The ground inputs of one case in eight are tried: they cost more than all else.
fn ground(name: &str, texts: &Case, tally: &mut Tally) {
    tally.add(&format!("{name}, ground inputs"), listings::meaning(&texts.program, &texts.job, 200));
}

// A print ends where the cells end, whatever number of lines it is handed.
fn endless(texts: &Case, tally: &mut Tally) {
    let (work, answer) = raugvite::list_lengths();
    let (mut work, mut answer) = (vec![0; work], vec![0; answer]);
    let _ = raugvite::list_in(&texts.program, &texts.job, &mut work, &mut answer);
    for lines in [100_000_000, usize::MAX] {
        let began = Instant::now();
        raugvite::print_list(&texts.program, &texts.job, raugvite::Listed::Whole { lines, transitions: 0 }, &answer);
        let took = began.elapsed().as_secs();
        tally.add("a listing that claims lines without end", if took < 5 { Ok(()) } else { Err(format!("{took} s")) });
    }
}

fn library(seed: u64, count: u64, tally: &mut Tally) {
    endless(&case(seed), tally);
    for (i, limit) in limit_cases().iter().enumerate() {
        entries(&format!("limit {i}"), i as u64, &limit.case, tally);
        sampled(&format!("limit {i}"), i as u64, &limit.case, tally);
    }
    for (i, texts) in samples::limits().iter().enumerate() {
        sampled(&format!("sample's limit {i}"), i as u64, texts, tally);
    }
    for s in seed..seed + count {
        let texts = case(s);
        entries(&format!("seed {s}"), s, &texts, tally);
        sampled(&format!("seed {s}"), s, &texts, tally);
        if s % 8 == 0 {
            ground(&format!("seed {s}"), &texts, tally);
        }
    }
}

fn program(path: &str, seed: u64, count: u64, tally: &mut Tally) {
    for limit in limit_cases() {
        tally.add(&limit.name, program::compare(path.as_ref(), &limit.case.program, &limit.case.job));
    }
    for s in seed..seed + count {
        let texts = case(s);
        tally.add(&format!("seed {s}"), program::compare(path.as_ref(), &texts.program, &texts.job));
    }
}

fn main() {
    let mut words: Vec<String> = std::env::args().skip(1).collect();
    let path = (words.first().map(String::as_str) == Some("program")).then(|| words.drain(..2).nth(1)).flatten();
    let number = |i: usize, other: u64| words.get(i).map_or(other, |w| w.parse().expect("a number"));
    let mut tally = Tally::default();
    match path {
        Some(path) => program(&path, number(0, 1), number(1, 500), &mut tally),
        None => {
            library(number(0, 1), number(1, 2000), &mut tally);
            println!("{}", tally.runs);
            let met = tally.runs.all_met();
            tally.add("what a sample's run may come to", met);
        }
    }
    println!("{} passed, {} failed", tally.passed, tally.failed);
    std::process::exit(i32::from(tally.failed > 0));
}
