//! `reference list [--samples] PROG JOB` and `reference run PROG JOB`.

use std::io::Write;
use std::process::ExitCode;

use reference::{list_texts, print_listing, print_run, print_samples, run_texts};

/// A file that cannot be read counts as empty.
fn read(path: &str) -> Vec<u8> {
    std::fs::read(path).unwrap_or_default()
}

fn main() -> ExitCode {
    let arguments: Vec<String> = std::env::args().skip(1).collect();
    let words: Vec<&str> = arguments.iter().map(String::as_str).collect();
    let answer = match words[..] {
        ["list", program, job] => print_listing(&list_texts(&read(program), &read(job))),
        ["list", "--samples", program, job] => print_samples(&read(program), &read(job)),
        ["run", program, job] => print_run(&run_texts(&read(program), &read(job))),
        _ => {
            eprintln!("usage: reference list [--samples] PROG JOB | reference run PROG JOB");
            return ExitCode::from(2);
        }
    };
    match std::io::stdout().write_all(&answer) {
        Ok(()) => ExitCode::SUCCESS,
        Err(_) => ExitCode::FAILURE,
    }
}
