//! Prints the listing of a program and a job as JSON: json PROG JOB.
//!
//! The status is 0 for a whole listing, 1 for one that is cut, 2 for one that was stopped, 3 for a refused text; and 4 where the arguments are not
//! two files that can be read, or standard output does not take all of it. Only status 0 has all lines.
use raugvite::Listed;
use std::io::Write;
use std::process::ExitCode;

fn read(path: &str) -> Result<Vec<u8>, String> {
    std::fs::read(path).map_err(|e| format!("{path}: {e}"))
}

fn status(answer: Listed) -> u8 {
    match answer {
        Listed::Whole { .. } => 0,
        Listed::Cut { .. } => 1,
        Listed::Stopped { .. } => 2,
        Listed::Refused(_) | Listed::Short => 3,
    }
}

fn print(paths: &[String]) -> Result<u8, String> {
    let [program, job] = paths else {
        return Err("usage: json PROG JOB".into());
    };
    let listing = raugvite::list(&read(program)?, &read(job)?);
    let mut out = std::io::stdout().lock();
    writeln!(out, "{}", listing.to_json()).and_then(|()| out.flush()).map_err(|e| format!("standard output: {e}"))?;
    Ok(status(listing.answer()))
}

fn main() -> ExitCode {
    let paths: Vec<String> = std::env::args().skip(1).collect();
    match print(&paths) {
        Ok(status) => ExitCode::from(status),
        Err(message) => {
            eprintln!("{message}");
            ExitCode::from(4)
        }
    }
}
