//! Prints the listing of a program and a job: list PROG JOB. A file that cannot be read counts as empty.
use raugvite::Listed;
use std::io::Write;

fn main() {
    let paths: Vec<String> = std::env::args().skip(1).collect();
    let [program_path, job_path] = &paths[..] else {
        eprintln!("usage: list PROG JOB");
        std::process::exit(2);
    };
    let read = |path: &String| std::fs::read(path).unwrap_or_default();
    let (program, job) = (read(program_path), read(job_path));
    let listing = raugvite::list(&program, &job);
    std::io::stdout().write_all(listing.text()).expect("standard output is written");
    // For the one who wrote the text: where, and what is wrong there.
    if let Listed::Refused(refusal) = listing.answer() {
        let path = if refusal.text == raugvite::Text::Program { program_path } else { job_path };
        eprintln!("{path}:{}: {}", refusal.position(&program, &job), refusal.sentence());
    }
}
