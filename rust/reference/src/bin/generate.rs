//! `generate SEED COUNT DIRECTORY` writes cases of all flavours and then
//! the limit cases, each as NNNN/prog.tsg and NNNN/job.txt, so that other
//! implementations can be run on them.

use std::path::Path;
use std::process::ExitCode;

use reference::generate::{case, limit_cases, Case};

fn write(directory: &Path, index: usize, case: &Case) -> std::io::Result<()> {
    let place = directory.join(format!("{index:05}"));
    std::fs::create_dir_all(&place)?;
    std::fs::write(place.join("prog.tsg"), &case.program)?;
    std::fs::write(place.join("job.txt"), &case.job)
}

fn write_all(seed: u64, count: u64, directory: &Path) -> std::io::Result<()> {
    let cases = (0..count).map(|i| case(seed.wrapping_mul(1_000_003).wrapping_add(i)));
    let limits = limit_cases().into_iter().map(|limit| limit.case);
    for (index, case) in cases.chain(limits).enumerate() {
        write(directory, index, &case)?;
    }
    Ok(())
}

fn main() -> ExitCode {
    let arguments: Vec<String> = std::env::args().skip(1).collect();
    let numbers = (arguments.first().and_then(|a| a.parse().ok()), arguments.get(1).and_then(|a| a.parse().ok()), arguments.get(2));
    let (Some(seed), Some(count), Some(directory)) = numbers else {
        eprintln!("usage: generate SEED COUNT DIRECTORY");
        return ExitCode::from(2);
    };
    match write_all(seed, count, Path::new(directory)) {
        Ok(()) => ExitCode::SUCCESS,
        Err(error) => {
            eprintln!("{error}");
            ExitCode::FAILURE
        }
    }
}
