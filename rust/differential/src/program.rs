//! A program given by its path instead of the library: what it prints of two files, for its commands.
use crate::entry::same;
use std::path::{Path, PathBuf};
use std::process::Command;

fn written(name: &str, text: &[u8]) -> Result<PathBuf, String> {
    let path = std::env::temp_dir().join(format!("raugvite-{}-{name}", std::process::id()));
    std::fs::write(&path, text).map_err(|e| e.to_string())?;
    Ok(path)
}

fn printed(program: &Path, command: &str, p: &Path, j: &Path) -> Result<Vec<u8>, String> {
    let ran = Command::new(program).args(command.split(' ')).arg(p).arg(j).output().map_err(|e| e.to_string())?;
    Ok(ran.stdout)
}

/// `PROGRAM list`, `PROGRAM list --samples` and `PROGRAM run` of the two texts.
pub fn compare(program: &Path, p: &[u8], j: &[u8]) -> Result<(), String> {
    let (path_p, path_j) = (written("p", p)?, written("j", j)?);
    let listed = printed(program, "list", &path_p, &path_j)?;
    same(&listed, &reference::print_listing(&reference::list_texts(p, j)))?;
    let sampled = printed(program, "list --samples", &path_p, &path_j)?;
    same(&sampled, &reference::print_samples(p, j))?;
    let ran = printed(program, "run", &path_p, &path_j)?;
    same(&ran, &reference::print_run(&reference::run_texts(p, j)))
}
