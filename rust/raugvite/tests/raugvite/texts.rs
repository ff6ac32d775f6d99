//! The texts that the tests share.
use std::path::{Path, PathBuf};

pub const SAME: &str =
    "(define same [e.x e.y] (if (cons? e.x e.h e.t a.p) 'No (if (cons? e.y e.h e.t a.q) 'No (if (eqa? a.p a.q) 'Yes 'No))))";

pub const DUB: &str = "(define dub [e.x] (cons e.x 'K))";

pub fn job(inputs: &str, output: &str, neq: &str, [steps, walk, table]: [usize; 3]) -> String {
    format!("(job (in {inputs}) (out {output}) (neq {neq}) (steps {steps}) (walk {walk}) (table {table}))")
}

/// Two texts, and what they are called.
pub struct Texts {
    pub name: String,
    pub program: Vec<u8>,
    pub job: Vec<u8>,
}

/// The repository.
pub fn root() -> PathBuf {
    Path::new(env!("CARGO_MANIFEST_DIR")).join("../..")
}

pub fn read(program: &str, job: &str) -> Texts {
    let read = |path: &str| std::fs::read(root().join(path)).expect(path);
    Texts { name: program.to_string(), program: read(program), job: read(job) }
}

fn folder(path: &str) -> Vec<Texts> {
    let entries = std::fs::read_dir(root().join(path)).expect("the benchmark texts");
    let names = entries.map(|entry| entry.unwrap().file_name().into_string().unwrap());
    let mut stems: Vec<String> = names.filter_map(|name| name.strip_suffix(".tsg").map(|stem| format!("{path}/{stem}"))).collect();
    stems.sort();
    stems.iter().map(|stem| read(&format!("{stem}.tsg"), &format!("{stem}.job"))).collect()
}

/// Those of the benchmark, and those that README and the program of the long listing have.
pub fn written() -> Vec<Texts> {
    let mut all = folder("bench");
    all.extend(folder("bench/adverse"));
    all.push(read("crates/ura/data/prog.tsg", "crates/ura/data/job.txt"));
    all.push(read("crates/long_listing/data/prog.tsg", "crates/long_listing/data/job.txt"));
    all
}

/// Generated ones, sound and damaged.
pub fn generated(count: u64) -> impl Iterator<Item = Texts> {
    (0..count).map(|seed| {
        let case = reference::generate::case(seed);
        Texts { name: format!("seed {seed}"), program: case.program, job: case.job }
    })
}
