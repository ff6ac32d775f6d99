//! The benchmark texts on the resolver and on the implementation written apart from it.
//!
//! ```text
//! bench                     the whole table: bench/ and bench/adverse/, a long program read, a path of 40, 100 and 300 steps
//! bench FOLDER [ROUNDS]     the texts NAME.tsg, NAME.job of FOLDER; of a folder with this name the whole table
//! ```
//!
//! Both list each pair of texts in turn, ROUNDS times or for two seconds, in one process; printed is the first line, the middle time of each, the
//! resolver's time for one transition, and the ratio, which is what to compare: times differ from machine to machine.
use std::path::{Path, PathBuf};
use std::time::{Duration, Instant};

/// Two texts, and what they are called.
struct Texts {
    name: String,
    program: Vec<u8>,
    job: Vec<u8>,
}

fn texts(name: &str, program: Vec<u8>, job: Vec<u8>) -> Texts {
    Texts { name: name.to_string(), program, job }
}

fn read(path: &Path) -> Texts {
    let name = path.file_stem().map(|n| n.to_string_lossy().into_owned()).unwrap_or_default();
    let job = std::fs::read(path.with_extension("job")).expect("a job");
    texts(&name, std::fs::read(path).expect("a program"), job)
}

fn folder(path: &Path) -> Vec<Texts> {
    let entries = std::fs::read_dir(path).expect("the folder of benchmark texts");
    let mut found: Vec<PathBuf> =
        entries.filter_map(|e| e.ok()).map(|e| e.path()).filter(|p| p.extension().is_some_and(|x| x == "tsg")).collect();
    found.sort();
    found.iter().map(|p| read(p)).collect()
}

// 17 kB: 64 definitions of 16 parameters, each name another, and a job that ends at once.
fn long_program() -> Texts {
    let name = |i: usize, k: usize| format!("e.name{i:02}of{k:02}xy ");
    let define = |i: usize| format!("(define f{i} [{}] 'A)\n", (0..16).map(|k| name(i, k)).collect::<String>());
    let program: String = (0..64).map(define).collect();
    let job = format!("(job (in {}) (out 'A) (neq) (steps 1) (walk 9) (table 9))", "'A ".repeat(16));
    texts("reading", program.into_bytes(), job.into_bytes())
}

// A list taken apart to its end: the texts comb9s, whose path has 1,000 steps, with fewer.
fn shorter(root: &Path, steps: usize) -> Texts {
    let comb = read(&root.join("adverse/comb9s.tsg"));
    let job = String::from_utf8_lossy(&comb.job).replace("(steps 1000)", &format!("(steps {steps})"));
    texts(&format!("comb{steps}"), comb.program, job.into_bytes())
}

fn whole_table(root: &Path) -> Vec<Texts> {
    let mut all = folder(root);
    all.extend(folder(&root.join("adverse")));
    all.push(long_program());
    all.extend([40, 100, 300].map(|steps| shorter(root, steps)));
    all
}

fn timed<T>(work: impl FnOnce() -> T) -> (Duration, T) {
    let began = Instant::now();
    let made = work();
    (began.elapsed(), made)
}

fn middle(times: &mut [Duration]) -> f64 {
    times.sort();
    times[times.len() / 2].as_secs_f64() * 1000.0
}

// The first line, and the transitions that it tells.
fn first_line(text: &[u8]) -> (String, f64) {
    let line = String::from_utf8_lossy(text).lines().next().unwrap_or("").to_string();
    let count = line.rsplit(' ').next().and_then(|w| w.parse().ok()).unwrap_or(0.0);
    (line, count)
}

fn compare(t: &Texts, rounds: usize) {
    let (mut ours, mut theirs) = (Vec::new(), Vec::new());
    let (mut line, mut count) = (String::new(), 0.0);
    let began = Instant::now();
    while ours.is_empty() || (ours.len() < rounds && began.elapsed().as_secs() < 2) {
        let (a, mine) = timed(|| raugvite::list(&t.program, &t.job).into_text());
        let (b, other) = timed(|| reference::print_listing(&reference::list_texts(&t.program, &t.job)));
        assert!(mine == other, "the listings of {} differ", t.name);
        ours.push(a);
        theirs.push(b);
        (line, count) = first_line(&mine);
    }
    let (a, b) = (middle(&mut ours), middle(&mut theirs));
    println!("{:8} {line:20} {a:9.3} ms {b:9.3} ms {:9.0} ns  ratio {:.2}", t.name, a * 1e6 / count, a / b);
}

fn main() {
    let words: Vec<String> = std::env::args().skip(1).collect();
    let own = Path::new(env!("CARGO_MANIFEST_DIR")).join("../../bench");
    let given = words.first().filter(|w| *w != "bench").map(PathBuf::from).unwrap_or(own);
    let rounds = words.get(1).and_then(|w| w.parse().ok()).unwrap_or(9);
    let all = if given.ends_with("bench") { whole_table(&given) } else { folder(&given) };
    println!("{:8} {:20} {:>12} {:>12} {:>12}", "texts", "first line", "resolver", "reference", "transition");
    for texts in &all {
        compare(texts, rounds);
    }
}
