//! How much stack the entries take, on the texts of each kind that take the most.
//!
//! ```text
//! stack [KB]     every entry on every text, in a thread of KB kilobytes (512): ends 'N passed, M failed'
//! stack least    the least stack for each text, in kilobytes
//! ```
//!
//! A call that finds no room ends its process, so each one has a process of its own.
use raugvite::Listed;
use std::path::Path;
use std::process::{Command, Stdio};

/// Two texts, and what they are.
struct Case {
    name: &'static str,
    program: String,
    job: String,
}

const ENTRIES: [&str; 8] = ["list", "list_print", "list_sampled", "sample", "run", "print_list", "print_sampled", "print_run"];

const JOB: &str = "(job (in 'A) (out 'A) (neq) (steps 9) (walk 9) (table 9))";

const PROGRAM: &str = "(define f [e.x] e.x)";

fn case(name: &'static str, program: String, job: String) -> Case {
    Case { name, program, job }
}

// `open` and `close` around the middle, `times` times.
fn nested(times: usize, open: &str, middle: &str, close: &str) -> String {
    format!("{}{middle}{}", open.repeat(times), close.repeat(times))
}

// Conditionals one in the other, each with names of its own (13): `before` stands before the next, `behind` behind it.
fn conditionals(times: usize, before: &str, middle: &str, behind: &str) -> String {
    let open: String = (0..times).map(|i| format!("(if (cons? e.x e.h{i} e.t{i} a.p{i}) {before}")).collect();
    format!("{open}{middle}{}", behind.repeat(times))
}

fn body(term: &str) -> String {
    format!("(define f [e.x] {term})")
}

fn job(input: &str, neq: &str) -> String {
    format!("(job (in {input}) (out 'A) (neq{neq}) (steps 9) (walk 9) (table 9))")
}

// "64 brackets open together": one is the definition's, one the condition's or the job's own.
fn programs() -> Vec<Case> {
    let equal = "(if (eqa? 'A 'B) ";
    let parameters: String = (0..16).map(|i| format!("e.p{i} ")).collect();
    let many: String = (0..64).map(|i| format!("(define f{i} [{parameters}] (call f{i} [{parameters}]))\n")).collect();
    let one = |name, program| case(name, program, JOB.to_string());
    vec![
        one("4,084 arguments", format!("(define f [] (call f [{}]))", "'A ".repeat(4084))),
        one("62 conditionals, each in the true branch", body(&conditionals(62, "", "'A", " 'B)"))),
        one("62 conditionals, each in the false branch", body(&conditionals(62, "'B ", "'A", ")"))),
        one("62 comparisons, each in the true branch", body(&nested(62, equal, "'A", " 'B)"))),
        one("62 comparisons, each in the false branch", body(&nested(62, &format!("{equal}'B "), "'A", ")"))),
        one("60 conditionals around a call", body(&conditionals(60, "", "(call f [(cons e.x e.x)])", " 'B)"))),
        one("63 pairs, each in the head", body(&nested(63, "(cons ", "'A", " 'B)"))),
        one("63 pairs, each in the tail", body(&nested(63, "(cons 'B ", "'A", ")"))),
        one("61 pairs in an argument", body(&format!("(call f [{}])", nested(61, "(cons ", "'A", " 'B)")))),
        one("64 definitions of 16 parameters", many),
    ]
}

fn jobs() -> Vec<Case> {
    let one = |name, text| case(name, PROGRAM.to_string(), text);
    vec![
        one("2,690 inputs", job(&"'A ".repeat(2690), "")),
        one("1,017 non-equalities", job("'A", &"['A 'B]".repeat(1017))),
        one("1,000 non-equalities of a variable", job("?a1", &"[?a1 'B]".repeat(1000))),
        one("62 pairs in the input", job(&nested(62, "(cons ", "'A", " 'B)"), "")),
        one("61 pairs in a non-equality", job("'A", &format!(" [{} 'A]", nested(61, "(cons ", "'A", " 'B)")))),
    ]
}

fn files(folder: &Path) -> Vec<Case> {
    let read = |name: &str| std::fs::read_to_string(folder.join(name)).expect("a benchmark text");
    vec![
        case("bench: wide", read("wide.tsg"), read("wide.job")),
        case("bench: deep", read("deep.tsg"), read("deep.job")),
        case("bench: heavy", read("heavy.tsg"), read("heavy.job")),
    ]
}

fn cases() -> Vec<Case> {
    let root = Path::new(env!("CARGO_MANIFEST_DIR")).join("../../bench");
    [programs(), jobs(), files(&root)].into_iter().flatten().collect()
}

// The prints are asked for a listing that has lines, and a value, so that they read both texts again.
fn call(entry: &str, texts: &Case) {
    let (program, job) = (texts.program.as_bytes(), texts.job.as_bytes());
    let (mut work, mut answer) = (vec![0; 8194], vec![0; 17408]);
    match entry {
        "list" => _ = raugvite::list_in(program, job, &mut work, &mut answer),
        "list_print" => _ = raugvite::list_print_in(program, job, &mut work, &mut answer, &mut [0; 64]),
        "list_sampled" => _ = raugvite::list_print_sampled_in(program, job, &mut work, &mut answer, &mut vec![0; 65536]),
        "sample" => _ = raugvite::sample_in(&[1, 1, 1, 0, 6, 6], 1, &mut vec![0; 4096]),
        "run" => _ = raugvite::run_in(program, job, &mut work, &mut answer),
        "print_list" => _ = raugvite::print_list(program, job, Listed::Whole { lines: 2, transitions: 2 }, &answer),
        "print_sampled" => _ = raugvite::print_sampled(program, job, Listed::Whole { lines: 2, transitions: 2 }, &answer),
        _ => _ = raugvite::print_run(program, job, raugvite::Ran::Value { steps: 1, length: 1 }, &answer),
    }
}

// The call itself, in a thread of that size.
fn one(entry: &str, number: usize, kilobytes: usize) {
    let texts = cases().swap_remove(number);
    let entry = entry.to_string();
    let thread = std::thread::Builder::new().stack_size(kilobytes * 1024).spawn(move || call(&entry, &texts));
    thread.expect("a thread").join().expect("a call that returns");
}

fn returns(entry: &str, number: usize, kilobytes: usize) -> bool {
    let own = std::env::current_exe().expect("this program");
    let words = ["one".to_string(), entry.to_string(), number.to_string(), kilobytes.to_string()];
    Command::new(own).args(words).stderr(Stdio::null()).status().expect("a process").success()
}

fn all(kilobytes: usize) -> bool {
    let mut failed = 0;
    let texts = cases();
    for (number, texts) in texts.iter().enumerate() {
        for entry in ENTRIES.iter().filter(|e| !returns(e, number, kilobytes)) {
            println!("{entry} does not return in {kilobytes} KB: {}", texts.name);
            failed += 1;
        }
    }
    println!("{} passed, {failed} failed", texts.len() * ENTRIES.len() - failed);
    failed == 0
}

// By halving, to within 4 KB.
fn least(entry: &str, number: usize) -> usize {
    let (mut little, mut enough) = (16, 8192);
    while enough - little > 4 {
        let middle = (little + enough) / 2;
        match returns(entry, number, middle) {
            true => enough = middle,
            false => little = middle,
        }
    }
    enough
}

fn measure() {
    println!("{:44} {}", "", ENTRIES.map(|e| format!("{e:>14}")).concat());
    for (number, texts) in cases().iter().enumerate() {
        let row = ENTRIES.map(|e| format!("{:14}", least(e, number))).concat();
        println!("{:44} {row}", texts.name);
    }
}

fn main() {
    let words: Vec<String> = std::env::args().skip(1).collect();
    match words.iter().map(String::as_str).collect::<Vec<_>>()[..] {
        ["one", entry, number, kilobytes] => one(entry, number.parse().unwrap(), kilobytes.parse().unwrap()),
        ["least"] => measure(),
        [kilobytes] => std::process::exit(i32::from(!all(kilobytes.parse().expect("kilobytes")))),
        _ => std::process::exit(i32::from(!all(512))),
    }
}
