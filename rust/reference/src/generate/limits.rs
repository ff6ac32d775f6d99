//! Every limit of 01 on both sides.

use super::spacing::{tight, tokens};
use super::Case;

/// What the listing of a case has to be.
#[derive(Clone, Copy, Debug, PartialEq, Eq)]
pub enum Expected {
    Accepted,
    Refused(char, u32),
}

#[derive(Clone, Debug)]
pub struct LimitCase {
    pub name: String,
    pub case: Case,
    pub expected: Expected,
}

const PROGRAM: &str = "(define f [e.x] e.x)";

fn job(input: &str) -> String {
    format!("(job (in {input}) (out ?e2) (neq) (steps 9) (walk 9) (table 9))")
}

struct Limits {
    cases: Vec<LimitCase>,
}

pub fn limit_cases() -> Vec<LimitCase> {
    let mut limits = Limits { cases: Vec::new() };
    limits.bytes();
    limits.names();
    limits.numerals();
    limits.token_counts();
    limits.brackets();
    limits.lists();
    limits.symbols();
    limits.numbers();
    limits.cases
}

impl Limits {
    fn add(&mut self, name: &str, program: &str, job: &str, expected: Expected) {
        let case = Case { program: program.into(), job: job.into() };
        self.cases.push(LimitCase { name: name.to_string(), case, expected });
    }

    /// The first text is accepted, the second refused.
    fn program(&mut self, name: &str, number: u32, input: &str, texts: [String; 2]) {
        self.add(name, &texts[0], &job(input), Expected::Accepted);
        self.add(name, &texts[1], &job(input), Expected::Refused('p', number));
    }

    fn job(&mut self, name: &str, number: u32, texts: [String; 2]) {
        self.add(name, PROGRAM, &texts[0], Expected::Accepted);
        self.add(name, PROGRAM, &texts[1], Expected::Refused('j', number));
    }

    fn bytes(&mut self) {
        let long = |text: &str, length: usize| format!("{text:length$}");
        let job_text = job("?e1");
        self.program("bytes", 1, "?e1", [long(PROGRAM, 32_768), long(PROGRAM, 32_769)]);
        self.job("bytes", 1, [long(&job_text, 8_192), long(&job_text, 8_193)]);
        for (inside, outside) in [(" ", "\u{1f}"), ("\t", "\u{8}"), ("\n", "\u{b}"), ("\n", "\r")] {
            let texts = [inside, outside].map(|byte| format!("{byte}{PROGRAM}"));
            self.program("byte set", 2, "?e1", texts);
            let texts = [inside, outside].map(|byte| format!("{job_text}{byte}"));
            self.job("byte set", 2, texts);
        }
        let last = ["~", "\u{7f}"].map(|byte| format!("{PROGRAM}{byte}"));
        self.add("byte 126", &last[0], &job_text, Expected::Refused('p', 3));
        self.add("byte 127", &last[1], &job_text, Expected::Refused('p', 2));
    }

    fn names(&mut self) {
        let sizes = [16, 17].map(|n| "n".repeat(n));
        self.program("F", 4, "?e1", sizes.clone().map(|n| format!("(define {n} [e.x] e.x)")));
        self.program("e.NAME", 4, "?e1", sizes.clone().map(|n| format!("(define f [e.{n}] 'A)")));
        self.program("a.NAME", 4, "?a1", sizes.clone().map(|n| format!("(define f [a.{n}] 'A)")));
        self.program("Z", 4, "?e1", sizes.clone().map(|n| format!("(define f [e.x] '{n})")));
        self.job("Z", 4, sizes.map(|n| job(&format!("'{n}"))));
        let empty = ["A", ""].map(|n| format!("(define f [e.x] '{n})"));
        self.program("empty Z", 3, "?e1", empty);
    }

    fn numerals(&mut self) {
        for kind in ["e", "a"] {
            self.job("K", 4, ["999", "1000"].map(|k| job(&format!("?{kind}{k}"))));
            self.job("K", 4, ["1", "0"].map(|k| job(&format!("?{kind}{k}"))));
        }
        for word in ["steps", "walk", "table"] {
            let with = |n: &str| job("?e1").replace(&format!("{word} 9"), &format!("{word} {n}"));
            self.job("noughts", 3, [with("0"), with("00")]);
            self.add("7 digits", PROGRAM, &with("9999999"), Expected::Refused('j', 12));
            self.add("8 digits", PROGRAM, &with("10000000"), Expected::Refused('j', 4));
        }
    }

    fn token_counts(&mut self) {
        self.program("tokens", 5, "?e1", [program_of_tokens(4_096), program_of_tokens(4_097)]);
        // The 4,097th token closes the text in the one and is missing in
        // the other, so the inputs of a job take up the rest.
        for (count, expected) in [(4_096, Expected::Accepted), (4_097, Expected::Refused('j', 5))] {
            let (program, job) = job_of_tokens(count);
            self.add("tokens", &program, &job, expected);
        }
    }

    fn brackets(&mut self) {
        let nest = |n: usize| format!("{}'A{}", "(cons 'A ".repeat(n), ")".repeat(n));
        let texts = [63, 64].map(|n| format!("(define f [e.x] {})", nest(n)));
        self.program("brackets", 5, "?e1", texts);
        let texts = [61, 62].map(|n| format!("(define f [e.x] (call f [{}]))", nest(n)));
        self.program("square brackets", 5, "?e1", texts);
        self.job("brackets", 5, [62, 63].map(|n| job(&nest(n))));
    }

    fn lists(&mut self) {
        let more = |n: usize| -> String { (0..n).map(|i| format!("(define g{i} [] 'A)")).collect() };
        let texts = [63, 64].map(|n| format!("{PROGRAM}{}", more(n)));
        self.program("definitions", 5, "?e1", texts);
        let names = |n: usize| -> String { (0..n).map(|i| format!("e.p{i} ")).collect() };
        let texts = [16, 17].map(|n| format!("{PROGRAM}(define g [{}] 'A)", names(n)));
        self.program("parameters", 5, "?e1", texts);
    }

    fn symbols(&mut self) {
        let texts = [1_024, 1_025].map(program_of_symbols);
        self.program("symbols", 5, "?e1", texts.clone());
        let with = |symbol: &str| job(symbol);
        self.add("symbols", &texts[0], &with("'S7"), Expected::Accepted);
        self.add("symbols", &texts[0], &with("'New"), Expected::Refused('j', 5));
    }

    fn numbers(&mut self) {
        for (word, limit) in [("steps", 1_000), ("walk", 1_000_000), ("table", 256)] {
            let with = |n: usize| job("?e1").replace(&format!("{word} 9"), &format!("{word} {n}"));
            self.job(word, 12, [with(limit), with(limit + 1)]);
        }
    }
}

/// A `cons` tree with these leaves; it takes 4 tokens a leaf, less 3.
fn tree(leaves: &[String]) -> String {
    match leaves {
        [leaf] => leaf.clone(),
        _ => {
            let (left, right) = leaves.split_at(leaves.len() / 2);
            format!("(cons {} {})", tree(left), tree(right))
        }
    }
}

/// A program of so many tokens: parameters make up what leaves cannot. The
/// tree stands in a second definition so that main stays as it is.
fn program_of_tokens(count: usize) -> String {
    let fixed = tokens(&format!("{PROGRAM}(define g [] )")).len();
    // fixed + parameters + 4 * leaves - 3 is the count.
    let rest = count + 3 - fixed;
    let (leaves, parameters) = (rest / 4, rest % 4);
    let names: String = (0..parameters).map(|i| format!("e.p{i} ")).collect();
    let body = tree(&vec!["'A".to_string(); leaves]);
    tight_text(&format!("{PROGRAM}(define g [{names}] {body})"))
}

/// A job of so many tokens, with a program for its inputs.
fn job_of_tokens(count: usize) -> (String, String) {
    let around = |inputs: &str, neqs: &str| format!("(job (in {inputs}) (out 'A) (neq {neqs}) (steps 9) (walk 9) (table 9))");
    let rest = count - tokens(&around("", "")).len();
    let inputs = "'A ".repeat(rest % 4);
    let names: String = (0..rest % 4).map(|i| format!("e.p{i} ")).collect();
    let job = tight_text(&around(&inputs, &"['A 'B]".repeat(rest / 4)));
    (format!("(define f [{names}] 'A)"), job)
}

/// A term with all these symbols in 3 tokens for each, as 4,096 tokens are
/// too few for a tree of them.
fn term_of_symbols(symbols: &[String]) -> String {
    match symbols {
        [a, b, c, rest @ ..] if !rest.is_empty() => {
            format!("(if (eqa? {a} {b}) {c} {})", term_of_symbols(rest))
        }
        _ => tree(symbols),
    }
}

/// A program with so many symbols, a part of them in each definition.
fn program_of_symbols(count: usize) -> String {
    let symbols: Vec<String> = (0..count).map(|i| format!("'S{i}")).collect();
    let mut program = PROGRAM.to_string();
    for (index, some) in symbols.chunks(31).enumerate() {
        program += &format!("(define g{index} [] {})", term_of_symbols(some));
    }
    tight_text(&program)
}

fn tight_text(text: &str) -> String {
    String::from_utf8_lossy(&tight(&tokens(text))).into_owned()
}
