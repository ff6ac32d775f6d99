//! Small programs that pass the check, and jobs that fit them.

use super::{Random, Texts};

const SYMBOLS: [&str; 6] = ["'A", "'B", "'C", "'nil", "'7", "'07"];
// More than are ever in reach together: 4 parameters, and those of 5 branches.
const E_NAMES: [&str; 16] =
    ["e.x", "e.y", "e.z", "e.h", "e.t", "e.p", "e.q", "e.r", "e.s", "e.u", "e.v", "e.w", "e.l", "e.m", "e.n", "e.k"];
const A_NAMES: [&str; 10] = ["a.p", "a.q", "a.x", "a.h", "a.longestname00016", "a.y", "a.z", "a.n", "a.m", "a.k"];
const FUNCTIONS: [&str; 6] = ["main", "f", "if", "42", "G", "longestname00016"];

/// A function's name with its parameters.
struct Function {
    name: &'static str,
    parameters: Vec<&'static str>,
}

pub fn texts(random: &mut Random, ground: bool) -> Texts {
    let functions = functions(random);
    let mut program = String::new();
    for function in &functions {
        let mut writer = Writer { random, functions: &functions };
        let body = writer.term(&function.parameters, 5);
        let parameters = function.parameters.join(" ");
        program += &format!("(define {} [{}] {})", function.name, parameters, body);
    }
    Texts::of(&program, &job(random, &functions[0].parameters, ground))
}

fn functions(random: &mut Random) -> Vec<Function> {
    let count = random.between(1, 4);
    let first = random.below(FUNCTIONS.len());
    let name = |i: usize| FUNCTIONS[(first + i) % FUNCTIONS.len()];
    (0..count).map(|i| Function { name: name(i), parameters: parameters(random) }).collect()
}

fn parameters(random: &mut Random) -> Vec<&'static str> {
    let mut chosen: Vec<&'static str> = Vec::new();
    for _ in 0..random.below(5) {
        chosen.push(match random.chance(70) {
            true => new_name(random, &E_NAMES, &chosen),
            false => new_name(random, &A_NAMES, &chosen),
        });
    }
    chosen
}

/// One of the first names that are not in reach, so that branches that do
/// not see each other often share theirs.
fn new_name(random: &mut Random, names: &[&'static str], reach: &[&'static str]) -> &'static str {
    let free: Vec<&'static str> = names.iter().copied().filter(|name| !reach.contains(name)).take(4).collect();
    *random.pick(&free)
}

fn is_atomic(variable: &str) -> bool {
    variable.starts_with("a.")
}

struct Writer<'w> {
    random: &'w mut Random,
    functions: &'w [Function],
}

impl Writer<'_> {
    fn term(&mut self, reach: &[&'static str], depth: usize) -> String {
        let kind = if depth == 0 { self.random.below(35) } else { self.random.below(100) };
        match kind {
            0..=14 => self.exp(reach, 2),
            15..=34 => self.call(reach),
            35..=59 => self.eqa(reach, depth),
            _ => self.cons(reach, depth),
        }
    }

    fn call(&mut self, reach: &[&'static str]) -> String {
        let function = self.random.pick(self.functions);
        let mut arguments = Vec::new();
        for parameter in &function.parameters {
            arguments.push(match is_atomic(parameter) {
                true => self.atomic(reach),
                false => self.exp(reach, 1),
            });
        }
        format!("(call {} [{}])", function.name, arguments.join(" "))
    }

    fn eqa(&mut self, reach: &[&'static str], depth: usize) -> String {
        let (left, right) = (self.atomic(reach), self.atomic(reach));
        let (yes, no) = (self.term(reach, depth - 1), self.term(reach, depth - 1));
        format!("(if (eqa? {left} {right}) {yes} {no})")
    }

    fn cons(&mut self, reach: &[&'static str], depth: usize) -> String {
        let depth_of_subject = usize::from(self.random.chance(20));
        let subject = self.exp(reach, depth_of_subject);
        let head = new_name(self.random, &E_NAMES, reach);
        let tail = new_name(self.random, &E_NAMES, &[reach, &[head]].concat());
        let atom = new_name(self.random, &A_NAMES, reach);
        let if_pair = [reach, &[head, tail]].concat();
        let if_atom = [reach, &[atom]].concat();
        let yes = self.term(&if_pair, depth - 1);
        let no = self.term(&if_atom, depth - 1);
        format!("(if (cons? {subject} {head} {tail} {atom}) {yes} {no})")
    }

    fn exp(&mut self, reach: &[&'static str], depth: usize) -> String {
        match self.random.below(10) {
            0..=2 if depth > 0 => {
                let (head, tail) = (self.exp(reach, depth - 1), self.exp(reach, depth - 1));
                format!("(cons {head} {tail})")
            }
            3 => self.random.pick(&SYMBOLS).to_string(),
            _ if reach.is_empty() => self.random.pick(&SYMBOLS).to_string(),
            _ => self.random.pick(reach).to_string(),
        }
    }

    fn atomic(&mut self, reach: &[&'static str]) -> String {
        let atoms: Vec<&str> = reach.iter().copied().filter(|v| is_atomic(v)).collect();
        if atoms.is_empty() || self.random.chance(25) {
            return self.random.pick(&SYMBOLS).to_string();
        }
        self.random.pick(&atoms).to_string()
    }
}

/// A job for these parameters of main.
pub fn job(random: &mut Random, parameters: &[&str], ground: bool) -> String {
    let mut inputs = Vec::new();
    for parameter in parameters {
        inputs.push(match is_atomic(parameter) {
            true => atomic_item(random, ground),
            false => item(random, 2, ground),
        });
    }
    let inputs = inputs.join(" ");
    let wanted = item(random, 2, false);
    let neqs = neqs(random, &format!("{inputs} {wanted}"));
    let steps = *random.pick(&[0, 1, 2, 3, 5, 8, 12, 20, 40]);
    let walk = *random.pick(&[0, 1, 7, 50, 400, 3_000, 3_000, 3_000]);
    let table = *random.pick(&[0, 1, 2, 5, 60, 256, 256]);
    format!("(job (in {inputs}) (out {wanted}) (neq {neqs}) (steps {steps}) (walk {walk}) (table {table}))")
}

fn item(random: &mut Random, depth: usize, ground: bool) -> String {
    match random.below(10) {
        0..=2 if depth > 0 => {
            let head = item(random, depth - 1, ground);
            format!("(cons {head} {})", item(random, depth - 1, ground))
        }
        3..=6 if !ground => format!("?e{}", variable_number(random)),
        _ => atomic_item(random, ground),
    }
}

fn atomic_item(random: &mut Random, ground: bool) -> String {
    match ground || random.chance(40) {
        true => random.pick(&SYMBOLS).to_string(),
        false => format!("?a{}", variable_number(random)),
    }
}

fn variable_number(random: &mut Random) -> usize {
    if random.chance(5) {
        return random.between(990, 999);
    }
    random.between(1, 5)
}

/// Non-equalities between atoms and the `?a` that stand in these items.
fn neqs(random: &mut Random, items: &str) -> String {
    let words = items.split([' ', '(', ')']);
    let mut sides: Vec<&str> = words.filter(|w| w.starts_with("?a")).collect();
    sides.extend(["'A", "'B"]);
    let mut written = String::new();
    for _ in 0..random.below(6).saturating_sub(2) {
        written += &format!("[{} {}]", random.pick(&sides), random.pick(&sides));
    }
    written
}
