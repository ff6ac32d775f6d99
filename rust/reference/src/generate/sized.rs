//! Texts whose configurations come near 4,096 nodes, or whose lines come
//! near 16,384.

use super::{Random, Texts};

pub fn texts(random: &mut Random) -> Texts {
    if random.chance(50) {
        configurations(random)
    } else {
        lines(random)
    }
}

/// A list of so many items.
fn list(item: &str, length: usize, end: &str) -> String {
    let opening = format!("(cons {item} ").repeat(length);
    format!("{opening}{end}{}", ")".repeat(length))
}

/// A tree is doubled once for each member of a list; a second list of any
/// length makes the node count any number near the limit.
fn configurations(random: &mut Random) -> Texts {
    let end = *random.pick(&["e.x", "'A", "(cons e.x 'A)", "(cons e.x e.x)", "e.m"]);
    let check = match random.chance(50) {
        true => end.to_string(),
        false => format!("(if (cons? e.x e.h e.t a.q) {end} 'B)"),
    };
    let program = format!(
        "(define f [e.n e.x e.m] (if (cons? e.n e.h e.r a.p)
           (call f [e.r (cons e.x e.x) e.m]) {check}))"
    );
    let count = list("'I", random.between(8, 11), "'O");
    let padding = list("'M", random.below(60), "'O");
    let seed = *random.pick(&["'A", "?e1", "?a1", "(cons ?e1 ?e2)", "(cons 'A 'B)"]);
    let wanted = *random.pick(&["'A", "?e3", "?e1", "(cons ?e3 ?e3)", "(cons ?e3 ?e4)", "?a3"]);
    let job = format!("(job (in {count} {seed} {padding}) (out {wanted}) (neq) (steps 99) (walk 999) (table 9))");
    Texts::of(&program, &job)
}

/// Several lines, each with a tree of some hundred or thousand nodes.
fn lines(random: &mut Random) -> Texts {
    let program = "(define f [e.n e.x e.l] (if (cons? e.n e.h e.r a.p)
           (call f [e.r (cons e.x e.x) e.l]) (call g [e.x e.l])))
         (define g [e.x e.l] (if (cons? e.l e.h e.r a.p)
           (if (cons? e.h e.y e.z a.h) (cons e.x 'A)
             (if (eqa? a.h 'A) (cons e.x a.h) (call g [e.x e.r]))) e.x))";
    let count = list("'I", random.between(5, 9), "'O");
    let seed = *random.pick(&["'A", "?a1", "(cons 'A 'B)"]);
    let members = list("?e5", 1, &list("?e6", random.between(0, 20), "?e7"));
    let wanted = *random.pick(&["?e3", "(cons ?e3 ?e4)", "(cons ?e3 ?a4)"]);
    let table = *random.pick(&[5, 256, 256]);
    let steps = random.between(20, 90);
    let job = format!("(job (in {count} {seed} {members}) (out {wanted}) (neq) (steps {steps}) (walk 999) (table {table}))");
    Texts::of(program, &job)
}
