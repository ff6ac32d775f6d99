//! Programs that take unknown trees apart, so that walks split often.

use super::{Random, Texts};

/// Each with its number of inputs.
const PROGRAMS: [(&str, usize); 5] = [
    // Is the second among the members of the first?
    (
        "(define member [e.l e.k] (if (cons? e.k e.x e.y a.k) 'Bad (call look [e.l a.k])))
         (define look [e.l a.k] (if (cons? e.l e.h e.t a.n)
           (if (cons? e.h e.x e.y a.h) (call look [e.t a.k])
             (if (eqa? a.h a.k) (cons 'Yes e.t) (call look [e.t a.k]))) 'No))",
        2,
    ),
    // Two trees compared with a list of what is left to do.
    (
        "(define equal [e.x e.y] (call trees [e.x e.y 'nil]))
         (define trees [e.x e.y e.k] (if (cons? e.x e.xh e.xt a.x)
           (if (cons? e.y e.yh e.yt a.y)
             (call trees [e.xh e.yh (cons (cons e.xt e.yt) e.k)]) 'No)
           (if (cons? e.y e.yh e.yt a.y) 'No
             (if (eqa? a.x a.y) (call rest [e.k]) 'No))))
         (define rest [e.k] (if (cons? e.k e.p e.r a.n)
           (if (cons? e.p e.x e.y a.n) (call trees [e.x e.y e.r]) 'Bad) 'Yes))",
        2,
    ),
    // The first reversed before the second.
    (
        "(define back [e.x e.y] (if (cons? e.x e.h e.t a.n)
           (call back [e.t (cons e.h e.y)]) (cons a.n e.y)))",
        2,
    ),
    // Every neighbour different: many non-equalities.
    (
        "(define main [e.l] (if (cons? e.l e.h e.t a.n)
           (if (cons? e.h e.x e.y a.h) 'Bad (call next [a.h e.t e.t])) 'Yes))
         (define next [a.h e.l e.m] (if (cons? e.m e.g e.r a.n)
           (if (cons? e.g e.x e.y a.g) 'Bad (if (eqa? a.g a.h) (cons 'Twice a.h)
             (call next [a.h e.l e.r]))) (call main [e.l])))",
        1,
    ),
    // A mirror of a tree's left edge, which builds its answer.
    (
        "(define main [e.t e.k] (if (cons? e.t e.l e.r a.p)
           (call main [e.l (cons e.r e.k)])
           (if (cons? e.k e.h e.u a.q) (cons a.p (cons e.h e.u))
             (if (eqa? a.q a.p) 'Same (cons a.q a.p)))))",
        2,
    ),
];

pub fn texts(random: &mut Random) -> Texts {
    let (program, count) = *random.pick(&PROGRAMS);
    let inputs: Vec<String> = (0..count).map(|_| input(random)).collect();
    let inputs = inputs.join(" ");
    let wanted = *random.pick(&["'Yes", "'No", "?e9", "?a9", "?e1", "(cons ?e9 ?e8)", "(cons 'Yes ?e1)", "(cons ?a9 ?e2)"]);
    let neq = if inputs.contains("?a5") { "[?a5 'A]" } else { "['A 'B]" };
    let steps = random.between(4, 40);
    let walk = *random.pick(&[30, 300, 3_000, 3_000]);
    let table = *random.pick(&[3, 40, 256, 256]);
    let job = format!("(job (in {inputs}) (out {wanted}) (neq {neq}) (steps {steps}) (walk {walk}) (table {table}))");
    Texts::of(program, &job)
}

fn input(random: &mut Random) -> String {
    let items = ["?e1", "?e2", "?a5", "'A", "(cons 'B ?e3)", "?a6", "?e1"];
    match random.below(3) {
        0 => format!("?e{}", random.between(1, 3)),
        1 => random.pick(&items).to_string(),
        _ => {
            let ends = ["?e4", "'nil", "?a5"];
            let mut list = random.pick(&ends).to_string();
            for _ in 0..random.between(1, 4) {
                list = format!("(cons {} {list})", random.pick(&items));
            }
            list
        }
    }
}
