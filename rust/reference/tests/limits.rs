//! Limits on both sides, and every refusal from the generator.

use std::collections::BTreeSet;

use reference::generate::{case_of, limit_cases, Expected, Flavour};
use reference::{list_texts, print_listing, Listing};

#[test]
fn limits_of_the_texts() {
    for limit in limit_cases() {
        let found = match list_texts(&limit.case.program, &limit.case.job) {
            Listing::Refused { letter, number, .. } => Expected::Refused(letter, number),
            Listing::Listed { .. } => Expected::Accepted,
        };
        assert_eq!(found, limit.expected, "{}", limit.name);
    }
}

#[test]
fn damaged_texts_reach_every_refusal() {
    let mut seen = BTreeSet::new();
    for seed in 0..1_500 {
        let case = case_of(Flavour::Damaged, seed);
        if let Listing::Refused { letter, number, .. } = list_texts(&case.program, &case.job) {
            seen.insert((letter, number));
        }
    }
    let program = (1..=9).chain([13]).map(|number| ('p', number));
    let job = [1, 2, 3, 4, 5, 10, 11, 12].map(|number| ('j', number));
    let due: BTreeSet<(char, u32)> = program.chain(job).collect();
    assert_eq!(seen, due);
}

fn first_line(program: &str, job: &str) -> String {
    let printed = print_listing(&list_texts(program.as_bytes(), job.as_bytes()));
    String::from_utf8(printed).unwrap().lines().next().unwrap().to_string()
}

/// After transition 13 the tree has 4,095 nodes; with the wanted output
/// these are 4,096, and an atom in the environment makes them 4,097.
#[test]
fn nodes_4096_and_4097() {
    let job = "(job (in) (out 'A) (neq) (steps 99) (walk 99) (table 9))";
    let plain = "(define m [] (call f ['A]))(define f [e.x] (call f [(cons e.x e.x)]))";
    assert_eq!(first_line(plain, job), "stop21 0 14");
    let atom = "(define m [] (call f ['A 'A]))\
        (define f [a.y e.x] (call f [a.y (cons e.x e.x)]))";
    assert_eq!(first_line(atom, job), "stop21 0 13");
}

/// A `cons` tree of so many leaves, which is not deep.
fn tree(leaves: usize) -> String {
    match leaves {
        1 => "'A".to_string(),
        _ => format!("(cons {} {})", tree(leaves / 2), tree(leaves - leaves / 2)),
    }
}

/// L lines of m + 1 nodes and a list of 2j + 1 more, j from 0 to L - 1,
/// have L * (m + 1 + L) nodes together.
#[test]
fn line_nodes_16384_and_16385() {
    let program = "(define f [e.x e.y] (if (cons? e.y e.h e.t a.p) (call f [e.x e.t]) 'A))";
    let job = |lines: usize, nodes: usize| {
        let (leaves, steps) = (nodes.div_ceil(2), 2 * lines);
        format!("(job (in {} ?e1) (out 'A) (neq) (steps {steps}) (walk 999) (table 256))", tree(leaves))
    };
    assert_eq!(16 * (1_007 + 1 + 16), 16_384);
    assert!(first_line(program, &job(16, 1_007)).starts_with("cut 16 "));
    assert_eq!(29 * (535 + 1 + 29), 16_385);
    assert!(first_line(program, &job(29, 535)).starts_with("stop22 28 "));
}
