//! The cases that 01 names: P1 to P11, figure 14 and figure 11.

use reference::{list_texts, print_listing, print_run, print_samples, run_texts};

const SAME: &str = "(define same [e.x e.y] (if (cons? e.x e.h e.t a.p) 'No \
    (if (cons? e.y e.h e.t a.q) 'No (if (eqa? a.p a.q) 'Yes 'No))))";
const DUB: &str = "(define dub [e.x] (cons e.x 'K))";

/// Figure 11 of 001, each `-` given a name, dots in atoms left out.
const MATCHER: &str = "(define match [e.p e.t] (call check [e.p e.t e.p e.t]))
    (define next [e.p e.t] (if (cons? e.t e.n1 e.tt a.n2) (call match [e.p e.tt]) 'Failure))
    (define check [e.p e.t e.ps e.ts]
      (if (cons? e.p e.ph e.pt a.n1)
        (if (cons? e.t e.th e.tt a.n2)
          (if (cons? e.ph e.n3 e.n4 a.pa) (cons 'Error '1starg)
            (if (cons? e.th e.n5 e.n6 a.ta) (cons 'Error '2ndarg)
              (if (eqa? a.pa a.ta) (call check [e.pt e.tt e.ps e.ts])
                (call next [e.ps e.ts]))))
          'Failure)
        'Success))";

fn job(input: &str, output: &str, neq: &str, numbers: [u32; 3]) -> String {
    let [steps, walk, table] = numbers;
    format!("(job (in {input}) (out {output}) (neq {neq}) (steps {steps}) (walk {walk}) (table {table}))")
}

fn list(program: &str, job: &str) -> String {
    let printed = print_listing(&list_texts(program.as_bytes(), job.as_bytes()));
    String::from_utf8(printed).unwrap()
}

fn first_line(program: &str, job: &str) -> String {
    list(program, job).lines().next().unwrap().to_string()
}

#[test]
fn p1_to_p7() {
    let p1 = "whole 3 7\n1 2 ?e1=(cons ?e3 ?e4)\n2 3 ?e1=?a5 ?e2=(cons ?e6 ?e7)\n\
        3 4 ?e1=?a5 ?e2=?a8 # ?a5 ?a8\n";
    let both = "?e1 ?e2";
    assert_eq!(list(SAME, &job(both, "'No", "", [4, 7, 3])), p1);
    let p2 = "whole 1 7\n1 4 ?e1=?a8 ?e2=?a8\n";
    assert_eq!(list(SAME, &job(both, "'Yes", "", [4, 7, 3])), p2);
    assert_eq!(first_line(SAME, &job(both, "'No", "", [3, 7, 3])), "cut 2 5");
    assert_eq!(first_line(SAME, &job(both, "'No", "", [0, 7, 3])), "cut 0 0");
    assert_eq!(first_line(SAME, &job(both, "'No", "", [4, 6, 3])), "stop23 2 6");
    assert_eq!(first_line(SAME, &job(both, "'No", "", [4, 7, 2])), "stop22 2 7");
    let p7 = "whole 1 5\n1 4 ?e1=?a4\n";
    assert_eq!(list(SAME, &job("?e1 ?e1", "'Yes", "", [4, 7, 3])), p7);
}

#[test]
fn p8_to_p11() {
    let ones = [1, 1, 1];
    assert_eq!(list(DUB, &job("?e1", "?e1", "", ones)), "whole 0 1\n");
    let p9 = "whole 1 1\n1 1 ?e2=(cons ?e1 'K)\n";
    assert_eq!(list(DUB, &job("?e1", "?e2", "", ones)), p9);
    assert_eq!(list(DUB, &job("?a1", "(cons 'B 'K)", "['B ?a1]", ones)), "whole 0 1\n");
    assert_eq!(list(DUB, &job("?a1", "(cons 'B 'K)", "[?a1 ?a1]", ones)), "whole 0 0\n");
}

/// What the lines bind, order and steps aside.
fn answers(listing: &str) -> Vec<String> {
    let answer = |line: &str| line.splitn(3, ' ').nth(2).unwrap_or("").to_string();
    let mut answers: Vec<String> = listing.lines().skip(1).map(answer).collect();
    answers.sort();
    answers
}

fn text_of(letters: [&str; 3]) -> String {
    let [a, b, c] = letters;
    format!("(cons '{a} (cons '{b} (cons '{c} 'nil)))")
}

/// The matcher over all patterns and the text of three letters.
fn figure_14(letters: [&str; 3], wanted: &str, first: &str, due: &[&str]) {
    let input = format!("?e1 {}", text_of(letters));
    let listing = list(MATCHER, &job(&input, wanted, "", [1_000, 1_000_000, 256]));
    assert_eq!(listing.lines().next(), Some(first));
    let mut due = due.to_vec();
    due.sort();
    assert_eq!(answers(&listing), due);
}

#[test]
fn figure_14_patterns_in_the_text() {
    let due = [
        "?e1=?a4",
        "?e1=(cons 'A ?a10)",
        "?e1=(cons 'A (cons 'B ?a16))",
        "?e1=(cons 'B ?a10)",
        "?e1=(cons 'A (cons 'B (cons 'C ?a22)))",
        "?e1=(cons 'B (cons 'C ?a16))",
        "?e1=(cons 'C ?a10)",
    ];
    figure_14(["A", "B", "C"], "'Success", "whole 7 138", &due);
}

#[test]
fn figure_14_patterns_not_in_the_text() {
    // Xa20 in the figure's last line is a misprint for Xe20.
    let due = [
        "?e1=(cons ?a7 ?e3) # ?a7 'A",
        "?e1=(cons 'A (cons ?a13 ?e9)) # ?a13 'A",
        "?e1=(cons 'A (cons 'A (cons ?a19 ?e15))) # ?a19 'A",
        "?e1=(cons 'A (cons 'A (cons 'A (cons ?e20 ?e21))))",
    ];
    figure_14(["A", "A", "A"], "'Failure", "whole 4 101", &due);
}

#[test]
fn figure_11_on_the_text_a() {
    let text = job("?e1 (cons 'A 'nil)", "'Failure", "", [1_000, 1_000, 256]);
    let listing = list(MATCHER, &text);
    assert!(listing.starts_with("whole 2 20\n"));
    let steps = |line: &str| line.split(' ').nth(1).unwrap().parse::<u32>().unwrap();
    let mut found: Vec<u32> = listing.lines().skip(1).map(steps).collect();
    found.sort();
    assert_eq!(found, [10, 13]);
}

fn sampled(program: &str, input: &str, output: &str, neq: &str, walk: u32) -> String {
    let text = job(input, output, neq, [9, walk, 9]);
    String::from_utf8(print_samples(program.as_bytes(), text.as_bytes())).unwrap().trim_end().replace('\n', " | ")
}

/// The texts of the readings of request 2 of 02.
#[test]
fn samples() {
    let both = "(define f [e.x] (if (cons? e.x e.h e.t a.p) 'A 'A))";
    let two = "whole 2 3 | 1 2 ?e1=(cons ?e2 ?e3) | (in (cons 'Q1 'Q2)) (out 'A) | 2 2 ?e1=?a4 | (in 'Q1) (out 'A)";
    assert_eq!(sampled(both, "?e1", "'A", "", 9), two);
    let stopped = "stop23 1 2 | 1 2 ?e1=(cons ?e2 ?e3) | (in (cons 'Q1 'Q2)) (out 'A)";
    assert_eq!(sampled(both, "?e1", "'A", "", 2), stopped);
    assert_eq!(sampled("(define f [e.x] e.x)", "?e1", "?e2", "", 9), "whole 1 1 | 1 1 ?e2=?e1 | (in 'Q1) (out 'Q1)");
    assert_eq!(sampled("(define f [e.x e.y] 'Q1)", "?e1 ?e2", "'Q1", "", 9), "whole 1 1 | 1 1 | (in 'Q2 'Q3) (out 'Q1)");
    let elsewhere = "(define f [e.x] 'A)(define g [] 'Q1)";
    assert_eq!(sampled(elsewhere, "?e1", "'A", "['Q2 'B]", 9), "whole 1 1 | 1 1 | (in 'Q3) (out 'A)");
    assert_eq!(sampled("(define f [e.x] 'Q01)", "?e1", "'Q01", "", 9), "whole 1 1 | 1 1 | (in 'Q1) (out 'Q01)");
    assert_eq!(sampled("(define f [] 'A)", "", "'A", "", 9), "whole 1 1 | 1 1 | (in) (out 'A)");
    assert_eq!(sampled("(define f [e.x e.y] 'A)", "?e7 ?e2", "'A", "", 9), "whole 1 1 | 1 1 | (in 'Q1 'Q2) (out 'A)");
    assert_eq!(sampled("(define f [] 'A", "", "'A", "", 9), "refused p 3 15");
}

#[test]
fn runs() {
    let run = |program: &str, job: &str| {
        let printed = print_run(&run_texts(program.as_bytes(), job.as_bytes()));
        String::from_utf8(printed).unwrap()
    };
    let with = |steps| job("'B", "?e1", "", [steps, 0, 0]);
    assert_eq!(run(DUB, &with(1)), "value 1 (cons 'B 'K)\n");
    assert_eq!(run(DUB, &with(0)), "notwithin\n");
    assert_eq!(run(DUB, &job("?e1", "?e1", "", [1, 0, 0])), "refused j 10 9\n");
    assert_eq!(run("", ""), "refused p 3 0\n");
    let growing = "(define f [e.x] (call f [(cons e.x e.x)]))";
    assert_eq!(run(growing, &with(99)), "stop21\n");
}
