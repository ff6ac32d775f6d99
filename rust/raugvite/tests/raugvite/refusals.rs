//! Refused texts: each number, at its place.
use crate::texts::{generated, job, DUB};
use raugvite::{list, sentence, try_list, Listed, NotWhole, Refusal, Text};
use reference::generate::{limit_cases, Expected};

const JOB: &str = "(job (in ?e1) (out ?e2) (neq) (steps 1) (walk 1) (table 1))";

// A text for each number, with the place that is due: the program's first, then the job's.
fn programs() -> Vec<(String, usize, usize)> {
    vec![
        (" ".repeat(32769), 1, 32768),
        ("(define f [e.x]\n\t'\u{e9})".into(), 2, 18),
        ("(define f [e.x] (call f [e.x])".into(), 3, 30),
        ("(define abcdefghijklmnopq [e.x] 'A)".into(), 4, 8),
        (format!("(define f [{}] 'A)", "e.x ".repeat(17)), 5, 75),
        ("(define f [e.x] 'A)\n(define f [e.x] 'B)".into(), 6, 28),
        ("(define f [e.x] (if (cons? e.x e.h e.h a.p) 'A 'B))".into(), 6, 35),
        ("(define f [e.x] (call g [e.x]))".into(), 7, 22),
        ("(define f [e.x] (if (eqa? e.x 'A) 'A 'B))".into(), 8, 26),
        ("(define f [e.x]\n e.y)".into(), 9, 17),
        ("(define f [e.x] (if (cons? e.x e.h e.x a.p) e.h 'B))".into(), 13, 35),
    ]
}

fn jobs() -> Vec<(String, usize, usize)> {
    vec![
        (" ".repeat(8193), 1, 8192),
        ("(job\r)".into(), 2, 4),
        ("".into(), 3, 0),
        (job("?e1000", "'A", "", [1, 1, 1]), 4, 9),
        (job(&("(cons ".repeat(63) + "'A" + &" 'A)".repeat(63)), "'A", "", [1, 1, 1]), 5, 9 + 62 * 6),
        (job("?e1 ?e2", "'A", "", [1, 1, 1]), 10, 6),
        (job("?e1", "'A", "[?a2 'A]", [1, 1, 1]), 11, 29),
        (job("?e1", "'A", "", [1, 1000001, 1]), 12, 46),
    ]
}

fn tried(text: Text, program: &str, job: &str, number: usize, offset: usize) {
    let (program, job) = (program.as_bytes(), job.as_bytes());
    let due = Refusal { text, number, offset };
    let listing = list(program, job);
    assert_eq!(listing.answer(), Listed::Refused(due));
    assert_eq!(listing.text(), format!("refused {} {number} {offset}\n", text.letter()).as_bytes());
    assert!(listing.lines_found().is_empty() && listing.whole_lines().is_none() && listing.lines_within_steps().is_none());
    assert_eq!(try_list(program, job), Err(due));
    assert_eq!(listing.into_whole(), Err(NotWhole::Refused(due)));
    let error: Box<dyn std::error::Error> = Box::new(due);
    let said = format!("the {text} is refused by number {number} at byte {offset}: {}", sentence(number).unwrap());
    assert_eq!(error.to_string(), said);
    assert_eq!(NotWhole::from(due).to_string(), said);
}

#[test]
fn every_number() {
    for (program, number, offset) in programs() {
        tried(Text::Program, &program, JOB, number, offset);
    }
    for (job, number, offset) in jobs() {
        tried(Text::Job, DUB, &job, number, offset);
    }
    // Both are refused: the program comes first.
    tried(Text::Program, "", "", 3, 0);
}

#[test]
fn places() {
    let place = |program: &str, job: &str| {
        let refusal = try_list(program.as_bytes(), job.as_bytes()).unwrap_err();
        refusal.position(program.as_bytes(), job.as_bytes()).to_string()
    };
    assert_eq!(place("(define f [e.x]\n\t(cons e.x\n\n   e.y))", JOB), "4:4");
    assert_eq!(place("(define f [e.x]\n 'A", JOB), "2:4");
    assert_eq!(place("(define f [e.x]\n 'A\n", JOB), "3:1");
    assert_eq!(place(DUB, "\n\n(jab)"), "3:2");
    assert_eq!(place(&"\n".repeat(32769), JOB), "32769:1");
}

#[test]
fn both_sides_of_each_limit() {
    for limit in limit_cases() {
        let (number, text) = match try_list(&limit.case.program, &limit.case.job) {
            Ok(_) => (0, None),
            Err(refusal) => (refusal.number as u32, Some(refusal.text.letter())),
        };
        let due = match limit.expected {
            Expected::Accepted => (0, None),
            Expected::Refused(letter, number) => (number, Some(letter)),
        };
        assert_eq!((number, text), due, "{}", limit.name);
    }
}

// Whatever is refused has a place in its own text, or at its end.
#[test]
fn places_of_generated_texts() {
    let mut refused = 0;
    for texts in generated(300) {
        if let Err(refusal) = try_list(&texts.program, &texts.job) {
            let text = if refusal.text == Text::Program { &texts.program } else { &texts.job };
            let place = refusal.position(&texts.program, &texts.job);
            let lines: Vec<&[u8]> = text.split(|&b| b == b'\n').collect();
            let before: usize = lines[..place.line - 1].iter().map(|line| line.len() + 1).sum();
            assert_eq!(before + place.column - 1, refusal.offset, "{}", texts.name);
            assert!(place.column <= lines[place.line - 1].len() + 1 && sentence(refusal.number).is_some());
            refused += 1;
        }
    }
    assert!(refused > 20, "{refused}");
}
