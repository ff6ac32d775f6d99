//! Listings against forward runs of ground inputs.

use reference::generate::{case_of, Flavour};
use reference::ground::{check_listing, check_texts, Universe};
use reference::job_check::Tool;
use reference::{list_texts, read_texts, Listing, Word};

fn check_flavour(flavour: Flavour, seeds: std::ops::Range<u64>) -> usize {
    let mut judged = 0;
    for seed in seeds {
        let case = case_of(flavour, seed);
        match check_texts(&case.program, &case.job, 80) {
            Ok(pairs) => judged += pairs,
            Err(reason) => {
                panic!("{flavour:?} {seed}: {reason}\n{}\n{}", String::from_utf8_lossy(&case.program), String::from_utf8_lossy(&case.job))
            }
        }
    }
    judged
}

#[test]
fn sound_jobs() {
    assert!(check_flavour(Flavour::Sound, 0..600) > 50_000);
}

#[test]
fn branching_jobs() {
    assert!(check_flavour(Flavour::Branching, 0..300) > 50_000);
}

#[test]
fn sized_jobs() {
    assert!(check_flavour(Flavour::Sized, 0..40) > 100);
}

const PROGRAM: &[u8] = b"(define same [e.x e.y] (if (cons? e.x e.h e.t a.p) 'No \
    (if (cons? e.y e.h e.t a.q) 'No (if (eqa? a.p a.q) 'Yes 'No))))";
const JOB: &[u8] = b"(job (in ?e1 ?e2) (out 'No) (neq) (steps 4) (walk 7) (table 3))";

/// What the check says of a changed listing of P1.
fn checked(change: impl Fn(&mut Word, &mut Vec<reference::Line>)) -> Result<usize, String> {
    let (program, job) = read_texts(PROGRAM, JOB, Tool::List).ok().unwrap();
    let mut listing = list_texts(PROGRAM, JOB);
    if let Listing::Listed { word, lines, .. } = &mut listing {
        change(word, lines);
    }
    check_listing(&program, &job, &Universe::new(PROGRAM, JOB), &listing, 200)
}

/// The check itself must fall on wrong listings.
#[test]
fn wrong_listings_are_found() {
    assert!(checked(|_, _| {}).unwrap() > 100);
    assert!(checked(|_, lines| drop(lines.pop())).is_err());
    assert!(checked(|_, lines| lines.push(lines[0].clone())).is_err());
    assert!(checked(|_, lines| lines[1].steps += 1).is_err());
    assert!(checked(|_, lines| lines[2].nonequalities.clear()).is_err());
    assert!(checked(|_, lines| lines[2].output = lines[2].inputs[0].clone()).is_err());
}

/// Inputs that run longer make a listing cut.
#[test]
fn whole_is_denied_if_an_input_runs_longer() {
    let job = b"(job (in ?e1 ?e2) (out 'No) (neq) (steps 3) (walk 7) (table 3))";
    let (program, read) = read_texts(PROGRAM, job, Tool::List).ok().unwrap();
    let universe = Universe::new(PROGRAM, job);
    let mut listing = list_texts(PROGRAM, job);
    assert!(check_listing(&program, &read, &universe, &listing, 200).is_ok());
    if let Listing::Listed { word, .. } = &mut listing {
        *word = Word::Whole;
    }
    assert!(check_listing(&program, &read, &universe, &listing, 200).is_err());
}
