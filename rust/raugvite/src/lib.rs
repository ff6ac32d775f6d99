//! The resolver for loader rules, from Rust.
//!
//! A rule is a small program in TSG, and a job asks which inputs get a wanted answer. [`list`] gives the listing, one line for each sort of them,
//! with its lines as owned expressions; [`list_whole`] gives it only where it is whole. [`run`] runs the program forwards on the job's inputs.
//!
//! ```
//! // The program says Yes for two equal atoms; the job asks for every pair of inputs that gets No.
//! let program = b"(define same [e.x e.y] (if (cons? e.x e.h e.t a.p) 'No
//!     (if (cons? e.y e.h e.t a.q) 'No (if (eqa? a.p a.q) 'Yes 'No))))";
//! let job = b"(job (in ?e1 ?e2) (out 'No) (neq) (steps 4) (walk 7) (table 3))";
//!
//! let whole = raugvite::list_whole(program, job)?;
//! assert_eq!(
//!     whole.to_string(),
//!     "whole 3 7\n\
//!      1 2 ?e1=(cons ?e3 ?e4)\n\
//!      2 3 ?e1=?a5 ?e2=(cons ?e6 ?e7)\n\
//!      3 4 ?e1=?a5 ?e2=?a8 # ?a5 ?a8"
//! );
//!
//! // The last line: two atoms that differ.
//! let last = &whole.lines()[2];
//! assert_eq!(last.inputs, ["?a5".parse()?, "?a8".parse()?]);
//! assert_eq!(last.unequal, [("?a5".parse()?, "?a8".parse()?)]);
//! # Ok::<(), Box<dyn std::error::Error>>(())
//! ```
//!
//! # What a listing came to
//!
//! A loader is released from a listing, so one that is cut or stopped must not pass for all there is: see [`Listing`] for its lines, and [`Whole`]
//! for the type that says it. Which function to take:
//!
//! | function | what is an error |
//! |---|---|
//! | [`list_whole`] | everything but a whole listing |
//! | [`try_list`], [`try_run`] | a refused text |
//! | [`list`], [`run`] | nothing; [`Listed`] and [`Ran`] have the cases |
//!
//! # Storage
//!
//! [`list`] and [`run`] have storage for each thread, which is kept from call to call. [`list_in`], [`list_print_in`], [`sample_in`] and [`run_in`] work
//! in storage that the caller lends; docs/STORAGE.md says what stands in it afterwards, and [`print_list`], [`print_sampled`] and [`print_run`] print it.
//!
//! All of them end for any bytes and any storage. What is proved of them is in docs/CONTRACTS.md, and what the boundary adds in docs/TRUST.md. A
//! call takes up to 330 KB of stack; a thread that Rust starts has 2 MB.
#![deny(missing_docs)]

mod answers;
mod cells;
mod expressions;
mod found;
mod json;
mod lines;
mod listing;
mod refusals;
mod symbols;
mod sys;

use answers::{listed, listed_numbers, ran, ran_numbers, SHORT};
use found::Found;
use std::cell::RefCell;

pub use answers::{Listed, Ran, Sampled, Stop};
pub use expressions::{Expression, NotAnExpression};
pub use lines::{Binding, Line, PrintedLine, Sample};
pub use listing::{Listing, NotWhole, Run, Whole};
pub use refusals::{sentence, Position, Refusal, Text};

/// The least lengths of `work` and `answer` for [`list_in`] and [`list_print_in`], in cells.
pub fn list_lengths() -> (usize, usize) {
    sys::list_lengths()
}

/// The least lengths of `work` and `answer` for [`run_in`], in cells.
pub fn run_lengths() -> (usize, usize) {
    sys::run_lengths()
}

/// The listing of a program and a job, in lent storage.
///
/// The storages may hold anything and may be longer than [`list_lengths`] says. Where one is shorter the answer is [`Listed::Short`], and nothing is
/// touched. Else `work` is zero to its end afterwards; `answer` has the cells of the lines and zeros behind them, or is as it was where a text is
/// refused.
///
/// ```
/// use raugvite::{list_in, list_lengths, print_list, Listed};
///
/// let program = b"(define dub [e.x] (cons e.x 'K))";
/// let job = b"(job (in ?e1) (out ?e2) (neq) (steps 1) (walk 1) (table 1))";
/// let (work, answer) = list_lengths();
/// let (mut work, mut answer) = (vec![0; work], vec![0; answer]);
/// let listed = list_in(program, job, &mut work, &mut answer);
/// assert_eq!(listed, Listed::Whole { lines: 1, transitions: 1 });
/// assert_eq!(print_list(program, job, listed, &answer), b"whole 1 1\n1 1 ?e2=(cons ?e1 'K)\n");
/// assert_eq!(list_in(program, job, &mut work[1..], &mut answer), Listed::Short);
/// ```
pub fn list_in(program: &[u8], job: &[u8], work: &mut [u16], answer: &mut [u16]) -> Listed {
    let (number, said) = sys::list(program, job, work, answer);
    listed(number, said)
}

/// [`list_in`], and in `out` the printed text from its first byte on: how many bytes of it there are. Zeros stand behind them. Where `out` is full
/// the text may be longer, and [`print_list`] prints all of it. The texts are read once.
pub fn list_print_in(program: &[u8], job: &[u8], work: &mut [u16], answer: &mut [u16], out: &mut [u8]) -> (Listed, usize) {
    let told = sys::list_print(program, job, work, answer, out);
    printed_first(told, out)
}

/// [`list_print_in`] with a sample under each line. Where `out` is full, [`print_sampled`] prints all of the text.
pub fn list_print_sampled_in(program: &[u8], job: &[u8], work: &mut [u16], answer: &mut [u16], out: &mut [u8]) -> (Listed, usize) {
    let told = sys::list_print_sampled(program, job, work, answer, out);
    printed_first(told, out)
}

// What was told, and how many bytes of `out` are text: 20 says nothing beside its number; its text stands in `out` as any other, with zeros behind it and
// none in it.
fn printed_first((number, said): (usize, [usize; 6]), out: &[u8]) -> (Listed, usize) {
    let [letter, offset, cut, lines, transitions, bytes] = said;
    let bytes = if number == SHORT { out.iter().take_while(|&&b| b != 0).count() } else { bytes };
    (listed(number, [letter, offset, cut, lines, transitions]), bytes)
}

/// The least length of `sample` for [`sample_in`], in cells.
pub fn sample_length() -> usize {
    sys::sample_cells()
}

/// The sample of a line, by its number from 1 on, in lent storage; `answer` is the storage that [`list_in`] left.
///
/// `sample` may hold anything and may be longer than [`sample_length`] says. Where it is shorter the answer is [`Sampled::Short`]; that, and a line that
/// the listing has not, touches nothing. Else the cells of the sample's inputs stand in `sample`, behind them those of its output, then zeros. A
/// symbol's number from 1,024 on is a new atom: 1,024 + k has the name Q and the number that comes as k-th, from 0, of those that make no
/// symbol of program and job.
///
/// ```
/// use raugvite::{list_in, list_lengths, sample_in, sample_length, Sampled};
///
/// let program = b"(define dub [e.x] (cons e.x 'K))";
/// let job = b"(job (in ?e1) (out ?e2) (neq) (steps 1) (walk 1) (table 1))";
/// let (work, answer) = list_lengths();
/// let (mut work, mut answer) = (vec![0; work], vec![0; answer]);
/// let _ = list_in(program, job, &mut work, &mut answer);
/// let mut sample = vec![0; sample_length()];
/// assert_eq!(sample_in(&answer, 1, &mut sample), Sampled::Done { inputs: 1, output: 3 });
/// assert_eq!(sample[..4], [4097, 4, 4097, 1]);
/// assert_eq!(sample_in(&answer, 2, &mut sample), Sampled::Absent);
/// assert_eq!(sample_in(&answer, 1, &mut sample[1..]), Sampled::Short);
/// ```
pub fn sample_in(answer: &[u16], line: usize, sample: &mut [u16]) -> Sampled {
    let (number, said) = sys::sample(answer, line, sample);
    answers::sampled(number, said)
}

/// The program run forwards on the job's inputs, in lent storage.
///
/// The storages may hold anything and may be longer than [`run_lengths`] says. Where one is shorter the answer is [`Ran::Short`], and nothing is
/// touched. Else `work` is zero to its end afterwards; `answer` has the cells of the value and zeros behind them, is zero where there is none, or is
/// as it was where a text is refused.
pub fn run_in(program: &[u8], job: &[u8], work: &mut [u16], answer: &mut [u16]) -> Ran {
    let (number, said) = sys::run(program, job, work, answer);
    ran(number, said)
}

/// The printed text of an answer, to its end; `answer` is the storage that [`list_in`] or [`list_print_in`] left.
pub fn print_list(program: &[u8], job: &[u8], said: Listed, answer: &[u16]) -> Vec<u8> {
    print_list_on(program, job, said, answer, Vec::new())
}

// The rest of the text behind what is there.
fn print_list_on(program: &[u8], job: &[u8], said: Listed, answer: &[u16], text: Vec<u8>) -> Vec<u8> {
    let numbers = listed_numbers(said);
    pages(text, |from, page| sys::print_list(program, job, numbers, answer, from, page))
}

/// The same with a sample under each line.
pub fn print_sampled(program: &[u8], job: &[u8], said: Listed, answer: &[u16]) -> Vec<u8> {
    let numbers = listed_numbers(said);
    pages(Vec::new(), |from, page| sys::print_sampled(program, job, numbers, answer, from, page))
}

/// The printed text of a run; `answer` is the storage that [`run_in`] left.
pub fn print_run(program: &[u8], job: &[u8], said: Ran, answer: &[u16]) -> Vec<u8> {
    print_run_on(program, job, said, answer, Vec::new())
}

fn print_run_on(program: &[u8], job: &[u8], said: Ran, answer: &[u16], text: Vec<u8>) -> Vec<u8> {
    let numbers = ran_numbers(said);
    pages(text, |from, page| sys::print_run(program, job, numbers, answer, from, page))
}

// A text is fetched page by page, so that no bound on its length is needed.
fn pages(mut text: Vec<u8>, fetch: impl Fn(usize, &mut [u8]) -> usize) -> Vec<u8> {
    let mut page = vec![0; 65536];
    loop {
        let n = fetch(text.len(), &mut page);
        text.extend_from_slice(&page[..n]);
        if n < page.len() {
            return text;
        }
    }
}

// Most listings and values are no longer; those that are have the rest printed behind it.
const FIRST: usize = 4096;

struct Lent {
    work: Vec<u16>,
    answer: Vec<u16>,
    page: Vec<u8>,
}

thread_local! {
    // One listing or run after another is made in it: what storage held before a call does not matter, so none is made and cleared for each.
    static LENT: RefCell<Lent> = RefCell::new(lent());
}

fn lent() -> Lent {
    let ((list_work, list_answer), (run_work, run_answer)) = (list_lengths(), run_lengths());
    let (work, answer) = (list_work.max(run_work), list_answer.max(run_answer));
    Lent { work: vec![0; work], answer: vec![0; answer], page: vec![0; FIRST] }
}

/// The listing of a program and a job, whatever it came to.
///
/// ```
/// use raugvite::{list, Listed, Stop};
///
/// let program = b"(define dub [e.x] (cons e.x 'K))";
/// let listing = list(program, b"(job (in ?e1) (out ?e2) (neq) (steps 1) (walk 0) (table 1))");
/// assert_eq!(listing.answer(), Listed::Stopped { stop: Stop::Transitions, lines: 0, transitions: 0 });
/// assert!(!listing.is_whole());
/// assert_eq!(listing.whole_lines(), None);
/// ```
pub fn list(program: &[u8], job: &[u8]) -> Listing {
    LENT.with_borrow_mut(|Lent { work, answer, page }| {
        let (said, bytes) = list_print_in(program, job, work, answer, page);
        let text = page[..bytes].to_vec();
        Listing {
            answer: said,
            found: Found::new(program, job, answer, said.lines_found()),
            text: if bytes < FIRST { text } else { print_list_on(program, job, said, answer, text) },
        }
    })
}

/// The listing of a program and a job, or the refusal of a text. The listing is whole, cut or stopped.
pub fn try_list(program: &[u8], job: &[u8]) -> Result<Listing, Refusal> {
    list(program, job).into_result()
}

/// The whole listing of a program and a job, or why there is none.
pub fn list_whole(program: &[u8], job: &[u8]) -> Result<Whole, NotWhole> {
    list(program, job).into_whole()
}

/// The program run forwards on the job's inputs, whatever it came to.
///
/// ```
/// let program = b"(define append [e.a e.b] (if (cons? e.a e.h e.t a.n) (cons e.h e.b) e.b))";
/// let run = raugvite::run(program, b"(job (in (cons 'A 'nil) (cons 'B 'nil)) (out 'A) (neq) (steps 9) (walk 1) (table 1))");
/// assert_eq!(run.to_string(), "value 2 (cons 'A (cons 'B 'nil))");
/// assert_eq!(format!("{:#}", run.value().unwrap()), "'A:'B:'nil");
/// ```
pub fn run(program: &[u8], job: &[u8]) -> Run {
    LENT.with_borrow_mut(|Lent { work, answer, page }| {
        let said = run_in(program, job, work, answer);
        let bytes = sys::print_run(program, job, ran_numbers(said), answer, 0, page);
        let text = page[..bytes].to_vec();
        Run {
            answer: said,
            value: match said {
                Ran::Value { length, .. } => cells::trees(&answer[..length], &symbols::words(program, job)).pop(),
                _ => None,
            },
            text: if bytes < FIRST { text } else { print_run_on(program, job, said, answer, text) },
        }
    })
}

/// The program run forwards on the job's inputs, or the refusal of a text.
pub fn try_run(program: &[u8], job: &[u8]) -> Result<Run, Refusal> {
    run(program, job).into_result()
}
