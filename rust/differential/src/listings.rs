//! Listings: what `list` says, prints and leaves, alone and with its first page, with samples and without, and what its lines mean.
use crate::entry::Entry;
use raugvite::{list_in, list_lengths, list_print_in, list_print_sampled_in, print_list, print_sampled, Expression, Listed, Stop};
use reference::expression::{Expression as Tree, Kind};
use reference::ground::{check_listing, Universe};
use reference::job_check::Tool;
use reference::restriction::NonEquality;
use reference::{Line, Listing, Word};

fn word_of(said: Listed) -> Option<(Word, usize, usize)> {
    let word = match said {
        Listed::Whole { .. } => Word::Whole,
        Listed::Cut { .. } => Word::Cut,
        Listed::Stopped { stop: Stop::Nodes, .. } => Word::Stop21,
        Listed::Stopped { stop: Stop::Lines, .. } => Word::Stop22,
        Listed::Stopped { stop: Stop::Transitions, .. } => Word::Stop23,
        Listed::Refused(_) | Listed::Short => return None,
    };
    Some((word, said.lines_found(), said.transitions()))
}

pub struct List;

impl Entry for List {
    type Said = Listed;
    const SHORT: Listed = Listed::Short;

    fn lengths() -> (usize, usize) {
        list_lengths()
    }

    fn call(program: &[u8], job: &[u8], work: &mut [u16], answer: &mut [u16]) -> Listed {
        list_in(program, job, work, answer)
    }

    fn printed(program: &[u8], job: &[u8], said: Listed, answer: &[u16]) -> Vec<u8> {
        print_list(program, job, said, answer)
    }

    fn due(program: &[u8], job: &[u8]) -> Vec<u8> {
        reference::print_listing(&reference::list_texts(program, job))
    }

    // A line says by the counts it begins with where it ends.
    fn filled(said: Listed, answer: &[u16]) -> Option<usize> {
        let (_, lines, _) = word_of(said)?;
        let end = (0..lines).fold(0, |at, _| {
            let part = |k: usize| usize::from(answer[at + k]);
            at + 4 + part(1) + part(2) + 2 * part(3)
        });
        Some(end)
    }
}

// Short, so that many listings have more than their first page.
const PAGE: usize = 100;

/// What the listing with its first page says, and the page.
#[derive(Clone, Copy, Debug, PartialEq)]
pub struct First {
    said: Listed,
    bytes: usize,
    page: [u8; PAGE],
}

const fn beginning(text: &[u8]) -> [u8; PAGE] {
    let mut page = [0; PAGE];
    let mut i = 0;
    while i < text.len() {
        page[i] = text[i];
        i += 1;
    }
    page
}

/// With samples where it is so said.
pub struct ListPrint<const SAMPLES: bool>;

impl<const SAMPLES: bool> Entry for ListPrint<SAMPLES> {
    type Said = First;
    const SHORT: First = First { said: Listed::Short, bytes: 15, page: beginning(b"refused - 20 0\n") };

    fn lengths() -> (usize, usize) {
        list_lengths()
    }

    fn call(program: &[u8], job: &[u8], work: &mut [u16], answer: &mut [u16]) -> First {
        let mut page = [b'?'; PAGE];
        let list = if SAMPLES { list_print_sampled_in } else { list_print_in };
        let (said, bytes) = list(program, job, work, answer, &mut page);
        First { said, bytes, page }
    }

    // The page, zero behind its text, and what is printed behind it.
    fn printed(program: &[u8], job: &[u8], first: First, answer: &[u16]) -> Vec<u8> {
        if first.page[first.bytes..].iter().any(|&b| b != 0) {
            return first.page.to_vec();
        }
        let print = if SAMPLES { print_sampled } else { print_list };
        let all = print(program, job, first.said, answer);
        [&first.page[..first.bytes], &all[first.bytes..]].concat()
    }

    fn due(program: &[u8], job: &[u8]) -> Vec<u8> {
        if SAMPLES {
            return reference::print_samples(program, job);
        }
        List::due(program, job)
    }

    fn filled(first: First, answer: &[u16]) -> Option<usize> {
        List::filled(first.said, answer)
    }
}

/// An expression as the other implementation has it.
pub fn tree(e: &Expression) -> Tree {
    match e {
        Expression::Symbol(word) => Tree::atom(word),
        Expression::AnyValue(number) => Tree::variable(Kind::E, u32::from(*number)),
        Expression::AnyAtom(number) => Tree::variable(Kind::A, u32::from(*number)),
        Expression::Pair(head, tail) => Tree::pair(tree(head), tree(tail)),
    }
}

fn line(l: &raugvite::Line) -> Line {
    let unequal = l.unequal.iter().map(|(left, right)| NonEquality { left: tree(left), right: tree(right) });
    Line {
        steps: l.steps as u32,
        inputs: l.inputs.iter().map(tree).collect(),
        output: tree(&l.output),
        nonequalities: unequal.collect(),
        bindings: Vec::new(),
    }
}

/// Demand 3, tried on about `budget` ground inputs: they are run forwards by the other implementation, and each pair lies in the one of our lines
/// where it belongs, or in none.
pub fn meaning(program: &[u8], job: &[u8], budget: usize) -> Result<(), String> {
    let Ok((checked, read)) = reference::read_texts(program, job, Tool::List) else {
        return Ok(());
    };
    let listing = raugvite::list(program, job);
    let (word, _, transitions) = word_of(listing.answer()).ok_or("refused")?;
    let lines = listing.lines_found().iter().map(line).collect();
    let ours = Listing::Listed { word, lines, count: transitions as u32 };
    check_listing(&checked, &read, &Universe::new(program, job), &ours, budget).map(|_| ())
}
