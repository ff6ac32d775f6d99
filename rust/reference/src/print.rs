//! Printing (01, "Printing, and cases"): every line ends in a line feed.

use crate::cursor::Symbols;
use crate::expression::{Expression, Kind, Variable};
use crate::listing::{Line, Listing, Run, Word};
use crate::sample::{sample, Sample};

pub fn print_listing(listing: &Listing) -> Vec<u8> {
    print_with(listing, |_, _| {})
}

/// "Where called for, each prints under its line" (02, request 2).
pub fn print_sampled(listing: &Listing, symbols: &Symbols) -> Vec<u8> {
    print_with(listing, |out, line| print_sample(out, &sample(line, symbols)))
}

/// A listing with what is put under each line.
fn print_with(listing: &Listing, under: impl Fn(&mut Vec<u8>, &Line)) -> Vec<u8> {
    let mut out = Vec::new();
    match listing {
        Listing::Refused { letter, number, offset } => refusal(&mut out, *letter, *number, *offset),
        Listing::Listed { word, lines, count } => {
            let first = format!("{} {} {}\n", word_text(*word), lines.len(), count);
            out.extend_from_slice(first.as_bytes());
            for (index, line) in lines.iter().enumerate() {
                print_line(&mut out, index + 1, line);
                under(&mut out, line);
            }
        }
    }
    out
}

pub fn print_run(run: &Run) -> Vec<u8> {
    let mut out = Vec::new();
    match run {
        Run::Refused { letter, number, offset } => refusal(&mut out, *letter, *number, *offset),
        Run::Stop21 => out.extend_from_slice(b"stop21\n"),
        Run::NotWithin => out.extend_from_slice(b"notwithin\n"),
        Run::Value { steps, value } => {
            out.extend_from_slice(format!("value {steps} ").as_bytes());
            print_expression(&mut out, value);
            out.push(b'\n');
        }
    }
    out
}

fn word_text(word: Word) -> &'static str {
    match word {
        Word::Whole => "whole",
        Word::Cut => "cut",
        Word::Stop21 => "stop21",
        Word::Stop22 => "stop22",
        Word::Stop23 => "stop23",
    }
}

fn refusal(out: &mut Vec<u8>, letter: char, number: u32, offset: usize) {
    out.extend_from_slice(format!("refused {letter} {number} {offset}\n").as_bytes());
}

fn print_line(out: &mut Vec<u8>, number: usize, line: &Line) {
    out.extend_from_slice(format!("{} {}", number, line.steps).as_bytes());
    for (variable, value) in &line.bindings {
        out.push(b' ');
        print_variable(out, *variable);
        out.push(b'=');
        print_expression(out, value);
    }
    for neq in &line.nonequalities {
        out.extend_from_slice(b" # ");
        print_expression(out, &neq.left);
        out.push(b' ');
        print_expression(out, &neq.right);
    }
    out.push(b'\n');
}

/// "as `(in D ..) (out D)`, one blank between parts".
pub fn print_sample(out: &mut Vec<u8>, sample: &Sample) {
    out.extend_from_slice(b"(in");
    for input in &sample.inputs {
        out.push(b' ');
        print_expression(out, input);
    }
    out.extend_from_slice(b") (out ");
    print_expression(out, &sample.output);
    out.extend_from_slice(b")\n");
}

fn print_variable(out: &mut Vec<u8>, variable: Variable) {
    let kind = match variable.kind {
        Kind::E => 'e',
        Kind::A => 'a',
    };
    out.extend_from_slice(format!("?{}{}", kind, variable.number).as_bytes());
}

pub fn print_expression(out: &mut Vec<u8>, expression: &Expression) {
    match expression {
        Expression::Atom(name) => {
            out.push(b'\'');
            out.extend_from_slice(name.text());
        }
        Expression::Variable(variable) => print_variable(out, *variable),
        Expression::Pair(pair) => {
            out.extend_from_slice(b"(cons ");
            print_expression(out, &pair.head);
            out.push(b' ');
            print_expression(out, &pair.tail);
            out.push(b')');
        }
    }
}
