//! Expressions, and how they are written and read.
use std::fmt::{self, Debug, Display, Formatter};
use std::str::FromStr;

/// An expression: symbols by their words, variables by their numbers.
///
/// It is displayed as jobs and listings write it, and with `{:#}` in infix notation, where `h:t` is a pair and `x:y:z` is `x:(y:z)`. It is read
/// back from what a job writes.
///
/// ```
/// use raugvite::Expression;
///
/// let expression: Expression = "(cons (cons 'A ?e2) (cons 'B ?a1))".parse()?;
/// assert_eq!(expression.to_string(), "(cons (cons 'A ?e2) (cons 'B ?a1))");
/// assert_eq!(format!("{expression:#}"), "('A:?e2):'B:?a1");
/// # Ok::<(), raugvite::NotAnExpression>(())
/// ```
#[derive(Clone, PartialEq, Eq)]
pub enum Expression {
    /// `'Z`: this atom.
    Symbol(String),
    /// `?eK`: any value.
    AnyValue(u16),
    /// `?aK`: any atom.
    AnyAtom(u16),
    /// `(cons HEAD TAIL)`
    Pair(Box<Expression>, Box<Expression>),
}

// What is still to be written, the next on top: a tree may have a path of some 2,000 pairs, too many to write one inside the other on a small stack.
enum Part<'a> {
    Tree(&'a Expression),
    Mark(&'static str),
}

impl Display for Expression {
    fn fmt(&self, f: &mut Formatter<'_>) -> fmt::Result {
        use Part::{Mark, Tree};
        let mut rest = vec![Tree(self)];
        while let Some(part) = rest.pop() {
            match part {
                Mark(mark) => f.write_str(mark)?,
                Tree(Expression::Symbol(word)) => write!(f, "'{word}")?,
                Tree(Expression::AnyValue(number)) => write!(f, "?e{number}")?,
                Tree(Expression::AnyAtom(number)) => write!(f, "?a{number}")?,
                Tree(Expression::Pair(head, tail)) if !f.alternate() => {
                    rest.extend([Mark(")"), Tree(tail), Mark(" "), Tree(head), Mark("(cons ")]);
                }
                Tree(Expression::Pair(head, tail)) if matches!(**head, Expression::Pair(..)) => {
                    rest.extend([Tree(tail), Mark("):"), Tree(head), Mark("(")]);
                }
                Tree(Expression::Pair(head, tail)) => rest.extend([Tree(tail), Mark(":"), Tree(head)]),
            }
        }
        Ok(())
    }
}

/// As displayed: the cases and boxes of a tree of some thousand nodes would not be read by anyone.
impl Debug for Expression {
    fn fmt(&self, f: &mut Formatter<'_>) -> fmt::Result {
        write!(f, "{self}")
    }
}

/// A text that is no expression, read as one.
#[derive(Clone, Copy, Debug, PartialEq, Eq)]
pub struct NotAnExpression;

impl Display for NotAnExpression {
    fn fmt(&self, f: &mut Formatter<'_>) -> fmt::Result {
        f.write_str("this is no expression: (cons d d), 'Z, ?eK or ?aK")
    }
}

impl std::error::Error for NotAnExpression {}

// A number without leading noughts; those that a walk makes are below 13,291, so that two bytes have them all.
fn number(digits: &str) -> Option<u16> {
    let plain = digits.bytes().all(|b| b.is_ascii_digit()) && !digits.starts_with('0');
    if plain {
        digits.parse().ok()
    } else {
        None
    }
}

fn leaf(word: &str) -> Option<Expression> {
    if let Some(symbol) = word.strip_prefix('\'') {
        let fits = (1..=16).contains(&symbol.len()) && symbol.bytes().all(|b| b.is_ascii_alphanumeric());
        return fits.then(|| Expression::Symbol(symbol.to_string()));
    }
    match word.split_at_checked(2)? {
        ("?e", digits) => number(digits).map(Expression::AnyValue),
        ("?a", digits) => number(digits).map(Expression::AnyAtom),
        _ => None,
    }
}

const BLANKS: [char; 3] = [' ', '\t', '\n'];

// The next token and what stands behind it: a bracket, or a word as far as it goes.
fn token(text: &str) -> Option<(&str, &str)> {
    let text = text.trim_start_matches(BLANKS);
    let length = match text.as_bytes().first()? {
        b'(' | b')' => 1,
        _ => text.find([' ', '\t', '\n', '(', ')', '[', ']']).unwrap_or(text.len()),
    };
    (length > 0).then(|| text.split_at(length))
}

// What stands behind the token that has to come next.
fn behind<'a>(text: &'a str, due: &str) -> Option<&'a str> {
    token(text).filter(|(found, _)| *found == due).map(|(_, rest)| rest)
}

/// The expression at the beginning of a text, and what stands behind it.
pub fn first(text: &str) -> Option<(Expression, &str)> {
    // The pairs that are open, each with its head once that is read: on a stack of its own, as a text may open any number of them.
    let mut open: Vec<Option<Expression>> = Vec::new();
    let mut rest = text;
    loop {
        let (word, after) = token(rest)?;
        rest = after;
        if word == "(" {
            rest = behind(rest, "cons")?;
            open.push(None);
            continue;
        }
        let mut read = leaf(word)?;
        // What is read is a head, or the tail that ends its pair, which is a head or a tail in turn.
        loop {
            let Some(pair) = open.pop() else {
                return Some((read, rest));
            };
            let Some(head) = pair else {
                open.push(Some(read));
                break;
            };
            rest = behind(rest, ")")?;
            read = Expression::Pair(Box::new(head), Box::new(read));
        }
    }
}

impl FromStr for Expression {
    type Err = NotAnExpression;

    fn from_str(text: &str) -> Result<Expression, NotAnExpression> {
        let (expression, rest) = first(text).ok_or(NotAnExpression)?;
        if rest.trim_start_matches(BLANKS).is_empty() {
            Ok(expression)
        } else {
            Err(NotAnExpression)
        }
    }
}

#[cfg(test)]
mod tests {
    use super::*;

    fn symbol(word: &str) -> Expression {
        Expression::Symbol(word.to_string())
    }

    fn pair(head: Expression, tail: Expression) -> Expression {
        Expression::Pair(Box::new(head), Box::new(tail))
    }

    #[test]
    fn both_notations() {
        let right = pair(symbol("A"), pair(symbol("B"), Expression::AnyAtom(1)));
        assert_eq!(right.to_string(), "(cons 'A (cons 'B ?a1))");
        assert_eq!(format!("{right:#}"), "'A:'B:?a1");
        let left = pair(pair(symbol("A"), symbol("B")), Expression::AnyValue(13290));
        assert_eq!(left.to_string(), "(cons (cons 'A 'B) ?e13290)");
        assert_eq!(format!("{left:#}"), "('A:'B):?e13290");
        assert_eq!(format!("{:#}", pair(left.clone(), right)), "(('A:'B):?e13290):'A:'B:?a1");
        assert_eq!(format!("{left:?} {left:#?}"), "(cons (cons 'A 'B) ?e13290) (cons (cons 'A 'B) ?e13290)");
    }

    #[test]
    fn what_is_written_is_read() {
        for text in ["'A", "'0", "?e1", "?a999", "(cons 'A 'B)", "(cons (cons ?e1 ?a2) (cons 'abcdefghijklmnop ?e13290))"] {
            assert_eq!(text.parse::<Expression>().map(|e| e.to_string()), Ok(text.to_string()));
        }
        assert_eq!(" ( cons\t'A(cons 'B\n'C))".parse(), Ok(pair(symbol("A"), pair(symbol("B"), symbol("C")))));
        assert_eq!(first("'A 'B"), Some((symbol("A"), " 'B")));
    }

    #[test]
    fn other_texts_are_not() {
        let long = "'abcdefghijklmnopq";
        let open = "(cons ".repeat(100_000);
        let broken = ["", " ", "A", "'", "''A", "'A'B", "'A-", "?e", "?e0", "?e01", "?e65536", "?e+1", "?x1", "?é1", "é", long, &open];
        let pairs = [
            "()",
            "(cons)",
            "(cons 'A)",
            "(cons 'A 'B",
            "(cons 'A 'B 'C)",
            "(cons 'A 'B))",
            "(pair 'A 'B)",
            ")",
            "['A 'B]",
            "'A 'B",
            "'A]",
        ];
        for text in broken.iter().chain(&pairs) {
            assert_eq!(text.parse::<Expression>(), Err(NotAnExpression), "{text:?}");
        }
    }

    // A configuration has at most 4,096 nodes, so that no tree has a longer path than 2,047 pairs; a small stack has to have room for it.
    #[test]
    fn the_deepest_tree() {
        let deep = || {
            for (open, close) in [("(cons ", " 'B)"), ("(cons 'B ", ")")] {
                let text = format!("{}'A{}", open.repeat(2047), close.repeat(2047));
                let read: Expression = text.parse().unwrap();
                assert_eq!(format!("{read:?}"), text);
                assert!(read == read.clone());
                assert_eq!(format!("{read:#}").matches(':').count(), 2047);
            }
        };
        std::thread::Builder::new().stack_size(1 << 20).spawn(deep).unwrap().join().unwrap();
    }
}
