//! Refused texts: the number, the place, and a sentence for each number.
use std::fmt::{self, Display, Formatter};

/// What a number of a refusal (1 to 13 and 20) or of a stop (21 to 23) says, as a sentence; none for other numbers.
///
/// ```
/// assert_eq!(raugvite::sentence(9), Some("this variable is not in reach"));
/// assert_eq!(raugvite::sentence(14), None);
/// ```
pub fn sentence(number: usize) -> Option<&'static str> {
    Some(match number {
        1 => "the text is too long: a program has at most 32768 bytes, a job 8192",
        2 => "this byte is none of those that a text may have: printable ASCII, tab, line feed",
        3 => "the grammar wants something else here, or the text ends too early",
        4 => "a name of over 16 characters, a numeral of over 7 digits, or a variable's number that is not 1 to 999",
        5 => "too many: 4096 tokens, 64 open brackets, 64 definitions, 16 parameters or 1024 symbols are the most",
        6 => "this name is defined or bound twice",
        7 => "no function of this name, or a wrong number of arguments",
        8 => "an atom is due here: a symbol or a variable a.NAME",
        9 => "this variable is not in reach",
        10 => "the job's inputs are unlike main's parameters in number or kind, or one has a variable in a run",
        11 => "this side of a non-equality is no atom, or its variable stands in neither input nor output",
        12 => "the number is too large: steps 1000, walk 1000000, table 256 are the most",
        13 => "this name is in reach already: a cons? binds new names alone",
        20 => "the storage that was lent is too short",
        21 => "a configuration has over 4096 nodes",
        22 => "the listing has more lines than the job's table, or over 16384 nodes in them",
        23 => "the walk makes more transitions than the job's walk allows",
        _ => return None,
    })
}

/// One of the two texts.
#[derive(Clone, Copy, Debug, PartialEq, Eq, Hash)]
pub enum Text {
    /// The program.
    Program,
    /// The job.
    Job,
}

impl Text {
    /// The letter that a listing has for it: `p` or `j`.
    pub fn letter(self) -> char {
        match self {
            Text::Program => 'p',
            Text::Job => 'j',
        }
    }
}

/// `program` or `job`.
impl Display for Text {
    fn fmt(&self, f: &mut Formatter<'_>) -> fmt::Result {
        f.write_str(match self {
            Text::Program => "program",
            Text::Job => "job",
        })
    }
}

/// A text that is outside the rules: which of the two, by which number, and at which byte.
///
/// It is displayed as a message for the one who wrote the text. The line that a listing has for it, `refused p 3 17`, is what
/// [`Listed`](crate::Listed) displays.
///
/// ```
/// use raugvite::{try_list, Text};
///
/// let program = b"(define f [e.x]\n  e.y)";
/// let job = b"(job (in ?e1) (out 'A) (neq) (steps 9) (walk 9) (table 9))";
/// let refusal = try_list(program, job).unwrap_err();
/// assert_eq!((refusal.text, refusal.number, refusal.offset), (Text::Program, 9, 18));
/// assert_eq!(refusal.position(program, job).to_string(), "2:3");
/// assert_eq!(refusal.to_string(), "the program is refused by number 9 at byte 18: this variable is not in reach");
/// ```
#[derive(Clone, Copy, Debug, PartialEq, Eq, Hash)]
pub struct Refusal {
    /// The text that is refused.
    pub text: Text,
    /// 1 to 13; [`sentence`] has what each says.
    pub number: usize,
    /// The byte at fault, counted from 0; the text's length where it ends too early.
    pub offset: usize,
}

impl Refusal {
    /// What the number says; empty for a number that no refusal has.
    pub fn sentence(&self) -> &'static str {
        sentence(self.number).unwrap_or("")
    }

    /// Line and column of the offset, in the one of the two texts that is refused.
    pub fn position(&self, program: &[u8], job: &[u8]) -> Position {
        let text = match self.text {
            Text::Program => program,
            Text::Job => job,
        };
        let before = &text[..self.offset.min(text.len())];
        let start = before.iter().rposition(|&b| b == b'\n').map_or(0, |at| at + 1);
        let ended = before.iter().filter(|&&b| b == b'\n').count();
        Position { line: ended + 1, column: before.len() - start + 1 }
    }
}

impl Display for Refusal {
    fn fmt(&self, f: &mut Formatter<'_>) -> fmt::Result {
        let Refusal { text, number, offset } = self;
        write!(f, "the {text} is refused by number {number} at byte {offset}: {}", self.sentence())
    }
}

impl std::error::Error for Refusal {}

/// A place in a text. It is displayed as `LINE:COLUMN`, which many editors take.
#[derive(Clone, Copy, Debug, PartialEq, Eq, Hash)]
pub struct Position {
    /// The line, counted from 1.
    pub line: usize,
    /// The byte in that line, counted from 1; a tab is one byte.
    pub column: usize,
}

impl Display for Position {
    fn fmt(&self, f: &mut Formatter<'_>) -> fmt::Result {
        write!(f, "{}:{}", self.line, self.column)
    }
}

#[cfg(test)]
mod tests {
    use super::*;

    #[test]
    fn every_number_has_its_sentence() {
        for number in 0..100 {
            let due = matches!(number, 1..=13 | 20..=23);
            assert_eq!(sentence(number).is_some(), due, "{number}");
        }
    }

    #[test]
    fn positions() {
        let program = b"ab\n\n\tc\n";
        let at = |offset| Refusal { text: Text::Program, number: 3, offset }.position(program, b"").to_string();
        assert_eq!([0, 2, 3, 4, 5, 6, 7].map(at), ["1:1", "1:3", "2:1", "3:1", "3:2", "3:3", "4:1"]);
        // An offset of another text: the end of this one.
        assert_eq!(at(1000), "4:1");
        let job = Refusal { text: Text::Job, number: 3, offset: 5 };
        assert_eq!(job.position(program, b"123\n56").to_string(), "2:2");
        assert_eq!(job.position(program, b"").to_string(), "1:1");
    }
}
