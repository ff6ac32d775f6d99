//! Listings and runs with what they found.
use crate::answers::{Listed, Ran, Stop};
use crate::expressions::Expression;
use crate::found::Found;
use crate::json;
use crate::lines::{printed, Line, PrintedLine, Sample};
use crate::refusals::Refusal;
use std::fmt::{self, Debug, Display, Formatter};

// What is printed has letters, digits and marks of ASCII alone. The last line feed is left to the one who writes it out.
fn shown(text: &[u8]) -> &str {
    std::str::from_utf8(text).expect("a printed text is ASCII").trim_end_matches('\n')
}

/// A listing with its lines, whatever it came to.
///
/// A listing may be cut or stopped, and then lines that it does not have may matter. So each way to its lines says in its name which they are:
/// [`whole_lines`](Listing::whole_lines) and [`lines_within_steps`](Listing::lines_within_steps) have none of a listing that is less, and
/// [`lines_found`](Listing::lines_found) promises nothing. A function that may only work on all lines takes a [`Whole`], which nothing but a whole
/// listing becomes. A listing cannot be changed or made by others than this package.
///
/// Its lines and their samples are made of what the walk left when they are asked for the first time; a listing that is printed alone has none made.
///
/// It is displayed as it is printed, without the last line feed. Two are equal that came to the same, with the same lines and the same text.
#[derive(Clone)]
#[must_use = "a listing may be cut or stopped, and a text may be refused"]
pub struct Listing {
    pub(crate) answer: Listed,
    pub(crate) found: Found,
    pub(crate) text: Vec<u8>,
}

impl PartialEq for Listing {
    fn eq(&self, other: &Listing) -> bool {
        self.answer == other.answer && self.text == other.text && self.lines_found() == other.lines_found()
    }
}

impl Eq for Listing {}

impl Debug for Listing {
    fn fmt(&self, f: &mut Formatter<'_>) -> fmt::Result {
        f.debug_struct("Listing")
            .field("answer", &self.answer)
            .field("lines", &self.lines_found())
            .field("text", &shown(&self.text))
            .finish()
    }
}

impl Listing {
    /// What the listing came to.
    pub fn answer(&self) -> Listed {
        self.answer
    }

    /// Whether the listing is whole: not cut, not stopped, not refused.
    pub fn is_whole(&self) -> bool {
        self.answer.is_whole()
    }

    /// The lines of a whole listing: every file of the job's class that gets the wanted answer lies in one of them.
    pub fn whole_lines(&self) -> Option<&[Line]> {
        self.is_whole().then(|| self.lines_found())
    }

    /// The lines of a whole listing or a cut one: every file of the job's class that gets the wanted answer within the job's steps lies in one of
    /// them. Of a cut one, files that run longer may get it too.
    pub fn lines_within_steps(&self) -> Option<&[Line]> {
        matches!(self.answer, Listed::Whole { .. } | Listed::Cut { .. }).then(|| self.lines_found())
    }

    /// The lines that were found: of a stopped listing a beginning, of a refused text none.
    pub fn lines_found(&self) -> &[Line] {
        self.found.lines()
    }

    /// The samples of the lines that were found, in their order; a stopped listing has them too.
    pub fn samples_found(&self) -> &[Sample] {
        self.found.samples()
    }

    /// The lines that were found, with their numbers and what became of the job's variables. These are read from the printed text, and only where
    /// they are asked for.
    pub fn printed_lines_found(&self) -> impl Iterator<Item = PrintedLine<'_>> {
        printed(shown(&self.text), self.lines_found())
    }

    /// The printed listing: ASCII, each line with its line feed.
    pub fn text(&self) -> &[u8] {
        &self.text
    }

    /// The printed listing alone.
    pub fn into_text(self) -> Vec<u8> {
        self.text
    }

    /// The printed listing with the sample of each line under it.
    pub fn sampled_text(&self) -> Vec<u8> {
        if self.found.is_empty() {
            return self.text.clone();
        }
        let (program, job) = self.found.texts();
        crate::print_sampled(program, job, self.answer, &self.found.storage())
    }

    /// A refusal as an error. The listing that is left is whole, cut or stopped.
    pub fn into_result(self) -> Result<Listing, Refusal> {
        match self.answer {
            Listed::Refused(refusal) => Err(refusal),
            _ => Ok(self),
        }
    }

    /// A whole listing, and everything less as an error.
    pub fn into_whole(self) -> Result<Whole, NotWhole> {
        match self.answer {
            Listed::Whole { .. } => Ok(Whole(self)),
            Listed::Cut { .. } => Err(NotWhole::Cut(self)),
            Listed::Stopped { stop, .. } => Err(NotWhole::Stopped(stop, self)),
            Listed::Refused(refusal) => Err(NotWhole::Refused(refusal)),
            Listed::Short => unreachable!("a listing is made in storage that is long enough"),
        }
    }

    /// The listing as JSON, in one line without blanks between its parts.
    ///
    /// `word` is the first word of the printed listing: `whole`, `cut`, `stop21`, `stop22`, `stop23` or `refused`. What else there is:
    ///
    /// | word | keys |
    /// |---|---|
    /// | `whole` | `transitions`, `lines` |
    /// | `cut` | `transitions`, `lines_within_steps` |
    /// | `stop21` to `stop23` | `sentence`, `transitions`, `lines_before_stop` |
    /// | `refused` | `text` (`"program"` or `"job"`), `number`, `offset`, `sentence` |
    ///
    /// The lines have another key in each case, so that a reader who asks for `lines` finds all of them or none. Each is an object:
    ///
    /// | key | value |
    /// |---|---|
    /// | `number` | its number in the listing, from 1 |
    /// | `steps` | its steps |
    /// | `bindings` | what became of the job's variables, in order of first standing: objects of `variable` and `value` |
    /// | `inputs` | the job's inputs with that in place |
    /// | `output` | the wanted output in the same way |
    /// | `unequal` | the non-equalities, oldest first: arrays of two |
    ///
    /// An expression is a string in the notation of jobs. As arrays in arrays it would nest up to 2,047 deep, which not every reader of JSON takes.
    ///
    /// ```
    /// let program = b"(define pair [e.x] (if (cons? e.x e.h e.t a.p) 'Yes 'No))";
    /// let listing = raugvite::list(program, b"(job (in ?e1) (out 'No) (neq) (steps 9) (walk 9) (table 9))");
    /// assert_eq!(
    ///     listing.to_json(),
    ///     r#"{"word":"whole","transitions":3,"lines":[{"number":1,"steps":2,"bindings":[{"variable":"?e1","value":"?a4"}],"#.to_owned()
    ///         + r#""inputs":["?a4"],"output":"'No","unequal":[]}]}"#
    /// );
    /// let refused = raugvite::list(program, b"(job)");
    /// assert_eq!(
    ///     refused.to_json(),
    ///     r#"{"word":"refused","text":"job","number":3,"offset":4,"sentence":"the grammar wants something else here, or the "#.to_owned()
    ///         + r#"text ends too early"}"#
    /// );
    /// ```
    pub fn to_json(&self) -> String {
        json::listing(self.answer, self.printed_lines_found(), None)
    }

    /// The same with the key `sample` behind the others of each line: an object of `inputs` and `output`, as strings without variables.
    ///
    /// ```
    /// let program = b"(define pair [e.x] (if (cons? e.x e.h e.t a.p) 'Yes 'No))";
    /// let listing = raugvite::list(program, b"(job (in ?e1) (out 'No) (neq) (steps 9) (walk 9) (table 9))");
    /// assert!(listing.to_json_with_samples().ends_with(r#""unequal":[],"sample":{"inputs":["'Q1"],"output":"'No"}}]}"#));
    /// ```
    pub fn to_json_with_samples(&self) -> String {
        json::listing(self.answer, self.printed_lines_found(), Some(self.samples_found()))
    }
}

impl Display for Listing {
    fn fmt(&self, f: &mut Formatter<'_>) -> fmt::Result {
        f.write_str(shown(&self.text))
    }
}

/// A whole listing: every file of the job's class that gets the wanted answer lies in exactly one of its lines.
///
/// Nothing but a whole listing becomes one ([`list_whole`](crate::list_whole), [`Listing::into_whole`]), so that a function which takes it cannot be
/// handed a listing that is cut or stopped.
///
/// ```
/// # use raugvite::{list_whole, NotWhole, Whole};
/// fn release(sorts: &Whole) -> usize {
///     sorts.lines().len()
/// }
///
/// let program = b"(define count [e.x] (if (cons? e.x e.h e.t a.p) (call count [e.t]) 'End))";
/// let job = b"(job (in ?e1) (out 'End) (neq) (steps 9) (walk 99) (table 9))";
/// match list_whole(program, job) {
///     Ok(whole) => println!("{} sorts", release(&whole)),
///     Err(NotWhole::Cut(cut)) => println!("some files run longer; within the steps there are {} sorts", cut.lines_found().len()),
///     Err(other) => println!("{other}"),
/// }
/// ```
///
/// A listing that may be cut or stopped is another type, so that this is not compiled:
///
/// ```compile_fail,E0308
/// # use raugvite::{list, Whole};
/// fn release(sorts: &Whole) {}
///
/// release(&list(b"(define f [] 'A)", b"(job (in) (out 'A) (neq) (steps 0) (walk 0) (table 0))"));
/// ```
#[derive(Clone, Debug, PartialEq, Eq)]
pub struct Whole(Listing);

impl Whole {
    /// All lines.
    pub fn lines(&self) -> &[Line] {
        self.0.lines_found()
    }

    /// The sample of each line.
    pub fn samples(&self) -> &[Sample] {
        self.0.samples_found()
    }

    /// All lines, owned.
    pub fn into_lines(self) -> Vec<Line> {
        self.0.found.into_lines()
    }

    /// All lines, with their numbers and what became of the job's variables.
    pub fn printed_lines(&self) -> impl Iterator<Item = PrintedLine<'_>> {
        self.0.printed_lines_found()
    }

    /// The transitions that the walk made.
    pub fn transitions(&self) -> usize {
        self.0.answer.transitions()
    }

    /// The listing itself, for what any listing has.
    pub fn listing(&self) -> &Listing {
        &self.0
    }
}

/// As the listing.
impl Display for Whole {
    fn fmt(&self, f: &mut Formatter<'_>) -> fmt::Result {
        Display::fmt(&self.0, f)
    }
}

/// Why there is no whole listing.
#[derive(Clone, Debug, PartialEq, Eq)]
pub enum NotWhole {
    /// Some files of the job's class run longer than the job's steps. The listing has all lines within the steps.
    Cut(Listing),
    /// The walk was stopped. The listing has the lines that were found before.
    Stopped(Stop, Listing),
    /// A text is outside the rules.
    Refused(Refusal),
}

impl Display for NotWhole {
    fn fmt(&self, f: &mut Formatter<'_>) -> fmt::Result {
        match self {
            NotWhole::Cut(_) => f.write_str("the listing is cut: some files run longer than the job's steps"),
            NotWhole::Stopped(stop, _) => write!(f, "the listing is {stop}"),
            NotWhole::Refused(refusal) => Display::fmt(refusal, f),
        }
    }
}

impl std::error::Error for NotWhole {}

impl From<Refusal> for NotWhole {
    fn from(refusal: Refusal) -> NotWhole {
        NotWhole::Refused(refusal)
    }
}

/// A run with its value. It is displayed as it is printed, without the last line feed.
#[derive(Clone, Debug, PartialEq, Eq)]
#[must_use = "a run may have no value, and a text may be refused"]
pub struct Run {
    pub(crate) answer: Ran,
    pub(crate) value: Option<Expression>,
    pub(crate) text: Vec<u8>,
}

impl Run {
    /// What the run came to.
    pub fn answer(&self) -> Ran {
        self.answer
    }

    /// The value, where the run reached its end.
    pub fn value(&self) -> Option<&Expression> {
        self.value.as_ref()
    }

    /// The value alone.
    pub fn into_value(self) -> Option<Expression> {
        self.value
    }

    /// The printed run: ASCII, with its line feed.
    pub fn text(&self) -> &[u8] {
        &self.text
    }

    /// A refusal as an error. The run that is left has a value, was stopped or had no end within the job's steps.
    pub fn into_result(self) -> Result<Run, Refusal> {
        match self.answer {
            Ran::Refused(refusal) => Err(refusal),
            _ => Ok(self),
        }
    }
}

impl Display for Run {
    fn fmt(&self, f: &mut Formatter<'_>) -> fmt::Result {
        f.write_str(shown(&self.text))
    }
}
