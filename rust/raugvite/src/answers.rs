//! What a listing or a run came to, in the numbers that the archive has for it.
use crate::refusals::{sentence, Refusal, Text};
use std::fmt::{self, Display, Formatter};

/// What stopped a walk.
#[derive(Clone, Copy, Debug, PartialEq, Eq, Hash)]
pub enum Stop {
    /// 21: a configuration has over 4,096 nodes.
    Nodes,
    /// 22: a line more than the job's table has, or over 16,384 nodes in the lines.
    Lines,
    /// 23: a transition more than the job's walk allows.
    Transitions,
}

impl Stop {
    /// 21, 22 or 23.
    pub fn number(self) -> usize {
        match self {
            Stop::Nodes => 21,
            Stop::Lines => 22,
            Stop::Transitions => 23,
        }
    }

    /// What the number says.
    pub fn sentence(self) -> &'static str {
        sentence(self.number()).unwrap_or("")
    }
}

/// The number and its sentence, as a message.
impl Display for Stop {
    fn fmt(&self, f: &mut Formatter<'_>) -> fmt::Result {
        write!(f, "stopped by number {}: {}", self.number(), self.sentence())
    }
}

/// What a listing came to.
///
/// It is displayed as the first line of the printed listing.
///
/// ```
/// use raugvite::{Listed, Refusal, Stop, Text};
///
/// assert_eq!(Listed::Whole { lines: 3, transitions: 7 }.to_string(), "whole 3 7");
/// assert_eq!(Listed::Stopped { stop: Stop::Lines, lines: 2, transitions: 7 }.to_string(), "stop22 2 7");
/// assert_eq!(Listed::Refused(Refusal { text: Text::Job, number: 3, offset: 17 }).to_string(), "refused j 3 17");
/// ```
#[derive(Clone, Copy, Debug, PartialEq, Eq, Hash)]
#[must_use = "a listing may be cut or stopped, and a text may be refused"]
pub enum Listed {
    /// Every file of the job's class ends within the job's steps, and every sort that gets the wanted answer has its line.
    Whole {
        /// The lines in storage.
        lines: usize,
        /// The transitions that the walk made.
        transitions: usize,
    },
    /// The same of the files that end within the job's steps; some run longer.
    Cut {
        /// The lines in storage.
        lines: usize,
        /// The transitions that the walk made.
        transitions: usize,
    },
    /// The walk was stopped: the lines are a beginning of the listing, and others are missing.
    Stopped {
        /// What stopped it.
        stop: Stop,
        /// The lines in storage.
        lines: usize,
        /// The transitions that the walk made.
        transitions: usize,
    },
    /// A text is outside the rules; there are no lines.
    Refused(Refusal),
    /// 20: the storage that was lent is too short, and nothing was touched. [`list`](crate::list) has storage of its own and never says this.
    Short,
}

impl Listed {
    /// Whether the listing is whole: not cut, not stopped, not refused.
    pub fn is_whole(self) -> bool {
        matches!(self, Listed::Whole { .. })
    }

    /// The lines in storage, all of them or a beginning; none where a text is refused or the storage is too short.
    pub fn lines_found(self) -> usize {
        match self {
            Listed::Whole { lines, .. } | Listed::Cut { lines, .. } | Listed::Stopped { lines, .. } => lines,
            Listed::Refused(_) | Listed::Short => 0,
        }
    }

    /// The transitions that the walk made; none where a text is refused or the storage is too short.
    pub fn transitions(self) -> usize {
        match self {
            Listed::Whole { transitions, .. } | Listed::Cut { transitions, .. } | Listed::Stopped { transitions, .. } => transitions,
            Listed::Refused(_) | Listed::Short => 0,
        }
    }
}

impl Display for Listed {
    fn fmt(&self, f: &mut Formatter<'_>) -> fmt::Result {
        match self {
            Listed::Whole { lines, transitions } => write!(f, "whole {lines} {transitions}"),
            Listed::Cut { lines, transitions } => write!(f, "cut {lines} {transitions}"),
            Listed::Stopped { stop, lines, transitions } => write!(f, "stop{} {lines} {transitions}", stop.number()),
            Listed::Refused(refusal) => refused(f, refusal),
            Listed::Short => f.write_str("refused - 20 0"),
        }
    }
}

/// What [`sample_in`](crate::sample_in) came to.
#[derive(Clone, Copy, Debug, PartialEq, Eq, Hash)]
pub enum Sampled {
    /// The sample stands in storage.
    Done {
        /// The cells of its inputs, which come first.
        inputs: usize,
        /// The cells of its output.
        output: usize,
    },
    /// The listing has no line of this number, and nothing was touched.
    Absent,
    /// 20: the storage that was lent is too short, and nothing was touched.
    Short,
}

/// What a run came to.
///
/// It is displayed as the printed line, without the value: that is in a [`Run`](crate::Run) or in storage.
#[derive(Clone, Copy, Debug, PartialEq, Eq, Hash)]
#[must_use = "a run may have no value, and a text may be refused"]
pub enum Ran {
    /// The run reached its end.
    Value {
        /// The transitions that led to it.
        steps: usize,
        /// The cells of the value in storage.
        length: usize,
    },
    /// 21: inputs and values have over 4,096 nodes.
    Stopped,
    /// No end within the job's steps.
    NotWithin,
    /// A text is outside the rules.
    Refused(Refusal),
    /// 20: the storage that was lent is too short, and nothing was touched. [`run`](crate::run) has storage of its own and never says this.
    Short,
}

impl Display for Ran {
    fn fmt(&self, f: &mut Formatter<'_>) -> fmt::Result {
        match self {
            Ran::Value { steps, .. } => write!(f, "value {steps}"),
            Ran::Stopped => f.write_str("stop21"),
            Ran::NotWithin => f.write_str("notwithin"),
            Ran::Refused(refusal) => refused(f, refusal),
            Ran::Short => f.write_str("refused - 20 0"),
        }
    }
}

fn refused(f: &mut Formatter<'_>, Refusal { text, number, offset }: &Refusal) -> fmt::Result {
    write!(f, "refused {} {number} {offset}", text.letter())
}

/// The number of storage that is too short.
pub const SHORT: usize = 20;

// The letters of a refused text.
const PROGRAM: usize = b'p' as usize;
const JOB: usize = b'j' as usize;

fn refusal(number: usize, letter: usize, offset: usize) -> Option<Refusal> {
    match letter {
        PROGRAM => Some(Refusal { text: Text::Program, number, offset }),
        JOB => Some(Refusal { text: Text::Job, number, offset }),
        _ => None,
    }
}

fn letter(text: Text) -> usize {
    match text {
        Text::Program => PROGRAM,
        Text::Job => JOB,
    }
}

/// The answer of a number, and letter, offset, cut, lines and transitions.
pub fn listed(number: usize, [letter, offset, cut, lines, transitions]: [usize; 5]) -> Listed {
    if let Some(refusal) = refusal(number, letter, offset) {
        return Listed::Refused(refusal);
    }
    match (number, cut) {
        (SHORT, _) => Listed::Short,
        (21, _) => Listed::Stopped { stop: Stop::Nodes, lines, transitions },
        (22, _) => Listed::Stopped { stop: Stop::Lines, lines, transitions },
        (23, _) => Listed::Stopped { stop: Stop::Transitions, lines, transitions },
        (0, 0) => Listed::Whole { lines, transitions },
        (0, _) => Listed::Cut { lines, transitions },
        _ => unknown(number),
    }
}

// No answer of this archive. One that is not known may not be taken for a whole listing or for a run without an end.
fn unknown(number: usize) -> ! {
    panic!("the archive target/staticlib/libbindings.a answers by number {number}, which this package does not know")
}

/// The same backwards.
pub fn listed_numbers(said: Listed) -> (usize, [usize; 5]) {
    match said {
        Listed::Whole { lines, transitions } => (0, [0, 0, 0, lines, transitions]),
        Listed::Cut { lines, transitions } => (0, [0, 0, 1, lines, transitions]),
        Listed::Stopped { stop, lines, transitions } => (stop.number(), [0, 0, 0, lines, transitions]),
        Listed::Refused(Refusal { text, number, offset }) => (number, [letter(text), offset, 0, 0, 0]),
        Listed::Short => (SHORT, [0; 5]),
    }
}

/// The answer of a number, and the cells of inputs and output; an output has a cell at least.
pub fn sampled(number: usize, [inputs, output]: [usize; 2]) -> Sampled {
    match (number, output) {
        (SHORT, _) => Sampled::Short,
        (0, 0) => Sampled::Absent,
        (0, _) => Sampled::Done { inputs, output },
        _ => unknown(number),
    }
}

/// The answer of a number, and letter, offset, steps and length; a value has a cell at least.
pub fn ran(number: usize, [letter, offset, steps, length]: [usize; 4]) -> Ran {
    if let Some(refusal) = refusal(number, letter, offset) {
        return Ran::Refused(refusal);
    }
    match (number, length) {
        (SHORT, _) => Ran::Short,
        (21, _) => Ran::Stopped,
        (0, 0) => Ran::NotWithin,
        (0, _) => Ran::Value { steps, length },
        _ => unknown(number),
    }
}

/// The same backwards.
pub fn ran_numbers(said: Ran) -> (usize, [usize; 4]) {
    match said {
        Ran::Value { steps, length } => (0, [0, 0, steps, length]),
        Ran::Stopped => (21, [0; 4]),
        Ran::NotWithin => (0, [0; 4]),
        Ran::Refused(Refusal { text, number, offset }) => (number, [letter(text), offset, 0, 0]),
        Ran::Short => (SHORT, [0; 4]),
    }
}

#[cfg(test)]
mod tests {
    use super::*;

    #[test]
    fn listings_there_and_back() {
        let (lines, transitions) = (3, 7);
        let stops = [Stop::Nodes, Stop::Lines, Stop::Transitions].map(|stop| Listed::Stopped { stop, lines, transitions });
        let refusals = [Text::Program, Text::Job].map(|text| Listed::Refused(Refusal { text, number: 3, offset: 17 }));
        let others = [Listed::Whole { lines, transitions }, Listed::Cut { lines, transitions }, Listed::Short];
        let all = [&stops[..], &refusals, &others].concat();
        for &said in &all {
            let (number, numbers) = listed_numbers(said);
            assert_eq!(listed(number, numbers), said);
        }
        let shown: Vec<String> = all.iter().map(Listed::to_string).collect();
        let due = ["stop21 3 7", "stop22 3 7", "stop23 3 7", "refused p 3 17", "refused j 3 17", "whole 3 7", "cut 3 7", "refused - 20 0"];
        assert_eq!(shown, due);
        assert_eq!(all.iter().map(|a| a.is_whole()).collect::<Vec<_>>(), due.map(|d| d.starts_with("whole")));
    }

    #[test]
    #[should_panic(expected = "number 24")]
    fn an_unknown_number_is_not_whole() {
        let _ = listed(24, [0, 0, 0, 3, 7]);
    }

    #[test]
    #[should_panic(expected = "number 22")]
    fn nor_a_run() {
        let _ = ran(22, [0; 4]);
    }

    #[test]
    fn runs_there_and_back() {
        let refusals = [Text::Program, Text::Job].map(|text| Ran::Refused(Refusal { text, number: 3, offset: 17 }));
        let others = [Ran::Value { steps: 0, length: 1 }, Ran::Stopped, Ran::NotWithin, Ran::Short];
        let all = [&refusals[..], &others].concat();
        for &said in &all {
            let (number, numbers) = ran_numbers(said);
            assert_eq!(ran(number, numbers), said);
        }
        let shown: Vec<String> = all.iter().map(Ran::to_string).collect();
        assert_eq!(shown, ["refused p 3 17", "refused j 3 17", "value 0", "stop21", "notwithin", "refused - 20 0"]);
    }
}
