//! A listing as JSON; [`Listing::to_json`](crate::Listing::to_json) has the format.
use crate::answers::Listed;
use crate::expressions::Expression;
use crate::lines::{PrintedLine, Sample};
use std::fmt::Display;

// A string with its quotes. What a listing has in it needs no escape; a string of other origin may.
fn string(out: &mut String, text: impl Display) {
    out.push('"');
    for c in text.to_string().chars() {
        match c {
            '"' => out.push_str("\\\""),
            '\\' => out.push_str("\\\\"),
            '\n' => out.push_str("\\n"),
            '\r' => out.push_str("\\r"),
            '\t' => out.push_str("\\t"),
            c if c < ' ' => out.push_str(&format!("\\u{:04x}", u32::from(c))),
            c => out.push(c),
        }
    }
    out.push('"');
}

// The items one behind the other, with commas between them.
fn list<T>(out: &mut String, items: impl IntoIterator<Item = T>, mut write: impl FnMut(&mut String, T)) {
    out.push('[');
    for (i, item) in items.into_iter().enumerate() {
        if i > 0 {
            out.push(',');
        }
        write(out, item);
    }
    out.push(']');
}

fn pair(out: &mut String, inputs: &[Expression], output: &Expression) {
    out.push_str("\"inputs\":");
    list(out, inputs, string);
    out.push_str(",\"output\":");
    string(out, output);
}

fn line(out: &mut String, printed: PrintedLine<'_>, sample: Option<&Sample>) {
    out.push_str(&format!("{{\"number\":{},\"steps\":{},\"bindings\":", printed.number, printed.line.steps));
    list(out, &printed.bindings, |out, binding| {
        out.push_str("{\"variable\":");
        string(out, &binding.variable);
        out.push_str(",\"value\":");
        string(out, &binding.value);
        out.push('}');
    });
    out.push(',');
    pair(out, &printed.line.inputs, &printed.line.output);
    out.push_str(",\"unequal\":");
    list(out, &printed.line.unequal, |out, (left, right)| list(out, [left, right], string));
    if let Some(sample) = sample {
        out.push_str(",\"sample\":{");
        pair(out, &sample.inputs, &sample.output);
        out.push('}');
    }
    out.push('}');
}

// The lines have another key where they are not all: who asks for "lines" alone finds none there.
fn walked<'a>(
    word: &str,
    sentence: Option<&str>,
    answer: Listed,
    key: &str,
    lines: impl Iterator<Item = (PrintedLine<'a>, Option<&'a Sample>)>,
) -> String {
    let mut out = format!("{{\"word\":\"{word}\"");
    if let Some(sentence) = sentence {
        out.push_str(",\"sentence\":");
        string(&mut out, sentence);
    }
    out.push_str(&format!(",\"transitions\":{},\"{key}\":", answer.transitions()));
    list(&mut out, lines, |out, (printed, sample)| line(out, printed, sample));
    out.push('}');
    out
}

/// The listing with these lines, and their samples where they are called for.
pub fn listing<'a>(answer: Listed, lines: impl Iterator<Item = PrintedLine<'a>>, samples: Option<&'a [Sample]>) -> String {
    let lines = lines.enumerate().map(|(i, line)| (line, samples.map(|all| &all[i])));
    match answer {
        Listed::Whole { .. } => walked("whole", None, answer, "lines", lines),
        Listed::Cut { .. } => walked("cut", None, answer, "lines_within_steps", lines),
        Listed::Stopped { stop, .. } => {
            walked(&format!("stop{}", stop.number()), Some(stop.sentence()), answer, "lines_before_stop", lines)
        }
        Listed::Refused(refusal) => refused(&format!("\"{}\"", refusal.text), refusal.number, refusal.offset),
        Listed::Short => refused("null", crate::answers::SHORT, 0),
    }
}

fn refused(text: &str, number: usize, offset: usize) -> String {
    let mut out = format!("{{\"word\":\"refused\",\"text\":{text},\"number\":{number},\"offset\":{offset},\"sentence\":");
    string(&mut out, crate::sentence(number).unwrap_or(""));
    out.push('}');
    out
}

#[cfg(test)]
mod tests {
    use super::*;

    #[test]
    fn escapes() {
        let mut out = String::new();
        string(&mut out, "'A \"b\" \\ \n\r\t\u{1}\u{1f}\u{7f}é");
        assert_eq!(out, "\"'A \\\"b\\\" \\\\ \\n\\r\\t\\u0001\\u001f\u{7f}é\"");
    }
}
