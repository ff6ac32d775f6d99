//! The JSON of listings, read back.
use crate::texts::{generated, job, read, written, DUB, SAME};
use raugvite::{list, sentence, Listing};
use std::io::Write;
use std::process::{Command, Stdio};

// A value of JSON, as far as listings have it.
#[derive(Clone, Debug, PartialEq)]
enum Value {
    Number(usize),
    Text(String),
    List(Vec<Value>),
    Object(Vec<(String, Value)>),
}

impl Value {
    fn get(&self, key: &str) -> Option<&Value> {
        match self {
            Value::Object(items) => items.iter().find(|(name, _)| name == key).map(|(_, value)| value),
            _ => None,
        }
    }

    fn text(&self, key: &str) -> &str {
        match self.get(key) {
            Some(Value::Text(text)) => text,
            other => panic!("{key} is {other:?}"),
        }
    }

    fn number(&self, key: &str) -> usize {
        match self.get(key) {
            Some(Value::Number(number)) => *number,
            other => panic!("{key} is {other:?}"),
        }
    }

    fn list(&self, key: &str) -> &[Value] {
        match self.get(key) {
            Some(Value::List(items)) => items,
            other => panic!("{key} is {other:?}"),
        }
    }
}

// Strict: no blanks, no sign, no escape, each key once. What listings have needs no more.
struct Reader<'a>(&'a str);

impl Reader<'_> {
    fn next(&mut self) -> char {
        let c = self.0.chars().next().expect("more text");
        self.0 = &self.0[c.len_utf8()..];
        c
    }

    fn takes(&mut self, due: char) -> bool {
        let taken = self.0.starts_with(due);
        if taken {
            self.next();
        }
        taken
    }

    fn string(&mut self) -> String {
        assert_eq!(self.next(), '"');
        let (text, rest) = self.0.split_once('"').expect("a quote");
        assert!(text.bytes().all(|b| (32..127).contains(&b) && b != b'\\'), "{text}");
        self.0 = rest;
        text.to_string()
    }

    // What stands between two brackets, with commas between.
    fn items<T>(&mut self, close: char, read: impl Fn(&mut Self) -> T) -> Vec<T> {
        let mut found = Vec::new();
        self.next();
        while !self.takes(close) {
            assert!(found.is_empty() || self.takes(','), "a comma is due: {:.40}", self.0);
            found.push(read(self));
        }
        found
    }

    fn entry(&mut self) -> (String, Value) {
        let key = self.string();
        assert!(self.takes(':'));
        (key, self.value())
    }

    fn value(&mut self) -> Value {
        match self.0.as_bytes().first() {
            Some(b'"') => Value::Text(self.string()),
            Some(b'[') => Value::List(self.items(']', Self::value)),
            Some(b'{') => {
                let items = self.items('}', Self::entry);
                assert!((0..items.len()).all(|i| items[..i].iter().all(|(key, _)| *key != items[i].0)));
                Value::Object(items)
            }
            _ => {
                let length = self.0.bytes().take_while(u8::is_ascii_digit).count();
                let (digits, rest) = self.0.split_at(length);
                assert!(digits == "0" || !digits.starts_with('0'));
                self.0 = rest;
                Value::Number(digits.parse().expect("a number"))
            }
        }
    }
}

fn parsed(text: &str) -> Value {
    let mut reader = Reader(text);
    let value = reader.value();
    assert_eq!(reader.0, "");
    value
}

fn json(listing: &Listing) -> Value {
    parsed(&listing.to_json())
}

// The printed listing, from its JSON alone.
fn printed(listing: &Value) -> String {
    let word = listing.text("word");
    if word == "refused" {
        let letter = &listing.text("text")[..1];
        assert_eq!(Some(listing.text("sentence")), sentence(listing.number("number")));
        return format!("refused {letter} {} {}\n", listing.number("number"), listing.number("offset"));
    }
    let key = match word {
        "whole" => "lines",
        "cut" => "lines_within_steps",
        stop => {
            assert_eq!(Some(listing.text("sentence")), sentence(stop.strip_prefix("stop").unwrap().parse().unwrap()));
            "lines_before_stop"
        }
    };
    let lines = listing.list(key);
    let mut text = format!("{word} {} {}\n", lines.len(), listing.number("transitions"));
    for line in lines {
        text += &format!("{} {}", line.number("number"), line.number("steps"));
        for binding in line.list("bindings") {
            text += &format!(" {}={}", binding.text("variable"), binding.text("value"));
        }
        for sides in line.list("unequal") {
            let Value::List(sides) = sides else { panic!("two sides") };
            let [Value::Text(left), Value::Text(right)] = &sides[..] else { panic!("two sides") };
            text += &format!(" # {left} {right}");
        }
        text += "\n";
        if let Some(sample) = line.get("sample") {
            let inputs = sample.list("inputs").iter().map(|input| match input {
                Value::Text(input) => format!(" {input}"),
                _ => panic!("a text"),
            });
            text += &format!("(in{}) (out {})\n", inputs.collect::<String>(), sample.text("output"));
        }
    }
    text
}

fn agree(name: &str, listing: &Listing) {
    let value = json(listing);
    assert!(printed(&value).as_bytes() == listing.text(), "{name}");
    assert!(printed(&parsed(&listing.to_json_with_samples())).as_bytes() == listing.sampled_text(), "{name}");
    // Who asks for "lines" finds all of them or none.
    assert_eq!(value.get("lines").is_some(), listing.is_whole(), "{name}");
    let keys = ["lines", "lines_within_steps", "lines_before_stop"];
    let lines = keys.iter().find_map(|key| value.get(key).map(|_| value.list(key))).unwrap_or(&[]);
    for (read, line) in lines.iter().zip(listing.lines_found()) {
        let inputs: Vec<Value> = line.inputs.iter().map(|input| Value::Text(input.to_string())).collect();
        assert!(read.list("inputs") == inputs && read.text("output") == line.output.to_string(), "{name}");
    }
}

#[test]
fn one_line() {
    let due = r#"{"word":"whole","transitions":1,"lines":[{"number":1,"steps":1,"bindings":[{"variable":"?e2","value":"(cons ?e1 'K)"}],"#
        .to_string()
        + r#""inputs":["?e1"],"output":"(cons ?e1 'K)","unequal":[]}]}"#;
    assert_eq!(list(DUB.as_bytes(), job("?e1", "?e2", "", [1, 1, 1]).as_bytes()).to_json(), due);
}

#[test]
fn each_word() {
    let said = |numbers| list(SAME.as_bytes(), job("?e1 ?e2", "'Yes", "", numbers).as_bytes()).to_json();
    assert_eq!(said([0, 7, 3]), r#"{"word":"cut","transitions":0,"lines_within_steps":[]}"#);
    let with_sentence = |before: &str, number, after: &str| format!(r#"{before},"sentence":"{}"{after}}}"#, sentence(number).unwrap());
    let stopped = with_sentence(r#"{"word":"stop23""#, 23, r#","transitions":0,"lines_before_stop":[]"#);
    assert_eq!(said([4, 0, 3]), stopped);
    let refused = with_sentence(r#"{"word":"refused","text":"program","number":3,"offset":0"#, 3, "");
    assert_eq!(list(b"", b"").to_json(), refused);
}

#[test]
fn written_and_generated_texts() {
    for texts in written().into_iter().chain(generated(300)) {
        agree(&texts.name, &list(&texts.program, &texts.job));
    }
}

// The same with a reader that others wrote: `cargo test -- --ignored` where python3 is installed.
const PRINT: &str = r#"
import json, sys
for row in sys.stdin:
    l = json.loads(row)
    if l["word"] == "refused":
        print("refused", l["text"][0], l["number"], l["offset"])
        continue
    lines = l[{"whole": "lines", "cut": "lines_within_steps"}.get(l["word"], "lines_before_stop")]
    print(l["word"], len(lines), l["transitions"])
    for x in lines:
        bound = [" %s=%s" % (b["variable"], b["value"]) for b in x["bindings"]]
        unequal = [" # %s %s" % (a, b) for a, b in x["unequal"]]
        print("%d %d" % (x["number"], x["steps"]) + "".join(bound + unequal))
"#;

#[test]
#[ignore = "needs python3"]
fn read_by_python() {
    let all: Vec<Listing> = written().into_iter().chain(generated(300)).map(|t| list(&t.program, &t.job)).collect();
    let mut python = Command::new("python3").args(["-c", PRINT]).stdin(Stdio::piped()).stdout(Stdio::piped()).spawn().expect("python3");
    let mut input = python.stdin.take().unwrap();
    let rows: String = all.iter().map(|listing| listing.to_json() + "\n").collect();
    let writer = std::thread::spawn(move || input.write_all(rows.as_bytes()).expect("python3 reads"));
    let output = python.wait_with_output().unwrap();
    writer.join().unwrap();
    let due: Vec<u8> = all.iter().flat_map(|listing| listing.text().to_vec()).collect();
    assert!(output.status.success() && output.stdout == due);
}

// The deepest tree that there is, in a thread of a small stack: a list built up in as many steps as its nodes allow.
#[test]
fn a_deep_value() {
    let program = b"(define f [e.x] (call g [e.x 'A])) (define g [e.x e.y] (if (cons? e.x e.h e.t a.n) (call g [e.t (cons 'B e.y)]) e.y))";
    let job = job("?e1", "?e2", "", [400, 1000, 256]);
    let deep = move || {
        let listing = list(program, job.as_bytes());
        assert!(!listing.lines_found().is_empty(), "{listing}");
        agree("a deep value", &listing);
    };
    std::thread::Builder::new().stack_size(1 << 20).spawn(deep).unwrap().join().unwrap();
}

#[test]
fn the_loader() {
    let texts = read("crates/ura/data/prog.tsg", "crates/ura/data/job.txt");
    let value = json(&list(&texts.program, &texts.job));
    let third = &value.list("lines_within_steps")[2];
    assert_eq!(third.list("inputs"), [Value::Text("(cons '1 (cons '0 (cons ?a2 ?a6)))".into())]);
    assert_eq!((third.number("number"), third.number("steps"), third.text("output")), (3, 15, "'Loaded"));
}
