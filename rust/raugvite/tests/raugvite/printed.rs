//! The lines, against the text that is printed of them.
use crate::texts::{generated, job, written, Texts};
use raugvite::{list, Binding, Expression, Listing};

fn tokens(job: &str) -> Vec<&str> {
    let brackets = ['(', ')', '[', ']'];
    job.split_inclusive(brackets)
        .flat_map(|piece| match piece.strip_suffix(brackets) {
            Some(words) => words.split_ascii_whitespace().chain(Some(&piece[words.len()..])).collect::<Vec<_>>(),
            None => piece.split_ascii_whitespace().collect(),
        })
        .collect()
}

// The expressions up to the bracket that closes their list, and the tokens behind it.
fn expressions<'a, 'b>(tokens: &'b [&'a str]) -> (Vec<Expression>, &'b [&'a str]) {
    let (mut found, mut open, mut text) = (Vec::new(), 0, String::new());
    for (i, token) in tokens.iter().enumerate() {
        match *token {
            "(" => open += 1,
            ")" if open == 0 => return (found, &tokens[i + 1..]),
            ")" => open -= 1,
            _ => {}
        }
        text += &format!("{token} ");
        if open == 0 {
            found.push(text.parse().expect("an expression of a job"));
            text.clear();
        }
    }
    panic!("a job that ends early")
}

// The inputs and the output that an accepted job asks for: (job (in d ..) (out d) ..
fn asked(job: &[u8]) -> Vec<Expression> {
    let text = String::from_utf8_lossy(job);
    let tokens = tokens(&text);
    assert_eq!(tokens[..4], ["(", "job", "(", "in"]);
    let (mut inputs, rest) = expressions(&tokens[4..]);
    assert_eq!(rest[..2], ["(", "out"]);
    inputs.extend(expressions(&rest[2..]).0);
    inputs
}

fn filled(expression: &Expression, bindings: &[Binding]) -> Expression {
    match expression {
        Expression::Pair(head, tail) => Expression::Pair(Box::new(filled(head, bindings)), Box::new(filled(tail, bindings))),
        leaf => bindings.iter().find(|b| b.variable == *leaf).map_or(leaf, |b| &b.value).clone(),
    }
}

// Each line as printed; and the job's inputs and output, with what became of its variables in place, are those of the line.
fn agree(texts: &Texts, listing: &Listing) {
    let name = &texts.name;
    let text = String::from_utf8(listing.text().to_vec()).unwrap();
    let mut due = text.lines();
    assert_eq!(Some(&listing.answer().to_string()[..]), due.next(), "{name}");
    let asked = if listing.lines_found().is_empty() { Vec::new() } else { asked(&texts.job) };
    for printed in listing.printed_lines_found() {
        assert!(Some(&printed.to_string()[..]) == due.next(), "line {} of {name}", printed.number);
        let found: Vec<Expression> = asked.iter().map(|e| filled(e, &printed.bindings)).collect();
        assert!(found.iter().eq(printed.line.inputs.iter().chain([&printed.line.output])), "line {} of {name}", printed.number);
    }
    assert_eq!(due.next(), None, "{name}");
    assert!(format!("{listing}\n") == text, "{name}");
}

// The text with samples is the text, with each sample under its line; the names of new atoms are those that are printed.
fn samples_agree(texts: &Texts, listing: &Listing) {
    let text = String::from_utf8(listing.text().to_vec()).unwrap();
    let mut lines = text.lines();
    let mut due = lines.next().map(|first| format!("{first}\n")).unwrap_or_default();
    for (line, sample) in lines.zip(listing.samples_found()) {
        due += &format!("{line}\n{sample}\n");
    }
    assert_eq!(listing.samples_found().len(), listing.lines_found().len(), "{}", texts.name);
    assert!(due.as_bytes() == listing.sampled_text(), "{}", texts.name);
}

// Symbols with the names that new atoms would have.
#[test]
fn names_of_new_atoms() {
    let job = job("?e1 ?e2 ?e1", "(cons ?e3 ?a4)", "[?a4 'Q3]", [9, 9, 9]);
    let program = "(define f [e.x e.y e.z] (cons (cons e.x 'Q02) 'Q1))(define g [] 'Q5)";
    let texts = Texts { name: "names".into(), program: program.into(), job: job.into() };
    let listing = list(&texts.program, &texts.job);
    samples_agree(&texts, &listing);
    assert_eq!(listing.samples_found()[0].to_string(), "(in 'Q2 'Q4 'Q2) (out (cons (cons 'Q2 'Q02) 'Q1))");
    assert_eq!(format!("{:#}", listing.samples_found()[0]), "(in 'Q2 'Q4 'Q2) (out ('Q2:'Q02):'Q1)");
}

#[test]
fn written_texts() {
    let all = written();
    assert!(all.len() > 15, "{}", all.len());
    let mut lines = 0;
    for texts in &all {
        let listing = list(&texts.program, &texts.job);
        agree(texts, &listing);
        samples_agree(texts, &listing);
        lines += listing.lines_found().len();
    }
    assert!(lines > 100, "{lines}");
}

#[test]
fn generated_texts() {
    let mut lines = 0;
    for texts in generated(500) {
        let listing = list(&texts.program, &texts.job);
        agree(&texts, &listing);
        samples_agree(&texts, &listing);
        lines += listing.lines_found().len();
    }
    assert!(lines > 500, "{lines}");
}
