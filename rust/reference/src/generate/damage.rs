//! Texts with faults. Most damage is done to tokens, so that it falls under
//! the refusals from 3 on; some is done to bytes.

use super::{branching, limits, sound, Case, Random, Texts};

/// Tokens that may come to stand anywhere.
const STRAY: [&str; 28] = [
    "(",
    ")",
    "[",
    "]",
    "define",
    "call",
    "if",
    "cons",
    "cons?",
    "eqa?",
    "job",
    "in",
    "out",
    "neq",
    "e.x",
    "a.p",
    "e.unknown",
    "'A",
    "'B-",
    "?e1",
    "?a77",
    "?e0",
    "?e01",
    "?a1000",
    "0",
    "007",
    "12345678",
    "abcdefghijklmnopq",
];

/// A symbol of 17 letters.
const LONG: &str = "'abcdefghijklmnopq";

pub fn case(random: &mut Random) -> Case {
    if random.chance(8) {
        return random.pick(&limits::limit_cases()).case.clone();
    }
    let ground = random.chance(20);
    let mut texts = match random.chance(70) {
        true => sound::texts(random, ground),
        false => branching::texts(random),
    };
    for _ in 0..*random.pick(&[1, 1, 1, 2, 3]) {
        match random.below(6) {
            0 => damage_tokens(&mut texts.program, random),
            1 => damage_tokens(&mut texts.job, random),
            _ => change_meaning(&mut texts, random),
        }
    }
    let mut case = texts.spaced(random);
    if random.chance(15) {
        damage_bytes(&mut case, random);
    }
    case
}

/// Deletes, doubles, swaps, replaces or inserts a token.
fn damage_tokens(tokens: &mut Vec<String>, random: &mut Random) {
    if tokens.len() < 2 {
        return;
    }
    let at = random.below(tokens.len() - 1);
    match random.below(5) {
        0 => drop(tokens.remove(at)),
        1 => tokens.insert(at, tokens[at].clone()),
        2 => tokens.swap(at, at + 1),
        3 => tokens[at] = random.pick(&STRAY).to_string(),
        _ => tokens.insert(at, random.pick(&STRAY).to_string()),
    }
}

/// Words of the program, and what may come to stand behind them.
const BEHIND_IN_PROGRAM: [(&str, &[&str]); 3] =
    [("call", &["nowhere", "f", "main", "F"]), ("define", &["f", "main", "if"]), ("eqa?", &["e.x", "e.h", "a.h", "e.gone"])];

const BEHIND_IN_JOB: [(&str, &[&str]); 3] =
    [("steps", &["1000", "1001", "9999999", "00"]), ("walk", &["1000001", "10000000", "01"]), ("table", &["256", "257", "x"])];

/// Beginnings of words in the program, and what may replace the words.
const INSTEAD: [(&str, &[&str]); 3] =
    [("e.", &["e.gone", "a.p", "(", "e.x"]), ("a.", &["a.gone", "e.x", "e.gone", "a.p"]), ("'", &["'abcdefghijklmnop", LONG])];

/// Keeps the grammar, as a rule, and breaks a rule of the checks.
fn change_meaning(texts: &mut Texts, random: &mut Random) {
    match random.below(11) {
        0..=2 => {
            let (prefix, by) = *random.pick(&INSTEAD);
            replace(&mut texts.program, random, prefix, by)
        }
        10 => rebind(&mut texts.program, random),
        3..=5 => {
            let (word, by) = *random.pick(&BEHIND_IN_PROGRAM);
            after(&mut texts.program, random, word, by)
        }
        6..=7 => {
            let (word, by) = *random.pick(&BEHIND_IN_JOB);
            after(&mut texts.job, random, word, by)
        }
        _ => change_job_items(&mut texts.job, random),
    }
}

fn change_job_items(job: &mut Vec<String>, random: &mut Random) {
    match random.below(3) {
        0 => {
            let input = *random.pick(&["'A", "?e1", "?a1"]);
            insert_behind(job, "in", input)
        }
        1 => replace(job, random, "?", &["?a7", "?e7", "'A", "?e1"]),
        _ => {
            let side = random.pick(&["?e1", "?a88", "'A"]).to_string();
            for token in ["]", &side, "'A", "["] {
                insert_behind(job, "neq", token);
            }
        }
    }
}

fn insert_behind(tokens: &mut Vec<String>, word: &str, token: &str) {
    if let Some(at) = tokens.iter().position(|t| t == word) {
        tokens.insert(at + 1, token.to_string());
    }
}

/// Replaces one token that begins like this.
fn replace(tokens: &mut [String], random: &mut Random, prefix: &str, by: &[&str]) {
    let places: Vec<usize> = (0..tokens.len()).filter(|&i| tokens[i].starts_with(prefix)).collect();
    if !places.is_empty() {
        tokens[*random.pick(&places)] = random.pick(by).to_string();
    }
}

/// Replaces the token behind one of these words.
fn after(tokens: &mut [String], random: &mut Random, word: &str, by: &[&str]) {
    let places: Vec<usize> = (1..tokens.len()).filter(|&i| tokens[i - 1] == word).collect();
    if !places.is_empty() {
        tokens[*random.pick(&places)] = random.pick(by).to_string();
    }
}

/// Lets a `cons?` bind a name that stands before it in its definition, so
/// mostly one that is in reach.
pub fn rebind(tokens: &mut [String], random: &mut Random) {
    let binds = |w: &[String]| w[0].starts_with("e.") && w[1].starts_with("e.") && w[2].starts_with("a.") && w[3] == ")";
    let places: Vec<usize> = tokens.windows(4).enumerate().filter(|(_, w)| binds(w)).map(|(i, _)| i).collect();
    if places.is_empty() {
        return;
    }
    let at = *random.pick(&places);
    let start = tokens[..at].iter().rposition(|t| t == "define").unwrap_or(0);
    let bound = at + random.below(3);
    let earlier: Vec<String> = tokens[start..at].iter().filter(|t| t.starts_with(&tokens[bound][..2])).cloned().collect();
    if !earlier.is_empty() {
        tokens[bound] = random.pick(&earlier).clone();
    }
}

/// Cuts a text short, puts a strange byte in, or makes it too long.
fn damage_bytes(case: &mut Case, random: &mut Random) {
    let (text, limit) = match random.chance(50) {
        true => (&mut case.program, 32_768),
        false => (&mut case.job, 8_192),
    };
    let at = random.below(text.len() + 1);
    match random.below(4) {
        0 => text.truncate(at),
        1 => text.insert(at, *random.pick(&[0, 13, 31, 127, 200, 255])),
        2 => text.insert(at, *random.pick(b",;\"-.'?~!")),
        _ => text.resize(limit + random.below(3), b' '),
    }
}
