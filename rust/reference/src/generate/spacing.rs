//! From tokens to bytes: short texts, long texts, and what lies between.

use super::Random;
use crate::token::token_at;

/// The tokens of a text that is known to be clean.
pub fn tokens(text: &str) -> Vec<String> {
    let mut found = Vec::new();
    let mut at = 0;
    while let Some(token) = token_at(text.as_bytes(), at) {
        at = token.offset + token.bytes.len();
        found.push(String::from_utf8_lossy(token.bytes).into_owned());
    }
    found
}

fn is_bracket(token: &str) -> bool {
    matches!(token, "(" | ")" | "[" | "]")
}

/// Blanks only where two words would run together.
pub fn tight(tokens: &[String]) -> Vec<u8> {
    let mut text = Vec::new();
    for (index, token) in tokens.iter().enumerate() {
        if index > 0 && !is_bracket(token) && !is_bracket(&tokens[index - 1]) {
            text.push(b' ');
        }
        text.extend_from_slice(token.as_bytes());
    }
    text
}

/// Spaces tokens in one of four ways; `limit` is the text's byte limit.
pub fn space(tokens: &[String], limit: usize, random: &mut Random) -> Vec<u8> {
    match random.below(8) {
        0..=2 => tight(tokens),
        3..=5 => tokens.join(" ").into_bytes(),
        6 => loose(tokens, random),
        _ => {
            // Up to, but seldom over, the limit of bytes.
            let mut text = tight(tokens);
            let room = limit.saturating_sub(text.len());
            let blanks = if random.chance(20) { room } else { random.below(room + 1) };
            text.extend(std::iter::repeat_n(b' ', blanks));
            text
        }
    }
}

fn loose(tokens: &[String], random: &mut Random) -> Vec<u8> {
    let mut text = Vec::new();
    for token in tokens {
        for _ in 0..random.between(1, 3) {
            text.push(*random.pick(b" \t\n"));
        }
        text.extend_from_slice(token.as_bytes());
    }
    text
}
