//! Bytes and tokens (01, "Texts").

use crate::expression::{Kind, Name, Variable, NAME_LENGTH};
use crate::fault::Fault;

/// What a byte does when a text is cut into tokens.
#[derive(Clone, Copy, PartialEq, Eq)]
enum ByteKind {
    Blank,
    Bracket,
    Word,
    Outside,
}

fn byte_kind(byte: u8) -> ByteKind {
    match byte {
        9 | 10 | 32 => ByteKind::Blank,
        b'(' | b')' | b'[' | b']' => ByteKind::Bracket,
        33..=126 => ByteKind::Word,
        _ => ByteKind::Outside,
    }
}

/// Refusals 1 and 2: they look at the whole text before any token is cut.
pub fn check_bytes(text: &[u8], limit: usize) -> Result<(), Fault> {
    if text.len() > limit {
        return Err(Fault::new(1, limit));
    }
    match text.iter().position(|&b| byte_kind(b) == ByteKind::Outside) {
        Some(offset) => Err(Fault::new(2, offset)),
        None => Ok(()),
    }
}

#[derive(Clone, Copy)]
pub struct Token<'t> {
    pub bytes: &'t [u8],
    pub offset: usize,
}

/// The first token at or after `from`. A token that is no bracket is the
/// longest run of word bytes: the end of the text ends it like a blank.
pub fn token_at(text: &[u8], from: usize) -> Option<Token<'_>> {
    let start = (from..text.len()).find(|&i| byte_kind(text[i]) != ByteKind::Blank)?;
    let end = match byte_kind(text[start]) {
        ByteKind::Bracket => start + 1,
        _ => (start..text.len()).find(|&i| byte_kind(text[i]) != ByteKind::Word).unwrap_or(text.len()),
    };
    Some(Token { bytes: &text[start..end], offset: start })
}

/// The reading of a word: its meaning, or 3 if it does not fit where it
/// stands, or 4 if its length or size is all that is wrong with it.
pub type Form<T> = Result<T, u32>;

/// F, NAME and Z: 1 to 16 letters or digits.
pub fn name(bytes: &[u8]) -> Form<Name> {
    if bytes.is_empty() || !bytes.iter().all(u8::is_ascii_alphanumeric) {
        return Err(3);
    }
    if bytes.len() > NAME_LENGTH {
        return Err(4);
    }
    Ok(Name::new(bytes))
}

/// A symbol `'Z`.
pub fn symbol(bytes: &[u8]) -> Form<Name> {
    name(bytes.strip_prefix(b"'").ok_or(3u32)?)
}

/// A program variable `e.NAME` or `a.NAME`.
pub fn program_variable(bytes: &[u8]) -> Form<(Kind, Name)> {
    if let Some(rest) = bytes.strip_prefix(b"e.") {
        return Ok((Kind::E, name(rest)?));
    }
    Ok((Kind::A, name(bytes.strip_prefix(b"a.").ok_or(3u32)?)?))
}

/// A numeral: base ten, no leading noughts (3), at most 7 digits (4).
pub fn numeral(bytes: &[u8]) -> Form<u32> {
    if bytes.is_empty() || !bytes.iter().all(u8::is_ascii_digit) {
        return Err(3);
    }
    if bytes.len() > 1 && bytes[0] == b'0' {
        return Err(3);
    }
    if bytes.len() > 7 {
        return Err(4);
    }
    Ok(bytes.iter().fold(0, |n, d| n * 10 + u32::from(d - b'0')))
}

/// A job variable `?eK` or `?aK`, K 1 to 999.
pub fn job_variable(bytes: &[u8]) -> Form<Variable> {
    let (kind, digits) = match bytes {
        [b'?', b'e', rest @ ..] => (Kind::E, rest),
        [b'?', b'a', rest @ ..] => (Kind::A, rest),
        _ => return Err(3),
    };
    match numeral(digits)? {
        number @ 1..=999 => Ok(Variable { kind, number }),
        _ => Err(4),
    }
}
