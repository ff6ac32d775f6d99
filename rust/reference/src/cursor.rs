//! The place in a text up to which it has been read, with the counts that
//! refusal 5 limits. Both readers look one token ahead and no further, so
//! the token at fault is the first after which no text would be right.

use std::collections::HashSet;

use crate::expression::Name;
use crate::fault::Fault;
use crate::token::{self, Form};

const TOKENS: usize = 4_096;
const OPEN_BRACKETS: usize = 64;
const SYMBOLS: usize = 1_024;

/// The different symbols so far; both texts together have one such set.
pub type Symbols = HashSet<Name>;

/// Something read, with the offset of its first byte.
#[derive(Clone, Copy, Debug)]
pub struct Located<T> {
    pub item: T,
    pub offset: usize,
}

pub struct Cursor<'t> {
    text: &'t [u8],
    at: usize,
    tokens: usize,
    open: usize,
    symbols: Symbols,
}

impl<'t> Cursor<'t> {
    pub fn new(text: &'t [u8], symbols: Symbols) -> Cursor<'t> {
        Cursor { text, at: 0, tokens: 0, open: 0, symbols }
    }

    pub fn into_symbols(self) -> Symbols {
        self.symbols
    }

    /// The bytes of the next token, empty at the end of the text.
    pub fn next(&self) -> &'t [u8] {
        token::token_at(self.text, self.at).map_or(&[], |t| t.bytes)
    }

    /// Takes the next token if it has this form. At one token 3 and 4 come
    /// before 5, as the lowest number counts.
    pub fn take<T>(&mut self, form: impl Fn(&[u8]) -> Form<T>) -> Result<Located<T>, Fault> {
        let token = token::token_at(self.text, self.at).ok_or(Fault::new(3, self.text.len()))?;
        let fault = |number| Fault::new(number, token.offset);
        let item = form(token.bytes).map_err(fault)?;
        if self.tokens == TOKENS {
            return Err(fault(5));
        }
        self.tokens += 1;
        self.at = token.offset + token.bytes.len();
        Ok(Located { item, offset: token.offset })
    }

    /// Takes exactly this word or bracket and gives its offset.
    pub fn expect(&mut self, word: &str) -> Result<usize, Fault> {
        let fits = |bytes: &[u8]| {
            if bytes == word.as_bytes() {
                Ok(())
            } else {
                Err(3)
            }
        };
        Ok(self.take(fits)?.offset)
    }

    pub fn open(&mut self, bracket: &str) -> Result<usize, Fault> {
        let offset = self.expect(bracket)?;
        if self.open == OPEN_BRACKETS {
            return Err(Fault::new(5, offset));
        }
        self.open += 1;
        Ok(offset)
    }

    pub fn close(&mut self, bracket: &str) -> Result<(), Fault> {
        self.expect(bracket)?;
        self.open -= 1;
        Ok(())
    }

    pub fn symbol(&mut self) -> Result<Located<Name>, Fault> {
        let symbol = self.take(token::symbol)?;
        self.symbols.insert(symbol.item);
        if self.symbols.len() > SYMBOLS {
            return Err(Fault::new(5, symbol.offset));
        }
        Ok(symbol)
    }

    /// Reads items up to the closing bracket, which is taken too.
    pub fn list<T>(&mut self, closing: &str, mut item: impl FnMut(&mut Cursor<'t>, usize) -> Result<T, Fault>) -> Result<Vec<T>, Fault> {
        let mut items = Vec::new();
        while self.next() != closing.as_bytes() {
            items.push(item(self, items.len())?);
        }
        self.close(closing)?;
        Ok(items)
    }

    /// Nothing may stand behind the end of a text.
    pub fn end(&mut self) -> Result<(), Fault> {
        match token::token_at(self.text, self.at) {
            Some(token) => Err(Fault::new(3, token.offset)),
            None => Ok(()),
        }
    }
}
