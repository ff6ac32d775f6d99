//! The reader of programs: refusals 1 to 5.

use crate::cursor::{Cursor, Located, Symbols};
use crate::expression::Kind;
use crate::fault::Fault;
use crate::syntax::{Condition, ConsNames, Definition, Exp, ProgramVariable, Shape, Term};
use crate::token::{self, Form};

const BYTES: usize = 32_768;
const DEFINITIONS: usize = 64;
const PARAMETERS: usize = 16;

/// Reads a program; the symbols go on to the reader of the job, as both
/// texts together are limited.
pub fn read_program(text: &[u8]) -> Result<(Vec<Definition>, Symbols), Fault> {
    token::check_bytes(text, BYTES)?;
    let mut cursor = Cursor::new(text, Symbols::new());
    let mut definitions = vec![definition(&mut cursor, 0)?];
    while !cursor.next().is_empty() {
        definitions.push(definition(&mut cursor, definitions.len())?);
    }
    Ok((definitions, cursor.into_symbols()))
}

fn definition(cursor: &mut Cursor, earlier: usize) -> Result<Definition, Fault> {
    let offset = cursor.open("(")?;
    if earlier == DEFINITIONS {
        return Err(Fault::new(5, offset));
    }
    cursor.expect("define")?;
    let name = cursor.take(token::name)?;
    cursor.open("[")?;
    let parameters = cursor.list("]", parameter)?;
    let body = term(cursor)?;
    cursor.close(")")?;
    Ok(Definition { name, parameters, body })
}

fn parameter(cursor: &mut Cursor, earlier: usize) -> Result<Located<ProgramVariable>, Fault> {
    let variable = cursor.take(token::program_variable)?;
    if earlier == PARAMETERS {
        return Err(Fault::new(5, variable.offset));
    }
    Ok(variable)
}

enum TermHead {
    Call,
    If,
    Cons,
}

fn term_head(bytes: &[u8]) -> Form<TermHead> {
    match bytes {
        b"call" => Ok(TermHead::Call),
        b"if" => Ok(TermHead::If),
        b"cons" => Ok(TermHead::Cons),
        _ => Err(3),
    }
}

fn term(cursor: &mut Cursor) -> Result<Term, Fault> {
    if cursor.next() != b"(" {
        return Ok(Term::Exp(leaf(cursor)?));
    }
    let offset = cursor.open("(")?;
    match cursor.take(term_head)?.item {
        TermHead::Call => call(cursor),
        TermHead::If => conditional(cursor),
        TermHead::Cons => Ok(Term::Exp(cons_parts(cursor, offset)?)),
    }
}

fn call(cursor: &mut Cursor) -> Result<Term, Fault> {
    let function = cursor.take(token::name)?;
    cursor.open("[")?;
    let arguments = cursor.list("]", |cursor, _| exp(cursor))?;
    cursor.close(")")?;
    Ok(Term::Call { function, arguments })
}

fn conditional(cursor: &mut Cursor) -> Result<Term, Fault> {
    let condition = condition(cursor)?;
    let yes = term(cursor)?;
    let no = term(cursor)?;
    cursor.close(")")?;
    Ok(Term::If { condition, branches: Box::new((yes, no)) })
}

fn condition(cursor: &mut Cursor) -> Result<Condition, Fault> {
    cursor.open("(")?;
    let is_cons = cursor.take(|bytes| match bytes {
        b"eqa?" => Ok(false),
        b"cons?" => Ok(true),
        _ => Err(3),
    })?;
    let condition = if is_cons.item {
        Condition::Cons { subject: exp(cursor)?, names: cons_names(cursor)? }
    } else {
        // The reader takes any e where an ea is due; 8 judges it later.
        Condition::Eqa { left: exp(cursor)?, right: exp(cursor)? }
    };
    cursor.close(")")?;
    Ok(condition)
}

fn cons_names(cursor: &mut Cursor) -> Result<ConsNames, Fault> {
    Ok(ConsNames { head: variable_of(cursor, Kind::E)?, tail: variable_of(cursor, Kind::E)?, atom: variable_of(cursor, Kind::A)? })
}

/// The names of a `cons?` bind; a name of the wrong kind breaks the grammar
/// whatever its length, so the kind is judged first.
fn variable_of(cursor: &mut Cursor, kind: Kind) -> Result<Located<ProgramVariable>, Fault> {
    let prefix: &[u8] = match kind {
        Kind::E => b"e.",
        Kind::A => b"a.",
    };
    cursor.take(|bytes| if bytes.starts_with(prefix) { token::program_variable(bytes) } else { Err(3) })
}

fn exp(cursor: &mut Cursor) -> Result<Exp, Fault> {
    if cursor.next() != b"(" {
        return leaf(cursor);
    }
    let offset = cursor.open("(")?;
    cursor.expect("cons")?;
    cons_parts(cursor, offset)
}

fn cons_parts(cursor: &mut Cursor, offset: usize) -> Result<Exp, Fault> {
    let head = exp(cursor)?;
    let tail = exp(cursor)?;
    cursor.close(")")?;
    Ok(Located { item: Shape::Cons(Box::new((head, tail))), offset })
}

fn leaf(cursor: &mut Cursor) -> Result<Exp, Fault> {
    if cursor.next().starts_with(b"'") {
        let symbol = cursor.symbol()?;
        return Ok(Located { item: Shape::Symbol(symbol.item), offset: symbol.offset });
    }
    let variable = cursor.take(token::program_variable)?;
    Ok(Located { item: Shape::Variable(variable.item), offset: variable.offset })
}
