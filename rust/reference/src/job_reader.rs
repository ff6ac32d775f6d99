//! The reader of jobs: refusals 1 to 5.

use crate::cursor::{Cursor, Located, Symbols};
use crate::expression::Expression;
use crate::fault::Fault;
use crate::token;

const BYTES: usize = 8_192;

/// A d with what the check needs of its places.
pub struct Item {
    pub offset: usize,
    pub expression: Expression,
    /// Where its first variable stands.
    pub variable: Option<usize>,
}

pub struct JobText {
    /// The offset of the word `in`.
    pub in_word: usize,
    pub inputs: Vec<Item>,
    pub wanted: Item,
    pub neqs: Vec<(Item, Item)>,
    pub steps: Located<u32>,
    pub walk: Located<u32>,
    pub table: Located<u32>,
}

pub fn read_job(text: &[u8], symbols: Symbols) -> Result<JobText, Fault> {
    token::check_bytes(text, BYTES)?;
    let mut cursor = Cursor::new(text, symbols);
    cursor.open("(")?;
    cursor.expect("job")?;
    let job = parts(&mut cursor)?;
    cursor.close(")")?;
    cursor.end()?;
    Ok(job)
}

/// Exactly these six parts in this order; the fields are read as written.
fn parts(cursor: &mut Cursor) -> Result<JobText, Fault> {
    cursor.open("(")?;
    Ok(JobText {
        in_word: cursor.expect("in")?,
        inputs: cursor.list(")", |cursor, _| item(cursor))?,
        wanted: wanted(cursor)?,
        neqs: neqs(cursor)?,
        steps: number(cursor, "steps")?,
        walk: number(cursor, "walk")?,
        table: number(cursor, "table")?,
    })
}

fn wanted(cursor: &mut Cursor) -> Result<Item, Fault> {
    cursor.open("(")?;
    cursor.expect("out")?;
    let wanted = item(cursor)?;
    cursor.close(")")?;
    Ok(wanted)
}

/// The reader takes any d as a side; 11 judges it later.
fn neqs(cursor: &mut Cursor) -> Result<Vec<(Item, Item)>, Fault> {
    cursor.open("(")?;
    cursor.expect("neq")?;
    cursor.list(")", |cursor, _| {
        cursor.open("[")?;
        let sides = (item(cursor)?, item(cursor)?);
        cursor.close("]")?;
        Ok(sides)
    })
}

fn number(cursor: &mut Cursor, word: &str) -> Result<Located<u32>, Fault> {
    cursor.open("(")?;
    cursor.expect(word)?;
    let number = cursor.take(token::numeral)?;
    cursor.close(")")?;
    Ok(number)
}

fn item(cursor: &mut Cursor) -> Result<Item, Fault> {
    match cursor.next() {
        b"(" => pair(cursor),
        [b'\'', ..] => {
            let Located { item, offset } = cursor.symbol()?;
            Ok(Item { offset, expression: Expression::Atom(item), variable: None })
        }
        _ => {
            let Located { item, offset } = cursor.take(token::job_variable)?;
            let expression = Expression::Variable(item);
            Ok(Item { offset, expression, variable: Some(offset) })
        }
    }
}

fn pair(cursor: &mut Cursor) -> Result<Item, Fault> {
    let offset = cursor.open("(")?;
    cursor.expect("cons")?;
    let head = item(cursor)?;
    let tail = item(cursor)?;
    cursor.close(")")?;
    Ok(Item { offset, variable: head.variable.or(tail.variable), expression: Expression::pair(head.expression, tail.expression) })
}
