//! Refusals: what 01 says "from the input", number and byte offset.

/// A refusal inside one text; which text it was is added by the caller.
/// The order of the fields makes the least fault the earliest one and, at
/// the same offset, the one of the lowest number (01: "Same offset: lowest
/// number").
#[derive(Clone, Copy, Debug, PartialEq, Eq, PartialOrd, Ord)]
pub struct Fault {
    pub offset: usize,
    pub number: u32,
}

impl Fault {
    pub fn new(number: u32, offset: usize) -> Fault {
        Fault { offset, number }
    }
}

/// Fails with the earliest of the faults, if there is one.
pub fn earliest(faults: Vec<Fault>) -> Result<(), Fault> {
    match faults.into_iter().min() {
        Some(fault) => Err(fault),
        None => Ok(()),
    }
}
