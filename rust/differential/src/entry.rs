//! What an entry says and leaves, against what is due.
use crate::lent::Lent;

/// An entry of the resolver: `list` or `run`.
pub trait Entry {
    type Said: Copy + PartialEq + std::fmt::Debug;
    const SHORT: Self::Said;

    /// The least lengths of `work` and `answer`.
    fn lengths() -> (usize, usize);
    fn call(program: &[u8], job: &[u8], work: &mut [u16], answer: &mut [u16]) -> Self::Said;
    fn printed(program: &[u8], job: &[u8], said: Self::Said, answer: &[u16]) -> Vec<u8>;
    /// What the other implementation prints.
    fn due(program: &[u8], job: &[u8]) -> Vec<u8>;
    /// How many cells of `answer` are filled; none after a refusal, which leaves it as it was lent.
    fn filled(said: Self::Said, answer: &[u16]) -> Option<usize>;
}

/// Both texts, as far as a message shows them.
pub fn same(ours: &[u8], theirs: &[u8]) -> Result<(), String> {
    let shown = |t: &[u8]| String::from_utf8_lossy(t).chars().take(300).collect::<String>();
    (ours == theirs).then_some(()).ok_or_else(|| format!("{:?} and not {:?}", shown(ours), shown(theirs)))
}

// What 01 has left in the two storages.
fn storage<E: Entry>(said: E::Said, work: &Lent, answer: &Lent) -> Result<(), String> {
    work.guarded()?;
    answer.guarded()?;
    work.zero_from(0, "work")?;
    match E::filled(said, answer.read()) {
        None => answer.untouched("answer"),
        Some(cells) => answer.zero_from(cells, "answer"),
    }
}

/// The answer on two texts, in storage that is a little longer than it must be.
pub fn compare<E: Entry>(program: &[u8], job: &[u8], seed: u64) -> Result<(), String> {
    let (w, a) = E::lengths();
    let mut work = Lent::new(w + (seed % 7) as usize, seed);
    let mut answer = Lent::new(a + (seed % 11) as usize, seed ^ 1);
    let said = E::call(program, job, work.cells(), answer.cells());
    storage::<E>(said, &work, &answer)?;
    same(&E::printed(program, job, said, answer.read()), &E::due(program, job))
}

/// 20 comes before all else and touches nothing, whichever storage is one cell short.
pub fn short<E: Entry>(program: &[u8], job: &[u8], seed: u64) -> Result<(), String> {
    let (w, a) = E::lengths();
    for (less_work, less_answer) in [(1, 0), (0, 1)] {
        let mut work = Lent::new(w - less_work, seed);
        let mut answer = Lent::new(a - less_answer, seed ^ 1);
        let said = E::call(program, job, work.cells(), answer.cells());
        if said != E::SHORT {
            return Err(format!("{said:?} and not 20"));
        }
        work.guarded()?;
        answer.guarded()?;
        work.untouched("work")?;
        answer.untouched("answer")?;
    }
    Ok(())
}
