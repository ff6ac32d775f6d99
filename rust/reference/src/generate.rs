//! A seeded generator of program and job texts, for comparisons with other
//! implementations and for the ground check.

mod branching;
mod damage;
mod limits;
mod random;
mod sized;
mod sound;
mod spacing;

pub use limits::{limit_cases, Expected, LimitCase};
pub use random::Random;

#[derive(Clone, Copy, Debug, PartialEq, Eq)]
pub enum Flavour {
    /// Sound small texts.
    Sound,
    /// Sound texts whose inputs have no variable, for the runner.
    Ground,
    /// Sound texts whose walks split often and have many lines.
    Branching,
    /// Sound texts near 4,096 nodes, or 16,384 nodes in lines.
    Sized,
    /// Texts with one to three faults.
    Damaged,
}

pub const FLAVOURS: [Flavour; 5] = [Flavour::Sound, Flavour::Ground, Flavour::Branching, Flavour::Sized, Flavour::Damaged];

#[derive(Clone, Debug)]
pub struct Case {
    pub program: Vec<u8>,
    pub job: Vec<u8>,
}

/// Both texts as tokens, before they are spaced.
#[derive(Clone)]
pub(crate) struct Texts {
    pub program: Vec<String>,
    pub job: Vec<String>,
}

impl Texts {
    /// Cuts plain texts into tokens.
    fn of(program: &str, job: &str) -> Texts {
        Texts { program: spacing::tokens(program), job: spacing::tokens(job) }
    }

    fn spaced(&self, random: &mut Random) -> Case {
        Case { program: spacing::space(&self.program, 32_768, random), job: spacing::space(&self.job, 8_192, random) }
    }
}

/// The case of a seed, of any flavour.
pub fn case(seed: u64) -> Case {
    let mut random = Random::new(seed ^ 0xA5A5);
    let flavour = FLAVOURS[random.below(FLAVOURS.len())];
    case_of(flavour, seed)
}

/// The case of a seed in one flavour. In a few of a hundred sound ones a name
/// is bound again, which is refused by 13.
pub fn case_of(flavour: Flavour, seed: u64) -> Case {
    let mut random = Random::new(seed);
    let mut texts = match flavour {
        Flavour::Sound => sound::texts(&mut random, false),
        Flavour::Ground => sound::texts(&mut random, true),
        Flavour::Branching => branching::texts(&mut random),
        Flavour::Sized => sized::texts(&mut random),
        Flavour::Damaged => return damage::case(&mut random),
    };
    if random.chance(5) {
        damage::rebind(&mut texts.program, &mut random);
    }
    texts.spaced(&mut random)
}
