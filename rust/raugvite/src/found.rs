//! What a listing found: its lines as cells, and the expressions that are made of them when they are asked for.
use crate::cells;
use crate::lines::{Line, Sample};
use crate::symbols::{with_new_atoms, words};
use crate::sys;
use std::sync::OnceLock;

/// The lines of a listing. Who asks for its text alone has no expression made.
#[derive(Clone, Default)]
pub struct Found {
    program: Vec<u8>,
    job: Vec<u8>,
    count: usize,
    // The cells that the lines take: in the storage zeros stand behind them.
    cells: Vec<u16>,
    words: OnceLock<Vec<String>>,
    lines: OnceLock<Vec<Line>>,
    samples: OnceLock<Vec<Sample>>,
}

impl Found {
    /// The lines of two texts in the storage that the entry left. Texts without a line are not kept: refused ones may have any length.
    pub fn new(program: &[u8], job: &[u8], answer: &[u16], count: usize) -> Found {
        if count == 0 {
            return Found::default();
        }
        let cells = answer[..cells::lines_end(answer, count)].to_vec();
        Found { program: program.to_vec(), job: job.to_vec(), count, cells, ..Found::default() }
    }

    pub fn is_empty(&self) -> bool {
        self.count == 0
    }

    /// The two texts.
    pub fn texts(&self) -> (&[u8], &[u8]) {
        (&self.program, &self.job)
    }

    fn words(&self) -> &[String] {
        self.words.get_or_init(|| words(&self.program, &self.job))
    }

    pub fn lines(&self) -> &[Line] {
        self.lines.get_or_init(|| cells::lines(&self.cells, self.count, self.words()))
    }

    pub fn into_lines(self) -> Vec<Line> {
        self.lines();
        self.lines.into_inner().unwrap_or_default()
    }

    /// The answer storage as the entry left it, of its least length.
    pub fn storage(&self) -> Vec<u16> {
        let mut storage = self.cells.clone();
        storage.resize(sys::list_lengths().1, 0);
        storage
    }

    /// The sample of each line, by the proved function.
    pub fn samples(&self) -> &[Sample] {
        self.samples.get_or_init(|| {
            let (storage, mut sample) = (self.storage(), vec![0; sys::sample_cells()]);
            let names = with_new_atoms(self.words());
            (1..=self.count).map(|line| one(&storage, line, &mut sample, &names)).collect()
        })
    }
}

fn one(storage: &[u16], line: usize, sample: &mut [u16], names: &[String]) -> Sample {
    let (number, [ins, out]) = sys::sample(storage, line, sample);
    assert!(number == 0 && out > 0, "the listing has line {line}");
    Sample { inputs: cells::trees(&sample[..ins], names), output: cells::trees(&sample[ins..ins + out], names).remove(0) }
}
