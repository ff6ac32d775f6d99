//! Storage as a caller lends it: garbage, between guard cells.

const GUARD: usize = 64;

/// Cells with guard cells on both sides; what they held first is kept.
pub struct Lent {
    cells: Vec<u16>,
    first: Vec<u16>,
}

// Numbers that look like anything: a fault that reads what was lent shows soon.
fn garbage(seed: u64, i: usize) -> u16 {
    let mut x = seed.wrapping_add(i as u64).wrapping_mul(0x9E37_79B9_7F4A_7C15);
    x ^= x >> 29;
    x = x.wrapping_mul(0xBF58_476D_1CE4_E5B9);
    (x >> 32) as u16
}

impl Lent {
    pub fn new(length: usize, seed: u64) -> Lent {
        let cells: Vec<u16> = (0..length + 2 * GUARD).map(|i| garbage(seed, i)).collect();
        Lent { first: cells.clone(), cells }
    }

    pub fn cells(&mut self) -> &mut [u16] {
        let end = self.cells.len() - GUARD;
        &mut self.cells[GUARD..end]
    }

    pub fn read(&self) -> &[u16] {
        &self.cells[GUARD..self.cells.len() - GUARD]
    }

    fn first(&self) -> &[u16] {
        &self.first[GUARD..self.first.len() - GUARD]
    }

    pub fn guarded(&self) -> Result<(), String> {
        let end = self.cells.len() - GUARD;
        let same = self.cells[..GUARD] == self.first[..GUARD] && self.cells[end..] == self.first[end..];
        same.then_some(()).ok_or_else(|| "a guard cell is changed".into())
    }

    pub fn untouched(&self, name: &str) -> Result<(), String> {
        (self.read() == self.first()).then_some(()).ok_or_else(|| format!("{name} is changed"))
    }

    pub fn zero_from(&self, at: usize, name: &str) -> Result<(), String> {
        let zero = self.read()[at..].iter().all(|&c| c == 0);
        zero.then_some(()).ok_or_else(|| format!("{name} is not zero from cell {at} on"))
    }
}
