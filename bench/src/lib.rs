//! One file through the proved library and through the checker.

use checker::gen::Gen;
use checker::replay::Answer;
use fejogbu::{Work, WORDS};

/// A word that no cleared slice holds, to see what a replay leaves standing.
const RUBBISH: u16 = 0xBEEF;

/// The work slices of both, kept from file to file as a drill server would.
pub struct Pair {
    pub work: Work,
    left: Vec<u16>,
    right: Vec<u16>,
}

impl Default for Pair {
    fn default() -> Self {
        Pair { work: Work::new(), left: vec![0; WORDS], right: vec![0; WORDS] }
    }
}

impl Pair {
    /// Rubbish in all four slices.
    pub fn dirty(&mut self) {
        self.work = Work::of(&[RUBBISH; WORDS], &[RUBBISH; WORDS]);
        self.left.fill(RUBBISH);
        self.right.fill(RUBBISH);
    }

    /// Whether answers and all words of both slices agree; else both answers.
    pub fn agree(&mut self, file: &[u8]) -> Result<u64, String> {
        let ours = numbers(&fejogbu::replay(file, &mut self.work));
        let theirs = checker_numbers(&checker::replay::replay(file, &mut self.left, &mut self.right));
        if ours != theirs {
            return Err(format!("proved {ours:?}, checker {theirs:?}"));
        }
        if self.work.left.slice()[..] != self.left || self.work.right.slice()[..] != self.right {
            return Err(format!("both answer {ours:?}, and the slices differ"));
        }
        self.same_parts(file.len())?;
        Ok(ours[0])
    }

    /// Whether both look up the same parts, with the same depths, in the slices that are left: at the front, at an offset that differs from file to file, and past the end.
    fn same_parts(&self, seed: usize) -> Result<(), String> {
        for slice in [&self.left, &self.right] {
            for at in [0, seed % 31, seed % WORDS, WORDS] {
                let (ours, theirs) = (fejogbu::part(slice, at), checker::words::part(slice, at));
                if (ours.words, ours.depth) != (theirs.words, theirs.depth) {
                    return Err(format!("the parts at {at} differ: proved {ours:?}, checker {theirs:?}"));
                }
            }
        }
        Ok(())
    }

    pub fn proved(&mut self, file: &[u8]) -> u64 {
        fejogbu::replay(file, &mut self.work).code.number().into()
    }

    pub fn checker(&mut self, file: &[u8]) -> u64 {
        u64::from(checker::replay::replay(file, &mut self.left, &mut self.right).code)
    }
}

fn numbers(a: &fejogbu::Answer) -> [u64; 6] {
    let side = a.side.map_or(0, |side| u64::from(side.number()));
    [a.code.number().into(), side, a.step as u64, a.at as u64, a.left as u64, a.right as u64]
}

fn checker_numbers(a: &Answer) -> [u64; 6] {
    [a.code as u64, a.side as u64, a.step as u64, a.at as u64, a.left as u64, a.right as u64]
}

/// The k-th random file of a seed.
pub fn random_file(seed: u64, k: u64) -> Vec<u8> {
    Gen::new(seed.wrapping_mul(1_000_003).wrapping_add(k)).replay_case()
}
