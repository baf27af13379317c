//! The preview of a step: its answer, and what it would leave.

use crate::decl::Declarations;
use crate::step::{single, Step, Stepped};
use crate::typing::{typing, Type};

/// The answer of the single step, and depth and type of the term that it leaves.
#[derive(Clone, Copy, PartialEq, Eq, Debug)]
pub struct Preview {
    pub code: u8,
    pub step: usize,
    pub at: usize,
    pub length: usize,
    pub depth: usize,
    pub found: Type,
}

/// The preview of a step, for a caller who lends what a single step is lent: the
/// step is taken on a copy. Where it leaves no term, typing refuses what it
/// leaves, so that the depth is 0 and the type scalar.
pub fn preview(declared: &Declarations, slice: &[u16], length: usize, step: Step) -> Preview {
    let mut copy = slice.to_vec();
    let Stepped { code, step, at, length } = single(declared, &mut copy, length, step);
    let left = typing(declared, &copy, length);
    Preview { code, step, at, length, depth: left.depth, found: left.found }
}
