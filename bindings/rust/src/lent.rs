//! What is lent to the library: terms, declarations and steps, each in words of its fixed size.
use crate::outside;
use crate::{Side, DECLARATIONS, STEP, STEPS, WORDS};
use std::fmt;

/// A word of a term: a head, and the name or the number of children that it carries.
pub const fn word(head: u8, a: u8) -> u16 {
    head as u16 * 256 + a as u16
}

/// A work slice of 4,096 words, with the length of the term that it holds.
#[derive(Clone, Debug)]
pub struct Term {
    pub(crate) slice: Box<[u16; WORDS]>,
    pub(crate) length: usize,
}

impl Term {
    /// A slice of zeros, which holds no term.
    pub fn new() -> Term {
        Term {
            slice: Box::new([0; WORDS]),
            length: 0,
        }
    }

    /// A slice that holds these words. Whether they are a term is the library's to say; of more than 4,096 words it says that they are none.
    pub fn of(words: &[u16]) -> Term {
        let mut term = Term::new();
        let kept = words.len().min(WORDS);
        term.slice[..kept].copy_from_slice(&words[..kept]);
        term.length = words.len();
        term
    }

    /// The words of the term.
    pub fn words(&self) -> &[u16] {
        &self.slice[..self.length.min(WORDS)]
    }

    /// All 4,096 words, with what stands behind the term.
    pub fn slice(&self) -> &[u16; WORDS] {
        &self.slice
    }
}

impl Default for Term {
    fn default() -> Term {
        Term::new()
    }
}

/// The two work slices of a derivation, one for each side.
#[derive(Clone, Debug, Default)]
pub struct Work {
    pub left: Term,
    pub right: Term,
}

impl Work {
    /// Two slices of zeros, for a replay.
    pub fn new() -> Work {
        Work::default()
    }

    /// Two terms, for a run.
    pub fn of(left: &[u16], right: &[u16]) -> Work {
        Work {
            left: Term::of(left),
            right: Term::of(right),
        }
    }
}

/// Why something was not put; nothing was changed.
#[derive(Clone, Copy, Debug, PartialEq, Eq)]
pub enum Refused {
    /// There is no room for one more.
    Full,
    /// There are too many types, or the words are not exactly the indices wanted.
    Bad,
}

impl fmt::Display for Refused {
    fn fmt(&self, f: &mut fmt::Formatter<'_>) -> fmt::Result {
        f.write_str(match self {
            Refused::Full => "there is no room for one more",
            Refused::Bad => "there are too many types, or the words are not the indices wanted",
        })
    }
}

impl std::error::Error for Refused {}

fn put(number: u64) -> Result<(), Refused> {
    match number {
        0 => Ok(()),
        6 => Err(Refused::Full),
        7 => Err(Refused::Bad),
        _ => unreachable!("declarations are always of their size"),
    }
}

/// A variable's kind, with the words of its indices.
#[derive(Clone, Copy, Debug, PartialEq, Eq)]
pub enum Variable<'a> {
    Scalar,
    Ket(&'a [u16]),
    Bra(&'a [u16]),
    Operator(&'a [u16], &'a [u16]),
    /// An operator on an index that is declared unitary: rules 190 and 191 are for it.
    Unitary(&'a [u16]),
}

/// Declarations: a number of types, the bases and the variables.
#[derive(Clone, Debug, PartialEq, Eq)]
pub struct Declarations {
    words: Box<[u16; DECLARATIONS]>,
}

impl Declarations {
    /// So many types, at most 32, and no basis and no variable.
    pub fn of_types(types: usize) -> Result<Declarations, Refused> {
        let mut words = Box::new([0; DECLARATIONS]);
        // the slice is this function's own, and of the length that is said
        put(unsafe {
            outside::fejogbu_start_declarations(words.as_mut_ptr(), words.len(), types)
        })?;
        Ok(Declarations { words })
    }

    /// One basis more, of an index. The answer is the word by which a term names it.
    pub fn basis(&mut self, index: &[u16]) -> Result<u16, Refused> {
        let words = &mut self.words;
        // two slices of the lengths that are said, the first lent to nobody else
        put(unsafe {
            outside::fejogbu_put_basis(words.as_mut_ptr(), words.len(), index.as_ptr(), index.len())
        })?;
        Ok(word(3, 0) + self.words[1] - 1)
    }

    /// One variable more. The answer is the word by which a term names it.
    pub fn variable(&mut self, variable: Variable) -> Result<u16, Refused> {
        let (kind, first, second): (u16, &[u16], &[u16]) = match variable {
            Variable::Scalar => (0, &[], &[]),
            Variable::Ket(index) => (1, index, &[]),
            Variable::Bra(index) => (2, index, &[]),
            Variable::Operator(rows, columns) => (3, rows, columns),
            Variable::Unitary(index) => (7, index, index),
        };
        let words = &mut self.words;
        // three slices of the lengths that are said, the first lent to nobody else
        put(unsafe {
            outside::fejogbu_put_variable(
                words.as_mut_ptr(),
                words.len(),
                kind,
                first.as_ptr(),
                first.len(),
                second.as_ptr(),
                second.len(),
            )
        })?;
        Ok(word(26, 0) + self.words[2] - 1)
    }

    /// The words, in the layout of `crates/declarations/specs/Declarations.antt`.
    pub fn words(&self) -> &[u16; DECLARATIONS] {
        &self.words
    }
}

/// A step: a rule at a place of the term, with two indices among the children, 0 where the rule uses none.
#[derive(Clone, Copy, Debug, Default, PartialEq, Eq)]
pub struct Step {
    pub rule: u16,
    pub place: u16,
    pub i: u16,
    pub j: u16,
}

/// The steps of a derivation, each on a side: at most 1,000.
#[derive(Clone, Debug, Default, PartialEq, Eq)]
pub struct Steps {
    words: Vec<u16>,
}

impl Steps {
    pub fn new() -> Steps {
        Steps::default()
    }

    /// One step more, behind the others.
    pub fn push(&mut self, side: Side, step: Step) -> Result<(), Refused> {
        let k = self.count();
        if k == STEPS {
            return Err(Refused::Full);
        }
        self.words.resize((k + 1) * STEP, 0);
        let words = &mut self.words;
        // one slice of the length that is said, lent to nobody else
        let done = unsafe {
            outside::fejogbu_put_step(
                words.as_mut_ptr(),
                words.len(),
                k,
                side.number(),
                step.rule,
                step.place,
                step.i,
                step.j,
            )
        };
        assert_eq!(done, 1, "there is room for a step that was made room for");
        Ok(())
    }

    /// How many steps there are.
    pub fn count(&self) -> usize {
        self.words.len() / STEP
    }

    /// The rule of a step, which an answer numbers from 1.
    pub fn rule(&self, step: usize) -> Option<u16> {
        let at = step.checked_sub(1)?.checked_mul(STEP)?.checked_add(1)?;
        self.words.get(at).copied()
    }

    /// The words, eight a step.
    pub fn words(&self) -> &[u16] {
        &self.words
    }
}
