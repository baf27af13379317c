//! Types of terms, and the place of the untyped part that ends first.
//!
//! A part is typed after its children, so parts are met in the order of their
//! ends and, among equal ends, from the greatest offset on: the first one that
//! fails is the one to tell. The words of the indices live on one stack; most
//! rules leave them where they are.

use crate::bodies::{unbound, Around};
use crate::decl::{Declarations, Letter};
use crate::words::*;

/// The kind of a term, with the lengths of its indices.
#[derive(Clone, Copy, PartialEq, Eq, Debug)]
pub enum Kind {
    Scalar,
    Ket(usize),
    Bra(usize),
    Operator(usize, usize),
}

/// A type: the kind, and beside it the index words with zeros behind.
#[derive(Clone, Copy, PartialEq, Eq, Debug)]
pub struct Type {
    pub kind: Kind,
    first: [u16; INDEX],
    second: [u16; INDEX],
}

impl Type {
    pub const SCALAR: Type = Type { kind: Kind::Scalar, first: [0; INDEX], second: [0; INDEX] };

    /// The index of a ket or bra, the row index of an operator, else nothing.
    pub fn first(&self) -> &[u16] {
        match self.kind {
            Kind::Scalar => &[],
            Kind::Ket(n) | Kind::Bra(n) | Kind::Operator(n, _) => &self.first[..n],
        }
    }

    /// The column index of an operator, else nothing.
    pub fn second(&self) -> &[u16] {
        match self.kind {
            Kind::Operator(_, n) => &self.second[..n],
            _ => &[],
        }
    }
}

/// Why a tested part is no term with a type.
#[derive(Clone, Copy, PartialEq, Eq, Debug)]
pub enum Untyped {
    /// The bound basis at this offset has no sum, or the sum there is nested
    /// too deep (code 13).
    Unbound(usize),
    /// The part at this offset has no type (code 10).
    At(usize),
    /// It is an index or a basis (code 11).
    NoTerm,
}

/// What a typed part is; its index words are the last ones on the stack.
#[derive(Clone, Copy, PartialEq, Eq)]
enum Sort {
    Index(usize),
    Basis(usize),
    Term(Kind),
}

impl Untyped {
    /// The code, and the place that it tells.
    pub(crate) fn code(self) -> (u8, usize) {
        match self {
            Untyped::Unbound(at) => (13, at),
            Untyped::At(at) => (10, at),
            Untyped::NoTerm => (11, 0),
        }
    }
}

/// The type of words that passed the test of a term. A typed part has no place
/// of code 13, so these are looked for only where there is no type.
pub(crate) fn type_of(declared: &Declarations, words: &[u16]) -> Result<Type, Untyped> {
    type_around(declared, Around::default(), words)
        .map_err(|untyped| unbound(words).map_or(untyped, Untyped::Unbound))
}

/// The type of a part that stands inside these bodies.
pub(crate) fn type_around(
    declared: &Declarations,
    around: Around,
    words: &[u16],
) -> Result<Type, Untyped> {
    let stack = Vec::with_capacity(4 * INDEX);
    let mut typer = Typer { declared, words, at: 0, around, stack };
    let Sort::Term(kind) = typer.part(1).map_err(Untyped::At)? else {
        return Err(Untyped::NoTerm);
    };
    let mut found = Type { kind, ..Type::SCALAR };
    let (first, second) = match kind {
        Kind::Scalar => (0, 0),
        Kind::Ket(n) | Kind::Bra(n) => (n, 0),
        Kind::Operator(n, m) => (n, m),
    };
    found.first[..first].copy_from_slice(&typer.stack[..first]);
    found.second[..second].copy_from_slice(&typer.stack[first..first + second]);
    Ok(found)
}

struct Typer<'t> {
    declared: &'t Declarations,
    words: &'t [u16],
    at: usize,
    around: Around<'t>,
    stack: Vec<u16>,
}

impl Typer<'_> {
    /// Types the next part, which stands so deep, or gives the offset of the
    /// first untyped one.
    fn part(&mut self, deep: usize) -> Result<Sort, usize> {
        let offset = self.at;
        if deep > DEPTH {
            return Err(offset);
        }
        let base = self.stack.len();
        let word = self.words.get(offset).copied().unwrap_or(0);
        self.at += 1;
        let sort = match form(head(word)) {
            Form::Unknown => None,
            Form::Name => self.name(word),
            Form::Count => self.sum(word, base, deep)?,
            Form::Fixed(0) => Some(Sort::Term(Kind::Scalar)),
            Form::Fixed(1) => {
                let child = self.part(deep + 1)?;
                self.unary(head(word), base, child)
            }
            Form::Fixed(_) if head(word) == SUM => self.over(base, deep)?,
            Form::Fixed(_) => {
                if matches!(head(word), PRODUCT | PAIR | TSR) {
                    self.stack.push(self::word(PRODUCT, 0));
                }
                let left = self.part(deep + 1)?;
                let right = self.part(deep + 1)?;
                self.binary(head(word), base, left, right)
            }
        };
        sort.ok_or(offset)
    }

    fn name(&mut self, word: u16) -> Option<Sort> {
        let a = usize::from(low(word));
        match head(word) {
            TYPE => {
                self.stack.push(word);
                Some(Sort::Index(1))
            }
            BASIS => {
                let index = self.declared.bases.get(a)?;
                self.stack.extend_from_slice(index);
                Some(Sort::Basis(index.len()))
            }
            BOUND => self.bound(low(word)),
            _ => {
                let variable = self.declared.variables.get(a)?;
                self.stack.extend_from_slice(&variable.words);
                let all = variable.words.len();
                Some(Sort::Term(match variable.letter()? {
                    Letter::Scalar => Kind::Scalar,
                    Letter::Ket => Kind::Ket(all),
                    Letter::Bra => Kind::Bra(all),
                    Letter::Operator => {
                        let (rows, columns) = split_part(&variable.words);
                        Kind::Operator(rows.len(), columns.len())
                    }
                }))
            }
        }
    }

    /// A bound basis. Here and in `over` a call of its own keeps the walk over
    /// terms without sums as fast as it is.
    #[inline(never)]
    fn bound(&mut self, a: u8) -> Option<Sort> {
        let index = self.around.index(a)?;
        self.stack.extend_from_slice(index);
        Some(Sort::Basis(index.len()))
    }

    /// A sum or product: all children of one kind and the same index words.
    fn sum(&mut self, word: u16, base: usize, deep: usize) -> Result<Option<Sort>, usize> {
        let mut common = None;
        let mut good = true;
        let mut end = base;
        for _ in 0..low(word) {
            let child = self.part(deep + 1)?;
            match common {
                None => {
                    common = Some(child);
                    end = self.stack.len();
                }
                Some(first) => {
                    good &= first == child && self.stack[base..end] == self.stack[end..];
                    self.stack.truncate(end);
                }
            }
        }
        Ok(common.filter(|&sort| {
            good && match sort {
                Sort::Term(Kind::Scalar) => head(word) != ADD,
                Sort::Term(_) => head(word) == ADD,
                _ => false,
            }
        }))
    }

    /// A sum over a basis: its body is typed inside one body more, and has its
    /// type. The ninth body is left to `unbound`.
    #[inline(never)]
    fn over(&mut self, base: usize, deep: usize) -> Result<Option<Sort>, usize> {
        let begin = self.at;
        let index = self.part(deep + 1)?;
        self.stack.truncate(base);
        let index = matches!(index, Sort::Index(_)).then(|| &self.words[begin..self.at]);
        if !self.around.enter(index) {
            return Ok(None);
        }
        let body = self.part(deep + 1)?;
        self.around.leave();
        Ok(Some(body).filter(|body| index.is_some() && matches!(body, Sort::Term(_))))
    }

    fn unary(&mut self, head: u8, base: usize, child: Sort) -> Option<Sort> {
        use Kind::*;
        Some(Sort::Term(match (head, child) {
            (CONJ, Sort::Term(Scalar)) => Scalar,
            (ZERO_KET, Sort::Index(n)) | (KET, Sort::Basis(n)) => Ket(n),
            (ZERO_BRA, Sort::Index(n)) | (BRA, Sort::Basis(n)) => Bra(n),
            (IDENTITY, Sort::Index(n)) => {
                self.stack.extend_from_within(base..);
                Operator(n, n)
            }
            (ADJ, Sort::Term(Ket(n))) => Bra(n),
            (ADJ, Sort::Term(Bra(n))) => Ket(n),
            (ADJ, Sort::Term(Operator(n, m))) => {
                self.stack[base..].rotate_left(n);
                Operator(m, n)
            }
            _ => return None,
        }))
    }

    fn binary(&mut self, head: u8, base: usize, left: Sort, right: Sort) -> Option<Sort> {
        use Kind::*;
        let (left, right) = match (head, left, right) {
            (PRODUCT, Sort::Index(n), Sort::Index(m)) => return product(n, m).map(Sort::Index),
            (PAIR, Sort::Basis(n), Sort::Basis(m)) => return product(n, m).map(Sort::Basis),
            (DELTA, Sort::Basis(n), Sort::Basis(m)) => {
                self.join(base, n, m)?;
                return Some(Sort::Term(Scalar));
            }
            (ZERO_OPERATOR, Sort::Index(n), Sort::Index(m)) => {
                return Some(Sort::Term(Operator(n, m)));
            }
            (_, Sort::Term(left), Sort::Term(right)) => (left, right),
            _ => return None,
        };
        Some(Sort::Term(match (head, left, right) {
            (SCR, Scalar, Ket(_) | Bra(_) | Operator(..)) => right,
            (DOT, Bra(n), Ket(m)) => {
                self.join(base, n, m)?;
                Scalar
            }
            (MULK, Operator(s, n), Ket(m)) => {
                self.join(base + s, n, m)?;
                Ket(s)
            }
            (MULB, Bra(n), Operator(m, t)) => {
                self.join(base, n, m)?;
                Bra(t)
            }
            (MULO, Operator(s, n), Operator(m, t)) => {
                self.join(base + s, n, m)?;
                Operator(s, t)
            }
            (OUTER, Ket(n), Bra(m)) => Operator(n, m),
            (TSR, Ket(n), Ket(m)) => Ket(product(n, m)?),
            (TSR, Bra(n), Bra(m)) => Bra(product(n, m)?),
            (TSR, Operator(s, t), Operator(n, m)) => {
                // × s t n m becomes × s n × t m.
                let behind = base + 1 + s;
                self.stack[behind..behind + t + n].rotate_left(t);
                self.stack.insert(behind + n, word(PRODUCT, 0));
                Operator(product(s, n)?, product(t, m)?)
            }
            _ => return None,
        }))
    }

    /// Takes two equal indices that stand together off the stack.
    fn join(&mut self, at: usize, n: usize, m: usize) -> Option<()> {
        if self.stack[at..at + n] != self.stack[at + n..at + n + m] {
            return None;
        }
        self.stack.drain(at..at + n + m);
        Some(())
    }
}

/// The length of the product of two indices, within the limit.
fn product(n: usize, m: usize) -> Option<usize> {
    Some(n + m + 1).filter(|&length| length <= INDEX)
}

/// The answer of typing one term.
#[derive(Clone, Copy, PartialEq, Eq, Debug)]
pub struct Typing {
    pub code: u8,
    pub at: usize,
    pub length: usize,
    pub depth: usize,
    pub found: Type,
}

impl Typing {
    fn refused(code: u8, at: usize) -> Self {
        Typing { code, at, length: 0, depth: 0, found: Type::SCALAR }
    }
}

/// The typing of one term, for a caller who lends declarations, a work slice
/// and a length.
pub fn typing(declared: &Declarations, slice: &[u16], length: usize) -> Typing {
    if slice.len() != WORDS {
        return Typing::refused(1, 0);
    }
    if !declared.good() {
        return Typing::refused(7, 0);
    }
    let words = slice.get(..length).unwrap_or(&[]);
    let Some(depth) = test(words, declared.names()) else {
        return Typing::refused(8, 0);
    };
    match type_of(declared, words) {
        Ok(found) => Typing { code: 0, at: 0, length, depth, found },
        Err(untyped) => {
            let (code, at) = untyped.code();
            Typing::refused(code, at)
        }
    }
}
