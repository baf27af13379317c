//! The one writer of Dirac notation: a term becomes a row of tokens, which `text` and `mathml` spell.
//!
//! Signs bind in three levels. A sum (` + `) is loosest. All products (`·`, `⊗`, ` × `, the `.` of scaling, and the `×` of indices) are one level, on which none goes before
//! another and none is taken from the left or the right: a product in a product stands in brackets, as in source document 002. Tightest are letters, the adjoint `†`, the conjugate `*`, and all that
//! brings brackets of its own. Brackets stand where an operand is looser than its place, and nowhere else.
//!
//! The same `·` is written for five heads, the same `+` for two and the same `×` for two: the sorts of the operands tell which. Where they do not, as in a term that has no type, the
//! head's number stands below the sign. So every term, typed or not, can be read back from its tokens.
use crate::names::Names;
use crate::shape::{Shape, Sort};
use std::rc::Rc;

/// What a part of a line is marked for.
#[derive(Clone, Copy, Debug, PartialEq, Eq)]
pub enum Mark {
    /// The part that a step rewrites.
    Part,
    /// What the part has become.
    Result,
    /// The part that is to blame.
    Fault,
}

/// A sign between two operands, or before the only one.
#[derive(Clone, Copy, Debug, PartialEq, Eq)]
pub struct Sign {
    pub sign: &'static str,
    pub spaced: bool,
    /// The head's number, where the operands do not tell it.
    pub head: Option<u8>,
}

#[derive(Clone, Debug, PartialEq, Eq)]
pub enum Token {
    Name(Rc<str>),
    Number(&'static str),
    /// A letter with another below it: 0_K, 0_B, 0_O and 1_O.
    Constant(&'static str, &'static str),
    Delta,
    /// A sum over a basis, with the letter that it binds.
    Sum(Rc<str>),
    /// Between that letter and what it runs over, where the letter does not tell it.
    In,
    /// A bound basis that no sum binds, by its number.
    Unbound(u8),
    Infix(Sign),
    Prefix(Sign),
    Open(&'static str),
    Close(&'static str),
    Comma,
    Raised(&'static str),
    Begin(Mark),
    End(Mark),
    /// Something is left out.
    LeftOut,
}

#[derive(Clone, Copy, PartialEq, Eq, PartialOrd, Ord)]
enum Level {
    Sum,
    Product,
    Operand,
}

/// The head that a product of these two is.
fn product(left: Sort, right: Sort) -> Option<u8> {
    match (left, right) {
        (Sort::Bra, Sort::Ket) => Some(11),
        (Sort::Operator, Sort::Ket) => Some(22),
        (Sort::Bra, Sort::Operator) => Some(23),
        (Sort::Ket, Sort::Bra) => Some(24),
        (Sort::Operator, Sort::Operator) => Some(25),
        _ => None,
    }
}

/// The head that a sum is whose first summand is of this sort.
fn sum(first: Sort) -> Option<u8> {
    match first {
        Sort::Scalar => Some(7),
        Sort::Ket | Sort::Bra | Sort::Operator => Some(20),
        Sort::Index | Sort::Basis => None,
    }
}

/// A line: the tokens of a whole term. One part may be marked; of the words that `shown` names only those are written, all where there is none.
pub fn line(
    shape: &Shape,
    names: &mut Names,
    mark: Option<(usize, Mark)>,
    shown: Option<&[bool]>,
) -> Vec<Token> {
    let mut writer = Writer {
        shape,
        names,
        mark,
        shown,
        around: Vec::new(),
        out: Vec::new(),
    };
    writer.part(0, Level::Sum);
    writer.out
}

/// The tokens of the marked part of a line.
pub fn marked(line: &[Token]) -> &[Token] {
    let begin = line
        .iter()
        .position(|token| matches!(token, Token::Begin(_)));
    let end = line.iter().position(|token| matches!(token, Token::End(_)));
    match (begin, end) {
        (Some(begin), Some(end)) => &line[begin + 1..end],
        _ => &[],
    }
}

/// A sum around a part: its letter, and where its index stands.
struct Around {
    name: Rc<str>,
    index: usize,
}

struct Writer<'a> {
    shape: &'a Shape<'a>,
    names: &'a mut Names,
    mark: Option<(usize, Mark)>,
    shown: Option<&'a [bool]>,
    around: Vec<Around>,
    out: Vec<Token>,
}

impl Writer<'_> {
    fn is_shown(&self, at: usize) -> bool {
        self.shown.is_none_or(|shown| shown[at])
    }

    fn level(&self, at: usize) -> Level {
        match (self.shape.head(at), self.shape.low(at)) {
            (7 | 8 | 20, 1) => Level::Operand,
            (7 | 20, _) => Level::Sum,
            (2 | 8 | 11 | 19 | 21..=25, _) => Level::Product,
            _ => Level::Operand,
        }
    }

    /// A part where no looser one may stand without brackets. The brackets are the place's, and stay outside a mark.
    fn part(&mut self, at: usize, place: Level) {
        if !self.is_shown(at) {
            self.out.push(Token::LeftOut);
            return;
        }
        let bracketed = self.level(at) < place;
        let mark = self.mark.filter(|&(marked, _)| marked == at);
        self.out.extend(bracketed.then_some(Token::Open("(")));
        self.out.extend(mark.map(|(_, mark)| Token::Begin(mark)));
        self.whole(at);
        self.out.extend(mark.map(|(_, mark)| Token::End(mark)));
        self.out.extend(bracketed.then_some(Token::Close(")")));
    }

    fn whole(&mut self, at: usize) {
        let low = self.shape.low(at);
        match self.shape.head(at) {
            1 => self.name(self.names.types[usize::from(low)].clone()),
            3 => self.name(self.names.bases[usize::from(low)].clone()),
            4 => self.closed("(", at, ")"),
            5 => self.out.push(Token::Number("0")),
            6 => self.out.push(Token::Number("1")),
            7 | 8 | 20 => self.many(at),
            9 => self.raised(at, "*"),
            10 => self.called(Token::Delta, at),
            12 => self.called(Token::Constant("0", "K"), at),
            13 => self.called(Token::Constant("0", "B"), at),
            14 => self.called(Token::Constant("0", "O"), at),
            15 => self.called(Token::Constant("1", "O"), at),
            16 => self.of_basis("|", at, "⟩"),
            17 => self.of_basis("⟨", at, "|"),
            18 => self.raised(at, "†"),
            26 => self.variable(at),
            27 => self.over_a_basis(at),
            28 => self.bound(low),
            _ => self.two(at),
        }
    }

    fn name(&mut self, name: Rc<str>) {
        self.out.push(Token::Name(name));
    }

    /// Kets and bras among the variables bring their signs.
    fn variable(&mut self, at: usize) {
        let name = Token::Name(self.names.variables[usize::from(self.shape.low(at))].clone());
        let signs = match self.shape.sort(at) {
            Sort::Ket if !self.names.bare => Some(("|", "⟩")),
            Sort::Bra if !self.names.bare => Some(("⟨", "|")),
            _ => None,
        };
        let open = signs.map(|(open, _)| Token::Open(open));
        let close = signs.map(|(_, close)| Token::Close(close));
        self.out.extend(open.into_iter().chain([name]).chain(close));
    }

    /// The children between two signs, with commas.
    fn closed(&mut self, open: &'static str, at: usize, close: &'static str) {
        self.out.push(Token::Open(open));
        let shape = self.shape;
        for (k, child) in shape.children(at).enumerate() {
            self.out.extend((k > 0).then_some(Token::Comma));
            self.part(child, Level::Sum);
        }
        self.out.push(Token::Close(close));
    }

    fn called(&mut self, token: Token, at: usize) {
        self.out.push(token);
        self.closed("(", at, ")");
    }

    /// The ket or bra of a basis; a pair needs no brackets there.
    fn of_basis(&mut self, open: &'static str, at: usize, close: &'static str) {
        let basis = at + 1;
        let plain = self.mark.is_none_or(|(marked, _)| marked != basis);
        if self.shape.head(basis) == 4 && self.is_shown(basis) && plain {
            self.closed(open, basis, close);
        } else {
            self.closed(open, at, close);
        }
    }

    fn raised(&mut self, at: usize, sign: &'static str) {
        self.part(at + 1, Level::Operand);
        self.out.push(Token::Raised(sign));
    }

    /// A sum or product of n.
    fn many(&mut self, at: usize) {
        let shape = self.shape;
        let sign = self.sign(at);
        if shape.low(at) == 1 {
            self.called(Token::Prefix(sign), at);
            return;
        }
        let place = match shape.head(at) {
            8 => Level::Operand,
            _ => Level::Product,
        };
        let mut before = None;
        for child in shape.children(at) {
            let is_shown = self.is_shown(child);
            // A run of children that are left out is written once.
            if before != Some(false) || is_shown {
                self.out.extend(before.map(|_| Token::Infix(sign)));
                self.part(child, place);
            }
            before = Some(is_shown);
        }
    }

    fn two(&mut self, at: usize) {
        let first = at + 1;
        let second = self.shape.part(first).end;
        self.part(first, Level::Operand);
        self.out.push(Token::Infix(self.sign(at)));
        self.part(second, Level::Operand);
    }

    fn sign(&self, at: usize) -> Sign {
        let head = self.shape.head(at);
        let first = self.shape.sort(at + 1);
        let second = self.shape.part(at + 1).end;
        let (sign, spaced, told) = match head {
            7 | 20 => ("+", true, sum(first)),
            2 => ("×", false, (first == Sort::Index).then_some(2)),
            8 => ("×", true, (first != Sort::Index).then_some(8)),
            19 => (".", false, Some(19)),
            21 => ("⊗", false, Some(21)),
            _ => ("·", false, product(first, self.shape.sort(second))),
        };
        Sign {
            sign,
            spaced,
            head: (told != Some(head)).then_some(head),
        }
    }

    /// The sum of its body over a basis. The letter tells the index, which is written only where a part of it is marked, or where it is no index.
    fn over_a_basis(&mut self, at: usize) {
        let shape = self.shape;
        let index = at + 1;
        let body = shape.part(index).end;
        let words = shape
            .is_index(index)
            .then(|| &shape.words()[shape.part(index)]);
        let same = |other: &&Around| match words {
            Some(words) => shape.words()[shape.part(other.index)] == *words,
            None => !shape.is_index(other.index),
        };
        let nested = self.around.iter().filter(same).count();
        let name = self.names.bound(words, nested);
        self.out.push(Token::Sum(name.clone()));
        let marked = self.mark.map(|(marked, _)| marked);
        if words.is_none() || marked.is_some_and(|at| shape.part(index).contains(&at)) {
            self.out.push(Token::In);
            self.part(index, Level::Operand);
        }
        self.out.push(Token::Open("("));
        self.around.push(Around { name, index });
        self.part(body, Level::Sum);
        self.around.pop();
        self.out.push(Token::Close(")"));
    }

    fn bound(&mut self, number: u8) {
        let outer = self.around.len().checked_sub(usize::from(number) + 1);
        match outer.map(|place| self.around[place].name.clone()) {
            Some(name) => self.name(name),
            None => self.out.push(Token::Unbound(number)),
        }
    }
}
