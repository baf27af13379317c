//! The notation of source document 002's tables, read while compiling.
//!
//! A rule such as `(a.B)·K ▷ a×(B·K)` becomes two runs of items in the prefix
//! order of terms, so that matching and writing are one walk each. A letter's
//! kind is fixed by the letter (a, b scalars; K kets; B bras; O operators;
//! X, Y any of the three), and the kinds of its factors tell which product a
//! dot is. `Σ_σ(…)` is a sum over the basis of σ; in its body i is the basis that
//! it binds, and a letter is a basis that does not use it. A text that is not of
//! the notation does not compile.

use crate::words::*;

/// The most items of a side and the most letters of a rule.
const ITEMS: usize = 12;
pub const SLOTS: usize = 8;

/// The basis that the innermost sum around it binds. A basis has no bodies in
/// it, so that it uses this one exactly where it has this word.
pub const OWN: u16 = word(BOUND, 0);

/// One step through a term: a word, a part by its letter, such a part that must
/// not use the basis of the sum around it, or a sum or product of as many
/// children as come. On the right side the items behind `Each` are
/// written once for every child, the slot standing for the child.
#[derive(Clone, Copy, PartialEq, Eq, Debug)]
pub enum Item {
    Word(u16),
    Part(u8),
    Apart(u8),
    Each { head: u8, slot: u8 },
}

impl Item {
    const fn same(self, other: Item) -> bool {
        match (self, other) {
            (Item::Word(one), Item::Word(two)) => one == two,
            (Item::Part(one), Item::Part(two)) => one == two,
            _ => false,
        }
    }
}

/// One side of a rule.
#[derive(Clone, Copy)]
pub struct Items {
    items: [Item; ITEMS],
    length: usize,
}

impl Items {
    const EMPTY: Items = Items { items: [Item::Word(0); ITEMS], length: 0 };

    pub fn get(&self) -> &[Item] {
        &self.items[..self.length]
    }

    const fn push(&mut self, item: Item) {
        self.items[self.length] = item;
        self.length += 1;
    }

    /// Puts an item in front of what was written from `at` on.
    const fn insert(&mut self, at: usize, item: Item) {
        let mut to = self.length;
        while to > at {
            self.items[to] = self.items[to - 1];
            to -= 1;
        }
        self.items[at] = item;
        self.length += 1;
    }
}

/// The kind of an expression; `Any` is a ket, bra or operator.
#[derive(Clone, Copy, PartialEq, Eq, Debug)]
pub enum Kind {
    Scalar,
    Ket,
    Bra,
    Operator,
    Any,
}

/// A condition such as `O:O(σ,τ) ⇒`: the part's kind, and the letters that
/// stand for the indices of its type. By `O:U(σ,τ) ⇒` it must also be a variable
/// that is declared unitary.
#[derive(Clone, Copy)]
pub struct Premise {
    pub slot: u8,
    pub kind: Kind,
    pub marked: bool,
    pub first: u8,
    pub second: u8,
}

/// A rule of the form `premise ⇒ left ▷ right`.
#[derive(Clone, Copy)]
pub struct Law {
    pub premise: Option<Premise>,
    pub left: Items,
    pub right: Items,
}

/// Reads a rule.
pub const fn law(text: &str) -> Law {
    let mut reader = Reader {
        text: text.as_bytes(),
        at: 0,
        letters: [Letter { letter: ' ', index: ' ', prime: false }; SLOTS],
        known: 0,
        each: None,
        in_body: false,
        out: Items::EMPTY,
    };
    let premise = reader.premise();
    reader.sum();
    let left = reader.out;
    reader.expect('▷');
    let known = reader.known;
    reader.out = Items::EMPTY;
    reader.sum();
    let right = reader.out;
    assert!(reader.peek() == '\0', "something stands behind the right side");
    assert!(reader.known == known, "the right side has a letter of its own");
    Law { premise, left, right }
}

#[derive(Clone, Copy)]
struct Letter {
    letter: char,
    index: char,
    prime: bool,
}

struct Reader<'t> {
    text: &'t [u8],
    at: usize,
    letters: [Letter; SLOTS],
    known: usize,
    /// The slot of the left side's sum or product of n children.
    each: Option<u8>,
    in_body: bool,
    out: Items,
}

impl Reader<'_> {
    /// The next character that is not a space, and where it ends.
    const fn look(&self) -> (char, usize) {
        let mut at = self.at;
        while at < self.text.len() && self.text[at] == b' ' {
            at += 1;
        }
        if at >= self.text.len() {
            return ('\0', at);
        }
        let first = self.text[at] as u32;
        let (mut code, more) = match first {
            0..0x80 => (first, 0),
            0xC0..0xE0 => (first & 0x1F, 1),
            _ => (first & 0x0F, 2),
        };
        let mut k = 1;
        while k <= more {
            code = code << 6 | (self.text[at + k] & 0x3F) as u32;
            k += 1;
        }
        match char::from_u32(code) {
            Some(found) => (found, at + 1 + more),
            None => panic!("not a character"),
        }
    }

    const fn peek(&self) -> char {
        self.look().0
    }

    const fn next(&mut self) -> char {
        let (found, end) = self.look();
        self.at = end;
        found
    }

    const fn take(&mut self, wanted: char) -> bool {
        let (found, end) = self.look();
        if found == wanted {
            self.at = end;
        }
        found == wanted
    }

    const fn expect(&mut self, wanted: char) {
        assert!(self.take(wanted), "another character is due here");
    }

    /// A letter with its 1, 2, 3 or n and its prime, as a slot. The nth of a sum
    /// is the first again.
    const fn letter(&mut self) -> u8 {
        let letter = self.next();
        let index = match self.peek() {
            '1' | 'n' => '1',
            digit @ ('2' | '3') => digit,
            _ => ' ',
        };
        if index != ' ' {
            self.next();
        }
        let prime = self.take('\'');
        let mut slot = 0;
        while slot < self.known {
            let it = self.letters[slot];
            if it.letter == letter && it.index == index && it.prime == prime {
                return slot as u8;
            }
            slot += 1;
        }
        self.letters[slot] = Letter { letter, index, prime };
        self.known += 1;
        slot as u8
    }

    /// `K:K(σ) ⇒`, `B:B(σ) ⇒`, `O:O(σ,τ) ⇒` or `O:U(σ,τ) ⇒`, if one stands in
    /// front.
    const fn premise(&mut self) -> Option<Premise> {
        let (_, behind) = self.look();
        if behind >= self.text.len() || self.text[behind] != b':' {
            return None;
        }
        let slot = self.letter();
        self.expect(':');
        let marked = self.take('U');
        let kind = if marked { Kind::Operator } else { kind_of(self.next()) };
        self.expect('(');
        let first = self.letter();
        let second = match kind {
            Kind::Operator => {
                self.expect(',');
                self.letter()
            }
            _ => first,
        };
        self.expect(')');
        self.expect('⇒');
        Some(Premise { slot, kind, marked, first, second })
    }

    /// One product, the sum of two, or the sum of n written with dots.
    const fn sum(&mut self) -> Kind {
        let start = self.out.length;
        let kind = self.product();
        if !self.take('+') {
            return kind;
        }
        let head = sum_head(kind);
        if self.take('…') {
            self.expect('+');
            return self.family(start, head, kind);
        }
        self.product();
        self.out.insert(start, Item::Word(word(head, 2)));
        kind
    }

    /// One operand, or two with a sign between, or the product of n.
    const fn product(&mut self) -> Kind {
        let start = self.out.length;
        let left = self.operand();
        let (head, kind) = match self.peek() {
            '×' => {
                self.next();
                if self.take('…') {
                    self.expect('×');
                    return self.family(start, MULS, left);
                }
                self.operand();
                self.out.insert(start, Item::Word(word(MULS, 2)));
                return Kind::Scalar;
            }
            '.' => {
                self.next();
                (SCR, self.operand())
            }
            '⊗' => {
                self.next();
                self.operand();
                (TSR, left)
            }
            '·' => {
                self.next();
                match (left, self.operand()) {
                    (Kind::Bra, Kind::Ket) => (DOT, Kind::Scalar),
                    (Kind::Operator, Kind::Ket) => (MULK, Kind::Ket),
                    (Kind::Bra, Kind::Operator) => (MULB, Kind::Bra),
                    (Kind::Ket, Kind::Bra) => (OUTER, Kind::Operator),
                    (Kind::Operator, Kind::Operator) => (MULO, Kind::Operator),
                    _ => panic!("no product of these kinds"),
                }
            }
            _ => return left,
        };
        self.out.insert(start, Item::Word(word(head, 0)));
        kind
    }

    /// The rest of `B1+…+Bn`: the last member is read and dropped, and what
    /// was written from `start` on is meant once for each child.
    const fn family(&mut self, start: usize, head: u8, kind: Kind) -> Kind {
        let end = self.out.length;
        match head {
            MULS => self.operand(),
            _ => self.product(),
        };
        let width = end - start;
        assert!(self.out.length == end + width, "first and last differ");
        let mut k = start;
        while k < end {
            assert!(self.out.items[k].same(self.out.items[k + width]), "first and last differ");
            k += 1;
        }
        self.out.length = end;
        match self.each {
            None => {
                let Item::Part(slot) = self.out.items[start] else {
                    panic!("the left sum is of letters");
                };
                assert!(width == 1, "the left sum is of letters");
                self.each = Some(slot);
                self.out.items[start] = Item::Each { head, slot };
            }
            Some(slot) => {
                assert!(start == 0, "the right sum is outermost");
                self.out.insert(0, Item::Each { head, slot });
            }
        }
        kind
    }

    /// Something with its stars and daggers behind it.
    const fn operand(&mut self) -> Kind {
        let start = self.out.length;
        let mut kind = self.primary();
        loop {
            if self.take('*') {
                self.out.insert(start, Item::Word(word(CONJ, 0)));
            } else if self.take('†') {
                self.out.insert(start, Item::Word(word(ADJ, 0)));
                kind = match kind {
                    Kind::Ket => Kind::Bra,
                    Kind::Bra => Kind::Ket,
                    other => other,
                };
            } else {
                return kind;
            }
        }
    }

    const fn primary(&mut self) -> Kind {
        match self.peek() {
            '(' => {
                self.next();
                let kind = self.sum();
                self.expect(')');
                kind
            }
            sign @ ('+' | '×') => {
                self.next();
                self.expect('(');
                let start = self.out.length;
                let kind = self.sum();
                self.expect(')');
                let head = if sign == '×' { MULS } else { sum_head(kind) };
                self.out.insert(start, Item::Word(word(head, 1)));
                kind
            }
            digit @ ('0' | '1') => {
                self.next();
                if !self.take('_') {
                    self.head(if digit == '0' { ZERO } else { ONE });
                    return Kind::Scalar;
                }
                let kind = kind_of(self.next());
                self.head(match (digit, kind) {
                    ('0', Kind::Ket) => ZERO_KET,
                    ('0', Kind::Bra) => ZERO_BRA,
                    ('0', Kind::Operator) => ZERO_OPERATOR,
                    ('1', Kind::Operator) => IDENTITY,
                    _ => panic!("no such constant"),
                });
                self.expect('(');
                self.index();
                if digit == '0' && matches!(kind, Kind::Operator) {
                    self.expect(',');
                    self.index();
                }
                self.expect(')');
                kind
            }
            '|' => {
                self.next();
                self.head(KET);
                self.basis();
                self.expect('⟩');
                Kind::Ket
            }
            '⟨' => {
                self.next();
                self.head(BRA);
                self.basis();
                self.expect('|');
                Kind::Bra
            }
            'δ' => {
                self.next();
                self.head(DELTA);
                self.expect('(');
                self.basis();
                self.expect(',');
                self.basis();
                self.expect(')');
                Kind::Scalar
            }
            'Σ' => self.sum_over(),
            letter => {
                assert!(!self.in_body, "a letter in a body is a basis");
                let slot = self.letter();
                self.out.push(Item::Part(slot));
                kind_of(letter)
            }
        }
    }

    const fn sum_over(&mut self) -> Kind {
        self.next();
        self.expect('_');
        self.head(SUM);
        self.index();
        self.expect('(');
        assert!(!self.in_body, "a sum over a basis in a body");
        self.in_body = true;
        let kind = self.sum();
        self.in_body = false;
        self.expect(')');
        kind
    }

    const fn head(&mut self, head: u8) {
        self.out.push(Item::Word(word(head, 0)));
    }

    /// A type letter or the product of two.
    const fn index(&mut self) {
        let start = self.out.length;
        let slot = self.letter();
        self.out.push(Item::Part(slot));
        if self.take('×') {
            let slot = self.letter();
            self.out.push(Item::Part(slot));
            self.out.insert(start, Item::Word(word(PRODUCT, 0)));
        }
    }

    /// A basis letter or a pair.
    const fn basis(&mut self) {
        if self.take('(') {
            self.head(PAIR);
            self.basis();
            self.expect(',');
            self.basis();
            self.expect(')');
        } else if self.in_body && self.take('i') {
            self.out.push(Item::Word(OWN));
        } else {
            let slot = self.letter();
            self.out.push(if self.in_body { Item::Apart(slot) } else { Item::Part(slot) });
        }
    }
}

const fn kind_of(letter: char) -> Kind {
    match letter {
        'a' | 'b' => Kind::Scalar,
        'K' => Kind::Ket,
        'B' => Kind::Bra,
        'O' => Kind::Operator,
        'X' | 'Y' => Kind::Any,
        _ => panic!("no such letter"),
    }
}

const fn sum_head(kind: Kind) -> u8 {
    match kind {
        Kind::Scalar => ADDS,
        _ => ADD,
    }
}
