//! Terms as runs of 16-bit words in prefix order: the table of heads, the two
//! lookups of a part with its depth, and the test of a term.

/// Words in a work slice, and the most a term may have.
pub const WORDS: usize = 4096;
/// The deepest a term may be; a leaf is 1 deep.
pub const DEPTH: usize = 64;
/// The most words of a type index.
pub const INDEX: usize = 63;
/// The most type names, basis names and variables, each.
pub const NAMES: usize = 32;
/// The most children of a sum or product.
pub const CHILDREN: usize = 255;
/// The most bodies of sums over a basis that are nested.
pub const BODIES: usize = 8;

pub const TYPE: u8 = 1;
pub const PRODUCT: u8 = 2;
pub const BASIS: u8 = 3;
pub const PAIR: u8 = 4;
pub const ZERO: u8 = 5;
pub const ONE: u8 = 6;
pub const ADDS: u8 = 7;
pub const MULS: u8 = 8;
pub const CONJ: u8 = 9;
pub const DELTA: u8 = 10;
pub const DOT: u8 = 11;
pub const ZERO_KET: u8 = 12;
pub const ZERO_BRA: u8 = 13;
pub const ZERO_OPERATOR: u8 = 14;
pub const IDENTITY: u8 = 15;
pub const KET: u8 = 16;
pub const BRA: u8 = 17;
pub const ADJ: u8 = 18;
pub const SCR: u8 = 19;
pub const ADD: u8 = 20;
pub const TSR: u8 = 21;
pub const MULK: u8 = 22;
pub const MULB: u8 = 23;
pub const OUTER: u8 = 24;
pub const MULO: u8 = 25;
pub const VARIABLE: u8 = 26;
pub const SUM: u8 = 27;
pub const BOUND: u8 = 28;

/// What the low byte of a word says, and with it how many children follow.
#[derive(Clone, Copy, PartialEq, Eq, Debug)]
pub enum Form {
    /// No such head.
    Unknown,
    /// The byte is a name, or tells which sum binds a basis; no children.
    Name,
    /// The byte is the number of children.
    Count,
    /// The byte is 0; the number of children is fixed.
    Fixed(u8),
}

/// The table of heads, by number.
const FORMS: [Form; 29] = {
    use Form::*;
    [
        Unknown,  // 0
        Name,     // 1 type name
        Fixed(2), // 2 product of two type indices
        Name,     // 3 basis name
        Fixed(2), // 4 pair of bases
        Fixed(0), // 5 scalar 0
        Fixed(0), // 6 scalar 1
        Count,    // 7 scalar sum
        Count,    // 8 scalar product
        Fixed(1), // 9 conjugate
        Fixed(2), // 10 delta of two bases
        Fixed(2), // 11 bra times ket
        Fixed(1), // 12 zero ket, of an index
        Fixed(1), // 13 zero bra, of an index
        Fixed(2), // 14 zero operator, of two indices
        Fixed(1), // 15 identity, of an index
        Fixed(1), // 16 ket of a basis
        Fixed(1), // 17 bra of a basis
        Fixed(1), // 18 adjoint
        Fixed(2), // 19 scalar scales ket, bra or operator
        Count,    // 20 sum of kets, of bras or of operators
        Fixed(2), // 21 tensor
        Fixed(2), // 22 operator times ket
        Fixed(2), // 23 bra times operator
        Fixed(2), // 24 ket times bra
        Fixed(2), // 25 operator times operator
        Name,     // 26 variable
        Fixed(2), // 27 sum over the bases of an index, of a body
        Name,     // 28 basis that such a sum binds
    ]
};

/// The form of a head, by number.
pub fn form(head: u8) -> Form {
    FORMS.get(usize::from(head)).copied().unwrap_or(Form::Unknown)
}

/// The word of a head and its low byte.
pub const fn word(head: u8, a: u8) -> u16 {
    ((head as u16) << 8) | a as u16
}

pub const fn head(word: u16) -> u8 {
    (word >> 8) as u8
}

/// The low byte of a word.
pub const fn low(word: u16) -> u8 {
    word as u8
}

/// How many children follow a word; none when its head is unknown, be it by
/// its number, by a low byte it must not carry, or by a count of 0.
pub fn children_of(word: u16) -> Option<u8> {
    let (form, a) = (form(head(word)), low(word));
    // One match over all forms would be a jump through a table for every word.
    if let Form::Fixed(n) = form {
        return (a == 0).then_some(n);
    }
    if form == Form::Name {
        return Some(0);
    }
    (form == Form::Count && a > 0).then_some(a)
}

/// Where the whole part that begins at `at` ends, if one begins there.
pub fn part_end(words: &[u16], at: usize) -> Option<usize> {
    let mut missing = 1;
    for (offset, &word) in words.iter().enumerate().skip(at) {
        missing += usize::from(children_of(word)?);
        missing -= 1;
        if missing == 0 {
            return Some(offset + 1);
        }
    }
    None
}

/// A part of the caller's words and its depth: a leaf is 1 deep.
#[derive(Clone, Copy, PartialEq, Eq, Debug)]
pub struct Part<'t> {
    pub words: &'t [u16],
    pub depth: usize,
}

impl Part<'_> {
    /// The answer where no whole part begins.
    pub const EMPTY: Part<'static> = Part { words: &[], depth: 0 };
}

/// The part of `words` that begins at `offset`; empty, and 0 deep, exactly when
/// the offset is not below the length or no whole part begins there.
pub fn part(words: &[u16], offset: usize) -> Part<'_> {
    let words = words.get(offset..).unwrap_or(&[]);
    match walk(words) {
        Some(Walk { read, open: 0, depth }) => Part { words: &words[..read], depth },
        _ => Part::EMPTY,
    }
}

#[derive(Clone, Copy, PartialEq, Eq, Debug)]
pub enum Side {
    Left,
    Right,
}

/// The part that begins at `offset` of the side that is named.
pub fn part_of<'t>(left: &'t [u16], right: &'t [u16], side: Side, offset: usize) -> Part<'t> {
    match side {
        Side::Left => part(left, offset),
        Side::Right => part(right, offset),
    }
}

/// The part that `words` begin with, empty when none does, and what stands
/// behind it.
pub fn split_part(words: &[u16]) -> (&[u16], &[u16]) {
    words.split_at(part_end(words, 0).unwrap_or(0))
}

/// The parts that stand one behind the other in `words`.
pub fn parts(mut words: &[u16]) -> impl Iterator<Item = &[u16]> {
    std::iter::from_fn(move || {
        let (first, rest) = words.split_at(part_end(words, 0)?);
        words = rest;
        Some(first)
    })
}

/// What reading words from their front finds, until a part is whole or they
/// end.
struct Walk {
    read: usize,
    /// Heads that still wait for children.
    open: usize,
    /// The depth of the part, where it is whole.
    depth: usize,
}

/// Finds end and depth together. Nothing when a head is unknown.
fn walk(words: &[u16]) -> Option<Walk> {
    let (mut read, mut open, mut deepest) = (0, 0, 0);
    // Parts still to come under the innermost open head, and under those around
    // it. A term is at most 64 deep, so only other words need the vector.
    let mut missing = 1;
    let mut near = [0; DEPTH];
    let mut far;
    let mut around = &mut near[..];
    while let Some(&word) = words.get(read) {
        read += 1;
        let children = children_of(word)?;
        if children > 0 {
            match around.get_mut(open) {
                Some(place) => *place = missing,
                None => {
                    far = around.repeat(2);
                    far[open] = missing;
                    around = &mut far;
                }
            }
            missing = children;
            open += 1;
            continue;
        }
        missing -= 1;
        if missing == 0 {
            // Leaves before it under this head stand no deeper, and deeper parts
            // had a last leaf of their own.
            deepest = deepest.max(open);
            while missing == 0 {
                if open == 0 {
                    return Some(Walk { read, open, depth: deepest + 1 });
                }
                open -= 1;
                missing = around[open] - 1;
            }
        }
    }
    Some(Walk { read, open, depth: 0 })
}

/// How many ancestors the word at `place` of a term has.
pub fn ancestors(words: &[u16], place: usize) -> Option<usize> {
    Some(walk(words.get(..place)?)?.open)
}

/// How many names of each sort are declared.
#[derive(Clone, Copy, Debug)]
pub struct Names {
    pub types: usize,
    pub bases: usize,
    pub variables: usize,
}

impl Names {
    fn has(self, word: u16) -> bool {
        let a = usize::from(low(word));
        match head(word) {
            TYPE => a < self.types,
            BASIS => a < self.bases,
            VARIABLE => a < self.variables,
            _ => true,
        }
    }
}

/// The test of a term: its depth when `words` are exactly one whole part of at
/// most 4,096 words, at most 64 deep, with declared names only.
pub fn test(words: &[u16], names: Names) -> Option<usize> {
    if words.len() > WORDS {
        return None;
    }
    let Part { words: whole, depth } = part(words, 0);
    let fits = whole.len() == words.len() && (1..=DEPTH).contains(&depth);
    let declared = || words.iter().all(|&word| names.has(word));
    (fits && declared()).then_some(depth)
}

/// The words of a slice up to the last that is not zero.
pub fn used(slice: &[u16]) -> &[u16] {
    let end = slice.iter().rposition(|&word| word != 0).map_or(0, |last| last + 1);
    &slice[..end]
}

/// The token that stands for a word in a file.
pub fn token(word: u16) -> String {
    match (form(head(word)), low(word)) {
        (Form::Fixed(_), 0) => head(word).to_string(),
        (_, a) => format!("{}:{}", head(word), a),
    }
}

/// Words as tokens with single spaces between.
pub fn tokens(words: &[u16]) -> String {
    let mut text = String::new();
    for &word in words {
        if !text.is_empty() {
            text.push(' ');
        }
        text.push_str(&token(word));
    }
    text
}
