//! The reading of a file that the library found to be of the form, so that its declarations, terms and steps can be shown. It is strict, and what it reads is handed back to the library: should the two
//! ever read a file differently, there is no page.
use crate::names::Letter;
use crate::shape::Sort;
use fejogbu::{word, Declarations, Side, Step, Variable};

/// A variable as it is declared, with the words of its indices.
#[derive(Clone, Debug, PartialEq, Eq)]
pub struct Declared {
    pub letter: Letter,
    pub indices: Vec<Vec<u16>>,
}

/// What a file says.
pub struct Derivation {
    pub declared: Declarations,
    pub types: usize,
    pub bases: Vec<Vec<u16>>,
    pub variables: Vec<Declared>,
    pub left: Vec<u16>,
    pub right: Vec<u16>,
    pub steps: Vec<(Side, Step)>,
}

impl Derivation {
    /// Nothing where the bytes are not of the form, as this reader has it.
    pub fn read(bytes: &[u8]) -> Option<Derivation> {
        let text = std::str::from_utf8(bytes).ok()?.strip_suffix('\n')?;
        let mut lines = text.split('\n').peekable();
        let mut of = |key: &str| -> Vec<&str> {
            std::iter::from_fn(|| lines.next_if(|line| value(line, key).is_some()))
                .filter_map(|line| value(line, key))
                .collect()
        };
        let [types] = of("types")[..] else {
            return None;
        };
        let bases = of("basis");
        let variables = of("var");
        let [left] = of("left")[..] else { return None };
        let [right] = of("right")[..] else {
            return None;
        };
        let steps = of("step");
        let [end] = of("end")[..] else { return None };
        let types = number(types)?;
        if lines.next().is_some() || number::<usize>(end)? != steps.len() {
            return None;
        }
        let bases: Vec<_> = bases.into_iter().map(words).collect::<Option<_>>()?;
        let variables: Vec<_> = variables.into_iter().map(variable).collect::<Option<_>>()?;
        Some(Derivation {
            declared: declarations(types, &bases, &variables)?,
            types,
            bases,
            variables,
            left: words(left)?,
            right: words(right)?,
            steps: steps.into_iter().map(step).collect::<Option<_>>()?,
        })
    }

    pub fn letters(&self) -> Vec<Letter> {
        self.variables.iter().map(|v| v.letter).collect()
    }

    pub fn sorts(&self) -> Vec<Sort> {
        self.variables.iter().map(|v| v.letter.sort()).collect()
    }

    pub fn side(&self, side: Side) -> &[u16] {
        match side {
            Side::Left => &self.left,
            Side::Right => &self.right,
        }
    }
}

fn value<'l>(line: &'l str, key: &str) -> Option<&'l str> {
    line.strip_prefix(key)?.strip_prefix('=')
}

/// A decimal number without leading zeros.
fn number<N: std::str::FromStr>(text: &str) -> Option<N> {
    let figures = text.bytes().all(|byte| byte.is_ascii_digit());
    let plain = text == "0" || !text.starts_with('0');
    (figures && plain).then(|| text.parse().ok())?
}

/// A token, as a word.
fn token(text: &str) -> Option<u16> {
    match text.split_once(':') {
        Some((head, a)) => Some(word(number(head)?, number(a)?)),
        None => Some(word(number(text)?, 0)),
    }
}

/// Words from tokens with single spaces between.
pub fn words(text: &str) -> Option<Vec<u16>> {
    text.split(' ').map(token).collect()
}

fn variable(text: &str) -> Option<Declared> {
    let (letter, indices) = match text.split_once(' ') {
        Some((letter, indices)) => (letter, words(indices)?),
        None => (text, Vec::new()),
    };
    let letter = match letter {
        "S" => Letter::Scalar,
        "K" => Letter::Ket,
        "B" => Letter::Bra,
        "O" => Letter::Operator,
        "U" => Letter::Unitary,
        _ => return None,
    };
    let indices = split(&indices);
    Some(Declared { letter, indices })
}

/// Indices that stand one behind the other, by the library's lookup.
fn split(mut words: &[u16]) -> Vec<Vec<u16>> {
    let mut found = Vec::new();
    while !fejogbu::part(words, 0).words.is_empty() {
        let (index, behind) = words.split_at(fejogbu::part(words, 0).words.len());
        found.push(index.to_vec());
        words = behind;
    }
    found
}

fn step(text: &str) -> Option<(Side, Step)> {
    let mut fields = text.split(' ');
    let side = match fields.next()? {
        "L" => Side::Left,
        "R" => Side::Right,
        _ => return None,
    };
    let numbers: Vec<u16> = fields.map(number).collect::<Option<_>>()?;
    let [rule, place, i, j] = numbers[..] else {
        return None;
    };
    Some((side, Step { rule, place, i, j }))
}

/// The declarations as the library keeps them; it refuses those that are not good.
pub fn declarations(
    types: usize,
    bases: &[Vec<u16>],
    variables: &[Declared],
) -> Option<Declarations> {
    let mut declared = Declarations::of_types(types).ok()?;
    for index in bases {
        declared.basis(index).ok()?;
    }
    for variable in variables {
        let indices: Vec<&[u16]> = variable.indices.iter().map(Vec::as_slice).collect();
        let lent = match (variable.letter, &indices[..]) {
            (Letter::Scalar, []) => Variable::Scalar,
            (Letter::Ket, [index]) => Variable::Ket(index),
            (Letter::Bra, [index]) => Variable::Bra(index),
            (Letter::Operator, [rows, columns]) => Variable::Operator(rows, columns),
            (Letter::Unitary, [index]) => Variable::Unitary(index),
            _ => return None,
        };
        declared.variable(lent).ok()?;
    }
    Some(declared)
}

#[cfg(test)]
mod tests {
    use super::*;

    const FILE: &str = "types=2\nbasis=1:0\nvar=O 2 1:0 1:1 1:0\nvar=S\nleft=26:1\nright=26:1\nstep=R 170 4 1 0\nend=1\n";

    #[test]
    fn a_file_of_the_form_is_read() {
        let read = Derivation::read(FILE.as_bytes()).unwrap();
        assert_eq!((read.types, &read.bases[..]), (2, &[vec![256]][..]));
        assert_eq!(read.letters(), [Letter::Operator, Letter::Scalar]);
        assert_eq!(read.variables[0].indices, [vec![512, 256, 257], vec![256]]);
        assert_eq!(read.left, [26 * 256 + 1]);
        let step = Step {
            rule: 170,
            place: 4,
            i: 1,
            j: 0,
        };
        assert_eq!(read.steps, [(Side::Right, step)]);
    }

    #[test]
    fn another_is_not() {
        for (old, new) in [
            ("types=2\n", ""),
            ("types=2", "types=02"),
            ("types=2", "types=33"),
            ("basis=1:0", "basis=1:2"),
            ("var=S", "var=S 1:0"),
            ("var=S", "var=T"),
            ("left=26:1\n", "left=26:1\nleft=26:1\n"),
            ("left=26:1", "left=26:256"),
            ("left=26:1", "left=26:1 "),
            ("step=R", "step=M"),
            ("4 1 0", "4 1"),
            ("4 1 0", "65536 1 0"),
            ("end=1\n", "end=1"),
            ("end=1", "end=+1"),
            ("end=1", "end=2"),
            ("end=1\n", "end=1\nend=1\n"),
        ] {
            let file = FILE.replacen(old, new, 1);
            assert_ne!(file, FILE);
            assert!(Derivation::read(file.as_bytes()).is_none(), "{new}");
        }
    }
}
