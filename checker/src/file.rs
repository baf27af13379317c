//! Reading a file: its bytes, its lines in their order, its numbers and tokens.

use crate::decl::{Declarations, Letter, Variable};
use crate::step::Step;
use crate::words::{form, test, word, Form, Names, Side, NAMES};

/// The most bytes of a file and the most step lines.
pub const BYTES: usize = 65_536;
pub const STEPS: usize = 1_000;

/// The first fault of a file: code 2 to 9, and the line (0 for code 2).
#[derive(Clone, Copy, PartialEq, Eq, Debug)]
pub struct Fault {
    pub code: u8,
    pub at: usize,
}

/// What a file says; its terms stand in the slices that were lent.
#[derive(Debug)]
pub struct Script {
    pub declared: Declarations,
    pub left: usize,
    pub right: usize,
    pub steps: Vec<(Side, Step)>,
}

/// Reads a file and writes its two terms to the front of the slices.
pub fn read(bytes: &[u8], left: &mut [u16], right: &mut [u16]) -> Result<Script, Fault> {
    let mut reader = Reader::new(bytes)?;
    let mut declared = Declarations::default();

    let value = reader.expect("types")?;
    declared.types = number(value).filter(|&n| n <= NAMES).ok_or(reader.fault(5))?;

    while let Some(value) = reader.take("basis") {
        if declared.bases.len() == NAMES {
            return Err(reader.fault(6));
        }
        let index = words(value).ok_or(reader.fault(5))?;
        if !declared.good_basis(&index) {
            return Err(reader.fault(7));
        }
        declared.bases.push(index);
    }
    while let Some(value) = reader.take("var") {
        if declared.variables.len() == NAMES {
            return Err(reader.fault(6));
        }
        let variable = variable(value).ok_or(reader.fault(5))?;
        if !declared.good_variable(&variable) {
            return Err(reader.fault(7));
        }
        declared.variables.push(variable);
    }

    let names = declared.names();
    let left = reader.term("left", names, left)?;
    let right = reader.term("right", names, right)?;

    let mut steps = Vec::new();
    while let Some(value) = reader.take("step") {
        if steps.len() == STEPS {
            return Err(reader.fault(6));
        }
        steps.push(step(value).ok_or(reader.fault(5))?);
    }

    let value = reader.expect("end")?;
    let count = number(value).ok_or(reader.fault(5))?;
    if count != steps.len() {
        return Err(reader.fault(9));
    }
    reader.finish()?;
    Ok(Script { declared, left, right, steps })
}

/// The file's bytes and the reader's own place in them.
struct Reader<'f> {
    rest: &'f [u8],
    /// How many lines were taken.
    line: usize,
}

impl<'f> Reader<'f> {
    /// Takes a file whose bytes are good: not too many, none but LF and 32 to
    /// 126, and LF the last.
    fn new(bytes: &'f [u8]) -> Result<Self, Fault> {
        if bytes.len() > BYTES {
            return Err(Fault { code: 2, at: 0 });
        }
        let bad = bytes.iter().position(|byte| !matches!(byte, b'\n' | 32..=126));
        if bad.is_some() || bytes.last() != Some(&b'\n') {
            let before = &bytes[..bad.unwrap_or(bytes.len())];
            let lines = before.iter().filter(|&&byte| byte == b'\n').count();
            return Err(Fault { code: 3, at: lines + 1 });
        }
        Ok(Reader { rest: bytes, line: 0 })
    }

    /// A fault in the line that was taken last.
    fn fault(&self, code: u8) -> Fault {
        Fault { code, at: self.line }
    }

    /// The value of the next line, if it has this key.
    fn take(&mut self, key: &str) -> Option<&'f [u8]> {
        let end = self.rest.iter().position(|&byte| byte == b'\n')?;
        let value = self.rest[..end].strip_prefix(key.as_bytes())?.strip_prefix(b"=")?;
        self.rest = &self.rest[end + 1..];
        self.line += 1;
        Some(value)
    }

    /// The value of the next line, which must have this key.
    fn expect(&mut self, key: &str) -> Result<&'f [u8], Fault> {
        self.take(key).ok_or(Fault { code: 4, at: self.line + 1 })
    }

    fn finish(&self) -> Result<(), Fault> {
        match self.rest {
            [] => Ok(()),
            _ => Err(Fault { code: 4, at: self.line + 1 }),
        }
    }

    /// The next line, which must be a term; its length.
    fn term(&mut self, key: &str, names: Names, slice: &mut [u16]) -> Result<usize, Fault> {
        let value = self.expect(key)?;
        let mut length = 0;
        for word in tokens(value) {
            let word = word.ok_or(self.fault(5))?;
            if let Some(place) = slice.get_mut(length) {
                *place = word;
            }
            length += 1;
        }
        slice
            .get(..length)
            .and_then(|words| test(words, names))
            .map(|_| length)
            .ok_or(self.fault(8))
    }
}

/// A decimal number without leading zeros; past all limits it stays put.
pub fn number(text: &[u8]) -> Option<usize> {
    match text {
        [] | [b'0', _, ..] => return None,
        _ => {}
    }
    text.iter().try_fold(0usize, |value, &byte| {
        let digit = byte.is_ascii_digit().then(|| usize::from(byte - b'0'))?;
        Some(value.saturating_mul(10).saturating_add(digit))
    })
}

/// A number of a step line.
pub fn field(text: &[u8]) -> Option<u16> {
    u16::try_from(number(text)?).ok()
}

/// The words of a value, token by token; nothing for one not of the form.
fn tokens(value: &[u8]) -> impl Iterator<Item = Option<u16>> + '_ {
    value.split(|&byte| byte == b' ').map(token)
}

/// All words of a value, if every token is of the form.
pub fn words(value: &[u8]) -> Option<Vec<u16>> {
    tokens(value).collect()
}

fn token(text: &[u8]) -> Option<u16> {
    let byte = |text| u8::try_from(number(text)?).ok();
    let Some(colon) = text.iter().position(|&byte| byte == b':') else {
        let head = byte(text)?;
        return match form(head) {
            Form::Name | Form::Count => None,
            Form::Fixed(_) | Form::Unknown => Some(word(head, 0)),
        };
    };
    let (head, a) = (byte(&text[..colon])?, byte(&text[colon + 1..])?);
    match (form(head), a) {
        // A known head that is written bare. With another a it is unknown,
        // and unknown heads come either way.
        (Form::Fixed(_), 0) => None,
        _ => Some(word(head, a)),
    }
}

/// The value of a var line: its letter, then tokens. U is an operator that is
/// declared unitary, and has its index once.
pub fn variable(value: &[u8]) -> Option<Variable> {
    let (&letter, rest) = value.split_first()?;
    let words = match rest {
        [] => Vec::new(),
        [b' ', rest @ ..] => words(rest)?,
        _ => return None,
    };
    match letter {
        b'U' => Some(Variable::unitary(&words)),
        _ => Some(Variable::new(Letter::read(letter)?, words)),
    }
}

/// The value of a step line: its five fields.
fn step(value: &[u8]) -> Option<(Side, Step)> {
    let (side, rest) = match value {
        [b'L', b' ', rest @ ..] => (Side::Left, rest),
        [b'R', b' ', rest @ ..] => (Side::Right, rest),
        _ => return None,
    };
    Some((side, sideless_step(rest)?))
}

/// The four numbers of a step line.
pub fn sideless_step(value: &[u8]) -> Option<Step> {
    let mut fields = value.split(|&byte| byte == b' ').map(field);
    let step = Step {
        rule: fields.next()??,
        place: fields.next()??,
        i: fields.next()??,
        j: fields.next()??,
    };
    fields.next().is_none().then_some(step)
}
