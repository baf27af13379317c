//! Answers, and the words for them.
use std::fmt;

/// A side of a derivation.
#[derive(Clone, Copy, Debug, PartialEq, Eq)]
pub enum Side {
    Left,
    Right,
}

impl Side {
    /// The number of the side, as answers and lent steps have it.
    pub fn number(self) -> u16 {
        match self {
            Side::Left => 1,
            Side::Right => 2,
        }
    }

    pub(crate) fn of(number: u64) -> Option<Side> {
        match number {
            1 => Some(Side::Left),
            2 => Some(Side::Right),
            _ => None,
        }
    }
}

impl fmt::Display for Side {
    fn fmt(&self, f: &mut fmt::Formatter<'_>) -> fmt::Result {
        f.write_str(match self {
            Side::Left => "left",
            Side::Right => "right",
        })
    }
}

/// By whose doing an answer is what it is.
#[derive(Clone, Copy, Debug, PartialEq, Eq)]
pub enum Outcome {
    /// The derivation, the step or the term is good.
    Accepted,
    /// The calling program lent a work slice of another size; through this crate that cannot be.
    Caller,
    /// The typist: the bytes, the lines, the declarations, the terms or their types.
    Typist,
    /// The maker of the steps: a bad step, or ends that differ.
    Maker,
}

/// What an answer says, by its number.
#[derive(Clone, Copy, Debug, PartialEq, Eq)]
pub enum Code {
    Accepted = 0,
    WorkSize = 1,
    TooLong = 2,
    BadByte = 3,
    BadKey = 4,
    BadValue = 5,
    TooMany = 6,
    BadDeclaration = 7,
    BadTerm = 8,
    BadEnd = 9,
    Untyped = 10,
    NoTerm = 11,
    TypesDiffer = 12,
    Unbound = 13,
    NoRule = 20,
    NoPlace = 21,
    NoInstance = 22,
    PastLimits = 23,
    EndsDiffer = 30,
}

use Code::*;

impl Code {
    /// Every code, in the order of the numbers.
    pub const ALL: [Code; 19] = [
        Accepted,
        WorkSize,
        TooLong,
        BadByte,
        BadKey,
        BadValue,
        TooMany,
        BadDeclaration,
        BadTerm,
        BadEnd,
        Untyped,
        NoTerm,
        TypesDiffer,
        Unbound,
        NoRule,
        NoPlace,
        NoInstance,
        PastLimits,
        EndsDiffer,
    ];

    /// The number of the code.
    pub fn number(self) -> u8 {
        self as u8
    }

    /// By whose doing.
    pub fn outcome(self) -> Outcome {
        match self.number() {
            0 => Outcome::Accepted,
            1 => Outcome::Caller,
            2..=13 => Outcome::Typist,
            _ => Outcome::Maker,
        }
    }

    pub(crate) fn of(number: u64) -> Code {
        let known = Code::ALL
            .into_iter()
            .find(|c| u64::from(c.number()) == number);
        known.expect("the library answers with a code of the list")
    }

    /// Whether a step is at fault.
    fn is_of_a_step(self) -> bool {
        (20..30).contains(&self.number())
    }
}

impl fmt::Display for Code {
    fn fmt(&self, f: &mut fmt::Formatter<'_>) -> fmt::Result {
        f.write_str(match self {
            Accepted => "accepted",
            WorkSize => "a work slice is not 4,096 words long",
            TooLong => "the file has more than 65,536 bytes",
            BadByte => "a byte is not of a text, or the last line has no end",
            BadKey => "a key is missing or out of order",
            BadValue => "a value is not of its form",
            TooMany => "there is one line or step too many",
            BadDeclaration => {
                "a declaration is not the indices wanted, or breaks a limit or a name"
            }
            BadTerm => "a term's words are no term within the limits and the names",
            BadEnd => "the end differs from the steps present",
            Untyped => "a part of the term has no type",
            NoTerm => "an index or a basis stands in the place of a term",
            TypesDiffer => "the two terms have different types",
            Unbound => "a bound basis has no sum around it, or a ninth sum is nested",
            NoRule => "there is no rule of this number",
            NoPlace => "the place is not below the term's length",
            NoInstance => "the part there is no instance of the rule",
            PastLimits => "the result would pass the limits of a term",
            EndsDiffer => "the steps are good, and the ends differ",
        })
    }
}

/// The answer of a replay or a run. The work slices are left with terms of `left` and `right` words.
#[derive(Clone, Copy, Debug, PartialEq, Eq)]
pub struct Answer {
    pub code: Code,
    pub side: Option<Side>,
    pub step: usize,
    /// The line for codes 3 to 9 of a file, an offset in words from 10 on.
    pub at: usize,
    pub left: usize,
    pub right: usize,
}

impl Answer {
    pub(crate) fn of(numbers: [u64; 6]) -> Answer {
        let [code, side, step, at, left, right] = numbers;
        Answer {
            code: Code::of(code),
            side: Side::of(side),
            step: step as usize,
            at: at as usize,
            left: left as usize,
            right: right as usize,
        }
    }

    /// The answer in words, with the rule of the bad step where the caller knows it.
    ///
    /// `step 3 on the left, rule 107 at word 12: the part there is no instance of the rule`
    pub fn told(&self, rule: Option<u16>) -> String {
        let code = self.code;
        let on = self
            .side
            .map(|side| format!(" on the {side}"))
            .unwrap_or_default();
        if code.is_of_a_step() {
            let rule = rule
                .map(|number| format!(" rule {number}"))
                .unwrap_or_default();
            return format!("step {}{on},{rule} at word {}: {code}", self.step, self.at);
        }
        match code {
            Accepted if self.step == 1 => format!("{code} after 1 step"),
            Accepted => format!("{code} after {} steps", self.step),
            EndsDiffer => format!("{code} from word {} on", self.at),
            Untyped | Unbound => format!("{code}{on}, at word {}", self.at),
            NoTerm => format!("{code}{on}"),
            _ if self.at > 0 => format!("line {}: {code}", self.at),
            _ => code.to_string(),
        }
    }
}

impl fmt::Display for Answer {
    fn fmt(&self, f: &mut fmt::Formatter<'_>) -> fmt::Result {
        f.write_str(&self.told(None))
    }
}

/// The answer of a single step. The term is left with `length` words.
#[derive(Clone, Copy, Debug, PartialEq, Eq)]
pub struct Stepped {
    pub code: Code,
    pub side: Option<Side>,
    pub step: usize,
    pub at: usize,
    pub length: usize,
}

impl fmt::Display for Stepped {
    fn fmt(&self, f: &mut fmt::Formatter<'_>) -> fmt::Result {
        match self.code {
            Untyped | Unbound => write!(f, "{}, at word {}", self.code, self.at),
            code if code.is_of_a_step() => write!(f, "at word {}: {code}", self.at),
            code => write!(f, "{code}"),
        }
    }
}

/// A step shown before it is taken: what the single step would answer, and the depth and the type of what it would leave. On 20 to 23 that is the term as it stands; where typing refuses
/// the term, `length` and `depth` are 0 and the type is a scalar.
#[derive(Clone, Debug, PartialEq, Eq)]
pub struct Preview {
    pub stepped: Stepped,
    pub depth: usize,
    pub kind: Kind,
}

impl fmt::Display for Preview {
    fn fmt(&self, f: &mut fmt::Formatter<'_>) -> fmt::Result {
        match self.stepped.code {
            Accepted => write!(
                f,
                "leaves a term of {} words, {} deep",
                self.stepped.length, self.depth
            ),
            _ => self.stepped.fmt(f),
        }
    }
}

/// The kind of a type, with the words of its indices.
#[derive(Clone, Debug, PartialEq, Eq)]
pub enum Kind {
    Scalar,
    Ket(Vec<u16>),
    Bra(Vec<u16>),
    Operator(Vec<u16>, Vec<u16>),
}

/// The answer of a typing: where the code is `Accepted`, the term's length, depth and type; else 0, 0 and a scalar.
#[derive(Clone, Debug, PartialEq, Eq)]
pub struct Typing {
    pub code: Code,
    pub side: Option<Side>,
    pub step: usize,
    pub at: usize,
    pub length: usize,
    pub depth: usize,
    pub kind: Kind,
}

impl fmt::Display for Typing {
    fn fmt(&self, f: &mut fmt::Formatter<'_>) -> fmt::Result {
        match self.code {
            Accepted => write!(f, "a term of {} words, {} deep", self.length, self.depth),
            Untyped | Unbound => write!(f, "{}, at word {}", self.code, self.at),
            code => write!(f, "{code}"),
        }
    }
}

#[cfg(test)]
mod tests {
    use super::*;

    #[test]
    fn answers_in_words() {
        let answer = Answer::of([22, 1, 3, 12, 9, 2]);
        assert_eq!(
            answer.told(Some(107)),
            "step 3 on the left, rule 107 at word 12: the part there is no instance of the rule"
        );
        assert_eq!(
            answer.to_string(),
            "step 3 on the left, at word 12: the part there is no instance of the rule"
        );
        assert_eq!(
            Answer::of([0, 0, 2, 0, 2, 2]).to_string(),
            "accepted after 2 steps"
        );
        assert_eq!(
            Answer::of([5, 0, 0, 7, 0, 0]).to_string(),
            "line 7: a value is not of its form"
        );
        assert_eq!(
            Answer::of([10, 2, 0, 4, 0, 0]).to_string(),
            "a part of the term has no type on the right, at word 4"
        );
        assert_eq!(
            Answer::of([13, 1, 0, 2, 0, 0]).to_string(),
            "a bound basis has no sum around it, or a ninth sum is nested on the left, at word 2"
        );
        assert_eq!(
            Answer::of([2, 0, 0, 0, 0, 0]).to_string(),
            "the file has more than 65,536 bytes"
        );
    }

    #[test]
    fn codes_by_number_and_by_whose_doing() {
        for code in Code::ALL {
            assert_eq!(Code::of(u64::from(code.number())), code);
        }
        let outcomes = [0, 1, 2, 13, 20, 30].map(|n| Code::of(n).outcome());
        use Outcome::*;
        assert_eq!(outcomes, [Accepted, Caller, Typist, Typist, Maker, Maker]);
    }
}
