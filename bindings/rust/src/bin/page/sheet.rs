//! What a page says, before it is spelled as text or as HTML: both have the same content, from here.
use crate::course::{Course, Outcome, Taken, DISAGREES};
use crate::derivation::Derivation;
use crate::given::Beside;
use crate::names::{Letter, Names};
use crate::notation::{line, Mark, Token};
use crate::rules;
use crate::shape::{Shape, Sort};
use crate::shown::shown;
use fejogbu::{typing, Answer, Code, Kind, Side, Step, Term};

/// A piece of a sentence.
pub enum Piece {
    Words(String),
    Formula(Vec<Token>),
}

/// A step, taken or refused.
pub struct Shown {
    pub side: Side,
    pub step: Step,
    pub before: Vec<Token>,
    /// The line that it gives, or why it gives none.
    pub after: Result<Vec<Token>, String>,
}

/// How the two sides end.
pub enum End {
    /// No end was reached.
    None,
    Same(Vec<Token>),
    Differ([Vec<Token>; 2], usize),
}

pub enum Body {
    /// The lines of a file that is not of the form, each as its bytes.
    Lines(Vec<Vec<u8>>),
    Terms {
        names: Vec<Vec<Piece>>,
        sides: [Vec<Token>; 2],
        /// The types of the two sides, where they differ.
        types: Vec<Piece>,
        steps: Vec<Shown>,
        end: End,
    },
}

pub struct Sheet {
    pub title: String,
    pub answer: Answer,
    /// The answer in words.
    pub words: String,
    pub body: Body,
    /// How many steps the file has, where it is of the form.
    pub steps: Option<usize>,
    /// What was wrong with the letters that were given.
    pub warning: Option<String>,
}

impl Sheet {
    pub fn accepted(&self) -> bool {
        self.answer.code == Code::Accepted
    }
}

/// The content of the page of a file. A title is taken from what stands beside the file, and else the file's own name.
pub fn sheet(file: &str, bytes: &[u8], beside: &Beside, course: Course) -> Result<Sheet, String> {
    let answer = course.answer;
    let mut warning = None;
    let steps = match &course.outcome {
        Outcome::Lines => None,
        Outcome::Untyped(derivation) | Outcome::Steps { derivation, .. } => {
            Some(derivation.steps.len())
        }
    };
    let body = match course.outcome {
        Outcome::Lines => Body::Lines(lines(bytes)),
        Outcome::Untyped(derivation) => {
            let mut writer = Writer::of(&derivation, beside, &mut warning);
            writer.untyped(&derivation, answer)?
        }
        Outcome::Steps {
            derivation,
            taken,
            left,
            right,
        } => {
            let mut writer = Writer::of(&derivation, beside, &mut warning);
            let refused = writer.refused(&derivation, answer, &course.words, [&left, &right])?;
            writer.stepped(&derivation, answer, &taken, refused, [&left, &right])?
        }
    };
    let title = beside.title.as_deref().unwrap_or(file);
    Ok(Sheet {
        title: without_the_word(title, answer.code).to_string(),
        answer,
        words: course.words,
        body,
        steps,
        warning,
    })
}

/// A name that someone chose: that of a file which was not accepted is not shown where it has the word of the card in it.
pub fn without_the_word(name: &str, code: Code) -> &str {
    match code {
        Code::Accepted => name,
        _ if name.to_lowercase().contains("verified") => "a derivation whose name is not shown",
        _ => name,
    }
}

fn lines(bytes: &[u8]) -> Vec<Vec<u8>> {
    let mut lines: Vec<Vec<u8>> = bytes
        .split(|&byte| byte == b'\n')
        .map(<[u8]>::to_vec)
        .collect();
    // Behind the last LF stands no line.
    lines.pop_if(|last| last.is_empty());
    lines
}

/// Writes the lines of one derivation, whose letters it has.
struct Writer {
    names: Names,
    sorts: Vec<Sort>,
}

impl Writer {
    /// With the letters given, or with the usual ones where those do not fit.
    fn of(derivation: &Derivation, beside: &Beside, warning: &mut Option<String>) -> Writer {
        let (types, bases) = (derivation.types, derivation.bases.len());
        let letters = derivation.letters();
        let with = |given| Names::of(types, bases, &letters, given);
        let names = with(beside.given.as_ref()).or_else(|why| {
            *warning = Some(format!("{why}, so others are shown"));
            with(None)
        });
        Writer {
            names: names.expect("the usual letters fit every declaration"),
            sorts: derivation.sorts(),
        }
    }

    /// A whole term, with a part marked.
    fn whole(&mut self, words: &[u16], mark: Option<(usize, Mark)>) -> Result<Vec<Token>, String> {
        let shape = Shape::of(words, &self.sorts).ok_or(DISAGREES)?;
        let mark = mark.filter(|&(at, _)| at < words.len());
        Ok(line(&shape, &mut self.names, mark, None))
    }

    /// A line of a step: the part at its place is marked, which must be the one that the lookup found. Of a long line some is left out.
    fn line(
        &mut self,
        words: &[u16],
        step: Step,
        mark: Mark,
        length: usize,
    ) -> Result<Vec<Token>, String> {
        let shape = Shape::of(words, &self.sorts).ok_or(DISAGREES)?;
        let place = usize::from(step.place);
        if place >= words.len() {
            return self.whole(words, None);
        }
        if shape.part(place).len() != length {
            return Err(DISAGREES.to_string());
        }
        let [i, j] = [step.i, step.j].map(usize::from);
        let shown = shown(&shape, place, &[i, i + 1, j]);
        let mark = Some((place, mark));
        Ok(line(&shape, &mut self.names, mark, shown.as_deref()))
    }

    fn untyped(&mut self, derivation: &Derivation, answer: Answer) -> Result<Body, String> {
        let at = Some((answer.at, Mark::Fault));
        let mark = |side| at.filter(|_| answer.side == Some(side));
        let left = self.whole(&derivation.left, mark(Side::Left))?;
        let right = self.whole(&derivation.right, mark(Side::Right))?;
        let types = match answer.code {
            Code::TypesDiffer => self.types(derivation)?,
            _ => Vec::new(),
        };
        Ok(Body::Terms {
            names: self.legend(derivation)?,
            sides: [left, right],
            types,
            steps: Vec::new(),
            end: End::None,
        })
    }

    fn stepped(
        &mut self,
        derivation: &Derivation,
        answer: Answer,
        taken: &[Taken],
        refused: Option<Shown>,
        ends: [&[u16]; 2],
    ) -> Result<Body, String> {
        let left = self.whole(&derivation.left, None)?;
        let right = self.whole(&derivation.right, None)?;
        let mut steps = Vec::new();
        for taken in taken {
            let Taken { side, step, .. } = *taken;
            let before = self.line(&taken.before, step, Mark::Part, taken.part.len())?;
            let after = self.line(&taken.after, step, Mark::Result, taken.result.len())?;
            steps.push(Shown {
                side,
                step,
                before,
                after: Ok(after),
            });
        }
        steps.extend(refused);
        let end = self.end(answer, ends)?;
        Ok(Body::Terms {
            names: self.legend(derivation)?,
            sides: [left, right],
            types: Vec::new(),
            steps,
            end,
        })
    }

    fn end(&mut self, answer: Answer, [left, right]: [&[u16]; 2]) -> Result<End, String> {
        let at = Some((answer.at, Mark::Fault));
        Ok(match answer.code {
            Code::Accepted => End::Same(self.whole(left, None)?),
            Code::EndsDiffer => {
                let ends = [self.whole(left, at)?, self.whole(right, at)?];
                End::Differ(ends, answer.at)
            }
            _ => End::None,
        })
    }

    /// The step that the answer says is bad.
    fn refused(
        &mut self,
        derivation: &Derivation,
        answer: Answer,
        words: &str,
        [left, right]: [&[u16]; 2],
    ) -> Result<Option<Shown>, String> {
        let bad = answer.step.wrapping_sub(1);
        let (Some(said), Some(&(side, step))) = (answer.side, derivation.steps.get(bad)) else {
            return Ok(None);
        };
        let term = match side {
            Side::Left => left,
            Side::Right => right,
        };
        let length = fejogbu::part(term, usize::from(step.place)).words.len();
        let before = self.line(term, step, Mark::Fault, length)?;
        let after = Err(words.to_string());
        let shown = Shown {
            side,
            step,
            before,
            after,
        };
        (said == side)
            .then_some(Some(shown))
            .ok_or(DISAGREES.to_string())
    }

    fn types(&mut self, derivation: &Derivation) -> Result<Vec<Piece>, String> {
        let mut pieces = Vec::new();
        for side in [Side::Left, Side::Right] {
            let term = Term::of(derivation.side(side));
            let (what, indices) = match typing(&derivation.declared, &term).kind {
                Kind::Scalar => ("a scalar", vec![]),
                Kind::Ket(index) => ("a ket", vec![index]),
                Kind::Bra(index) => ("a bra", vec![index]),
                Kind::Operator(rows, columns) => ("an operator", vec![rows, columns]),
            };
            let begin = if pieces.is_empty() { "" } else { ", " };
            pieces.push(Piece::Words(format!("{begin}the {side} side is {what}")));
            self.indices(&indices, &mut pieces)?;
        }
        Ok(pieces)
    }

    /// The indices of a kind: of one, or of rows by columns.
    fn indices(&mut self, indices: &[Vec<u16>], pieces: &mut Vec<Piece>) -> Result<(), String> {
        for (index, between) in indices.iter().zip([" of ", " by "]) {
            pieces.push(Piece::Words(between.to_string()));
            pieces.push(Piece::Formula(self.whole(index, None)?));
        }
        Ok(())
    }

    /// What each letter stands for, in the order of the declarations; those of sums as they were met.
    fn legend(&mut self, derivation: &Derivation) -> Result<Vec<Vec<Piece>>, String> {
        let mut legend = Vec::new();
        for k in 0..derivation.types {
            let name = self.whole(&[fejogbu::word(1, k as u8)], None)?;
            legend.push(vec![
                Piece::Formula(name),
                Piece::Words(format!(": type {k}")),
            ]);
        }
        for (k, index) in derivation.bases.iter().enumerate() {
            let name = self.whole(&[fejogbu::word(3, k as u8)], None)?;
            let mut pieces = vec![Piece::Formula(name), Piece::Words(format!(": basis {k}"))];
            self.indices(std::slice::from_ref(index), &mut pieces)?;
            legend.push(pieces);
        }
        for (k, variable) in derivation.variables.iter().enumerate() {
            let name = self.whole(&[fejogbu::word(26, k as u8)], None)?;
            let what = match variable.letter {
                Letter::Scalar => "a scalar",
                Letter::Ket => "a ket",
                Letter::Bra => "a bra",
                Letter::Operator => "an operator",
                Letter::Unitary => "an operator, declared unitary,",
            };
            let what = format!(": variable {k}, {what}");
            let mut pieces = vec![Piece::Formula(name), Piece::Words(what)];
            self.indices(&variable.indices, &mut pieces)?;
            legend.push(pieces);
        }
        self.bound(&mut legend)?;
        Ok(legend)
    }

    fn bound(&mut self, legend: &mut Vec<Vec<Piece>>) -> Result<(), String> {
        let bound: Vec<_> = self
            .names
            .all_bound()
            .iter()
            .map(|b| (b.name.clone(), b.index.clone()))
            .collect();
        for (name, index) in bound {
            let Some(index) = index else { continue };
            let index = self.whole(&index, None)?;
            legend.push(vec![
                Piece::Formula(vec![Token::Name(name)]),
                Piece::Words(": runs over the basis of ".to_string()),
                Piece::Formula(index),
            ]);
        }
        Ok(())
    }
}

/// Whether something is left out of the lines of the steps.
pub fn is_shortened(steps: &[Shown]) -> bool {
    let is_left_out = |token: &Token| matches!(token, Token::LeftOut);
    let mut lines = steps
        .iter()
        .flat_map(|step| [Some(&step.before), step.after.as_ref().ok()]);
    lines.any(|line| line.is_some_and(|tokens| tokens.iter().any(is_left_out)))
}

/// What is said of lines that are shortened.
pub const SHORTENED: &str =
    "In the steps … stands for what is left out of a long line; the two sides and their ends are whole.";

/// What is said of a file of which not all was read.
pub const CUT: &str = "Of this file only the first 65,537 bytes were read.";

/// A step's rule and place, as the examples have it: the name apart from the rest, so that it can be linked.
pub fn step_label(step: Step) -> (String, String) {
    let name = rules::name(step.rule).unwrap_or("rule");
    let mut behind = format!(" ({}) at {}", step.rule, step.place);
    if rules::uses(step.rule, "i=") || step.i != 0 {
        behind += &format!(", i {}", step.i);
    }
    if rules::uses(step.rule, "j=") || step.j != 0 {
        behind += &format!(", j {}", step.j);
    }
    (name.to_string(), behind)
}

#[cfg(test)]
mod tests {
    use super::*;

    /// A part that is not the one that the lookup found ends the page.
    #[test]
    fn a_line_is_written_of_the_part_that_the_lookup_found() {
        let mut writer = Writer {
            names: Names::of(0, 0, &[], None).unwrap(),
            sorts: Vec::new(),
        };
        let words = crate::derivation::words("7:2 9 6 5").unwrap();
        let at_1 = Step {
            place: 1,
            ..Step::default()
        };
        let mut line = |length| writer.line(&words, at_1, Mark::Part, length);
        assert_eq!(
            crate::text::text(crate::notation::marked(&line(2).unwrap())),
            "1*"
        );
        assert_eq!(line(1), Err(DISAGREES.to_string()));
        assert_eq!(line(3), Err(DISAGREES.to_string()));
    }
}
