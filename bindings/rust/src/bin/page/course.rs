//! A derivation as the library replays it: its answer to the file, and the terms that the proved single step leaves, one by one. Nothing is rewritten here.
use crate::derivation::Derivation;
use fejogbu::{part, replay, step, typing, Answer, Code, Side, Step, Term, Work};
use std::ops::Range;
use std::rc::Rc;

/// A step that was taken.
pub struct Taken {
    pub side: Side,
    pub step: Step,
    pub before: Rc<[u16]>,
    pub after: Rc<[u16]>,
    /// Where the part stands that it rewrites, and where what it has become.
    pub part: Range<usize>,
    pub result: Range<usize>,
}

/// What a file has come to.
pub enum Outcome {
    /// Codes 2 to 9: it is not of the form.
    Lines,
    /// Codes 10 to 13: no step was looked at.
    Untyped(Derivation),
    /// Codes 0, 20 to 23 and 30: the steps up to the bad one, and the two terms that are left.
    Steps {
        derivation: Derivation,
        taken: Vec<Taken>,
        left: Rc<[u16]>,
        right: Rc<[u16]>,
    },
}

/// The answer to a file, in numbers and in words, and what is to be shown of it.
pub struct Course {
    pub answer: Answer,
    pub words: String,
    pub outcome: Outcome,
}

/// Why there is no page, which no file should bring about.
pub const DISAGREES: &str =
    "the library and the page read this file differently, so there is no page; please report it";

/// Replays a file. What is shown is checked against the answer, and against the words that the replay left.
pub fn course(bytes: &[u8], work: &mut Work) -> Result<Course, String> {
    let answer = replay(bytes, work);
    let disagrees = || DISAGREES.to_string();
    let (outcome, rule) = match answer.code.number() {
        1..=9 => (Outcome::Lines, None),
        code => {
            let derivation = Derivation::read(bytes).ok_or_else(disagrees)?;
            let bad = answer.step.checked_sub(1);
            let rule = bad.and_then(|k| Some(derivation.steps.get(k)?.1.rule));
            let outcome = match code {
                10..=13 => untyped(derivation, answer),
                _ => stepped(derivation, answer, work),
            };
            (outcome.ok_or_else(disagrees)?, rule)
        }
    };
    Ok(Course {
        answer,
        words: answer.told(rule),
        outcome,
    })
}

/// The two terms, where typing of each says what the replay said.
fn untyped(derivation: Derivation, answer: Answer) -> Option<Outcome> {
    let of = |side| typing(&derivation.declared, &Term::of(derivation.side(side)));
    let agrees = match answer.side {
        Some(side) => (of(side).code, of(side).at) == (answer.code, answer.at),
        None => of(Side::Left).kind != of(Side::Right).kind,
    };
    agrees.then_some(Outcome::Untyped(derivation))
}

/// Takes the steps one by one, and compares what is left with what the replay left.
fn stepped(derivation: Derivation, answer: Answer, work: &Work) -> Option<Outcome> {
    let mut terms = [Term::of(&derivation.left), Term::of(&derivation.right)];
    let mut now: [Rc<[u16]>; 2] = [terms[0].words().into(), terms[1].words().into()];
    let mut taken = Vec::new();
    let mut refused = None;
    for &(side, by) in &derivation.steps {
        let k = usize::from(side.number()) - 1;
        let code = step(&derivation.declared, &mut terms[k], by).code;
        if code != Code::Accepted {
            refused = Some(code);
            break;
        }
        let before = std::mem::replace(&mut now[k], terms[k].words().into());
        taken.push(after_step(side, by, before, now[k].clone())?);
    }
    let [left, right] = now;
    let good = answer.step.checked_sub(usize::from(refused.is_some()));
    let agrees = good == Some(taken.len())
        && refused.is_none_or(|code| code == answer.code)
        && (refused.is_some() || (answer.code == Code::Accepted) == (left == right))
        && (&*left, &*right) == (work.left.words(), work.right.words());
    agrees.then_some(Outcome::Steps {
        derivation,
        taken,
        left,
        right,
    })
}

/// The step with its part before and after, as the proved lookup finds them.
fn after_step(side: Side, by: Step, before: Rc<[u16]>, after: Rc<[u16]>) -> Option<Taken> {
    let place = usize::from(by.place);
    let part_before = place..place + part(&before, place).words.len();
    let result = place..place + part(&after, place).words.len();
    (!part_before.is_empty() && !result.is_empty()).then_some(Taken {
        side,
        step: by,
        before,
        after,
        part: part_before,
        result,
    })
}

#[cfg(test)]
mod tests {
    use super::*;

    const FILE: &str = "types=0\nvar=S\nvar=S\nleft=9 9 26:0\nright=26:0\nstep=L 14 0 0 0\nend=1\n";

    fn read(text: &str) -> (Derivation, Answer, Work) {
        let mut work = Work::new();
        let answer = replay(text.as_bytes(), &mut work);
        (Derivation::read(text.as_bytes()).unwrap(), answer, work)
    }

    #[test]
    fn a_step_has_its_part_before_and_after() {
        let course = course(FILE.as_bytes(), &mut Work::new()).unwrap();
        assert_eq!(course.words, "accepted after 1 step");
        let Outcome::Steps { taken, .. } = course.outcome else {
            panic!("it was not stepped")
        };
        let [taken] = &taken[..] else {
            panic!("it has one step")
        };
        assert_eq!((taken.part.clone(), taken.result.clone()), (0..3, 0..1));
        assert_eq!(taken.before.len(), 3);
    }

    /// Whatever the page has from its own reading and not from the replay, there is no page.
    #[test]
    fn there_is_no_page_where_two_readings_differ() {
        let (_, answer, work) = read(FILE);
        let with = |text: &str| stepped(read(text).0, answer, &work).is_some();
        assert!(with(FILE));
        assert!(!with(&FILE.replace("step=L 14", "step=R 14")));
        assert!(!with(&FILE.replace("right=26:0", "right=9 26:0")));
        assert!(!with(&FILE.replace("26:0", "26:1")));
        assert!(!with(&FILE.replace("step=L 14 0 0 0\nend=1", "end=0")));
        let refused = |code| stepped(read(FILE).0, Answer { code, ..answer }, &work).is_some();
        assert!(!refused(Code::NoInstance) && !refused(Code::EndsDiffer));
        let (_, answer, work) = read(&FILE.replace("14 0 0 0", "14 1 0 0"));
        assert_eq!(answer.code, Code::NoInstance);
        assert!(stepped(read(FILE).0, answer, &work).is_none());
    }

    #[test]
    fn typing_must_say_what_the_replay_said() {
        let untyped_file = FILE.replace("left=9 9 26:0", "left=9 18 26:0");
        let (derivation, answer, _) = read(&untyped_file);
        assert_eq!((answer.code, answer.at), (Code::Untyped, 1));
        assert!(untyped(derivation, answer).is_some());
        assert!(untyped(read(FILE).0, answer).is_none());
        let elsewhere = Answer { at: 0, ..answer };
        assert!(untyped(read(&untyped_file).0, elsewhere).is_none());
    }
}
