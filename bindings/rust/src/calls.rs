//! Six of the library's ten functions, and the rules that fit at a place; `lent` calls the four that put declarations and steps together. Every slice that is handed over is of the length
//! that is said, and those that are written are lent to nobody else meanwhile: that is all that the library asks of its caller.
use crate::outside;
use crate::{
    Answer, Code, Declarations, Kind, Preview, Side, Step, Stepped, Steps, Term, Typing, Work, INDEX,
};

fn written(returned: u64) {
    assert_eq!(returned, 0, "the slices for the answer are of their size");
}

/// Replays the bytes of a derivation's file. What stood in the work slices before does not matter; they are left with the two terms as the answer says, and zeros behind.
pub fn replay(bytes: &[u8], work: &mut Work) -> Answer {
    let Work { left, right } = work;
    let mut numbers = [0; 6];
    written(unsafe {
        outside::fejogbu_replay(
            bytes.as_ptr(),
            bytes.len(),
            left.slice.as_mut_ptr(),
            left.slice.len(),
            right.slice.as_mut_ptr(),
            right.slice.len(),
            numbers.as_mut_ptr(),
            numbers.len(),
        )
    });
    settled(numbers, work)
}

/// Takes the steps on the two terms in the work slices, up to the first bad one, and compares the ends.
pub fn run(declarations: &Declarations, work: &mut Work, steps: &Steps) -> Answer {
    let Work { left, right } = work;
    let mut numbers = [0; 6];
    written(unsafe {
        outside::fejogbu_run(
            declarations.words().as_ptr(),
            declarations.words().len(),
            left.slice.as_mut_ptr(),
            left.slice.len(),
            left.length,
            right.slice.as_mut_ptr(),
            right.slice.len(),
            right.length,
            steps.words().as_ptr(),
            steps.words().len(),
            steps.count(),
            numbers.as_mut_ptr(),
            numbers.len(),
        )
    });
    settled(numbers, work)
}

/// The answer, with the lengths that it gives the two terms.
fn settled(numbers: [u64; 6], work: &mut Work) -> Answer {
    let answer = Answer::of(numbers);
    work.left.length = answer.left;
    work.right.length = answer.right;
    answer
}

/// Takes one step of a term.
pub fn step(declarations: &Declarations, term: &mut Term, step: Step) -> Stepped {
    let mut numbers = [0; 5];
    written(unsafe {
        outside::fejogbu_step(
            declarations.words().as_ptr(),
            declarations.words().len(),
            term.slice.as_mut_ptr(),
            term.slice.len(),
            term.length,
            step.rule,
            step.place,
            step.i,
            step.j,
            numbers.as_mut_ptr(),
            numbers.len(),
        )
    });
    let answer = stepped(numbers);
    term.length = answer.length;
    answer
}

fn stepped([code, side, step, at, length]: [u64; 5]) -> Stepped {
    Stepped {
        code: Code::of(code),
        side: Side::of(side),
        step: step as usize,
        at: at as usize,
        length: length as usize,
    }
}

/// Shows one step of a term before it is taken. The term is only read: every field is what taking the step on a copy answers, or what typing then finds of the copy.
///
/// ```
/// use fejogbu::{preview, word, Declarations, Step, Term};
/// let term = Term::of(&[word(9, 0), word(9, 0), word(5, 0)]);
/// let shown = preview(&Declarations::of_types(0).unwrap(), &term, Step { rule: 10, place: 1, ..Step::default() });
/// assert_eq!(shown.to_string(), "leaves a term of 2 words, 2 deep");
/// ```
pub fn preview(declarations: &Declarations, term: &Term, step: Step) -> Preview {
    let ([code, side, taken, at, length, depth], kind) = typed(|numbers, rows, columns| unsafe {
        outside::fejogbu_preview(
            declarations.words().as_ptr(),
            declarations.words().len(),
            term.slice.as_ptr(),
            term.slice.len(),
            term.length,
            step.rule,
            step.place,
            step.i,
            step.j,
            numbers.as_mut_ptr(),
            numbers.len(),
            rows.as_mut_ptr(),
            rows.len(),
            columns.as_mut_ptr(),
            columns.len(),
        )
    });
    Preview {
        stepped: stepped([code, side, taken, at, length]),
        depth: depth as usize,
        kind,
    }
}

/// The rules that fit at a place with these two indices, by their numbers, each with what it would leave: what an editor offers there. The rule of `at` does not matter. A rule that would
/// pass the limits of a term does not fit; where typing refuses the term, none does.
///
/// ```
/// use fejogbu::{fitting, word, Declarations, Step, Term};
/// let term = Term::of(&[word(9, 0), word(9, 0), word(5, 0)]);
/// let rules = fitting(&Declarations::of_types(0).unwrap(), &term, Step { place: 1, ..Step::default() });
/// assert_eq!(rules.iter().map(|(rule, _)| *rule).collect::<Vec<_>>(), [10]);
/// ```
pub fn fitting(declarations: &Declarations, term: &Term, at: Step) -> Vec<(u16, Preview)> {
    (0..RULES)
        .map(|rule| (rule, preview(declarations, term, Step { rule, ..at })))
        .filter(|(_, shown)| shown.stepped.code == Code::Accepted)
        .collect()
}

/// Every rule's number is below this one.
const RULES: u16 = 256;

/// Finds the type of a term, which it leaves as it is.
pub fn typing(declarations: &Declarations, term: &Term) -> Typing {
    let ([code, side, step, at, length, depth], kind) = typed(|numbers, rows, columns| unsafe {
        outside::fejogbu_typing(
            declarations.words().as_ptr(),
            declarations.words().len(),
            term.slice.as_ptr(),
            term.slice.len(),
            term.length,
            numbers.as_mut_ptr(),
            numbers.len(),
            rows.as_mut_ptr(),
            rows.len(),
            columns.as_mut_ptr(),
            columns.len(),
        )
    });
    Typing {
        code: Code::of(code),
        side: Side::of(side),
        step: step as usize,
        at: at as usize,
        length: length as usize,
        depth: depth as usize,
        kind,
    }
}

/// The first six numbers of an answer that has a type, and the type, from slices of their sizes.
fn typed(call: impl FnOnce(&mut [u64; 9], &mut [u16], &mut [u16]) -> u64) -> ([u64; 6], Kind) {
    let mut numbers = [0; 9];
    let mut rows = [0; INDEX];
    let mut columns = [0; INDEX];
    written(call(&mut numbers, &mut rows, &mut columns));
    let [code, side, step, at, length, depth, kind, n, m] = numbers;
    let kind = kind_of(kind, &rows[..n as usize], &columns[..m as usize]);
    ([code, side, step, at, length, depth], kind)
}

/// A part of some words and its depth: a leaf is 1 deep.
#[derive(Clone, Copy, PartialEq, Eq, Debug)]
pub struct Part<'a> {
    pub words: &'a [u16],
    pub depth: usize,
}

/// Looks up the part that begins at an offset of any words. It is empty, and 0 deep, exactly where the offset is not below their number or no whole part begins there; limits, names
/// and types are not looked at.
///
/// ```
/// let term = [fejogbu::word(9, 0), fejogbu::word(9, 0), fejogbu::word(5, 0)];
/// assert_eq!(fejogbu::part(&term, 1).words, &term[1..]);
/// assert_eq!(fejogbu::part(&term, 1).depth, 2);
/// assert_eq!(fejogbu::part(&term, 3).depth, 0);
/// ```
pub fn part(words: &[u16], at: usize) -> Part<'_> {
    let mut depth = 0;
    let length = unsafe { outside::fejogbu_part(words.as_ptr(), words.len(), at, &mut depth) };
    Part {
        words: if length == 0 { &[] } else { &words[at..at + length] },
        depth,
    }
}

fn kind_of(number: u64, rows: &[u16], columns: &[u16]) -> Kind {
    match number {
        0 => Kind::Scalar,
        1 => Kind::Ket(rows.to_vec()),
        2 => Kind::Bra(columns.to_vec()),
        3 => Kind::Operator(rows.to_vec(), columns.to_vec()),
        _ => unreachable!("a type is of one of four kinds"),
    }
}
