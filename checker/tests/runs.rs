//! What the run cases are on which `compare.sh` holds the proved run to this
//! checker, and every one of them against typing and single steps.

use checker::gen::Gen;
use checker::lent::{Rooms, RunCase};
use checker::run::{Answer, STEP_WORDS};
use checker::step::{single, Step};
use checker::typing::{typing, Typing};
use checker::words::WORDS;
use std::collections::BTreeMap;

/// As `test.sh` calls it.
const SEED: u64 = 1;
const COUNT: usize = 10_000;

/// The codes of a run.
const CODES: [u8; 16] = [0, 1, 5, 6, 7, 8, 9, 10, 11, 12, 13, 20, 21, 22, 23, 30];

/// Left and right.
type Slices = [Vec<u16>; 2];

/// A generated case, the slices that it lends, its answer, and the slices then.
struct Ran {
    case: RunCase,
    lent: Slices,
    answer: Answer,
    then: Slices,
}

impl Ran {
    /// Whether words stand behind those of the case.
    fn dirty(&self) -> bool {
        let given = [self.case.left.words.len(), self.case.right.words.len()];
        (0..2).any(|side| self.lent[side].iter().skip(given[side]).any(|&word| word != 0))
    }
}

/// Runs the cases in the same two rooms, and looks at each.
fn each(mut look: impl FnMut(usize, Ran)) {
    let mut gen = Gen::new(SEED);
    let mut rooms = Rooms::default();
    for k in 0..COUNT {
        let case = RunCase::read(&gen.run_case()).expect("a case");
        let (left, right) = case.slices(&mut rooms);
        let lent = [left.to_vec(), right.to_vec()];
        let (answer, left, right) = case.run(&mut rooms);
        let then = [left.to_vec(), right.to_vec()];
        look(k, Ran { case, lent, answer, then });
    }
}

#[test]
fn every_code_is_met_also_with_words_behind_the_terms() {
    let (mut all, mut dirty) = (BTreeMap::new(), BTreeMap::new());
    let (mut long, mut large) = (0, 0);
    each(|_, it| {
        let Answer { code, step, left, .. } = it.answer;
        *all.entry(code).or_insert(0) += 1;
        *dirty.entry(code).or_insert(0) += usize::from(it.dirty());
        long += usize::from(code == 0 && step >= 500);
        large += usize::from(code == 0 && left >= 2_000);
    });
    println!("answers by code: {all:?}; with words behind: {dirty:?}");
    println!("accepted: {long} of 500 steps or more, {large} of 2,000 words or more");
    assert_eq!(Vec::from_iter(all.keys().copied()), CODES);
    assert!(all[&0] > COUNT / 2, "most are good");
    assert!(dirty.values().all(|&count| count > 0));
    assert!(long >= 10 && large >= 10);
}

/// The answer before the first step, by typing; 0 when all is well so far.
fn by_typing(case: &RunCase, slices: &Slices) -> Answer {
    let left = typing(&case.declared, &slices[0], case.left.length);
    let right = typing(&case.declared, &slices[1], case.right.length);
    let refused = |code| Answer { code, ..Answer::default() };
    if let Some(code) = [1, 7, 8].into_iter().find(|code| [left.code, right.code].contains(code)) {
        return refused(code);
    }
    match (left, right) {
        _ if case.count > 1_000 => refused(6),
        _ if case.steps.len() / STEP_WORDS < case.count => refused(9),
        _ if sides(case).any(|side| side != 1 && side != 2) => refused(5),
        (Typing { code: 10 | 11 | 13, at, .. }, _) => Answer { side: 1, at, ..refused(left.code) },
        (_, Typing { code: 10 | 11 | 13, at, .. }) => Answer { side: 2, at, ..refused(right.code) },
        _ if left.found != right.found => refused(12),
        _ => refused(0),
    }
}

/// The side words of the steps that are told.
fn sides(case: &RunCase) -> impl Iterator<Item = u16> + '_ {
    case.steps.iter().copied().step_by(STEP_WORDS).take(case.count)
}

/// The answer by single steps, taken in the slices of a case that is good so
/// far.
fn by_single_steps(case: &RunCase, slices: &mut Slices) -> Answer {
    let mut lengths = [case.left.length, case.right.length];
    let mut answer = Answer::default();
    for side in 0..2 {
        slices[side][lengths[side]..].fill(0);
    }
    for words in case.steps.chunks(STEP_WORDS).take(case.count) {
        let side = usize::from(words[0]) - 1;
        let step = Step { rule: words[1], place: words[2], i: words[3], j: words[4] };
        let done = single(&case.declared, &mut slices[side], lengths[side], step);
        lengths[side] = done.length;
        answer.step += 1;
        if done.code != 0 {
            answer = Answer { code: done.code, side: side as u8 + 1, at: done.at, ..answer };
            break;
        }
    }
    if answer.code == 0 && slices[0] != slices[1] {
        answer.code = 30;
        answer.at = (0..WORDS).find(|&k| slices[0][k] != slices[1][k]).unwrap();
    }
    [answer.left, answer.right] = lengths;
    answer
}

#[test]
fn a_run_is_its_typings_and_its_single_steps() {
    each(|k, it| {
        let mut slices = it.lent;
        let mut answer = by_typing(&it.case, &slices);
        match answer.code {
            0 => answer = by_single_steps(&it.case, &mut slices),
            1 => {}
            _ => slices.iter_mut().for_each(|slice| slice.fill(0)),
        }
        assert_eq!(answer, it.answer, "case {k}");
        assert!(slices == it.then, "the slices of case {k}");
    });
}
