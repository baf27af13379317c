//! On random instances, alone and inside larger terms, every rule keeps the
//! type and every entry of the matrix.

mod common;

use checker::gen::Gen;
use checker::matrix::{meaning, Gauss};
use checker::rules::{Out, Spot, RULES};
use checker::step::{single, Step};
use checker::typing::typing;
use checker::words::{children_of, part, parts, tokens, WORDS};

const INSTANCES: usize = 150;
const CHOICES: usize = 2;

/// Rules whose two sides are zero whatever stands in them.
const ALWAYS_ZERO: [u16; 28] = [
    5, 10, 20, 21, 43, 44, 45, 46, 47, 48, 64, 67, 70, 84, 85, 87, 88, 90, 91, 100, 101, 120, 121,
    140, 141, 150, 151, 180,
];

#[test]
fn every_rule_keeps_type_and_matrix() {
    let mut gen = Gen::new(common::seed());
    let (mut compared, mut telling, mut fewest) = (0, 0, usize::MAX);
    for rule in &RULES {
        let mut done = 0;
        let mut telling_here = 0;
        while done < INSTANCES {
            gen.declare();
            let instance = gen.instance(rule).expect("an instance of each rule is found");
            let (_, before, place) = gen.wrap(&instance.want, &instance.words);
            let mut slice = vec![7; WORDS];
            slice[..before.len()].copy_from_slice(&before);
            let shown = format!("rule {} at {place} of {}", rule.number, tokens(&before));

            let old = typing(&gen.declared, &slice, before.len());
            assert_eq!(old.code, 0, "{shown}");
            let step =
                Step { rule: rule.number, place: place as u16, i: instance.i, j: instance.j };
            let answer = single(&gen.declared, &mut slice, before.len(), step);
            assert_eq!((answer.code, answer.step, answer.at), (0, 1, 0), "{shown}");
            assert!(slice[answer.length..].iter().all(|&word| word == 0), "{shown}");
            let new = typing(&gen.declared, &slice, answer.length);
            assert_eq!((new.code, new.found), (0, old.found), "{shown}");

            // Words before and behind the part are kept.
            let behind = before.len() - place - instance.words.len();
            assert_eq!(slice[..place], before[..place], "{shown}");
            assert_eq!(
                slice[answer.length - behind..answer.length],
                before[before.len() - behind..],
                "{shown}"
            );

            let mut compared_here = 0;
            for largest in [3, 3, 3, 2, 2, 1] {
                let choice = gen.choice(largest).expect("declared indices are small");
                let Some(old) = meaning(&gen.declared, &choice, &before) else {
                    continue;
                };
                let new = meaning(&gen.declared, &choice, &slice[..answer.length]);
                let Some(new) = new else {
                    continue;
                };
                assert_eq!(old, new, "{shown} under {choice:?}");
                compared += 1;
                telling_here += usize::from(old.entries.iter().any(|&entry| entry != Gauss::ZERO));
                compared_here += 1;
                if compared_here == CHOICES {
                    break;
                }
            }
            done += usize::from(compared_here == CHOICES);
        }
        telling += telling_here;
        if !ALWAYS_ZERO.contains(&rule.number) {
            fewest = fewest.min(telling_here);
            assert!(
                telling_here >= 20,
                "rule {} had {telling_here} of not only zeros",
                rule.number
            );
        }
    }
    println!("{compared} pairs of matrices, {telling} not all zero, at least {fewest} a rule");
    assert!(compared >= RULES.len() * INSTANCES * CHOICES);
}

/// Without this the equality of entries would speak of choices that request 7
/// leaves out; with the identity alone it would hardly be tested.
#[test]
fn what_is_marked_is_unitary_in_every_choice() {
    let mut gen = Gen::new(common::seed() ^ 7);
    let (mut marked, mut hermitian, mut other) = (0, 0, 0);
    for _ in 0..1_000 {
        gen.declare();
        let choice = gen.choice(3).expect("declared indices are small");
        for (variable, matrix) in gen.declared.variables.iter().zip(&choice.variables) {
            let unitary = matrix.unitary().expect("a small matrix");
            if variable.marked() {
                assert!(unitary, "{matrix:?}");
                marked += 1;
                hermitian += usize::from(Some(matrix) == matrix.adjoint().as_ref());
            } else {
                other += usize::from(!unitary);
            }
        }
    }
    println!("{marked} marked matrices, {hermitian} equal to their adjoint; {other} not unitary");
    assert!(marked > 1_000 && marked > 2 * hermitian && other > 1_000);
}

/// The depth of a whole part, without a limit.
fn depth(words: &[u16]) -> usize {
    assert!(children_of(words[0]).is_some());
    1 + parts(&words[1..]).map(depth).max().unwrap_or(0)
}

#[test]
fn the_limits_are_those_of_the_whole_result() {
    let mut gen = Gen::new(common::seed() ^ 6);
    let mut codes = [0; 24];
    let mut room = vec![0; 1 << 20];
    for round in 0..RULES.len() * 100 {
        gen.declare();
        let rule = &RULES[round % RULES.len()];
        let instance = gen.instance(rule).expect("an instance of each rule is found");
        let (want, words, inner) = gen.wrap(&instance.want, &instance.words);
        let (before, above) = gen.deepen(&want, &words);
        let place = above + inner;

        // The whole result, made without any limit.
        let mut out = Out::new(&mut room);
        let old = part(&before, place).words;
        let (i, j) = (instance.i.into(), instance.j.into());
        let spot = Spot { term: &before, place, part: old };
        rule.apply(&gen.declared, spot, i, j, &mut out).expect("an instance");
        let new = out.done().expect("room for the result");
        let whole = [&before[..place], new, &before[place + old.len()..]].concat();
        let fits = whole.len() <= 4096 && depth(&whole) <= 64;

        let mut slice = vec![1; WORDS];
        slice[..before.len()].copy_from_slice(&before);
        let step = Step { rule: rule.number, place: place as u16, i: instance.i, j: instance.j };
        let answer = single(&gen.declared, &mut slice, before.len(), step);
        let shown = format!("rule {} at {place} of {}", rule.number, tokens(&before));
        if fits {
            assert_eq!((answer.code, answer.length), (0, whole.len()), "{shown}");
            assert_eq!(slice[..answer.length], whole, "{shown}");
        } else {
            assert_eq!((answer.code, answer.at, answer.step), (23, place, 1), "{shown}");
            assert_eq!(slice[..answer.length], before, "{shown}");
        }
        codes[usize::from(answer.code)] += 1;
    }
    println!("answers by code: {codes:?}");
    assert!(codes[23] > 100 && codes[0] > 1000);
}
