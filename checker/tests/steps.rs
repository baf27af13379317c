//! What the step cases are on which `compare.sh` holds the proved step and the
//! proved preview to this checker: they take every rule and narrowly miss it, and
//! meet every code and every limit. The preview of every one of them against the
//! step.

use checker::decl::{Letter, Variable};
use checker::gen::Gen;
use checker::lent::Case;
use checker::preview::{preview, Preview};
use checker::rules::{by_number, Out, Rule, Spot, Way, RULES};
use checker::step::{single, Step, Stepped};
use checker::typing::{typing, Kind, Type};
use checker::words::{
    children_of, head, low, part, parts, word, ADD, ADDS, ADJ, DELTA, DEPTH, MULO, MULS, SCR,
    VARIABLE, WORDS,
};
use std::cmp::Ordering;
use std::collections::BTreeMap;
use std::sync::OnceLock;

/// As `test.sh` calls it.
const SEED: u64 = 1;
const COUNT: usize = 10_000;

/// A generated case, its answer, and the words of the term that was left.
struct Taken {
    case: Case,
    step: Step,
    answer: Stepped,
    left: Vec<u16>,
}

impl Taken {
    /// The rule of the step, and the part at its place.
    fn rule_and_part(&self) -> (&'static Rule, &[u16]) {
        (by_number(self.step.rule).expect("a rule"), self.spot().part)
    }

    /// The term and the place of the step.
    fn spot(&self) -> Spot<'_> {
        let term = &self.case.lent.words[..self.case.lent.length];
        let place = self.step.place.into();
        Spot { term, place, part: part(term, place).words }
    }
}

fn taken() -> &'static [Taken] {
    static TAKEN: OnceLock<Vec<Taken>> = OnceLock::new();
    TAKEN.get_or_init(|| {
        let mut gen = Gen::new(SEED);
        let mut take = || {
            let case = Case::read(&gen.step_case()).expect("a case");
            let step = case.step.expect("a step");
            let mut left = case.slice();
            let answer = single(&case.declared, &mut left, case.lent.length, step);
            left.truncate(answer.length);
            Taken { case, step, answer, left }
        };
        (0..COUNT).map(|_| take()).collect()
    })
}

/// The cases with a code.
fn answered(code: u8) -> impl Iterator<Item = &'static Taken> {
    taken().iter().filter(move |it| it.answer.code == code)
}

/// How often each was met.
fn counted<T: Ord>(items: impl Iterator<Item = T>) -> BTreeMap<T, usize> {
    let mut counts = BTreeMap::new();
    for item in items {
        *counts.entry(item).or_default() += 1;
    }
    counts
}

#[test]
fn every_code_is_met() {
    let codes = counted(taken().iter().map(|it| it.answer.code));
    println!("answers by code: {codes:?}");
    let met: Vec<u8> = codes.into_keys().collect();
    assert_eq!(met, [0, 1, 7, 8, 10, 11, 13, 20, 21, 22, 23]);
}

#[test]
fn every_rule_is_taken_and_missed() {
    for code in [0, 22] {
        let rules = counted(answered(code).map(|it| it.step.rule));
        println!("code {code}: at least {:?} a rule", rules.values().min());
        for rule in &RULES {
            let count = rules.get(&rule.number).copied().unwrap_or(0);
            assert!(count >= 5, "rule {} has code {code} {count} times", rule.number);
        }
    }
}

/// Why a part whose head is that of a rule is no instance of it.
#[derive(Clone, Copy, PartialEq, Eq, PartialOrd, Ord, Debug)]
enum Miss {
    /// With other indices it would be one.
    Indices,
    /// With no indices it would be one.
    Part,
}

fn miss(it: &Taken) -> Option<(u16, Miss)> {
    let (rule, part) = it.rule_and_part();
    let mut room = [0; WORDS];
    let mut fits = |i, j| {
        let mut out = Out::new(&mut room);
        rule.apply(&it.case.declared, it.spot(), i, j, &mut out).is_some()
    };
    let few = 0..5;
    let miss = if few.clone().any(|i| few.clone().any(|j| fits(i, j))) {
        Miss::Indices
    } else {
        Miss::Part
    };
    rule.begins_with(head(part[0])).then_some((rule.number, miss))
}

#[test]
fn every_rule_is_narrowly_missed() {
    let misses = counted(answered(22).filter_map(miss));
    println!("at least {:?} of a rule and a miss", misses.values().min());
    for rule in &RULES {
        for miss in [Miss::Indices, Miss::Part] {
            assert!(misses.contains_key(&(rule.number, miss)), "rule {}: {miss:?}", rule.number);
        }
    }
}

#[test]
fn whatever_has_no_order_is_swapped_and_a_delta_narrowly_missed() {
    let swaps = |code| answered(code).filter(|it| it.step.rule == 170);
    let of = |it: &Taken| head(it.spot().part[0]);
    let taken = counted(swaps(0).map(of));
    let near = |it: &&Taken| miss(it).is_some_and(|(_, miss)| miss == Miss::Indices);
    let by_i = counted(swaps(22).filter(near).filter(|it| it.step.j == 0).map(of));
    let by_j = counted(swaps(22).filter(near).filter(|it| it.step.j != 0).map(of));
    println!("by head: taken {taken:?}; missed by i {by_i:?}, by j {by_j:?}");
    assert!([ADDS, MULS, ADD, DELTA].iter().all(|head| taken.get(head) >= Some(&5)));
    assert!(by_i.contains_key(&DELTA) && by_j.contains_key(&DELTA));
}

/// A product of two variables, of which the first, the second, both or none
/// have the adjoint: their names, and which have it.
fn two_variables(part: &[u16]) -> Option<([u16; 2], [bool; 2])> {
    let &[product, ref children @ ..] = part else {
        return None;
    };
    let of = |child: &[u16]| match *child {
        [name] => Some((name, false)),
        [adjoint, name] if adjoint == word(ADJ, 0) => Some((name, true)),
        _ => None,
    };
    let found: Vec<(u16, bool)> = parts(children).map(of).collect::<Option<_>>()?;
    let [one, two] = found[..] else {
        return None;
    };
    let named = [one.0, two.0].iter().all(|&name| head(name) == VARIABLE);
    (product == word(MULO, 0) && named).then_some(([one.0, two.0], [one.1, two.1]))
}

/// What is wrong with a part that 190 or 191 refuses.
#[derive(Clone, Copy, PartialEq, Eq, PartialOrd, Ord, Debug)]
enum Unmarked {
    OneVariable,
    TwoMarkedVariables,
    TwoOtherVariables,
    Turned,
    BothAdjoint,
    NoneAdjoint,
}

fn unmarked(it: &Taken) -> Option<(u16, Unmarked)> {
    let (rule, part) = it.rule_and_part();
    let (names, adjoint) = two_variables(part)?;
    let wanted = match rule.number {
        190 => [true, false],
        191 => [false, true],
        _ => return None,
    };
    let marked = names.map(|name| it.case.declared.marks(&[name]));
    let turned = adjoint == [wanted[1], wanted[0]];
    let miss = match (names[0] == names[1], marked) {
        (true, [true, _]) if turned => Unmarked::Turned,
        (true, [true, _]) if adjoint == [true; 2] => Unmarked::BothAdjoint,
        (true, [true, _]) if adjoint == [false; 2] => Unmarked::NoneAdjoint,
        _ if adjoint != wanted || (it.step.i, it.step.j) != (0, 0) => return None,
        (true, [false, _]) => Unmarked::OneVariable,
        (false, [true, true]) => Unmarked::TwoMarkedVariables,
        (false, _) => Unmarked::TwoOtherVariables,
        _ => return None,
    };
    Some((rule.number, miss))
}

#[test]
fn every_miss_of_a_marked_pair_is_met() {
    let misses = counted(answered(22).filter_map(unmarked));
    println!("by rule and miss: {misses:?}");
    assert_eq!(misses.len(), 2 * 6);
}

/// How a variable is marked that may not be.
#[derive(Clone, Copy, PartialEq, Eq, PartialOrd, Ord, Debug)]
enum Mark {
    Scalar,
    Ket,
    Bra,
    TwoIndices,
    NoKind,
}

fn bad_mark(variable: &Variable) -> Option<Mark> {
    match variable.letter() {
        None => Some(Mark::NoKind),
        _ if !variable.marked() => None,
        Some(Letter::Scalar) => Some(Mark::Scalar),
        Some(Letter::Ket) => Some(Mark::Ket),
        Some(Letter::Bra) => Some(Mark::Bra),
        Some(Letter::Operator) => {
            let half = variable.words.len() / 2;
            (variable.words[..half] != variable.words[half..]).then_some(Mark::TwoIndices)
        }
    }
}

#[test]
fn every_bad_mark_is_met() {
    let marks = |it: &'static Taken| it.case.declared.variables.iter().filter_map(bad_mark);
    let met = counted(answered(7).flat_map(marks));
    println!("by mark: {met:?}");
    assert_eq!(met.len(), 5);
    // With any other code but 1, which comes before 7, there is none.
    let good = taken().iter().filter(|it| !matches!(it.answer.code, 1 | 7));
    assert_eq!(good.flat_map(marks).count(), 0);
}

/// Whether a refused part has just one child too few, or two children that
/// should be equal and are not.
fn nearly(it: &Taken) -> bool {
    let (rule, part) = it.rule_and_part();
    match rule.way {
        Way::Remove { parent, unit } => part[0] == word(parent, 1) && head(part[1]) == unit,
        Way::Collect { i_scaled, j_scaled } if rule.begins_with(head(part[0])) => {
            let child = |k: u16| parts(&part[1..]).nth(k.into());
            let stands = |k, scaled: bool| child(k).is_some_and(|it| !scaled || head(it[0]) == SCR);
            let Step { i, j, .. } = it.step;
            i < j && stands(i, i_scaled) && stands(j, j_scaled)
        }
        _ => false,
    }
}

#[test]
fn lone_units_and_unequal_summands_are_met() {
    let rules = counted(answered(22).filter(|it| nearly(it)).map(|it| it.step.rule));
    println!("by rule: {rules:?}");
    let met: Vec<u16> = rules.into_keys().collect();
    assert_eq!(met, [4, 6, 51, 52, 53, 54, 55, 56, 57]);
}

/// What stands at a limit after a good step, or past it after a refused one.
#[derive(Clone, Copy, PartialEq, Eq, PartialOrd, Ord, Debug)]
enum Limit {
    Children,
    Words,
    Depth,
}

/// Merged children, where the parent has so many and the child two.
fn merged_two(it: &Taken, parent: u8) -> Option<Limit> {
    let (rule, part) = it.rule_and_part();
    let child = parts(&part[1..]).nth(it.step.i.into())?;
    let two = low(part[0]) == parent && low(child[0]) == 2;
    (rule.number == 1 && two).then_some(Limit::Children)
}

fn at_limit(it: &Taken) -> Option<Limit> {
    match it.left.len() {
        WORDS => Some(Limit::Words),
        _ if part(&it.left, 0).depth == DEPTH => Some(Limit::Depth),
        _ => merged_two(it, 254),
    }
}

fn past_limit(it: &Taken) -> Option<Limit> {
    let (rule, part) = it.rule_and_part();
    let mut room = vec![0; 1 << 20];
    let mut out = Out::new(&mut room);
    let (i, j) = (it.step.i.into(), it.step.j.into());
    rule.apply(&it.case.declared, it.spot(), i, j, &mut out).expect("an instance");
    match out.done() {
        None => merged_two(it, 255),
        Some(new) if it.left.len() - part.len() + new.len() > WORDS => Some(Limit::Words),
        Some(_) => Some(Limit::Depth),
    }
}

#[test]
fn every_limit_is_met_and_passed() {
    let met = counted(answered(0).filter_map(at_limit));
    let passed = counted(answered(23).filter_map(past_limit));
    println!("met: {met:?}; passed: {passed:?}");
    assert_eq!((met.len(), passed.len()), (3, 3));
}

#[test]
fn words_behind_the_term_are_met_with_every_code() {
    let dirty =
        |it: &&Taken| it.case.slice().iter().skip(it.case.lent.length).any(|&word| word != 0);
    let codes = counted(taken().iter().filter(dirty).map(|it| it.answer.code));
    println!("by code: {codes:?}");
    assert_eq!(codes.len(), 11);
}

/// The depth of the part that words begin with, and what stands behind it.
fn depth(words: &[u16]) -> (usize, &[u16]) {
    let (&first, mut rest) = words.split_first().expect("a word");
    let mut deepest = 0;
    for _ in 0..children_of(first).expect("a known head") {
        let (child, behind) = depth(rest);
        deepest = deepest.max(child);
        rest = behind;
    }
    (deepest + 1, rest)
}

fn letter(kind: Kind) -> char {
    match kind {
        Kind::Scalar => 'S',
        Kind::Ket(_) => 'K',
        Kind::Bra(_) => 'B',
        Kind::Operator(..) => 'O',
    }
}

/// The answer is that of the single step, the depth that of the words it left,
/// by a walk of its own, and the type that before the step, which keeps it.
#[test]
fn a_preview_is_the_step_on_a_copy() {
    let (mut depths, mut kinds) = (Vec::new(), Vec::new());
    for (k, it) in taken().iter().enumerate() {
        let (slice, told) = (it.case.slice(), it.case.lent.length);
        let before = typing(&it.case.declared, &slice, told);
        let seen = preview(&it.case.declared, &slice, told, it.step);
        let Preview { code, step, at, length, .. } = seen;
        assert_eq!(Stepped { code, step, at, length }, it.answer, "case {k}");
        if (1..20).contains(&code) {
            assert_eq!((length, seen.depth, seen.found), (0, 0, Type::SCALAR), "case {k}");
            continue;
        }
        assert_eq!((seen.depth, &[][..]), depth(&it.left), "case {k}");
        assert_eq!(seen.found, before.found, "case {k}");
        depths.push((code, seen.depth.cmp(&before.depth)));
        kinds.push((code, letter(seen.found.kind)));
    }
    let (depths, kinds) = (counted(depths.into_iter()), counted(kinds.into_iter()));
    println!("by code and depth: {depths:?}; by code and kind: {kinds:?}");
    for way in [Ordering::Less, Ordering::Equal, Ordering::Greater] {
        assert!(depths.get(&(0, way)) >= Some(&50), "good steps, depth {way:?}");
    }
    for code in [0, 20, 21, 22, 23] {
        for kind in ['S', 'K', 'B', 'O'] {
            assert!(kinds.contains_key(&(code, kind)), "code {code} and kind {kind}");
        }
    }
    assert!(depths.keys().all(|&(code, way)| code == 0 || way == Ordering::Equal));
}
