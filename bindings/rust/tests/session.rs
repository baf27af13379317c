//! The scope's derivation and its damaged copies, through each function.
use fejogbu::{
    fitting, part, preview, replay, run, step, typing, word, Answer, Code, Declarations, Kind,
    Outcome, Refused, Side, Step, Steps, Term, Variable, Work,
};

const SESSION: &str = "types=1\nbasis=1:0\nvar=O 1:0 1:0\nleft=22 18 15 1:0 16 3:0\nright=16 3:0\nstep=L 71 1 0 0\nstep=L 102 0 0 0\nend=2\n";

const TYPE: u16 = word(1, 0);
const BASIS: u16 = word(3, 0);
const LEFT: [u16; 6] = [
    word(22, 0),
    word(18, 0),
    word(15, 0),
    TYPE,
    word(16, 0),
    BASIS,
];
const BETWEEN: [u16; 5] = [word(22, 0), word(15, 0), TYPE, word(16, 0), BASIS];
const RIGHT: [u16; 2] = [word(16, 0), BASIS];

/// The session's declarations.
fn declarations() -> Declarations {
    let mut declared = Declarations::of_types(1).unwrap();
    assert_eq!(declared.basis(&[TYPE]), Ok(BASIS));
    assert_eq!(
        declared.variable(Variable::Operator(&[TYPE], &[TYPE])),
        Ok(word(26, 0))
    );
    declared
}

/// The step of a rule at a place, without numbers.
fn by(rule: u16, place: u16) -> Step {
    Step {
        rule,
        place,
        ..Step::default()
    }
}

/// The session's steps.
fn steps() -> Steps {
    let mut steps = Steps::new();
    steps.push(Side::Left, by(71, 1)).unwrap();
    steps.push(Side::Left, by(102, 0)).unwrap();
    steps
}

/// Work slices that held other terms before.
fn dirty() -> Work {
    Work::of(&[9; 4096], &[8; 4096])
}

/// The answer to the session with one text in it replaced.
fn damaged(old: &str, new: &str) -> (Answer, Work) {
    assert!(SESSION.contains(old));
    let mut work = dirty();
    let answer = replay(SESSION.replacen(old, new, 1).as_bytes(), &mut work);
    (answer, work)
}

/// Code, side, step, at of an answer.
fn numbers(answer: Answer) -> (u8, u16, usize, usize) {
    let side = answer.side.map_or(0, Side::number);
    (answer.code.number(), side, answer.step, answer.at)
}

fn is_zero(work: &Work) -> bool {
    work.left
        .slice()
        .iter()
        .chain(work.right.slice())
        .all(|&w| w == 0)
}

#[test]
fn the_session_is_accepted() {
    let mut work = dirty();
    let answer = replay(SESSION.as_bytes(), &mut work);
    assert_eq!(numbers(answer), (0, 0, 2, 0));
    assert_eq!((answer.left, answer.right), (2, 2));
    assert_eq!(answer.code.outcome(), Outcome::Accepted);
    assert_eq!(
        (work.left.words(), work.right.words()),
        (&RIGHT[..], &RIGHT[..])
    );
    assert!(work.left.slice()[2..].iter().all(|&w| w == 0));
}

#[test]
fn damages_by_the_typist() {
    let cases = [
        ("types=1\n", "types=1\u{7}\n", (3, 0, 0, 1)),
        ("end=2\n", "end=2", (3, 0, 0, 8)),
        ("right=16 3:0\n", "", (4, 0, 0, 5)),
        ("types=1", "types=33", (5, 0, 0, 1)),
        ("left=22", "left=22:0", (5, 0, 0, 4)),
        ("step=L 71 1 0 0", "step=L 71 1 0", (5, 0, 0, 6)),
        ("basis=1:0", "basis=2 1:0", (7, 0, 0, 2)),
        ("right=16 3:0", "right=16 3:1", (8, 0, 0, 5)),
        ("end=2", "end=3", (9, 0, 0, 8)),
        (
            "left=22 18 15 1:0 16 3:0",
            "left=22 16 3:0 16 3:0",
            (10, 1, 0, 0),
        ),
        ("right=16 3:0", "right=3:0", (11, 2, 0, 0)),
        ("right=16 3:0", "right=6", (12, 0, 0, 0)),
        ("right=16 3:0", "right=16 28:0", (13, 2, 0, 1)),
    ];
    for (old, new, expected) in cases {
        let (answer, work) = damaged(old, new);
        assert_eq!(numbers(answer), expected, "{new}");
        assert_eq!(answer.code.outcome(), Outcome::Typist);
        assert_eq!((answer.left, answer.right), (0, 0));
        assert!(is_zero(&work), "{new}");
    }
}

#[test]
fn sizes_of_files() {
    let mut work = dirty();
    assert_eq!(numbers(replay(b"", &mut work)), (3, 0, 0, 1));
    assert_eq!(numbers(replay(&[b'\n'; 65536], &mut work)), (4, 0, 0, 1));
    assert_eq!(numbers(replay(&[b'\n'; 65537], &mut work)), (2, 0, 0, 0));
    let basis = "basis=1:0\n".repeat(33);
    let (answer, _) = damaged("basis=1:0\n", &basis);
    assert_eq!(numbers(answer), (6, 0, 0, 34));
}

#[test]
fn damages_by_the_maker_of_the_steps() {
    let cases = [
        ("step=L 102 0 0 0", "step=L 8 0 0 0", (20, 1, 2, 0)),
        ("step=L 102 0 0 0", "step=L 102 5 0 0", (21, 1, 2, 5)),
        ("step=L 102 0 0 0", "step=L 103 0 0 0", (22, 1, 2, 0)),
        ("step=L 102 0 0 0", "step=R 102 0 0 0", (22, 2, 2, 0)),
    ];
    for (old, new, expected) in cases {
        let (answer, work) = damaged(old, new);
        assert_eq!(numbers(answer), expected, "{new}");
        assert_eq!(answer.code.outcome(), Outcome::Maker);
        // the terms before the bad step
        assert_eq!(
            (work.left.words(), work.right.words()),
            (&BETWEEN[..], &RIGHT[..])
        );
    }
    let (answer, work) = damaged("step=L 102 0 0 0\nend=2", "end=1");
    assert_eq!(numbers(answer), (30, 0, 1, 0));
    assert_eq!(
        answer.to_string(),
        "the steps are good, and the ends differ from word 0 on"
    );
    assert_eq!(
        (work.left.words(), work.right.words()),
        (&BETWEEN[..], &RIGHT[..])
    );
}

#[test]
fn every_cut_of_the_session_is_answered() {
    let mut work = dirty();
    for n in 0..SESSION.len() {
        let answer = replay(&SESSION.as_bytes()[..n], &mut work);
        assert_eq!(answer.code.outcome(), Outcome::Typist, "{n} bytes");
        assert!(is_zero(&work));
    }
}

#[test]
fn a_run_of_lent_steps() {
    let mut work = Work::of(&LEFT, &RIGHT);
    let answer = run(&declarations(), &mut work, &steps());
    assert_eq!(numbers(answer), (0, 0, 2, 0));
    assert_eq!(
        (work.left.words(), work.right.words()),
        (&RIGHT[..], &RIGHT[..])
    );

    let mut bad = steps();
    bad.push(Side::Right, by(107, 1)).unwrap();
    let mut work = Work::of(&LEFT, &RIGHT);
    let answer = run(&declarations(), &mut work, &bad);
    assert_eq!(numbers(answer), (22, 2, 3, 1));
    assert_eq!(
        answer.told(bad.rule(answer.step)),
        "step 3 on the right, rule 107 at word 1: the part there is no instance of the rule"
    );
    assert_eq!(work.left.words(), RIGHT);

    let mut work = Work::of(&LEFT[..5], &RIGHT);
    assert_eq!(
        run(&declarations(), &mut work, &steps()).code,
        Code::BadTerm
    );
    assert!(is_zero(&work));
    let mut work = Work::of(&[TYPE; 5000], &RIGHT);
    assert_eq!(
        run(&declarations(), &mut work, &steps()).code,
        Code::BadTerm
    );
}

#[test]
fn single_steps() {
    let mut term = Term::of(&LEFT);
    let answer = step(&declarations(), &mut term, by(71, 1));
    assert_eq!(
        (
            answer.code,
            answer.side,
            answer.step,
            answer.at,
            answer.length
        ),
        (Code::Accepted, None, 1, 0, 5)
    );
    assert_eq!(term.words(), BETWEEN);
    let answer = step(&declarations(), &mut term, by(71, 1));
    assert_eq!(
        (answer.code, answer.step, answer.at, answer.length),
        (Code::NoInstance, 1, 1, 5)
    );
    assert_eq!(
        answer.to_string(),
        "at word 1: the part there is no instance of the rule"
    );
    let answer = step(&declarations(), &mut Term::of(&[BASIS]), Step::default());
    assert_eq!(
        (answer.code, answer.step, answer.length),
        (Code::NoTerm, 0, 0)
    );
}

/// Every rule at every place, good or not: the preview is what the step on a copy answers, and what typing finds of the copy.
#[test]
fn previews_are_the_steps_on_a_copy() {
    let declared = declarations();
    for term in [Term::of(&LEFT), Term::of(&RIGHT), Term::of(&[BASIS]), sum(255)] {
        for (rule, place) in (0..256).flat_map(|rule| (0..7).map(move |place| (rule, place))) {
            let shown = preview(&declared, &term, by(rule, place));
            let mut copy = term.clone();
            assert_eq!(shown.stepped, step(&declared, &mut copy, by(rule, place)));
            let found = typing(&declared, &copy);
            assert_eq!((shown.depth, shown.kind), (found.depth, found.kind));
        }
    }
}

#[test]
fn the_rules_that_fit() {
    let at = |place| Step { place, ..Step::default() };
    let rules = |words: &[u16], at| -> Vec<(u16, String)> {
        let found = fitting(&declarations(), &Term::of(words), at).into_iter();
        found.map(|(rule, shown)| (rule, shown.to_string())).collect()
    };
    let first = (71, "leaves a term of 5 words, 3 deep".to_string());
    let last = (102, "leaves a term of 2 words, 2 deep".to_string());
    assert_eq!(rules(&LEFT, at(1)), [first]);
    assert_eq!(rules(&BETWEEN, at(0)), [last]);
    assert_eq!(rules(&LEFT, at(0)), []);
    assert_eq!(rules(&LEFT, at(6)), []);
    assert_eq!(rules(&[BASIS], at(0)), []);
}

/// A sum of so many scalars, of which the first is a sum of two.
fn sum(n: u8) -> Term {
    let mut words = vec![word(7, n), word(7, 2), word(6, 0), word(6, 0)];
    words.extend(vec![word(6, 0); usize::from(n) - 1]);
    Term::of(&words)
}

#[test]
fn a_step_past_the_limits() {
    let merge = by(1, 0);
    let mut term = sum(254);
    assert_eq!(step(&declarations(), &mut term, merge).code, Code::Accepted);
    assert_eq!(term.words()[0], word(7, 255));
    assert_eq!(
        step(&declarations(), &mut sum(255), merge).code,
        Code::PastLimits
    );
}

#[test]
fn types_of_terms() {
    let found = typing(&declarations(), &Term::of(&LEFT));
    assert_eq!(
        (found.code, found.length, found.depth, found.kind),
        (Code::Accepted, 6, 4, Kind::Ket(vec![TYPE]))
    );
    let operator = typing(&declarations(), &Term::of(&LEFT[1..4]));
    assert_eq!(operator.kind, Kind::Operator(vec![TYPE], vec![TYPE]));
    let bra = typing(&declarations(), &Term::of(&[word(17, 0), BASIS]));
    assert_eq!(bra.kind, Kind::Bra(vec![TYPE]));
    let scalar = typing(&declarations(), &Term::of(&[word(6, 0)]));
    assert_eq!(
        (scalar.code, scalar.length, scalar.depth, scalar.kind),
        (Code::Accepted, 1, 1, Kind::Scalar)
    );
    let none = typing(
        &declarations(),
        &Term::of(&[word(22, 0), word(16, 0), BASIS, word(16, 0), BASIS]),
    );
    assert_eq!(
        (none.code, none.at, none.length, none.kind),
        (Code::Untyped, 0, 0, Kind::Scalar)
    );
}

#[test]
fn sums_over_a_basis() {
    // Σ |i⟩⟨i|, with the a-th bound basis for i
    let projectors = |a| {
        let (ket, bra, bound) = (word(16, 0), word(17, 0), word(28, a));
        Term::of(&[word(27, 0), TYPE, word(24, 0), ket, bound, bra, bound])
    };
    let complete = by(181, 0);
    let mut term = projectors(0);
    let found = typing(&declarations(), &term);
    assert_eq!(
        (found.code, found.kind),
        (Code::Accepted, Kind::Operator(vec![TYPE], vec![TYPE]))
    );
    assert_eq!(
        step(&declarations(), &mut term, complete).code,
        Code::Accepted
    );
    assert_eq!(term.words(), [word(15, 0), TYPE]);
    let unbound = typing(&declarations(), &projectors(1));
    assert_eq!((unbound.code, unbound.at), (Code::Unbound, 4));
    let answer = step(&declarations(), &mut projectors(1), complete);
    assert_eq!(
        (answer.code, answer.at, answer.length),
        (Code::Unbound, 4, 0)
    );
    assert_eq!(
        answer.to_string(),
        "a bound basis has no sum around it, or a ninth sum is nested, at word 4"
    );
}

#[test]
fn declarations_are_put_or_refused() {
    assert_eq!(Declarations::of_types(33), Err(Refused::Bad));
    let mut declared = Declarations::of_types(1).unwrap();
    assert_eq!(declared.basis(&[word(1, 1)]), Err(Refused::Bad));
    assert_eq!(declared.basis(&[]), Err(Refused::Bad));
    assert_eq!(
        declared.variable(Variable::Ket(&[word(2, 0), TYPE])),
        Err(Refused::Bad)
    );
    assert_eq!(
        declared.variable(Variable::Unitary(&[TYPE, TYPE])),
        Err(Refused::Bad)
    );
    assert_eq!(declared, Declarations::of_types(1).unwrap());
    for a in 0..32 {
        assert_eq!(declared.basis(&[TYPE]), Ok(word(3, a)));
        assert_eq!(declared.variable(Variable::Scalar), Ok(word(26, a)));
    }
    assert_eq!(declared.basis(&[TYPE]), Err(Refused::Full));
    assert_eq!(declared.variable(Variable::Scalar), Err(Refused::Full));
}

/// A declared unitary times its adjoint, from both sides; an operator that is not declared so stays.
#[test]
fn a_unitary_is_undone_by_its_adjoint() {
    let mut declared = Declarations::of_types(1).unwrap();
    let unitary = declared.variable(Variable::Unitary(&[TYPE])).unwrap();
    let operator = declared
        .variable(Variable::Operator(&[TYPE], &[TYPE]))
        .unwrap();
    for (rule, name, code) in [(190, unitary, 0), (190, operator, 22)] {
        let mut term = Term::of(&[word(25, 0), word(18, 0), name, name]);
        let answer = step(&declared, &mut term, by(rule, 0));
        assert_eq!(answer.code.number(), code);
        assert_eq!(term.words() == [word(15, 0), TYPE], code == 0);
    }
    let mut term = Term::of(&[word(25, 0), unitary, word(18, 0), unitary]);
    assert_eq!(step(&declared, &mut term, by(191, 0)).code.number(), 0);
    assert_eq!(term.words(), [word(15, 0), TYPE]);
    let kind = typing(&declared, &Term::of(&[unitary])).kind;
    assert_eq!(kind, Kind::Operator(vec![TYPE], vec![TYPE]));
}

#[test]
fn at_most_a_thousand_steps() {
    let mut steps = Steps::new();
    for k in 0..1000 {
        assert_eq!(steps.push(Side::Right, by(k, 0)), Ok(()));
    }
    assert_eq!(steps.push(Side::Left, Step::default()), Err(Refused::Full));
    assert_eq!(
        (
            steps.count(),
            steps.rule(1),
            steps.rule(1000),
            steps.rule(1001),
            steps.rule(0)
        ),
        (1000, Some(0), Some(999), None, None)
    );
}

/// The header says how much stack a call is tested with: on the deepest terms it is enough.
#[test]
fn a_small_stack_is_enough() {
    let deep = format!(
        "types=0\nleft={}6\nright={}5\nstep=L 12 62 0 0\nend=1\n",
        "9 ".repeat(63),
        "9 ".repeat(63)
    );
    let replayed = std::thread::Builder::new()
        .stack_size(256 * 1024)
        .spawn(move || replay(deep.as_bytes(), &mut Work::new()).code)
        .unwrap();
    assert!(replayed.join().unwrap().number() >= 20);
}

/// The parts of the session's left term, and the empty answers.
#[test]
fn a_part_is_looked_up_with_its_depth() {
    let sizes: Vec<(usize, usize)> = (0..8)
        .map(|at| part(&LEFT, at))
        .map(|found| (found.words.len(), found.depth))
        .collect();
    assert_eq!(
        sizes,
        [
            (6, 4),
            (3, 3),
            (2, 2),
            (1, 1),
            (2, 2),
            (1, 1),
            (0, 0),
            (0, 0)
        ]
    );
    assert_eq!(part(&LEFT, 1).words, &LEFT[1..4]);
    assert_eq!(part(&LEFT, usize::MAX).depth, 0);
    assert_eq!(part(&[word(27, 3), TYPE, word(5, 0)], 0).depth, 0);
    assert_eq!(part(&LEFT[..3], 0).depth, 0);
    assert_eq!(part(&[], 0).depth, 0);
}

/// Conjugates of 0, each one level deeper; what stands behind the part says nothing.
#[test]
fn the_depth_of_a_part_is_exact() {
    for deep in [1, 2, 64, 65, 66, 300, 4097, 4098, 20_000] {
        let mut words = vec![word(9, 0); deep - 1];
        words.extend([word(5, 0), 0, 0xFFFF]);
        let found = part(&words, 0);
        assert_eq!((found.words.len(), found.depth), (deep, deep));
    }
}
