//! Typing, the test of a term and the lookups against plain restatements of
//! document 01 that look at every offset by itself.

mod common;

use checker::decl::{Declarations, Letter};
use checker::file::{variable, words};
use checker::gen::{Gen, Rng};
use checker::typing::{typing, Kind};
use checker::words::{part, part_of, tokens, word, Names, Part, Side, WORDS};

/// A part as a tree: its word, its offset and end, its children.
struct Tree {
    head: u16,
    a: u16,
    at: usize,
    end: usize,
    children: Vec<Tree>,
}

fn children_by_the_table(head: u16, a: u16) -> Option<u16> {
    match head {
        1 | 3 | 26 | 28 => Some(0),
        7 | 8 | 20 => (a > 0).then_some(a),
        5 | 6 => (a == 0).then_some(0),
        9 | 12 | 13 | 15 | 16 | 17 | 18 => (a == 0).then_some(1),
        2 | 4 | 10 | 11 | 14 | 19 | 21..=25 | 27 => (a == 0).then_some(2),
        _ => None,
    }
}

fn tree(words: &[u16], at: usize) -> Option<Tree> {
    let &word = words.get(at)?;
    let (head, a) = (word / 256, word % 256);
    let mut end = at + 1;
    let mut children = Vec::new();
    for _ in 0..children_by_the_table(head, a)? {
        let child = tree(words, end)?;
        end = child.end;
        children.push(child);
    }
    Some(Tree { head, a, at, end, children })
}

impl Tree {
    fn depth(&self) -> usize {
        1 + self.children.iter().map(Tree::depth).max().unwrap_or(0)
    }

    /// All parts, each with the sums whose bodies hold it, innermost first.
    fn all<'t>(&'t self, around: &[&'t Tree], out: &mut Vec<(&'t Tree, Vec<&'t Tree>)>) {
        out.push((self, around.to_vec()));
        for (k, child) in self.children.iter().enumerate() {
            match (self.head, k) {
                (27, 1) => child.all(&[&[self], around].concat(), out),
                _ => child.all(around, out),
            }
        }
    }
}

/// Code 13's causes.
fn is_unbound(part: &Tree, around: &[&Tree]) -> bool {
    match part.head {
        27 => around.len() >= 8,
        28 => usize::from(part.a) >= around.len(),
        _ => false,
    }
}

/// What a part is, with its index words written out.
#[derive(Clone, PartialEq, Debug)]
enum Ty {
    Index(Vec<u16>),
    Basis(Vec<u16>),
    Scalar,
    Ket(Vec<u16>),
    Bra(Vec<u16>),
    Operator(Vec<u16>, Vec<u16>),
}

fn times(left: &[u16], right: &[u16]) -> Option<Vec<u16>> {
    let product = [&[2 * 256], left, right].concat();
    (product.len() <= 63).then_some(product)
}

/// Figures 2 to 7 of source document 004 and change request 1, read off one by
/// one. Around the part are the sums whose bodies hold it, innermost first.
fn ty(declared: &Declarations, tree: &Tree, around: &[&Tree]) -> Option<Ty> {
    use Ty::*;
    let mut children = Vec::new();
    for (k, child) in tree.children.iter().enumerate() {
        let inside = [&[tree], around].concat();
        let around = if (tree.head, k) == (27, 1) { &inside } else { around };
        children.push(ty(declared, child, around)?);
    }
    let a = usize::from(tree.a);
    match (tree.head, &children[..]) {
        (27, [Index(_), x @ (Scalar | Ket(_) | Bra(_) | Operator(..))]) => Some(x.clone()),
        (28, []) => match ty(declared, &around[a].children[0], &around[a + 1..]) {
            Some(Index(s)) => Some(Basis(s)),
            _ => None,
        },
        (1, []) => Some(Index(vec![256 + tree.a])),
        (2, [Index(s), Index(t)]) => Some(Index(times(s, t)?)),
        (3, []) => Some(Basis(declared.bases[a].clone())),
        (4, [Basis(s), Basis(t)]) => Some(Basis(times(s, t)?)),
        (5 | 6, []) => Some(Scalar),
        (7 | 8, all) => all.iter().all(|it| *it == Scalar).then_some(Scalar),
        (9, [Scalar]) => Some(Scalar),
        (10, [Basis(s), Basis(t)]) => (s == t).then_some(Scalar),
        (11, [Bra(s), Ket(t)]) => (s == t).then_some(Scalar),
        (12, [Index(s)]) => Some(Ket(s.clone())),
        (13, [Index(s)]) => Some(Bra(s.clone())),
        (14, [Index(s), Index(t)]) => Some(Operator(s.clone(), t.clone())),
        (15, [Index(s)]) => Some(Operator(s.clone(), s.clone())),
        (16, [Basis(s)]) => Some(Ket(s.clone())),
        (17, [Basis(s)]) => Some(Bra(s.clone())),
        (18, [Ket(s)]) => Some(Bra(s.clone())),
        (18, [Bra(s)]) => Some(Ket(s.clone())),
        (18, [Operator(s, t)]) => Some(Operator(t.clone(), s.clone())),
        (19, [Scalar, x @ (Ket(_) | Bra(_) | Operator(..))]) => Some(x.clone()),
        (20, [x @ (Ket(_) | Bra(_) | Operator(..)), rest @ ..]) => {
            rest.iter().all(|it| it == x).then(|| x.clone())
        }
        (21, [Ket(s), Ket(t)]) => Some(Ket(times(s, t)?)),
        (21, [Bra(s), Bra(t)]) => Some(Bra(times(s, t)?)),
        (21, [Operator(s, t), Operator(u, v)]) => Some(Operator(times(s, u)?, times(t, v)?)),
        (22, [Operator(s, t), Ket(u)]) => (t == u).then(|| Ket(s.clone())),
        (23, [Bra(s), Operator(t, u)]) => (s == t).then(|| Bra(u.clone())),
        (24, [Ket(s), Bra(t)]) => Some(Operator(s.clone(), t.clone())),
        (25, [Operator(s, t), Operator(u, v)]) => (t == u).then(|| Operator(s.clone(), v.clone())),
        (26, []) => {
            let variable = &declared.variables[a];
            let index = variable.words.clone();
            // The mark is no part of the type.
            Some(match variable.letter()? {
                Letter::Scalar => Scalar,
                Letter::Ket => Ket(index),
                Letter::Bra => Bra(index),
                Letter::Operator => {
                    let cut = tree_end(&index);
                    Operator(index[..cut].to_vec(), index[cut..].to_vec())
                }
            })
        }
        _ => None,
    }
}

fn tree_end(words: &[u16]) -> usize {
    tree(words, 0).map_or(0, |tree| tree.end)
}

/// Code, at, length, depth and type by the paper's sentences.
fn expected(
    declared: &Declarations,
    slice: &[u16],
    length: usize,
) -> (u8, usize, usize, usize, Ty) {
    let refused = |code, at| (code, at, 0, 0, Ty::Scalar);
    if !declared.good() {
        return refused(7, 0);
    }
    let whole = slice.get(..length).and_then(|words| tree(words, 0));
    let Some(whole) = whole.filter(|tree| tree.end == length && tree.depth() <= 64) else {
        return refused(8, 0);
    };
    let mut all = Vec::new();
    whole.all(&[], &mut all);
    let declared_names = all.iter().all(|(part, _)| match part.head {
        1 => usize::from(part.a) < declared.types,
        3 => usize::from(part.a) < declared.bases.len(),
        26 => usize::from(part.a) < declared.variables.len(),
        _ => true,
    });
    if !declared_names {
        return refused(8, 0);
    }
    let unbound = all.iter().filter(|(part, around)| is_unbound(part, around));
    if let Some(lowest) = unbound.map(|(part, _)| part.at).min() {
        return refused(13, lowest);
    }
    let untyped = all.iter().filter(|(part, around)| ty(declared, part, around).is_none());
    if let Some((first, _)) = untyped.min_by_key(|(part, _)| (part.end, usize::MAX - part.at)) {
        return refused(10, first.at);
    }
    match ty(declared, &whole, &[]) {
        Some(Ty::Index(_) | Ty::Basis(_)) | None => refused(11, 0),
        Some(found) => (0, 0, length, whole.depth(), found),
    }
}

fn found(declared: &Declarations, slice: &[u16], length: usize) -> (u8, usize, usize, usize, Ty) {
    let answer = typing(declared, slice, length);
    let first = answer.found.first().to_vec();
    let ty = match answer.found.kind {
        Kind::Scalar => Ty::Scalar,
        Kind::Ket(_) => Ty::Ket(first),
        Kind::Bra(_) => Ty::Bra(first),
        Kind::Operator(..) => Ty::Operator(first, answer.found.second().to_vec()),
    };
    (answer.code, answer.at, answer.length, answer.depth, ty)
}

#[test]
fn typing_is_as_the_paper_says() {
    let mut gen = Gen::new(common::seed());
    let mut codes = [0; 14];
    let (mut deep_places, mut ninth, mut summed) = (0, 0, 0);
    for round in 0..40_000 {
        if round % 20 == 0 {
            gen.declare();
        }
        let want = gen.want();
        let fuel = gen.rng.within(0, 4);
        let mut term = gen.term(&want, fuel);
        for _ in 0..gen.rng.below(3) {
            term = gen.misfit(&term);
        }
        let mut length = term.len();
        if gen.rng.once_in(10) {
            let place = gen.rng.below(term.len());
            term[place] = gen.rng.draw() as u16 % (30 * 256);
        }
        if gen.rng.once_in(20) {
            length = gen.rng.below(term.len() + 3);
        }
        if term.len() > WORDS {
            continue;
        }
        let mut slice = vec![0x0500; WORDS];
        slice[..term.len()].copy_from_slice(&term);
        let got = found(&gen.declared, &slice, length);
        assert_eq!(got, expected(&gen.declared, &slice, length), "{}", tokens(&term));
        codes[usize::from(got.0)] += 1;
        deep_places += usize::from(got.0 == 10 && got.1 > 0);
        ninth += usize::from(got.0 == 13 && term[got.1] / 256 == 27);
        summed += usize::from(got.0 == 0 && term.iter().any(|&word| word / 256 == 28));
    }
    println!("answers by code: {codes:?}; {deep_places} places of code 10 past offset 0");
    println!("{ninth} ninth nestings; {summed} typed terms with bound bases");
    for code in [0, 8, 10, 11, 13] {
        assert!(codes[code] > 100, "code {code} was met");
    }
    assert!(deep_places > 1000 && ninth > 50 && summed > 1000);
}

#[test]
fn indices_near_the_limit() {
    let mut gen = Gen::new(common::seed() ^ 1);
    let mut codes = [0; 12];
    for _ in 0..4_000 {
        let (left, right) = (gen.rng.within(13, 19), gen.rng.within(13, 19));
        let (s, t) = (gen.index_of(left), gen.index_of(right));
        let (u, v) = (gen.index_of(right), gen.index_of(left));
        let two = |head: u16| vec![head * 256];
        let term = match gen.rng.below(5) {
            0 => [two(12), two(2), s, t].concat(),
            1 => [two(21), two(12), s, two(12), t].concat(),
            2 => [two(21), two(14), s, u, two(14), t, v].concat(),
            3 => [two(22), two(15), two(2), s.clone(), t.clone(), two(12), two(2), s, t].concat(),
            _ => [two(24), two(12), s, two(21), two(13), t, two(13), u].concat(),
        };
        let mut slice = vec![0; WORDS];
        slice[..term.len()].copy_from_slice(&term);
        let got = found(&gen.declared, &slice, term.len());
        assert_eq!(got, expected(&gen.declared, &slice, term.len()), "{}", tokens(&term));
        codes[usize::from(got.0)] += 1;
    }
    println!("answers by code: {codes:?}");
    assert!(codes[0] > 400 && codes[10] > 400);
}

#[test]
fn lookups_are_as_the_paper_says() {
    let mut rng = Rng::new(common::seed());
    let (mut empty, mut whole) = (0, 0);
    for _ in 0..20_000 {
        let mut random = |n| -> Vec<u16> {
            (0..n)
                .map(|_| match rng.below(12) {
                    0 => rng.draw() as u16,
                    1 => word(*rng.pick(&[7, 8, 20]), rng.below(4) as u8),
                    2 => word(*rng.pick(&[1, 3, 26, 28]), rng.draw() as u8),
                    3 => word(27, 0),
                    _ => word(rng.within(2, 25) as u8, 0),
                })
                .collect()
        };
        let (left, right) = (random(12), random(9));
        for offset in 0..15 {
            for (side, words) in [(Side::Left, &left), (Side::Right, &right)] {
                let expected = match tree(words, offset) {
                    Some(tree) => Part { words: &words[offset..tree.end], depth: tree.depth() },
                    None => Part { words: &[], depth: 0 },
                };
                assert_eq!(part(words, offset), expected);
                assert_eq!(part_of(&left, &right, side, offset), expected);
                empty += usize::from(expected.depth == 0);
                whole += usize::from(expected.depth > 1);
            }
        }
    }
    println!("{empty} empty parts, {whole} parts of more than one word");
    assert!(empty > 1000 && whole > 1000);
    assert_eq!(part(&[], usize::MAX), Part::EMPTY);
}

#[test]
fn the_depth_limit_is_exact() {
    let names = Names { types: 0, bases: 0, variables: 0 };
    for deep in 1..=70 {
        let mut term = vec![word(9, 0); deep - 1];
        term.push(word(5, 0));
        let expected = (deep <= 64).then_some(deep);
        assert_eq!(checker::words::test(&term, names), expected);
        // The same below a sum, beside shallow children.
        let term = [&[word(7, 3), word(5, 0)], &term[..], &[word(6, 0)]].concat();
        let expected = (deep < 64).then_some(deep + 1);
        assert_eq!(checker::words::test(&term, names), expected);
    }
}

#[test]
fn a_slice_of_another_length_is_code_1() {
    let declared = Declarations {
        types: 1,
        bases: vec![words(b"1:0").unwrap()],
        variables: vec![variable(b"S").unwrap()],
    };
    for length in [0, 1, WORDS - 1, WORDS + 1] {
        let slice = vec![word(5, 0); length];
        let answer = typing(&declared, &slice, 1);
        assert_eq!((answer.code, answer.at, answer.length, answer.depth), (1, 0, 0, 0));
        assert_eq!(answer.found, checker::typing::Type::SCALAR);
    }
    // 1 comes before 7.
    let bad = Declarations { bases: vec![vec![]], ..declared };
    assert_eq!(typing(&bad, &[], 1).code, 1);
    assert_eq!(typing(&bad, &[0; WORDS], 1).code, 7);
}
