//! Every rule's result word by word, worked out by hand from 002's tables and
//! document 01, parts that are no instances, and what the lookups give.

use checker::decl::{Declarations, Letter, Variable};
use checker::file::{variable, words};
use checker::matrix::{meaning, shape, Choice, Gauss, Matrix};
use checker::rules::{Way, RULES};
use checker::step::{single, Step};
use checker::typing::typing;
use checker::words::{part, part_of, tokens, word, Part, Side, WORDS};

/// The types S, T, U, V.
const TYPES: [(&str, &str); 4] = [("S", "1:0"), ("T", "1:1"), ("U", "1:2"), ("V", "1:3")];

/// Basis names by their type: s, p of S; t of T; u of U; v of V.
const BASES: [(&str, &str); 5] = [("s", "S"), ("p", "S"), ("t", "T"), ("u", "U"), ("v", "V")];

/// Variables: scalars, kets, bras, and operators named by their two types.
const VARIABLES: [(&str, Letter, &str); 26] = [
    ("a", Letter::Scalar, ""),
    ("b", Letter::Scalar, ""),
    ("c", Letter::Scalar, ""),
    ("kS", Letter::Ket, "S"),
    ("lS", Letter::Ket, "S"),
    ("kT", Letter::Ket, "T"),
    ("kU", Letter::Ket, "U"),
    ("kV", Letter::Ket, "V"),
    ("kTV", Letter::Ket, "2 T V"),
    ("bS", Letter::Bra, "S"),
    ("dS", Letter::Bra, "S"),
    ("bT", Letter::Bra, "T"),
    ("bU", Letter::Bra, "U"),
    ("bV", Letter::Bra, "V"),
    ("bSU", Letter::Bra, "2 S U"),
    ("SS", Letter::Operator, "S S"),
    ("ST", Letter::Operator, "S T"),
    ("QST", Letter::Operator, "S T"),
    ("TS", Letter::Operator, "T S"),
    ("TU", Letter::Operator, "T U"),
    ("UV", Letter::Operator, "U V"),
    ("VU", Letter::Operator, "V U"),
    ("kSU", Letter::Ket, "2 S U"),
    ("bTV", Letter::Bra, "2 T V"),
    ("SU", Letter::Operator, "S U"),
    ("US", Letter::Operator, "U S"),
];

/// Variables that are declared unitary, behind the others: two on S, one on a
/// product.
const MARKED: [(&str, &str); 3] = [("WS", "S"), ("ZS", "S"), ("WTV", "2 T V")];

/// Words of a text in which the names above stand beside tokens.
fn read(text: &str) -> Vec<u16> {
    let mut out = Vec::new();
    for token in text.split_whitespace() {
        let found = if let Some((_, index)) = TYPES.iter().find(|(name, _)| *name == token) {
            index.to_string()
        } else if let Some(k) = BASES.iter().position(|(name, _)| *name == token) {
            format!("3:{k}")
        } else if let Some(k) = VARIABLES.iter().position(|(name, ..)| *name == token) {
            format!("26:{k}")
        } else if let Some(k) = MARKED.iter().position(|(name, _)| *name == token) {
            format!("26:{}", VARIABLES.len() + k)
        } else {
            token.to_string()
        };
        out.extend(words(found.as_bytes()).expect(token));
    }
    out
}

fn declared() -> Declarations {
    let plain = VARIABLES
        .iter()
        .map(|&(_, letter, indices)| Variable::new(letter, read(indices)));
    let marked = MARKED.iter().map(|(_, index)| Variable::unitary(&read(index)));
    Declarations {
        types: 4,
        bases: BASES.iter().map(|(_, index)| read(index)).collect(),
        variables: plain.chain(marked).collect(),
    }
}

/// The code and the words after one step; the slice starts dirty.
fn stepped(step: Step, term: &[u16]) -> (u8, String) {
    let mut slice = vec![0xABCD; WORDS];
    slice[..term.len()].copy_from_slice(term);
    let answer = single(&declared(), &mut slice, term.len(), step);
    assert!(slice[answer.length..].iter().all(|&word| word == 0), "zeros behind");
    (answer.code, tokens(&slice[..answer.length]))
}

/// The same for the whole term.
fn step(rule: u16, i: u16, j: u16, term: &[u16]) -> (u8, String) {
    stepped(Step { rule, place: 0, i, j }, term)
}

/// Rule, i, j, the part, what it becomes.
const RESULTS: [(u16, u16, u16, &str, &str); 141] = [
    (1, 1, 0, "7:3 a 7:2 b c a", "7:4 a b c a"),
    (1, 0, 0, "8:2 8:1 a b", "8:2 a b"),
    (1, 1, 0, "20:2 kS 20:2 lS kS", "20:3 kS lS kS"),
    (1, 0, 0, "7:1 7:1 a", "7:1 a"),
    (2, 0, 0, "7:1 a", "a"),
    (3, 0, 0, "8:1 a", "a"),
    (4, 1, 0, "7:3 a 5 b", "7:2 a b"),
    (5, 1, 0, "8:3 a 5 b", "5"),
    (6, 2, 0, "8:3 a b 6", "8:2 a b"),
    (7, 1, 0, "8:3 a 7:2 b c a", "7:2 8:3 a b a 8:3 a c a"),
    (10, 0, 0, "9 5", "5"),
    (11, 0, 0, "9 6", "6"),
    (12, 0, 0, "9 7:2 a b", "7:2 9 a 9 b"),
    (13, 0, 0, "9 8:2 a b", "8:2 9 a 9 b"),
    (14, 0, 0, "9 9 a", "a"),
    (15, 0, 0, "9 10 s p", "10 s p"),
    (16, 0, 0, "9 11 bS kS", "11 18 kS 18 bS"),
    (20, 0, 0, "11 13 S kS", "5"),
    (21, 0, 0, "11 bS 12 S", "5"),
    (22, 0, 0, "11 19 a bS kS", "8:2 a 11 bS kS"),
    (23, 0, 0, "11 bS 19 a kS", "8:2 a 11 bS kS"),
    (24, 0, 0, "11 20:2 bS dS kS", "7:2 11 bS kS 11 dS kS"),
    (25, 0, 0, "11 bS 20:2 kS lS", "7:2 11 bS kS 11 bS lS"),
    (26, 0, 0, "11 17 s 16 p", "10 s p"),
    (27, 0, 0, "11 21 bS bU 16 4 s u", "8:2 11 bS 16 s 11 bU 16 u"),
    (28, 0, 0, "11 17 4 s u 21 kS kU", "8:2 11 17 s kS 11 17 u kU"),
    (29, 0, 0, "11 21 bS bU 21 kS kU", "8:2 11 bS kS 11 bU kU"),
    (30, 0, 0, "11 23 bS ST kT", "11 bS 22 ST kT"),
    (31, 0, 0, "11 17 4 s u 22 21 ST UV kTV", "11 21 23 17 s ST 23 17 u UV kTV"),
    (32, 0, 0, "11 21 bS bU 22 21 ST UV kTV", "11 21 23 bS ST 23 bU UV kTV"),
    (33, 0, 0, "10 4 s u 4 s u", "6"),
    (34, 0, 0, "10 4 s u 4 p u", "8:2 10 s p 10 u u"),
    (40, 0, 0, "19 6 kS", "kS"),
    (41, 0, 0, "19 a 19 b kS", "19 8:2 a b kS"),
    (42, 0, 0, "19 a 20:2 kS lS", "20:2 19 a kS 19 a lS"),
    (43, 0, 0, "19 5 22 ST kT", "12 S"),
    (44, 0, 0, "19 a 12 S", "12 S"),
    (45, 0, 0, "19 5 23 bS ST", "13 T"),
    (46, 0, 0, "19 a 13 S", "13 S"),
    (47, 0, 0, "19 5 ST", "14 S T"),
    (48, 0, 0, "19 a 14 S T", "14 S T"),
    (50, 0, 0, "20:1 ST", "ST"),
    (51, 0, 2, "20:4 kS lS kS lS", "20:3 lS lS 19 7:2 6 6 kS"),
    (52, 0, 2, "20:3 kS lS 19 a kS", "20:2 lS 19 7:2 6 a kS"),
    (53, 0, 2, "20:3 19 a kS lS kS", "20:2 lS 19 7:2 a 6 kS"),
    (54, 1, 2, "20:3 lS 19 a kS 19 b kS", "20:2 lS 19 7:2 a b kS"),
    (55, 1, 0, "20:2 kS 12 S", "20:1 kS"),
    (56, 0, 0, "20:2 13 S bS", "20:1 bS"),
    (57, 1, 0, "20:3 ST 14 S T QST", "20:2 ST QST"),
    (60, 0, 0, "18 18 kS", "kS"),
    (61, 0, 0, "18 19 a kS", "19 9 a 18 kS"),
    (62, 0, 0, "18 20:2 kS lS", "20:2 18 kS 18 lS"),
    (63, 0, 0, "18 21 kS kU", "21 18 kS 18 kU"),
    (64, 0, 0, "18 13 S", "12 S"),
    (65, 0, 0, "18 17 s", "16 s"),
    (66, 0, 0, "18 23 bS ST", "22 18 ST 18 bS"),
    (67, 0, 0, "18 12 S", "13 S"),
    (68, 0, 0, "18 16 s", "17 s"),
    (69, 0, 0, "18 22 ST kT", "23 18 kT 18 ST"),
    (70, 0, 0, "18 14 S T", "14 T S"),
    (71, 0, 0, "18 15 S", "15 S"),
    (72, 0, 0, "18 24 kS bT", "24 18 bT 18 kS"),
    (73, 0, 0, "18 25 ST TU", "25 18 TU 18 ST"),
    (80, 0, 0, "21 19 a kS kU", "19 a 21 kS kU"),
    (81, 0, 0, "21 kS 19 a kU", "19 a 21 kS kU"),
    (82, 0, 0, "21 20:2 kS lS kU", "20:2 21 kS kU 21 lS kU"),
    (83, 0, 0, "21 kU 20:2 kS lS", "20:2 21 kU kS 21 kU lS"),
    (84, 0, 0, "21 12 S kU", "12 2 S U"),
    (85, 0, 0, "21 kU 12 S", "12 2 U S"),
    (86, 0, 0, "21 16 s 16 u", "16 4 s u"),
    (87, 0, 0, "21 13 S bU", "13 2 S U"),
    (88, 0, 0, "21 bU 13 S", "13 2 U S"),
    (89, 0, 0, "21 17 s 17 u", "17 4 s u"),
    (90, 0, 0, "21 ST 14 U V", "14 2 S U 2 T V"),
    (91, 0, 0, "21 14 U V ST", "14 2 U S 2 V T"),
    (92, 0, 0, "21 15 S 15 T", "15 2 S T"),
    (93, 0, 0, "21 24 kS bT 24 kU bV", "24 21 kS kU 21 bT bV"),
    (100, 0, 0, "22 14 S T kT", "12 S"),
    (101, 0, 0, "22 ST 12 T", "12 S"),
    (102, 0, 0, "22 15 S kS", "kS"),
    (103, 0, 0, "22 19 a ST kT", "19 a 22 ST kT"),
    (104, 0, 0, "22 ST 19 a kT", "19 a 22 ST kT"),
    (105, 0, 0, "22 20:2 ST QST kT", "20:2 22 ST kT 22 QST kT"),
    (106, 0, 0, "22 SS 20:2 kS lS", "20:2 22 SS kS 22 SS lS"),
    (107, 0, 0, "22 24 kS bT kT", "19 11 bT kT kS"),
    (108, 0, 0, "22 25 ST TU kU", "22 ST 22 TU kU"),
    (109, 0, 0, "22 21 TS VU 22 21 ST UV kTV", "22 21 25 TS ST 25 VU UV kTV"),
    (110, 0, 0, "22 21 ST UV 16 4 t v", "21 22 ST 16 t 22 UV 16 v"),
    (111, 0, 0, "22 21 ST UV 21 kT kV", "21 22 ST kT 22 UV kV"),
    (120, 0, 0, "23 bS 14 S T", "13 T"),
    (121, 0, 0, "23 13 S ST", "13 T"),
    (122, 0, 0, "23 bS 15 S", "bS"),
    (123, 0, 0, "23 19 a bS ST", "19 a 23 bS ST"),
    (124, 0, 0, "23 bS 19 a ST", "19 a 23 bS ST"),
    (125, 0, 0, "23 20:2 bS dS ST", "20:2 23 bS ST 23 dS ST"),
    (126, 0, 0, "23 bS 20:2 ST QST", "20:2 23 bS ST 23 bS QST"),
    (127, 0, 0, "23 bS 24 kS bT", "19 11 bS kS bT"),
    (128, 0, 0, "23 bS 25 ST TU", "23 23 bS ST TU"),
    (129, 0, 0, "23 23 bSU 21 ST UV 21 TS VU", "23 bSU 25 21 ST UV 21 TS VU"),
    (130, 0, 0, "23 17 4 s u 21 ST UV", "21 23 17 s ST 23 17 u UV"),
    (131, 0, 0, "23 21 bS bU 21 ST UV", "21 23 bS ST 23 bU UV"),
    (140, 0, 0, "24 12 S bT", "14 S T"),
    (141, 0, 0, "24 kS 13 T", "14 S T"),
    (142, 0, 0, "24 19 a kS bT", "19 a 24 kS bT"),
    (143, 0, 0, "24 kS 19 a bT", "19 a 24 kS bT"),
    (144, 0, 0, "24 20:2 kS lS bT", "20:2 24 kS bT 24 lS bT"),
    (145, 0, 0, "24 kT 20:2 bS dS", "20:2 24 kT bS 24 kT dS"),
    (150, 0, 0, "25 14 S T TU", "14 S U"),
    (151, 0, 0, "25 ST 14 T U", "14 S U"),
    (152, 0, 0, "25 15 S ST", "ST"),
    (153, 0, 0, "25 ST 15 T", "ST"),
    (154, 0, 0, "25 24 kS bT TU", "24 kS 23 bT TU"),
    (155, 0, 0, "25 ST 24 kT bU", "24 22 ST kT bU"),
    (156, 0, 0, "25 19 a ST TU", "19 a 25 ST TU"),
    (157, 0, 0, "25 ST 19 a TU", "19 a 25 ST TU"),
    (158, 0, 0, "25 20:2 ST QST TU", "20:2 25 ST TU 25 QST TU"),
    (159, 0, 0, "25 SS 20:2 ST QST", "20:2 25 SS ST 25 SS QST"),
    (160, 0, 0, "25 25 ST TU UV", "25 ST 25 TU UV"),
    (161, 0, 0, "25 21 ST UV 21 TS VU", "21 25 ST TS 25 UV VU"),
    (162, 0, 0, "25 21 ST UV 25 21 TS VU 21 ST UV", "25 21 25 ST TS 25 UV VU 21 ST UV"),
    (170, 0, 0, "7:2 a b", "7:2 b a"),
    (170, 0, 0, "8:3 a b c", "8:3 b a c"),
    (170, 1, 0, "20:3 kS lS kS", "20:3 kS kS lS"),
    (170, 0, 0, "10 s p", "10 p s"),
    (170, 0, 0, "10 s s", "10 s s"),
    (170, 0, 0, "10 4 s t 4 p t", "10 4 p t 4 s t"),
    (180, 0, 0, "27 S 5", "5"),
    (180, 0, 0, "27 2 S T 5", "5"),
    (181, 0, 0, "27 S 24 16 28:0 17 28:0", "15 S"),
    (181, 0, 0, "27 2 S T 24 16 28:0 17 28:0", "15 2 S T"),
    (182, 0, 0, "27 S 7:2 a 10 s 28:0", "7:2 27 S a 27 S 10 s 28:0"),
    (182, 0, 0, "27 2 S T 7:1 a", "7:1 27 2 S T a"),
    (182, 0, 0, "27 S 20:2 16 28:0 19 a kS", "20:2 27 S 16 28:0 27 S 19 a kS"),
    (182, 0, 0, "27 S 20:1 27 T 24 16 28:1 17 28:0", "20:1 27 S 27 T 24 16 28:1 17 28:0"),
    (183, 0, 0, "27 S 10 s 28:0", "6"),
    (183, 0, 0, "27 2 S T 10 4 s t 28:0", "6"),
    (183, 0, 0, "27 2 2 S T U 10 4 4 s t u 28:0", "6"),
    (190, 0, 0, "25 18 WS WS", "15 S"),
    (190, 0, 0, "25 18 WTV WTV", "15 2 T V"),
    (191, 0, 0, "25 ZS 18 ZS", "15 S"),
    (191, 0, 0, "25 WTV 18 WTV", "15 2 T V"),
];

#[test]
fn every_rule_gives_its_right_side() {
    let mut seen: Vec<u16> = RESULTS.iter().map(|row| row.0).collect();
    seen.dedup();
    let all: Vec<u16> = RULES.iter().map(|rule| rule.number).collect();
    assert_eq!(seen, all, "a row for every rule");
    for (rule, i, j, part, result) in RESULTS {
        let (code, got) = step(rule, i, j, &read(part));
        assert_eq!((code, got), (0, tokens(&read(result))), "rule {rule} on {part}");
    }
}

#[test]
fn unused_indices_are_zero() {
    for (rule, i, j, part, _) in RESULTS {
        let way = &RULES[RULES.iter().position(|it| it.number == rule).unwrap()].way;
        if !matches!(way, Way::Collect { .. }) {
            assert_eq!(step(rule, i, j + 1, &read(part)).0, 22, "rule {rule}, j");
        }
        if matches!(way, Way::Law(_) | Way::SpreadBody) {
            assert_eq!(step(rule, i + 1, j, &read(part)).0, 22, "rule {rule}, i");
        }
    }
}

/// Rule, i, j, a typed part that is no instance.
const REFUSED: [(u16, u16, u16, &str); 130] = [
    (1, 0, 0, "7:2 8:1 a b"),
    (1, 2, 0, "7:2 7:1 a b"),
    (1, 0, 0, "7:2 a 7:1 b"),
    (1, 0, 0, "9 9 a"),
    (2, 0, 0, "7:2 a b"),
    (2, 0, 0, "8:1 a"),
    (2, 0, 0, "20:1 kS"),
    (3, 0, 0, "7:1 a"),
    (4, 0, 0, "7:1 5"),
    (4, 0, 0, "7:2 a 5"),
    (4, 2, 0, "7:2 a 5"),
    (4, 0, 0, "8:2 5 a"),
    (5, 0, 0, "7:2 5 a"),
    (5, 0, 0, "8:2 a 5"),
    (6, 0, 0, "8:1 6"),
    (6, 0, 0, "7:2 6 a"),
    (6, 0, 0, "8:2 5 6"),
    (7, 0, 0, "8:2 a 7:2 b c"),
    (7, 0, 0, "8:2 8:2 a b c"),
    (7, 0, 0, "7:2 7:2 a b c"),
    (10, 0, 0, "9 6"),
    (11, 0, 0, "9 5"),
    (12, 0, 0, "9 8:2 a b"),
    (13, 0, 0, "9 7:2 a b"),
    (20, 0, 0, "11 bS 12 S"),
    (22, 0, 0, "11 bS 19 a kS"),
    (24, 0, 0, "11 bS 20:2 kS lS"),
    (26, 0, 0, "11 bS 16 s"),
    (27, 0, 0, "11 21 bS bU kSU"),
    (33, 0, 0, "10 s p"),
    (34, 0, 0, "10 s p"),
    (40, 0, 0, "19 5 kS"),
    (41, 0, 0, "19 a kS"),
    (43, 0, 0, "19 5 bS"),
    (43, 0, 0, "19 5 ST"),
    (43, 0, 0, "19 6 kS"),
    (44, 0, 0, "19 a 13 S"),
    (45, 0, 0, "19 5 kS"),
    (45, 0, 0, "19 5 ST"),
    (46, 0, 0, "19 a 12 S"),
    (47, 0, 0, "19 5 kS"),
    (47, 0, 0, "19 5 bS"),
    (48, 0, 0, "19 a 12 S"),
    (50, 0, 0, "7:1 a"),
    (50, 0, 0, "20:2 kS lS"),
    (51, 0, 0, "20:2 kS kS"),
    (51, 1, 0, "20:2 kS kS"),
    (51, 0, 2, "20:2 kS kS"),
    (51, 0, 1, "20:2 kS lS"),
    (51, 0, 1, "7:2 a a"),
    (52, 0, 1, "20:2 19 a kS kS"),
    (52, 0, 1, "20:2 kS 19 a lS"),
    (53, 0, 1, "20:2 kS 19 a kS"),
    (53, 0, 1, "20:2 19 a kS lS"),
    (54, 0, 1, "20:2 19 a kS 19 b lS"),
    (54, 0, 1, "20:2 kS 19 b kS"),
    (55, 0, 0, "20:2 13 S bS"),
    (55, 0, 0, "20:2 kS 12 S"),
    (56, 0, 0, "20:2 12 S kS"),
    (57, 0, 0, "20:1 14 S T"),
    (64, 0, 0, "18 12 S"),
    (67, 0, 0, "18 13 S"),
    (84, 0, 0, "21 kU 12 S"),
    (85, 0, 0, "21 12 S kU"),
    (87, 0, 0, "21 bU 13 S"),
    (88, 0, 0, "21 13 S bU"),
    (90, 0, 0, "21 14 U V ST"),
    (91, 0, 0, "21 ST 14 U V"),
    (108, 0, 0, "22 ST 22 TU kU"),
    (128, 0, 0, "23 23 bS ST TU"),
    (152, 0, 0, "25 ST 15 T"),
    (153, 0, 0, "25 15 S ST"),
    (160, 0, 0, "25 ST 25 TU UV"),
    (170, 1, 0, "7:2 a b"),
    (170, 65535, 0, "7:2 a b"),
    (170, 1, 0, "10 s p"),
    (170, 2, 0, "10 s p"),
    (170, 256, 0, "10 s p"),
    (170, 65535, 0, "10 s p"),
    (170, 0, 1, "10 s p"),
    (170, 0, 0, "11 bS kS"),
    (170, 0, 0, "14 S T"),
    (170, 0, 0, "19 a kS"),
    (170, 0, 0, "21 kS kU"),
    (170, 0, 0, "22 SS kS"),
    (170, 0, 0, "23 bS SS"),
    (170, 0, 0, "24 kS bS"),
    (170, 0, 0, "25 SS SS"),
    // Elsewhere a delta keeps its order: these are equal only word by word.
    (51, 0, 1, "20:2 19 10 s p kS 19 10 p s kS"),
    (1, 0, 0, "10 s p"),
    (1, 0, 0, "27 S 7:1 7:1 a"),
    (170, 0, 0, "27 S 7:2 a b"),
    (180, 0, 0, "27 S 6"),
    (180, 0, 0, "27 S 7:1 5"),
    (180, 0, 0, "27 S 27 S 5"),
    (180, 0, 0, "27 S 12 S"),
    (181, 0, 0, "27 S 24 16 28:0 17 s"),
    (181, 0, 0, "27 S 24 16 s 17 28:0"),
    (181, 0, 0, "27 S 24 16 s 17 s"),
    (181, 0, 0, "27 S 20:1 24 16 28:0 17 28:0"),
    (181, 0, 0, "27 S 11 17 28:0 16 28:0"),
    (182, 0, 0, "27 S a"),
    (182, 0, 0, "27 S 8:2 a b"),
    (182, 0, 0, "27 S 27 S 7:2 a b"),
    (182, 0, 0, "7:2 27 S a 27 S b"),
    (183, 0, 0, "27 S 10 28:0 s"),
    (183, 0, 0, "27 S 10 28:0 28:0"),
    (183, 0, 0, "27 S 10 s p"),
    (183, 0, 0, "27 S 10 s s"),
    (183, 0, 0, "27 S 7:1 10 s 28:0"),
    (183, 0, 0, "10 s s"),
    // Not marked.
    (190, 0, 0, "25 18 SS SS"),
    (191, 0, 0, "25 SS 18 SS"),
    // Two variables, both marked, or one of them.
    (190, 0, 0, "25 18 WS ZS"),
    (190, 0, 0, "25 18 ZS WS"),
    (190, 0, 0, "25 18 WS SS"),
    (190, 0, 0, "25 18 SS WS"),
    (191, 0, 0, "25 WS 18 ZS"),
    (191, 0, 0, "25 WS 18 SS"),
    (191, 0, 0, "25 SS 18 WS"),
    // The adjoint on the other side, on both, on none, twice.
    (190, 0, 0, "25 WS 18 WS"),
    (191, 0, 0, "25 18 WS WS"),
    (190, 0, 0, "25 WS WS"),
    (191, 0, 0, "25 18 WS 18 WS"),
    (191, 0, 0, "25 WS 18 18 WS"),
    // What is unitary but no marked variable: its adjoint, the identity, a product.
    (190, 0, 0, "25 18 18 WS 18 WS"),
    (190, 0, 0, "25 18 15 S 15 S"),
    (191, 0, 0, "25 25 WS ZS 18 25 WS ZS"),
    (190, 0, 0, "22 18 WS 22 WS kS"),
    (190, 0, 0, "WS"),
];

#[test]
fn what_is_no_instance_is_refused_and_stays() {
    for (rule, i, j, part) in REFUSED {
        let term = read(part);
        assert_eq!(step(rule, i, j, &term), (22, tokens(&term)), "rule {rule} on {part}");
    }
}

/// Rule, place, a term with bodies, what it becomes. All but the last ten need
/// the type of a part that names a basis bound around it.
const INSIDE: [(u16, u16, &str, &str); 27] = [
    (43, 2, "27 S 19 5 16 28:0", "27 S 12 S"),
    (43, 4, "27 S 27 T 19 5 16 28:0", "27 S 27 T 12 T"),
    (43, 4, "27 S 27 T 19 5 16 28:1", "27 S 27 T 12 S"),
    (43, 2, "27 T 19 5 16 4 s 28:0", "27 T 12 2 S T"),
    (43, 2, "27 S 19 5 27 T 19 10 28:0 t 16 28:1", "27 S 12 S"),
    (43, 8, "20:2 kS 27 2 S T 27 U 19 5 22 24 kS 17 28:1 16 28:1", "20:2 kS 27 2 S T 27 U 12 S"),
    (45, 2, "27 S 19 5 17 28:0", "27 S 13 S"),
    (47, 2, "27 S 19 5 24 16 28:0 bT", "27 S 14 S T"),
    (84, 2, "27 S 21 12 T 16 28:0", "27 S 12 2 T S"),
    (85, 2, "27 S 21 16 28:0 12 T", "27 S 12 2 S T"),
    (87, 2, "27 S 21 13 T 17 28:0", "27 S 13 2 T S"),
    (88, 2, "27 S 21 17 28:0 13 T", "27 S 13 2 S T"),
    (140, 2, "27 T 24 12 S 17 28:0", "27 T 14 S T"),
    (141, 2, "27 S 24 16 28:0 13 T", "27 S 14 S T"),
    (150, 2, "27 T 25 14 S T 24 16 28:0 bU", "27 T 14 S U"),
    (151, 2, "27 T 25 24 kS 17 28:0 14 T U", "27 T 14 S U"),
    (101, 2, "27 S 22 24 16 28:0 bT 12 T", "27 S 12 S"),
    (33, 2, "27 S 10 28:0 28:0", "27 S 6"),
    (181, 2, "27 S 27 S 24 16 28:0 17 28:0", "27 S 15 S"),
    (183, 2, "27 S 27 S 10 28:1 28:0", "27 S 6"),
    (183, 2, "27 S 27 2 S T 10 4 28:1 t 28:0", "27 S 6"),
    (182, 2, "27 S 27 S 7:2 10 28:1 28:0 a", "27 S 7:2 27 S 10 28:1 28:0 27 S a"),
    (170, 2, "27 S 10 28:0 s", "27 S 10 s 28:0"),
    (170, 4, "27 S 27 S 10 28:0 28:1", "27 S 27 S 10 28:1 28:0"),
    (170, 4, "27 T 8:2 a 10 4 s 28:0 4 p t", "27 T 8:2 a 10 4 p t 4 s 28:0"),
    (190, 3, "27 S 22 25 18 WS WS 16 28:0", "27 S 22 15 S 16 28:0"),
    (191, 5, "27 S 23 17 28:0 25 WS 18 WS", "27 S 23 17 28:0 15 S"),
];

#[test]
fn rules_hold_inside_bodies() {
    for (rule, place, term, result) in INSIDE {
        let got = stepped(Step { rule, place, i: 0, j: 0 }, &read(term));
        assert_eq!(got, (0, tokens(&read(result))), "rule {rule} at {place} of {term}");
    }
    // The same places, no instances: another kind, or another sum's basis.
    let refused = [
        (43, 2, "27 S 19 5 17 28:0"),
        (45, 2, "27 S 19 5 16 28:0"),
        (47, 2, "27 S 19 5 16 28:0"),
        (33, 4, "27 S 27 S 10 28:0 28:1"),
        (181, 2, "27 S 27 S 24 16 28:1 17 28:0"),
        (181, 2, "27 S 27 S 24 16 28:1 17 28:1"),
        (181, 0, "27 S 27 S 24 16 28:1 17 28:1"),
        (183, 2, "27 S 27 S 10 28:0 28:1"),
        (183, 2, "27 S 27 S 10 28:1 28:1"),
        (183, 0, "27 S 27 S 10 28:0 28:1"),
        (170, 0, "27 S 10 28:0 s"),
        (170, 3, "27 S 10 28:0 s"),
        (170, 3, "27 T 10 4 s 28:0 4 p t"),
    ];
    for (rule, place, term) in refused {
        let term = read(term);
        let got = stepped(Step { rule, place, i: 0, j: 0 }, &term);
        assert_eq!(got, (22, tokens(&term)), "rule {rule} at {place}");
    }
}

/// A term with bound bases, the code of its typing and its place.
const BOUND: [(&str, u8, usize); 26] = [
    ("28:0", 13, 0),
    ("16 28:0", 13, 1),
    ("27 S 16 28:0", 0, 0),
    ("27 S 16 28:1", 13, 3),
    ("27 S 16 28:255", 13, 3),
    ("27 S 27 T 16 28:1", 0, 0),
    ("27 S 27 T 16 28:2", 13, 5),
    // An index is not in the body.
    ("27 28:0 5", 13, 1),
    ("27 S 27 28:0 5", 10, 2),
    ("27 S 27 28:1 5", 13, 3),
    ("20:2 16 28:0 27 S 16 28:0", 13, 2),
    ("20:2 27 S 16 28:0 16 28:0", 13, 6),
    // The lowest place counts, and comes before every untyped part.
    ("20:2 20:2 a kS 20:2 16 28:0 16 28:1", 13, 6),
    ("20:2 20:2 a kS 27 S 16 28:0", 10, 1),
    // The body is a term, the first child an index.
    ("27 S 28:0", 10, 0),
    ("27 S S", 10, 0),
    ("27 S s", 10, 0),
    ("27 s a", 10, 0),
    ("27 5 6", 10, 0),
    ("27 5 16 28:0", 10, 3),
    ("27 s 16 28:0", 10, 3),
    ("27 5 27 S 16 28:0", 10, 0),
    ("27 5 27 S 16 28:1", 10, 5),
    ("27 27 S a 16 28:0", 10, 5),
    // A sum in the first child of another is not in its body.
    ("27 27 S 16 28:0 a", 10, 0),
    ("27 27 S 16 28:1 a", 13, 4),
];

/// The code of a term's typing and its place.
fn typed(term: &str) -> (u8, usize) {
    let mut slice = read(term);
    let length = slice.len();
    slice.resize(WORDS, 0);
    let answer = typing(&declared(), &slice, length);
    (answer.code, answer.at)
}

#[test]
fn which_sum_binds_a_basis() {
    for (term, code, at) in BOUND {
        assert_eq!(typed(term), (code, at), "{term}");
    }
}

#[test]
fn eight_bodies_are_nested_at_most() {
    for (sums, expected) in [(8, (0, 0)), (9, (13, 16)), (10, (13, 16))] {
        let term = format!("{}16 28:0", "27 S ".repeat(sums));
        assert_eq!(typed(&term), expected, "{sums} sums");
    }
    // A sum in the first child of the eighth stands in seven bodies.
    for (sums, expected) in [(7, (10, 14)), (8, (13, 16))] {
        let term = format!("{}27 27 S 5 a", "27 S ".repeat(sums));
        assert_eq!(typed(&term), expected, "{sums} sums");
    }
}

/// What a term stands for under a choice of two dimensions for S and three for
/// T: s is 1, and the entries of SS are 1, 2, 3, 4.
fn entries(term: &str) -> Vec<i128> {
    let declared = declared();
    let dimensions = vec![2, 3, 1, 1];
    let mut variables = Vec::new();
    for variable in &declared.variables {
        let (rows, columns) = shape(variable, &dimensions).unwrap();
        let mut k = 0;
        let next = |_, _| {
            k += 1;
            Some(Gauss { re: k, im: 0 })
        };
        variables.push(Matrix::new(rows, columns, next).unwrap());
    }
    let choice = Choice { dimensions, bases: vec![1, 0, 2, 0, 0], variables };
    let found = meaning(&declared, &choice, &read(term)).expect("a small matrix");
    found.entries.iter().map(|entry| entry.re).collect()
}

#[test]
fn a_sum_runs_over_all_indices() {
    // The dimension, where the body does not look at the running index.
    assert_eq!(entries("27 S 6"), [2]);
    assert_eq!(entries("27 2 S T 6"), [6]);
    assert_eq!(entries("27 S 27 T 6"), [6]);
    assert_eq!(entries("27 T 16 28:0"), [1, 1, 1]);
    assert_eq!(entries("27 S 24 16 28:0 17 28:0"), [1, 0, 0, 1]);
    assert_eq!(entries("27 S 10 s 28:0"), [1]);
    assert_eq!(entries("27 S 27 S 10 28:0 28:1"), [2]);
    // The trace 1 + 4, and all elements of it.
    assert_eq!(entries("27 S 11 17 28:0 22 SS 16 28:0"), [5]);
    assert_eq!(entries("27 S 27 S 11 17 28:1 22 SS 16 28:0"), [10]);
    // Which of two is which: rows 1 to 2 of S, columns 1 to 3 of T.
    assert_eq!(entries("27 S 27 T 19 11 17 28:1 22 ST 16 28:0 16 28:1"), [6, 15]);
    assert_eq!(entries("27 S 27 T 19 11 17 28:1 22 ST 16 28:0 16 28:0"), [5, 7, 9]);
    assert_eq!(entries("27 S 16 4 28:0 t"), [0, 0, 1, 0, 0, 1]);
}

/// The word of a variable's kind, its indices, and whether they are a good
/// declaration.
const LENT: [(u16, &str, bool); 29] = [
    (0, "", true),
    (1, "S", true),
    (2, "2 S T", true),
    (3, "S S", true),
    (3, "S T", true),
    // Marked.
    (7, "S S", true),
    (7, "2 S T 2 S T", true),
    (7, "2 2 S T U 2 2 S T U", true),
    // An operator with two different indices, the last two by their words only.
    (7, "S T", false),
    (7, "S 2 S S", false),
    (7, "2 S T 2 T S", false),
    (7, "2 2 S T U 2 S 2 T U", false),
    // Not exactly two indices.
    (7, "", false),
    (7, "S", false),
    (7, "S S S", false),
    (7, "S S S S", false),
    (7, "2 S 2 S", false),
    (7, "s s", false),
    (7, "1:4 1:4", false),
    // No operator, with its own indices or an operator's.
    (4, "", false),
    (4, "S S", false),
    (5, "S", false),
    (5, "S S", false),
    (6, "S", false),
    // No kind's word.
    (8, "", false),
    (8, "S S", false),
    (11, "S S", false),
    (259, "S S", false),
    (65535, "S S", false),
];

#[test]
fn a_mark_is_for_operators_with_two_equal_indices() {
    for (kind, indices, good) in LENT {
        let mut declared = declared();
        declared.variables.push(Variable { kind, words: read(indices) });
        let mut slice = vec![word(5, 0)];
        slice.resize(WORDS, 0);
        let code = if good { 0 } else { 7 };
        assert_eq!(typing(&declared, &slice, 1).code, code, "kind {kind} of {indices}");
    }
}

/// The value of a var line, and its indices where it is of the form and good.
const UNITARY: [(&str, Option<&str>); 12] = [
    ("U 1:0", Some("S S")),
    ("U 2 1:0 1:1", Some("2 S T 2 S T")),
    ("U", None),
    ("U ", None),
    ("U 1:0 1:0", None),
    ("U 2 1:0", None),
    ("U 2", None),
    ("U 1:4", None),
    ("U 3:0", None),
    ("U1:0", None),
    ("u 1:0", None),
    ("UU 1:0", None),
];

#[test]
fn a_unitary_is_declared_by_one_index() {
    for (value, indices) in UNITARY {
        let read_in = variable(value.as_bytes()).filter(|it| declared().good_variable(it));
        let expected = indices.map(|words| Variable { kind: 7, words: read(words) });
        assert_eq!(read_in, expected, "var={value}");
    }
}

/// Twice the words of what is no index are no two indices: all runs of up to
/// five words, of two types and products.
#[test]
fn only_an_index_is_an_index_twice() {
    let declared = declared();
    let mut runs: Vec<Vec<u16>> = vec![Vec::new()];
    let mut good = 0;
    for k in 0..121 {
        let run = runs[k].clone();
        for next in [read("S"), read("T"), vec![word(2, 0)]] {
            runs.push([run.clone(), next].concat());
        }
    }
    for run in runs {
        let is_index = declared.good_basis(&run);
        assert_eq!(declared.good_variable(&Variable::unitary(&run)), is_index, "{}", tokens(&run));
        good += usize::from(is_index);
    }
    // 2 of one name, 4 of two, and 2 × 8 of three, which nest in two ways.
    assert_eq!(good, 2 + 4 + 16);
}

/// Where the matrix of a marked variable is not unitary, 190 and 191 would not
/// keep the entries: those of WS are 1, 2, 3, 4.
#[test]
fn the_two_products_with_the_adjoint() {
    assert_eq!(entries("15 S"), [1, 0, 0, 1]);
    assert_eq!(entries("25 18 WS WS"), [10, 14, 14, 20]);
    assert_eq!(entries("25 WS 18 WS"), [5, 11, 11, 25]);
}

/// A matrix of two rows, by its entries' real and imaginary parts.
fn of_two_rows(entries: &[(i128, i128)]) -> Matrix {
    let columns = entries.len() / 2;
    let entry = |r: usize, c: usize| {
        let (re, im) = entries[columns * r + c];
        Some(Gauss { re, im })
    };
    Matrix::new(2, columns, entry).unwrap()
}

#[test]
fn which_matrices_are_unitary() {
    let (o, e, i) = ((0, 0), (1, 0), (0, 1));
    for entries in [[e, o, o, e], [o, i, e, o], [i, o, o, (-1, 0)], [o, (0, -1), i, o]] {
        assert_eq!(of_two_rows(&entries).unitary(), Some(true), "{entries:?}");
    }
    // Of two entries in a row, of one that is 2, of none, and a shear.
    for entries in [[e, e, e, (-1, 0)], [(2, 0), o, o, e], [o, o, o, e], [e, e, o, e]] {
        assert_eq!(of_two_rows(&entries).unitary(), Some(false), "{entries:?}");
    }
    // Not square: unitary from one side only.
    assert_eq!(of_two_rows(&[e, o, o, o, e, o]).unitary(), Some(false));
}

/// The numbers of document 01, "The rules by number", and of change requests 1
/// and 7.
#[test]
fn the_numbers_are_those_of_the_paper() {
    let spans: [(&str, u16, &[&str]); 12] = [
        ("", 1, &["FLATTEN", "ADDSID", "MULSID", "ADDS0", "MULS0", "MULS1", "MULS2"]),
        ("CONJ", 10, &["0", "1", "2", "3", "4", "5", "6"]),
        ("DOT", 20, &["0", "1", "2", "3", "4", "5", "6", "7", "8", "9", "10", "11", "12"]),
        ("DELTA", 33, &["0", "1"]),
        ("SCR", 40, &["0", "1", "2", "K0", "K1", "B0", "B1", "O0", "O1"]),
        ("ADD", 50, &["ID", "0", "1", "2", "3", "K0", "B0", "O0"]),
        (
            "ADJ",
            60,
            &["0", "1", "2", "3", "K0", "K1", "K2", "B0", "B1", "B2", "O0", "O1", "O2", "O3"],
        ),
        (
            "TSR",
            80,
            &["0", "1", "2", "3", "K0", "K1", "K2", "B0", "B1", "B2", "O0", "O1", "O2", "O3"],
        ),
        ("MULK", 100, &["0", "1", "2", "3", "4", "5", "6", "7", "8", "9", "10", "11"]),
        ("MULB", 120, &["0", "1", "2", "3", "4", "5", "6", "7", "8", "9", "10", "11"]),
        ("OUTER", 140, &["0", "1", "2", "3", "4", "5"]),
        ("MULO", 150, &["0", "1", "2", "3", "4", "5", "6", "7", "8", "9", "10", "11", "12"]),
    ];
    let mut expected: Vec<(u16, String)> = Vec::new();
    for (stem, first, ends) in spans {
        expected.extend((first..).zip(ends.iter().map(|end| format!("{stem}{end}"))));
    }
    expected.push((170, "SWAP".to_string()));
    expected.extend((180..).zip((0..4).map(|k| format!("SUM{k}"))));
    expected.extend((190..).zip((0..2).map(|k| format!("UNIT{k}"))));
    let table: Vec<(u16, String)> =
        RULES.iter().map(|rule| (rule.number, rule.name.to_string())).collect();
    assert_eq!(table, expected);
}

/// The scalar 0 under conjugates, so deep.
fn chain(deep: usize) -> Vec<u16> {
    let mut words = vec![0x0900; deep - 1];
    words.push(0x0500);
    words
}

/// Both lookups of the part at an offset, each side in turn beside other words.
fn lookups(words: &[u16], offset: usize) -> Part<'_> {
    let other = [0x0900, 0x0900, 0x0600];
    let found = part(words, offset);
    assert_eq!(part_of(words, &other, Side::Left, offset), found);
    assert_eq!(part_of(&other, words, Side::Right, offset), found);
    found
}

/// That a part begins at the offset, of this length and depth.
fn assert_part(words: &[u16], offset: usize, length: usize, depth: usize) {
    let found = lookups(words, offset);
    assert_eq!((found.words.len(), found.depth), (length, depth), "at {offset}");
    assert_eq!(found.words.as_ptr(), words[offset..].as_ptr(), "the caller's own words");
}

#[test]
fn a_chain_is_as_deep_as_it_is_long() {
    for deep in [1, 2, 64, 65, 300, 20_000] {
        let words = chain(deep);
        assert_part(&words, 0, deep, deep);
        assert_part(&words, deep / 2, deep - deep / 2, deep - deep / 2);
        assert_part(&words, deep - 1, 1, 1);
    }
}

#[test]
fn the_deepest_branch_may_stand_anywhere() {
    let words = read("7:3 9 6 8:3 5 9 9 9 6 9 5 9 9 5");
    // Length and depth of the part at each offset.
    let parts = [
        (14, 6),
        (2, 2),
        (1, 1),
        (8, 5),
        (1, 1),
        (4, 4),
        (3, 3),
        (2, 2),
        (1, 1),
        (2, 2),
        (1, 1),
        (3, 3),
        (2, 2),
        (1, 1),
    ];
    assert_eq!(words.len(), parts.len());
    for (offset, (length, depth)) in parts.into_iter().enumerate() {
        assert_part(&words, offset, length, depth);
    }
}

#[test]
fn wide_and_deep_parts() {
    let leaves = vec![0x0600; 127];
    let wide = [&[word(7, 255)], &leaves[..], &chain(300), &leaves].concat();
    assert_part(&wide, 0, 555, 301);
    assert_part(&wide, 128, 300, 300);
    assert_part(&wide, 428, 1, 1);

    let twice = [&[word(8, 4)], &chain(100)[..], &chain(20_000), &chain(65), &chain(2)].concat();
    assert_part(&twice, 0, 20_168, 20_001);
    assert_part(&twice, 20_101, 65, 65);

    // Products of two, all in the first child or all in the second.
    let first = [vec![word(8, 2); 20_000], vec![0x0500; 20_001]].concat();
    assert_part(&first, 0, 40_001, 20_001);
    assert_part(&first, 19_999, 3, 2);
    let second = [[word(8, 2), 0x0500].repeat(20_000), vec![0x0500]].concat();
    assert_part(&second, 0, 40_001, 20_001);
    assert_part(&second, 39_998, 3, 2);
}

#[test]
fn words_behind_a_part_do_not_count() {
    for behind in [&[0x0000][..], &[0x1D00, 0x0500], &[0x0900], &[0x0700], &[0x0900, 0x0500]] {
        for deep in [1, 2, 64, 65, 300] {
            assert_part(&[&chain(deep), behind].concat(), 0, deep, deep);
        }
        let words = [&read("9 7:2 10 s p 9 6"), behind].concat();
        assert_part(&words, 0, 7, 4);
        assert_part(&words, 1, 6, 3);
        assert_part(&words, 2, 3, 2);
        assert_part(&words, 5, 2, 2);
    }
}

/// Limits and names are not looked at.
#[test]
fn a_part_need_be_no_term() {
    assert_part(&read("2 1:255 26:200"), 0, 3, 2);
    let sum = [&[word(7, 255)], &[0x0500; 255][..]].concat();
    let long = [&[word(20, 255)], &sum.repeat(255)[..]].concat();
    assert_part(&long, 0, 65_281, 3);
    assert_part(&long, 1, 256, 2);
    assert_part(&long, 65_025, 256, 2);
    assert_part(&long, 65_280, 1, 1);
}

#[test]
fn where_no_whole_part_begins_the_answer_is_empty() {
    let empty: [(&[u16], usize); 24] = [
        // The offset is not below the length.
        (&[], 0),
        (&[], 1),
        (&[], usize::MAX),
        (&[0x0500], 1),
        (&[0x0900, 0x0500], 2),
        (&[0x0900, 0x0500], 3),
        (&[0x0900, 0x0500], usize::MAX),
        (&[0x0900, 0x0500], usize::MAX / 2 + 1),
        // The head is unknown, by its number or by a low byte.
        (&[0x0000], 0),
        (&[0x1D00, 0x0500], 0),
        (&[0xFFFF], 0),
        (&[0x0501], 0),
        (&[0x0901, 0x0500], 0),
        (&[0x0900, 0x1D00, 0x0500], 0),
        (&[0x0702, 0x0500, 0x0000], 0),
        // n is 0.
        (&[0x0700], 0),
        (&[0x0800, 0x0500], 0),
        (&[0x1400], 0),
        (&[0x0900, 0x0700], 0),
        (&[0x0702, 0x0500, 0x0800], 0),
        // The words do not suffice.
        (&[0x0900], 0),
        (&[0x0500, 0x0900], 1),
        (&[0x0703, 0x0500, 0x0600], 0),
        (&[0x0A00, 0x0300], 0),
    ];
    for (words, offset) in empty {
        assert_eq!(lookups(words, offset), Part { words: &[], depth: 0 }, "{words:?} at {offset}");
    }
    let endless = vec![0x0900; 20_000];
    assert_eq!(lookups(&endless, 0), Part::EMPTY);
    assert_eq!(lookups(&[endless, vec![0x0000]].concat(), 0), Part::EMPTY);
}

#[test]
fn the_side_is_the_one_that_is_named() {
    let (left, right) = (read("9 9 5 6"), read("7:2 5 9 9 6 9"));
    // Side, offset, length and depth.
    let parts = [
        (Side::Left, 0, 3, 3),
        (Side::Left, 1, 2, 2),
        (Side::Left, 2, 1, 1),
        (Side::Left, 3, 1, 1),
        (Side::Left, 4, 0, 0),
        (Side::Right, 0, 5, 4),
        (Side::Right, 1, 1, 1),
        (Side::Right, 2, 3, 3),
        (Side::Right, 3, 2, 2),
        (Side::Right, 4, 1, 1),
        (Side::Right, 5, 0, 0),
    ];
    for (side, offset, length, depth) in parts {
        let words = if side == Side::Left { &left } else { &right };
        let expected = Part { words: &words[offset..offset + length], depth };
        assert_eq!(part_of(&left, &right, side, offset), expected, "{side:?} at {offset}");
    }
    assert_eq!(part_of(&left, &[], Side::Right, 0), Part::EMPTY);
    assert_eq!(part_of(&[], &right, Side::Left, 0), Part::EMPTY);
}

/// 51 makes of a part 2 deep one 4 deep.
#[test]
fn a_result_is_at_most_64_deep() {
    let at = |place: usize| Step { rule: 51, place: place as u16, i: 0, j: 1 };
    let (old, new) = (read("20:2 kS kS"), "20:1 19 7:2 6 6 26:3");
    for (above, code) in [(0, 0), (60, 0), (61, 23), (62, 23)] {
        let term = [&vec![word(18, 0); above], &old[..]].concat();
        let result = format!("{}{new}", "18 ".repeat(above));
        let expected = if code == 0 { result } else { tokens(&term) };
        assert_eq!(stepped(at(above), &term), (code, expected), "under {above}");
    }
    // Beside a part that makes the whole 64 deep.
    let beside = [&[word(18, 0); 62], &read("kS")[..]].concat();
    let term = [&[word(20, 2)], &beside[..], &old].concat();
    let result = format!("20:2 {} {new}", tokens(&beside));
    assert_eq!(stepped(at(64), &term), (0, result));
}
