//! The table of the rules, held to the library's proved step, to the proved table and to the names that `replay.sh` has.

use crate::names::Letter;
use crate::rules::{equations, name, Instance};
use crate::table::{Row, TABLE};
use crate::text::text;
use fejogbu::{step, typing, Code, Step, Term};
use std::collections::BTreeMap;

const PROVED: &str = include_str!("../../../../../crates/rules/specs/Table.antt");
const HEADS: &str = include_str!("../../../../../crates/term/specs/Heads.antt");
const SCRIPT: &str = include_str!("../../../../../replay.sh");

/// The row as an instance in which X and Y are of this kind.
fn instance(row: &Row, kind: Letter) -> Instance {
    let mut instance = Instance::of(row).unwrap();
    let any = |name: &str| name.starts_with(['X', 'Y']);
    let has_any = instance.variables.iter().any(|(name, _)| any(name));
    for (name, declared) in &mut instance.variables {
        if any(name) || (has_any && matches!(*name, "…" | "⋯")) && declared.letter == Letter::Ket
        {
            declared.letter = kind;
            if kind == Letter::Operator {
                declared.indices.push(declared.indices[0].clone());
            }
        }
    }
    instance
}

#[test]
fn the_proved_step_rewrites_each_left_side_to_its_right_side() {
    for row in &TABLE {
        for kind in [Letter::Ket, Letter::Bra, Letter::Operator] {
            let instance = instance(row, kind);
            let declared = instance.declarations().unwrap_or_else(|| panic!("{row:?}"));
            let mut term = Term::of(&instance.left);
            assert_eq!(typing(&declared, &term).code, Code::Accepted, "{row:?}");
            let by = Step {
                rule: row.0,
                place: 0,
                i: instance.index("i"),
                j: instance.index("j"),
            };
            assert_eq!(
                step(&declared, &mut term, by).code,
                Code::Accepted,
                "{row:?}"
            );
            assert_eq!(term.words(), instance.right, "{row:?}");
        }
    }
}

/// The lines of the proved table: a number, a name, and the rule.
fn proved() -> Vec<(u16, &'static str, &'static str)> {
    let lines = PROVED.lines().filter_map(|line| {
        let (number, rest) = line.trim().strip_suffix('∷')?.split_once(" {- ")?;
        let (name, rule) = rest.split_once(" -} ∶ ")?;
        Some((number.parse().ok()?, name, rule.trim()))
    });
    lines.collect()
}

#[test]
fn there_is_a_row_for_each_rule_with_its_name() {
    let proved = proved();
    assert_eq!(proved.len(), 124);
    let named: BTreeMap<u16, &str> = TABLE.iter().map(|row| (row.0, row.1)).collect();
    assert_eq!(named.len(), 124);
    for (number, proved, _) in &proved {
        assert_eq!(named.get(number), Some(proved));
        assert_eq!(name(*number), Some(*proved));
    }
    assert_eq!(name(8), None);
}

#[test]
fn the_names_are_those_of_the_script() {
    let families = SCRIPT.split("<< 'RULES'\n").nth(1).unwrap();
    let families = families.split("\nRULES").next().unwrap();
    let mut told = BTreeMap::new();
    for line in families.lines() {
        let [first, last, family] = line.split(' ').collect::<Vec<_>>()[..] else {
            panic!("{line}")
        };
        let [first, last]: [u16; 2] = [first, last].map(|n| n.parse().unwrap());
        for number in first..=last {
            let name = match first == last {
                true => family.to_string(),
                false => format!("{family}{}", number - first),
            };
            told.insert(number, name);
        }
    }
    let named: BTreeMap<u16, String> = TABLE.iter().map(|row| (row.0, row.1.to_string())).collect();
    assert_eq!(told, named);
}

/// The number of a head, by the name that the proved table has for it.
fn head_number(name: &str) -> &'static str {
    let mut lines = HEADS.lines().filter_map(|line| {
        let (label, word) = line.strip_prefix("head_of ")?.split_once(" n = (")?;
        let label = label.trim_start_matches('(').split(' ').next()?;
        (label == name).then(|| word.split(',').next())?
    });
    lines.next().unwrap_or_else(|| panic!("no head {name}"))
}

/// What stands at a place of a proved pattern.
#[derive(Debug, PartialEq)]
enum Item {
    Head(String),
    Hole(usize),
    /// The first or second index of what is in a hole.
    Index(usize, usize),
}

fn pattern(text: &'static str) -> Vec<Item> {
    let mut words = text
        .split_whitespace()
        .filter(|word| !matches!(*word, "⟨" | "∣" | "⟩" | "⟨⟩"));
    let mut items = Vec::new();
    while let Some(word) = words.next() {
        let mut number = || words.next().unwrap().parse().unwrap();
        items.push(match word {
            "#" => Item::Hole(number()),
            "first" => Item::Index(number(), 0),
            "second" => Item::Index(number(), 1),
            "bound_basis" => Item::Head(format!("28:{}", number())),
            head => Item::Head(head_number(head).to_string()),
        });
    }
    items
}

/// Whether a side of a row is a pattern, with a letter of its own in each hole.
fn fills(
    side: &'static str,
    items: &[Item],
    row: &Instance,
    holes: &mut BTreeMap<usize, &'static str>,
) {
    let tokens: Vec<&'static str> = side.split(' ').collect();
    assert_eq!(tokens.len(), items.len(), "{side}");
    for (token, item) in tokens.into_iter().zip(items) {
        match item {
            Item::Head(head) => {
                let counted = matches!(head.as_str(), "7" | "8" | "20");
                let found = if counted {
                    token.split(':').next().unwrap()
                } else {
                    token
                };
                assert_eq!(found, head, "{side}");
            }
            Item::Hole(k) => {
                let taken = holes
                    .iter()
                    .any(|(other, letter)| other != k && *letter == token);
                assert!(
                    !taken && *holes.entry(*k).or_insert(token) == token,
                    "{side}"
                );
            }
            Item::Index(k, which) => {
                let of = row
                    .variables
                    .iter()
                    .find(|(name, _)| *name == holes[k])
                    .unwrap();
                let index = of.1.indices.get(*which).or(of.1.indices.first()).unwrap();
                let [word] = index[..] else { panic!("{side}") };
                assert_eq!(token, row.types[usize::from(word) - 256], "{side}");
            }
        }
    }
}

#[test]
fn each_equation_is_the_proved_one_with_a_letter_of_its_own_in_each_hole() {
    let mut equations = 0;
    for (number, _, rule) in proved() {
        let Some((left, right)) = rule.split_once(" ▷ ") else {
            continue;
        };
        let left = left.split_once(" ⇒ ").map_or(left, |(_, left)| left);
        let rows: Vec<&Row> = TABLE.iter().filter(|row| row.0 == number).collect();
        let [row] = rows[..] else { panic!("{number}") };
        let instance = Instance::of(row).unwrap();
        let mut holes = BTreeMap::new();
        fills(row.2, &pattern(left), &instance, &mut holes);
        fills(row.3, &pattern(right), &instance, &mut holes);
        equations += 1;
    }
    assert_eq!(equations, 94);
}

#[test]
fn rules_read_as_in_source_document_002() {
    let told = |number| {
        let lines: Vec<String> = equations(number)
            .iter()
            .map(|e| format!("{} ▷ {} [{}]", text(&e.left), text(&e.right), e.condition))
            .collect();
        lines.join("\n")
    };
    assert_eq!(told(22), "(a.B)·K ▷ a × (B·K) []");
    assert_eq!(
        told(7),
        "b₁ × … × (a₁ + … + aₙ) × … × bₘ ▷ b₁ × … × a₁ × … × bₘ + … + b₁ × … × aₙ × … × bₘ []"
    );
    assert_eq!(told(13), "(a₁ × … × aₙ)* ▷ a₁* × … × aₙ* []");
    assert_eq!(told(24), "(B₁ + … + Bₙ)·K ▷ B₁·K + … + Bₙ·K []");
    assert_eq!(
        told(51),
        "Y₁ + … + X + … + X + … + Yₙ ▷ Y₁ + … + Yₙ + (1 + 1).X []"
    );
    assert_eq!(told(85), "K⊗0_K(σ) ▷ 0_K(τ×σ) [K of τ]");
    assert_eq!(told(150), "0_O(σ,τ)·O ▷ 0_O(σ,ρ) [O of τ by ρ]");
    assert_eq!(
        told(162),
        "(O₁⊗O₂)·((O₁'⊗O₂')·O₃) ▷ ((O₁·O₁')⊗(O₂·O₂'))·O₃ []"
    );
    assert_eq!(told(181), "Σ_i(|i⟩·⟨i|) ▷ 1_O(σ) [i over σ]");
    let swaps = told(170);
    assert_eq!(swaps.lines().count(), 4);
    assert!(swaps.ends_with("δ(s,t) ▷ δ(t,s) []"));
}

/// Where the right side has an index that the left does not tell, its letters are said to be of it.
#[test]
fn every_row_can_be_written() {
    for row in &TABLE {
        let rows = TABLE.iter().filter(|other| other.0 == row.0).count();
        assert_eq!(equations(row.0).len(), rows, "{row:?}");
    }
}
