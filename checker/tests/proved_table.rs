//! The table of rules that the proofs are about says what this reading of 002
//! says: every line, by its number and its name. The proofs show that each line
//! keeps type and matrix; that it is the rule that the papers give that number
//! is seen here.

use checker::notation::{Item, Kind, Law};
use checker::rules::{Rule, Way, RULES};
use checker::words::{children_of, head};

const TABLE: &str = include_str!("../../crates/rules/specs/Table.antt");

/// The heads as the table names them, from 2; names stand in no rule.
const NAMES: &str = "index_product - pair scalar_zero scalar_one scalar_sum scalar_product \
    conjugate delta dot zero_ket zero_bra zero_operator identity basis_ket basis_bra adjoint \
    scale add tensor mulk mulb outer mulo - big_sum bound_basis";

/// The head of a bound basis, which the table writes with its number.
const BOUND: u8 = 28;

fn name(head: u8) -> &'static str {
    NAMES.split_whitespace().nth(usize::from(head - 2)).expect("a head of a rule")
}

/// What the table writes for each letter of a law: a hole by the order of the
/// holes, or an index of the type of what a hole holds.
fn letters(law: &Law) -> Vec<String> {
    let mut written = vec![String::new(); 8];
    let mut holes = 0;
    for item in law.left.get() {
        if let Item::Part(slot) | Item::Apart(slot) = *item {
            let letter = &mut written[usize::from(slot)];
            if letter.is_empty() {
                *letter = format!("# {holes}");
                holes += 1;
            }
        }
    }
    if let Some(premise) = &law.premise {
        let hole = written[usize::from(premise.slot)].replace("# ", "");
        let indices = [(premise.first, "first"), (premise.second, "second")];
        let count = if premise.kind == Kind::Operator { 2 } else { 1 };
        for (slot, index) in &indices[..count] {
            let letter = &mut written[usize::from(*slot)];
            if letter.is_empty() {
                *letter = format!("{index} {hole}");
            }
        }
    }
    written
}

/// One side of a law as the table writes it.
fn side<'i>(items: &mut impl Iterator<Item = &'i Item>, letters: &[String]) -> String {
    match *items.next().expect("a part") {
        Item::Part(slot) | Item::Apart(slot) => letters[usize::from(slot)].clone(),
        Item::Word(word) => {
            let count = children_of(word).expect("a known head");
            let children: Vec<String> = (0..count).map(|_| side(items, letters)).collect();
            if children.is_empty() {
                let number = if head(word) == BOUND { format!(" {}", word % 256) } else { String::new() };
                return format!("{}{number} ⟨⟩", name(head(word)));
            }
            format!("{} ⟨ {} ⟩", name(head(word)), children.join(" ∣ "))
        }
        Item::Each { .. } => panic!("a sum of any length is no pattern"),
    }
}

/// A law over a sum of any length: the parent's head, which child is the sum,
/// the sum's head, the result's.
fn spreading(law: &Law) -> Option<String> {
    let left = law.left.get();
    let child = left.iter().position(|item| matches!(item, Item::Each { .. }))?;
    let (Item::Word(parent), Item::Each { head: sum, slot }) = (left[0], left[child]) else {
        panic!("a sum is a child");
    };
    let mut once = left.to_vec();
    once[child] = Item::Part(slot);
    let right = law.right.get();
    let Item::Each { head: result, slot: over } = right[0] else {
        panic!("the result is a sum");
    };
    assert_eq!((over, &right[1..]), (slot, &once[..]), "the parent over each child");
    let (parent, sum, result) = (name(head(parent)), name(sum), name(result));
    Some(format!("spreading {parent} (child {}) {sum} {result}", child - 1))
}

fn equation(law: &Law, number: u16) -> String {
    let letters = letters(law);
    let left = side(&mut law.left.get().iter(), &letters);
    let right = side(&mut law.right.get().iter(), &letters);
    // Elsewhere the left side tells the kind of what a premise is about.
    let apart = law.left.get().iter().any(|item| matches!(item, Item::Apart(_)));
    let marked = law.premise.is_some_and(|premise| premise.marked);
    let kind = match (number, law.premise.as_ref().map(|premise| premise.kind)) {
        (43, Some(Kind::Ket)) => "a_ket ⇒ ",
        (45, Some(Kind::Bra)) => "a_bra ⇒ ",
        (47, Some(Kind::Operator)) => "an_operator ⇒ ",
        _ if apart => "unused ⇒ ",
        _ if marked => "marked ⇒ ",
        _ => "",
    };
    format!("{kind}{left} ▷ {right}")
}

/// The line of a rule.
fn line(rule: &Rule) -> String {
    let summand = |scaled: bool| if scaled { "scaled" } else { "plain" };
    let text = match &rule.way {
        Way::Law(law) => spreading(law).unwrap_or_else(|| equation(law, rule.number)),
        Way::Merge => "merging".to_string(),
        Way::Remove { parent, unit } => format!("removing {} {}", name(*parent), name(*unit)),
        Way::Absorb => "absorbing".to_string(),
        Way::Spread => "spreading scalar_product child_i scalar_sum scalar_sum".to_string(),
        Way::Collect { i_scaled, j_scaled } => {
            format!("collecting {} {}", summand(*i_scaled), summand(*j_scaled))
        }
        Way::Swap => "swapping".to_string(),
        Way::SpreadBody => "distributing".to_string(),
    };
    format!("{} {{- {} -}} ∶ {text} ∷", rule.number, rule.name)
}

#[test]
fn the_proved_table_is_this_reading_of_the_rules() {
    let proved: Vec<String> = TABLE
        .lines()
        .map(|line| line.split_whitespace().collect::<Vec<_>>().join(" "))
        .filter(|line| line.starts_with(|c: char| c.is_ascii_digit()))
        .collect();
    let here: Vec<String> = RULES.iter().map(line).collect();
    assert_eq!(proved.len(), RULES.len());
    for (proved, here) in proved.iter().zip(&here) {
        assert_eq!(proved, here);
    }
}
