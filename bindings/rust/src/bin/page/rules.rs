//! The table of the rules, written in the notation of the terms.
use crate::derivation::Declared;
use crate::names::{Given, Letter, Names};
use crate::notation::{line, Token};
use crate::shape::Shape;
use crate::table::{Row, TABLE};
use crate::text::text;
use fejogbu::word;

/// The name of a rule; nothing where there is none of the number.
pub fn name(number: u16) -> Option<&'static str> {
    TABLE.iter().find(|row| row.0 == number).map(|row| row.1)
}

/// A line of the table: what becomes what, and what must hold of the letters where the left side does not tell.
pub struct Equation {
    pub left: Vec<Token>,
    pub right: Vec<Token>,
    pub condition: String,
}

/// Whether a rule has a use for the index i or j of its step.
pub fn uses(number: u16, index: &str) -> bool {
    let mut rows = TABLE.iter().filter(|row| row.0 == number);
    rows.any(|row| row.4.split("; ").any(|entry| entry.starts_with(index)))
}

/// The lines of a rule.
pub fn equations(number: u16) -> Vec<Equation> {
    let rows = TABLE.iter().filter(|row| row.0 == number);
    rows.filter_map(|row| Instance::of(row)?.equation())
        .collect()
}

/// What a rule says beside its lines.
pub fn remark(number: u16) -> &'static str {
    match number {
        1 => "Child i, of the parent's own head, is merged into it.",
        4 | 6 | 55..=57 => "Child i goes, of two or more.",
        5 => "Child i is 0.",
        7 => "The product is spread over its child i.",
        51..=54 => "The two are children i and j, and i comes before j.",
        170 => "Children i and i + 1 are exchanged.",
        183 => "s does not use the basis that the sum binds.",
        190 | 191 => "O is declared unitary.",
        _ => "",
    }
}

/// A row of the table with its letters numbered: two terms under declarations.
pub struct Instance {
    pub types: Vec<&'static str>,
    pub bases: Vec<(&'static str, Vec<u16>)>,
    pub variables: Vec<(&'static str, Declared)>,
    pub left: Vec<u16>,
    pub right: Vec<u16>,
    with: &'static str,
}

impl Instance {
    pub fn of(&(_, _, left, right, with): &Row) -> Option<Instance> {
        let mut instance = Instance {
            types: Vec::new(),
            bases: Vec::new(),
            variables: Vec::new(),
            left: Vec::new(),
            right: Vec::new(),
            with,
        };
        instance.left = instance.words(left)?;
        instance.right = instance.words(right)?;
        Some(instance)
    }

    /// What the last field says of a letter.
    fn said(&self, letter: &str) -> Option<&'static str> {
        let mut entries = self
            .with
            .split("; ")
            .filter_map(|entry| entry.split_once('='));
        entries
            .find(|(key, _)| *key == letter)
            .map(|(_, value)| value)
    }

    /// The indices i or j of the step.
    #[cfg(test)]
    pub fn index(&self, letter: &str) -> u16 {
        self.said(letter).map_or(0, |value| value.parse().unwrap())
    }

    fn words(&mut self, text: &'static str) -> Option<Vec<u16>> {
        text.split(' ').map(|token| self.word(token)).collect()
    }

    fn word(&mut self, token: &'static str) -> Option<u16> {
        match token.chars().next()? {
            '0'..='9' => crate::derivation::words(token)?.first().copied(),
            'σ' | 'τ' | 'ρ' | 'κ' => Some(word(1, numbered(&mut self.types, token))),
            's' | 't' => self.basis(token),
            _ => self.variable(token),
        }
    }

    fn basis(&mut self, token: &'static str) -> Option<u16> {
        let known = self.bases.iter().position(|(name, _)| *name == token);
        if known.is_none() {
            let index = self.said(token).unwrap_or("σ");
            let index = self.words(index)?;
            self.bases.push((token, index));
        }
        let last = self.bases.len() - 1;
        Some(word(3, known.unwrap_or(last) as u8))
    }

    fn variable(&mut self, token: &'static str) -> Option<u16> {
        let known = self.variables.iter().position(|(name, _)| *name == token);
        if known.is_none() {
            let said = self.said(token).unwrap_or(match token.chars().next()? {
                'K' | 'X' | 'Y' => "K σ",
                'B' => "B σ",
                'O' => "O σ τ",
                _ => "S",
            });
            let declared = self.declared(said)?;
            self.variables.push((token, declared));
        }
        let last = self.variables.len() - 1;
        Some(word(26, known.unwrap_or(last) as u8))
    }

    fn declared(&mut self, text: &'static str) -> Option<Declared> {
        let (letter, indices) = text.split_once(' ').unwrap_or((text, ""));
        let letter = match letter {
            "K" => Letter::Ket,
            "B" => Letter::Bra,
            "O" => Letter::Operator,
            "U" => Letter::Unitary,
            _ => Letter::Scalar,
        };
        let mut words = match indices {
            "" => Vec::new(),
            indices => self.words(indices)?,
        };
        let mut found = Vec::new();
        while !words.is_empty() {
            let behind = words.split_off(fejogbu::part(&words, 0).words.len());
            found.push(std::mem::replace(&mut words, behind));
        }
        Some(Declared {
            letter,
            indices: found,
        })
    }

    #[cfg(test)]
    pub fn declarations(&self) -> Option<fejogbu::Declarations> {
        let bases: Vec<_> = self.bases.iter().map(|(_, index)| index.clone()).collect();
        let variables: Vec<_> = self.variables.iter().map(|(_, v)| v.clone()).collect();
        crate::derivation::declarations(self.types.len(), &bases, &variables)
    }

    fn names(&self) -> Option<Names> {
        let letters: Vec<Letter> = self.variables.iter().map(|(_, v)| v.letter).collect();
        let given = Given {
            types: self.types.iter().map(|name| name.to_string()).collect(),
            bases: self.bases.iter().map(|(name, _)| lowered(name)).collect(),
            variables: self
                .variables
                .iter()
                .map(|(name, _)| lowered(name))
                .collect(),
            bound: Vec::new(),
        };
        let mut names =
            Names::of(self.types.len(), self.bases.len(), &letters, Some(&given)).ok()?;
        names.bare = true;
        Some(names)
    }

    fn equation(&self) -> Option<Equation> {
        let mut names = self.names()?;
        let left = self.side(&self.left, &mut names)?;
        let right = self.side(&self.right, &mut names)?;
        Some(Equation {
            condition: self.condition(&mut names)?,
            left,
            right,
        })
    }

    /// A side, with dots for the letters that stand for dots.
    fn side(&self, words: &[u16], names: &mut Names) -> Option<Vec<Token>> {
        let sorts: Vec<_> = self
            .variables
            .iter()
            .map(|(_, v)| v.letter.sort())
            .collect();
        let shape = Shape::of(words, &sorts)?;
        let mut shown = vec![true; words.len()];
        for at in 0..words.len() {
            match self.dots(words[at]) {
                Some("…") => shown[at] = false,
                Some(_) => shown[summand(&shape, at)] = false,
                None => (),
            }
        }
        Some(line(&shape, names, None, Some(&shown)))
    }

    fn dots(&self, word: u16) -> Option<&'static str> {
        let [head, a] = word.to_be_bytes();
        let (name, _) = self.variables.get(usize::from(a)).filter(|_| head == 26)?;
        matches!(*name, "…" | "⋯").then_some(*name)
    }

    /// Which indices the letters have, where the right side has one that the left does not tell, and what a bound basis runs over.
    fn condition(&self, names: &mut Names) -> Option<String> {
        let is_new = |word: &u16| word.to_be_bytes()[0] == 1 && !self.left.contains(word);
        let mut said = Vec::new();
        if self.right.iter().any(is_new) {
            for (k, (_, declared)) in self.variables.iter().enumerate() {
                let indices = declared
                    .indices
                    .iter()
                    .map(|index| index_text(index, names));
                let indices: Vec<String> = indices.collect::<Option<_>>()?;
                said.push(format!(
                    "{} of {}",
                    names.variables[k],
                    indices.join(" by ")
                ));
            }
        }
        let bound = names.all_bound().iter();
        let bound: Vec<_> = bound.map(|b| (b.name.clone(), b.index.clone())).collect();
        for (name, index) in bound {
            said.push(format!("{name} over {}", index_text(&index?, names)?));
        }
        Some(said.join(", "))
    }
}

fn index_text(index: &[u16], names: &mut Names) -> Option<String> {
    Some(text(&line(&Shape::of(index, &[])?, names, None, None)))
}

/// The number of a letter, which joins the others where it is new.
fn numbered(known: &mut Vec<&'static str>, token: &'static str) -> u8 {
    let place = known.iter().position(|name| *name == token);
    if place.is_none() {
        known.push(token);
    }
    place.unwrap_or(known.len() - 1) as u8
}

/// The summand of the nearest sum, or else the factor of the nearest product, that a part stands in.
fn summand(shape: &Shape, at: usize) -> usize {
    let mut found = at;
    let mut is_sum = false;
    for parent in (0..at).filter(|&parent| shape.part(parent).contains(&at)) {
        let sum = matches!(shape.head(parent), 7 | 20);
        if sum || (shape.head(parent) == 8 && !is_sum) {
            is_sum |= sum;
            found = shape
                .children(parent)
                .find(|&child| shape.part(child).contains(&at))
                .unwrap_or(at);
        }
    }
    found
}

/// A letter of the table with its figure or letter below.
fn lowered(name: &str) -> String {
    let mut chars = name.chars();
    let first = chars.next().into_iter();
    first
        .chain(chars.map(|c| match c {
            '1' => '₁',
            '2' => '₂',
            '3' => '₃',
            'n' => 'ₙ',
            'm' => 'ₘ',
            'i' => 'ᵢ',
            'j' => 'ⱼ',
            other => other,
        }))
        .collect()
}
