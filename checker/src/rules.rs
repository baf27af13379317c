//! The 124 rules, by the numbers of document 01 and its change requests, in the
//! words of source document 002. A line that 002 writes as one equation is the rule itself
//! (see `notation`); the others name the family that carries them out.

use crate::bodies::{names_bound, Around};
use crate::decl::Declarations;
use crate::notation::{law, Item, Items, Kind, Law, Premise, OWN, SLOTS};
use crate::typing::{self, type_around};
use crate::words::*;

/// How a rule is carried out.
pub enum Way {
    /// As its text says.
    Law(Law),
    /// Child i, of the parent's own head, is merged into the parent.
    Merge,
    /// Child i, of head `unit`, is removed from two or more of `parent`.
    Remove { parent: u8, unit: u8 },
    /// A product whose child i is 0 is 0.
    Absorb,
    /// A product is spread over its child i, a sum.
    Spread,
    /// Children i < j, scaled or plain, become one, which goes last.
    Collect { i_scaled: bool, j_scaled: bool },
    /// Children i and i + 1 are exchanged.
    Swap,
    /// A sum over a basis is spread over its body, a sum.
    SpreadBody,
}

pub struct Rule {
    pub number: u16,
    pub name: &'static str,
    pub text: &'static str,
    pub way: Way,
}

const fn rule(number: u16, name: &'static str, text: &'static str) -> Rule {
    Rule { number, name, text, way: Way::Law(law(text)) }
}

const fn by(way: Way, number: u16, name: &'static str, text: &'static str) -> Rule {
    Rule { number, name, text, way }
}

const fn remove(parent: u8, unit: u8) -> Way {
    Way::Remove { parent, unit }
}

const fn collect(i_scaled: bool, j_scaled: bool) -> Way {
    Way::Collect { i_scaled, j_scaled }
}

/// All rules, ordered by number.
#[rustfmt::skip]
pub static RULES: [Rule; 124] = [
    // Table 1: the special flattening rule (here one child a step; also for × and for X).
    by(Way::Merge, 1, "FLATTEN", "a1+…+(b1+…+bm)+…+an ▷ a1+…+b1+…+bm+…+an"),
    // Table 2: scalar addition and multiplication.
    rule(2, "ADDSID", "+(a) ▷ a"),
    rule(3, "MULSID", "×(a) ▷ a"),
    by(remove(ADDS, ZERO), 4, "ADDS0", "a1+…+0+…+an ▷ a1+…+an"),
    by(Way::Absorb, 5, "MULS0", "a1×…×0×…×an ▷ 0"),
    by(remove(MULS, ONE), 6, "MULS1", "a1×…×1×…×an ▷ a1×…×an"),
    by(Way::Spread, 7, "MULS2", "b1×…×(a1+…+an)×…×bm ▷ (b1×…×a1×…×bm)+…+(b1×…×an×…×bm)"),
    // Table 3: other scalar symbols.
    rule(10, "CONJ0", "0* ▷ 0"),
    rule(11, "CONJ1", "1* ▷ 1"),
    rule(12, "CONJ2", "(a1+…+an)* ▷ a1*+…+an*"),
    rule(13, "CONJ3", "(a1×…×an)* ▷ a1*×…×an*"),
    rule(14, "CONJ4", "(a*)* ▷ a"),
    rule(15, "CONJ5", "δ(s,t)* ▷ δ(s,t)"),
    rule(16, "CONJ6", "(B·K)* ▷ K†·B†"),
    rule(20, "DOT0", "0_B(σ)·K ▷ 0"),
    rule(21, "DOT1", "B·0_K(σ) ▷ 0"),
    rule(22, "DOT2", "(a.B)·K ▷ a×(B·K)"),
    rule(23, "DOT3", "B·(a.K) ▷ a×(B·K)"),
    rule(24, "DOT4", "(B1+…+Bn)·K ▷ B1·K+…+Bn·K"),
    rule(25, "DOT5", "B·(K1+…+Kn) ▷ B·K1+…+B·Kn"),
    rule(26, "DOT6", "⟨s|·|t⟩ ▷ δ(s,t)"),
    rule(27, "DOT7", "(B1⊗B2)·|(s,t)⟩ ▷ (B1·|s⟩)×(B2·|t⟩)"),
    rule(28, "DOT8", "⟨(s,t)|·(K1⊗K2) ▷ (⟨s|·K1)×(⟨t|·K2)"),
    rule(29, "DOT9", "(B1⊗B2)·(K1⊗K2) ▷ (B1·K1)×(B2·K2)"),
    rule(30, "DOT10", "(B·O)·K ▷ B·(O·K)"),
    rule(31, "DOT11", "⟨(s,t)|·((O1⊗O2)·K) ▷ ((⟨s|·O1)⊗(⟨t|·O2))·K"),
    rule(32, "DOT12", "(B1⊗B2)·((O1⊗O2)·K) ▷ ((B1·O1)⊗(B2·O2))·K"),
    rule(33, "DELTA0", "δ(a,a) ▷ 1"),
    rule(34, "DELTA1", "δ((a,b),(c,d)) ▷ δ(a,c)×δ(b,d)"),
    // Table 4: linear algebra scaling.
    rule(40, "SCR0", "1.X ▷ X"),
    rule(41, "SCR1", "a.(b.X) ▷ (a×b).X"),
    rule(42, "SCR2", "a.(X1+…+Xn) ▷ a.X1+…+a.Xn"),
    rule(43, "SCRK0", "K:K(σ) ⇒ 0.K ▷ 0_K(σ)"),
    rule(44, "SCRK1", "a.0_K(σ) ▷ 0_K(σ)"),
    rule(45, "SCRB0", "B:B(σ) ⇒ 0.B ▷ 0_B(σ)"),
    rule(46, "SCRB1", "a.0_B(σ) ▷ 0_B(σ)"),
    rule(47, "SCRO0", "O:O(σ,τ) ⇒ 0.O ▷ 0_O(σ,τ)"),
    rule(48, "SCRO1", "a.0_O(σ,τ) ▷ 0_O(σ,τ)"),
    // Table 5: linear algebra addition.
    rule(50, "ADDID", "+(X) ▷ X"),
    by(collect(false, false), 51, "ADD0", "Y1+…+X+…+X+…+Yn ▷ Y1+…+Yn+(1+1).X"),
    by(collect(false, true), 52, "ADD1", "Y1+…+X+…+a.X+…+Yn ▷ Y1+…+Yn+(1+a).X"),
    by(collect(true, false), 53, "ADD2", "Y1+…+a.X+…+X+…+Yn ▷ Y1+…+Yn+(a+1).X"),
    by(collect(true, true), 54, "ADD3", "Y1+…+a.X+…+b.X+…+Yn ▷ Y1+…+Yn+(a+b).X"),
    by(remove(ADD, ZERO_KET), 55, "ADDK0", "K1+…+0_K(σ)+…+Kn ▷ K1+…+Kn"),
    by(remove(ADD, ZERO_BRA), 56, "ADDB0", "B1+…+0_B(σ)+…+Bn ▷ B1+…+Bn"),
    by(remove(ADD, ZERO_OPERATOR), 57, "ADDO0", "O1+…+0_O(σ,τ)+…+On ▷ O1+…+On"),
    // Table 6: adjoint.
    rule(60, "ADJ0", "(X†)† ▷ X"),
    rule(61, "ADJ1", "(a.X)† ▷ (a*).(X†)"),
    rule(62, "ADJ2", "(X1+…+Xn)† ▷ X1†+…+Xn†"),
    rule(63, "ADJ3", "(X⊗Y)† ▷ X†⊗Y†"),
    rule(64, "ADJK0", "0_B(σ)† ▷ 0_K(σ)"),
    rule(65, "ADJK1", "⟨t|† ▷ |t⟩"),
    rule(66, "ADJK2", "(B·O)† ▷ O†·B†"),
    rule(67, "ADJB0", "0_K(σ)† ▷ 0_B(σ)"),
    rule(68, "ADJB1", "|t⟩† ▷ ⟨t|"),
    rule(69, "ADJB2", "(O·K)† ▷ K†·O†"),
    rule(70, "ADJO0", "0_O(σ,τ)† ▷ 0_O(τ,σ)"),
    rule(71, "ADJO1", "1_O(σ)† ▷ 1_O(σ)"),
    rule(72, "ADJO2", "(K·B)† ▷ B†·K†"),
    rule(73, "ADJO3", "(O1·O2)† ▷ O2†·O1†"),
    // Table 7: tensor product.
    rule(80, "TSR0", "(a.X1)⊗X2 ▷ a.(X1⊗X2)"),
    rule(81, "TSR1", "X1⊗(a.X2) ▷ a.(X1⊗X2)"),
    rule(82, "TSR2", "(X1+…+Xn)⊗X' ▷ X1⊗X'+…+Xn⊗X'"),
    rule(83, "TSR3", "X'⊗(X1+…+Xn) ▷ X'⊗X1+…+X'⊗Xn"),
    rule(84, "TSRK0", "K:K(τ) ⇒ 0_K(σ)⊗K ▷ 0_K(σ×τ)"),
    rule(85, "TSRK1", "K:K(τ) ⇒ K⊗0_K(σ) ▷ 0_K(τ×σ)"),
    rule(86, "TSRK2", "|s⟩⊗|t⟩ ▷ |(s,t)⟩"),
    rule(87, "TSRB0", "B:B(τ) ⇒ 0_B(σ)⊗B ▷ 0_B(σ×τ)"),
    rule(88, "TSRB1", "B:B(τ) ⇒ B⊗0_B(σ) ▷ 0_B(τ×σ)"),
    rule(89, "TSRB2", "⟨s|⊗⟨t| ▷ ⟨(s,t)|"),
    rule(90, "TSRO0", "O:O(σ,τ) ⇒ O⊗0_O(σ',τ') ▷ 0_O(σ×σ',τ×τ')"),
    rule(91, "TSRO1", "O:O(σ,τ) ⇒ 0_O(σ',τ')⊗O ▷ 0_O(σ'×σ,τ'×τ)"),
    rule(92, "TSRO2", "1_O(σ)⊗1_O(τ) ▷ 1_O(σ×τ)"),
    rule(93, "TSRO3", "(K1·B1)⊗(K2·B2) ▷ (K1⊗K2)·(B1⊗B2)"),
    // Table 8: O·K.
    rule(100, "MULK0", "0_O(σ,τ)·K ▷ 0_K(σ)"),
    rule(101, "MULK1", "O:O(σ,τ) ⇒ O·0_K(τ) ▷ 0_K(σ)"),
    rule(102, "MULK2", "1_O(σ)·K ▷ K"),
    rule(103, "MULK3", "(a.O)·K ▷ a.(O·K)"),
    rule(104, "MULK4", "O·(a.K) ▷ a.(O·K)"),
    rule(105, "MULK5", "(O1+…+On)·K ▷ O1·K+…+On·K"),
    rule(106, "MULK6", "O·(K1+…+Kn) ▷ O·K1+…+O·Kn"),
    rule(107, "MULK7", "(K1·B)·K2 ▷ (B·K2).K1"),
    rule(108, "MULK8", "(O1·O2)·K ▷ O1·(O2·K)"),
    rule(109, "MULK9", "(O1⊗O2)·((O1'⊗O2')·K) ▷ ((O1·O1')⊗(O2·O2'))·K"),
    rule(110, "MULK10", "(O1⊗O2)·|(s,t)⟩ ▷ (O1·|s⟩)⊗(O2·|t⟩)"),
    rule(111, "MULK11", "(O1⊗O2)·(K1⊗K2) ▷ (O1·K1)⊗(O2·K2)"),
    // Table 9: B·O.
    rule(120, "MULB0", "B·0_O(σ,τ) ▷ 0_B(τ)"),
    rule(121, "MULB1", "O:O(σ,τ) ⇒ 0_B(σ)·O ▷ 0_B(τ)"),
    rule(122, "MULB2", "B·1_O(σ) ▷ B"),
    rule(123, "MULB3", "(a.B)·O ▷ a.(B·O)"),
    rule(124, "MULB4", "B·(a.O) ▷ a.(B·O)"),
    rule(125, "MULB5", "(B1+…+Bn)·O ▷ B1·O+…+Bn·O"),
    rule(126, "MULB6", "B·(O1+…+On) ▷ B·O1+…+B·On"),
    rule(127, "MULB7", "B1·(K·B2) ▷ (B1·K).B2"),
    rule(128, "MULB8", "B·(O1·O2) ▷ (B·O1)·O2"),
    rule(129, "MULB9", "(B·(O1'⊗O2'))·(O1⊗O2) ▷ B·((O1'⊗O2')·(O1⊗O2))"),
    rule(130, "MULB10", "⟨(s,t)|·(O1⊗O2) ▷ (⟨s|·O1)⊗(⟨t|·O2)"),
    rule(131, "MULB11", "(B1⊗B2)·(O1⊗O2) ▷ (B1·O1)⊗(B2·O2)"),
    // Table 10: K·B.
    rule(140, "OUTER0", "B:B(τ) ⇒ 0_K(σ)·B ▷ 0_O(σ,τ)"),
    rule(141, "OUTER1", "K:K(σ) ⇒ K·0_B(τ) ▷ 0_O(σ,τ)"),
    rule(142, "OUTER2", "(a.K)·B ▷ a.(K·B)"),
    rule(143, "OUTER3", "K·(a.B) ▷ a.(K·B)"),
    rule(144, "OUTER4", "(K1+…+Kn)·B ▷ K1·B+…+Kn·B"),
    rule(145, "OUTER5", "K·(B1+…+Bn) ▷ K·B1+…+K·Bn"),
    // Table 11: O1·O2.
    rule(150, "MULO0", "O:O(τ,ρ) ⇒ 0_O(σ,τ)·O ▷ 0_O(σ,ρ)"),
    rule(151, "MULO1", "O:O(σ,τ) ⇒ O·0_O(τ,ρ) ▷ 0_O(σ,ρ)"),
    rule(152, "MULO2", "1_O(σ)·O ▷ O"),
    rule(153, "MULO3", "O·1_O(σ) ▷ O"),
    rule(154, "MULO4", "(K·B)·O ▷ K·(B·O)"),
    rule(155, "MULO5", "O·(K·B) ▷ (O·K)·B"),
    rule(156, "MULO6", "(a.O1)·O2 ▷ a.(O1·O2)"),
    rule(157, "MULO7", "O1·(a.O2) ▷ a.(O1·O2)"),
    rule(158, "MULO8", "(O1+…+On)·O' ▷ O1·O'+…+On·O'"),
    rule(159, "MULO9", "O'·(O1+…+On) ▷ O'·O1+…+O'·On"),
    rule(160, "MULO10", "(O1·O2)·O3 ▷ O1·(O2·O3)"),
    rule(161, "MULO11", "(O1⊗O2)·(O1'⊗O2') ▷ (O1·O1')⊗(O2·O2')"),
    rule(162, "MULO12", "(O1⊗O2)·((O1'⊗O2')·O3) ▷ ((O1·O1')⊗(O2·O2'))·O3"),
    // Document 01's own (also for × and for X; by change request 2 for δ(s,t) too, with i = 0).
    by(Way::Swap, 170, "SWAP", "a1+…+ai+aj+…+an ▷ a1+…+aj+ai+…+an, j = i + 1"),
    // Change request 1's own; i is the basis that the sum binds (182 also for X).
    rule(180, "SUM0", "Σ_σ(0) ▷ 0"),
    rule(181, "SUM1", "Σ_σ(|i⟩·⟨i|) ▷ 1_O(σ)"),
    by(Way::SpreadBody, 182, "SUM2", "Σ_σ(a1+…+an) ▷ Σ_σ(a1)+…+Σ_σ(an)"),
    rule(183, "SUM3", "Σ_σ(δ(s,i)) ▷ 1"),
    // Change request 7's own, for a variable O that is declared unitary; its σ and τ are one index.
    rule(190, "UNIT0", "O:U(σ,τ) ⇒ O†·O ▷ 1_O(τ)"),
    rule(191, "UNIT1", "O:U(σ,τ) ⇒ O·O† ▷ 1_O(σ)"),
];

/// The rule of a number.
pub fn by_number(number: u16) -> Option<&'static Rule> {
    let found = RULES.binary_search_by_key(&number, |rule| rule.number).ok()?;
    Some(&RULES[found])
}

/// Where a rewritten part is put together; what no longer fits is told, not
/// written.
pub struct Out<'w> {
    words: &'w mut [u16],
    length: usize,
    full: bool,
}

impl<'w> Out<'w> {
    pub fn new(words: &'w mut [u16]) -> Self {
        Out { words, length: 0, full: false }
    }

    fn part(&mut self, part: &[u16]) {
        match self.words.get_mut(self.length..self.length + part.len()) {
            Some(room) if !self.full => {
                room.copy_from_slice(part);
                self.length += part.len();
            }
            _ => self.full = true,
        }
    }

    fn word(&mut self, head: u8, a: u8) {
        self.part(&[word(head, a)]);
    }

    /// A head with this many children.
    fn counted(&mut self, head: u8, children: usize) {
        match u8::try_from(children) {
            Ok(n) => self.word(head, n),
            Err(_) => self.full = true,
        }
    }

    /// What was written, if all of it fitted.
    pub fn done(self) -> Option<&'w [u16]> {
        if self.full {
            return None;
        }
        Some(&self.words[..self.length])
    }
}

/// A part of a term, and where it stands there.
#[derive(Clone, Copy)]
pub struct Spot<'t> {
    pub term: &'t [u16],
    pub place: usize,
    pub part: &'t [u16],
}

/// A sum, a product or a delta, opened.
struct Opened<'t> {
    head: u8,
    children: usize,
    /// The children, one behind the other.
    words: &'t [u16],
}

impl<'t> Opened<'t> {
    fn new(part: &'t [u16]) -> Option<Self> {
        let (&first, words) = part.split_first()?;
        let counted = form(head(first)) == Form::Count;
        counted.then(|| Opened { head: head(first), children: usize::from(low(first)), words })
    }

    /// What has no order: a sum or product, or a delta, which has two children.
    fn unordered(part: &'t [u16]) -> Option<Self> {
        match part.split_first()? {
            (&first, words) if head(first) == DELTA => {
                Some(Opened { head: DELTA, children: 2, words })
            }
            _ => Opened::new(part),
        }
    }

    /// What stands before child i, the child, and what stands behind it.
    fn split(&self, i: usize) -> Option<(&'t [u16], &'t [u16], &'t [u16])> {
        if i >= self.children {
            return None;
        }
        let start = parts(self.words).take(i).map(<[u16]>::len).sum();
        let (before, rest) = self.words.split_at(start);
        let (child, behind) = split_part(rest);
        Some((before, child, behind))
    }
}

impl Rule {
    /// Whether a part with this head may be an instance at all.
    pub fn begins_with(&self, first: u8) -> bool {
        match &self.way {
            Way::Law(law) => matches!(law.left.get(), [Item::Word(w), ..] if head(*w) == first),
            Way::Merge => matches!(first, ADDS | MULS | ADD),
            Way::Swap => matches!(first, ADDS | MULS | ADD | DELTA),
            Way::Remove { parent, .. } => first == *parent,
            Way::Absorb | Way::Spread => first == MULS,
            Way::Collect { .. } => first == ADD,
            Way::SpreadBody => first == SUM,
        }
    }

    /// Writes what a part of a typed term becomes. Nothing when with these indices it is
    /// no instance of the left side; `out` knows whether the result fitted.
    pub fn apply(
        &self,
        declared: &Declarations,
        spot: Spot,
        i: usize,
        j: usize,
        out: &mut Out,
    ) -> Option<()> {
        let part = spot.part;
        match &self.way {
            Way::Collect { i_scaled, j_scaled } => collected(part, i, j, *i_scaled, *j_scaled, out),
            _ if j != 0 => None,
            Way::Law(law) if i == 0 => lawful(law, declared, spot, out),
            Way::SpreadBody if i == 0 => spread_body(part, out),
            Way::Law(_) | Way::SpreadBody => None,
            Way::Merge => merged(part, i, out),
            Way::Remove { parent, unit } => removed(part, i, *parent, *unit, out),
            Way::Absorb => absorbed(part, i, out),
            Way::Spread => spread(part, i, out),
            Way::Swap => swapped(part, i, out),
        }
    }
}

fn begins(part: &[u16], first: u8) -> bool {
    part.first().is_some_and(|&word| head(word) == first)
}

/// 1: child i, of the parent's own head, gives its children to the parent.
fn merged(part: &[u16], i: usize, out: &mut Out) -> Option<()> {
    let parent = Opened::new(part)?;
    let (before, child, behind) = parent.split(i)?;
    let inner = Opened::new(child).filter(|inner| inner.head == parent.head)?;
    out.counted(parent.head, parent.children - 1 + inner.children);
    out.part(before);
    out.part(inner.words);
    out.part(behind);
    Some(())
}

/// 4, 6, 55 to 57: the fitting zero or one goes, unless it is the only child.
fn removed(part: &[u16], i: usize, parent: u8, unit: u8, out: &mut Out) -> Option<()> {
    let sum = Opened::new(part).filter(|sum| sum.head == parent && sum.children > 1)?;
    let (before, child, behind) = sum.split(i)?;
    if !begins(child, unit) {
        return None;
    }
    out.counted(parent, sum.children - 1);
    out.part(before);
    out.part(behind);
    Some(())
}

/// 5: a product with a 0 at i is 0.
fn absorbed(part: &[u16], i: usize, out: &mut Out) -> Option<()> {
    let product = Opened::new(part).filter(|product| product.head == MULS)?;
    let (_, child, _) = product.split(i)?;
    if !begins(child, ZERO) {
        return None;
    }
    out.word(ZERO, 0);
    Some(())
}

/// 7: a product with a sum at i is a sum of products.
fn spread(part: &[u16], i: usize, out: &mut Out) -> Option<()> {
    let product = Opened::new(part).filter(|product| product.head == MULS)?;
    let (before, child, behind) = product.split(i)?;
    let sum = Opened::new(child).filter(|sum| sum.head == ADDS)?;
    out.counted(ADDS, sum.children);
    for summand in parts(sum.words) {
        out.counted(MULS, product.children);
        out.part(before);
        out.part(summand);
        out.part(behind);
    }
    Some(())
}

/// 51 to 54: children i < j are multiples of one X; their sum goes last.
fn collected(
    part: &[u16],
    i: usize,
    j: usize,
    i_scaled: bool,
    j_scaled: bool,
    out: &mut Out,
) -> Option<()> {
    let sum = Opened::new(part).filter(|sum| sum.head == ADD && i < j)?;
    let (before_j, second, behind) = sum.split(j)?;
    let (before, first, between) = Opened { words: before_j, ..sum }.split(i)?;
    let (a, x) = multiple(first, i_scaled)?;
    let (b, same) = multiple(second, j_scaled)?;
    if x != same {
        return None;
    }
    out.counted(ADD, sum.children - 1);
    out.part(before);
    out.part(between);
    out.part(behind);
    out.word(SCR, 0);
    out.counted(ADDS, 2);
    out.part(a);
    out.part(b);
    out.part(x);
    Some(())
}

/// A summand as its factor and its X; a plain X has the factor 1.
fn multiple(summand: &[u16], scaled: bool) -> Option<(&[u16], &[u16])> {
    const PLAIN: [u16; 1] = [word(ONE, 0)];
    if !scaled {
        return Some((&PLAIN, summand));
    }
    if !begins(summand, SCR) {
        return None;
    }
    let rest = &summand[1..];
    Some(split_part(rest))
}

/// 170: children i and i + 1 change places.
fn swapped(part: &[u16], i: usize, out: &mut Out) -> Option<()> {
    let whole = Opened::unordered(part).filter(|whole| i + 1 < whole.children)?;
    let (before, child, rest) = whole.split(i)?;
    let (next, behind) = split_part(rest);
    out.part(&part[..1]);
    out.part(before);
    out.part(next);
    out.part(child);
    out.part(behind);
    Some(())
}

/// 182: a sum over a basis whose body is a sum is a sum of sums over it.
fn spread_body(part: &[u16], out: &mut Out) -> Option<()> {
    let (&first, rest) = part.split_first()?;
    let (index, body) = split_part(rest);
    let sum = Opened::new(body).filter(|sum| head(first) == SUM && sum.head != MULS)?;
    out.counted(sum.head, sum.children);
    for summand in parts(sum.words) {
        out.word(SUM, 0);
        out.part(index);
        out.part(summand);
    }
    Some(())
}

/// Every rule that is one equation.
fn lawful(law: &Law, declared: &Declarations, spot: Spot, out: &mut Out) -> Option<()> {
    let mut bound = fit(&law.left, spot.part)?;
    let found;
    if let Some(premise) = &law.premise {
        let part = bound[usize::from(premise.slot)];
        if premise.marked && !declared.marks(part) {
            return None;
        }
        found = type_at(declared, spot, part)?;
        bind_type(premise, &found, &mut bound)?;
    }
    write(law.right.get(), bound, out);
    Some(())
}

/// The type of what a letter of a premise stands for. No rule with a premise has
/// a body in its left side: the bodies around the letter are those around the
/// whole, and need to be found only where it names their bases.
fn type_at(declared: &Declarations, spot: Spot, part: &[u16]) -> Option<typing::Type> {
    let around =
        if names_bound(part) { Around::of(spot.term, spot.place) } else { Around::default() };
    type_around(declared, around, part).ok()
}

/// The parts that the letters of a left side stand for; a sum's letter stands
/// for the whole sum.
fn fit<'t>(left: &Items, part: &'t [u16]) -> Option<[&'t [u16]; SLOTS]> {
    let mut bound: [&[u16]; SLOTS] = [&[]; SLOTS];
    let mut rest = part;
    for item in left.get() {
        let &first = rest.first()?;
        match *item {
            Item::Word(word) if word == first => rest = &rest[1..],
            Item::Word(_) => return None,
            Item::Each { head, .. } if head != self::head(first) => return None,
            Item::Part(slot) | Item::Apart(slot) | Item::Each { slot, .. } => {
                let (here, behind) = split_part(rest);
                let place = &mut bound[usize::from(slot)];
                if !place.is_empty() && *place != here {
                    return None;
                }
                if matches!(item, Item::Apart(_)) && here.contains(&OWN) {
                    return None;
                }
                *place = here;
                rest = behind;
            }
        }
    }
    Some(bound)
}

/// Binds the letters of a premise to the indices of the part's type.
fn bind_type<'t>(
    premise: &Premise,
    found: &'t typing::Type,
    bound: &mut [&'t [u16]; SLOTS],
) -> Option<()> {
    match (premise.kind, found.kind) {
        (Kind::Ket, typing::Kind::Ket(_)) | (Kind::Bra, typing::Kind::Bra(_)) => {
            bound[usize::from(premise.first)] = found.first();
        }
        (Kind::Operator, typing::Kind::Operator(..)) => {
            bound[usize::from(premise.first)] = found.first();
            bound[usize::from(premise.second)] = found.second();
        }
        _ => return None,
    }
    Some(())
}

fn write(items: &[Item], mut bound: [&[u16]; SLOTS], out: &mut Out) {
    for (k, item) in items.iter().enumerate() {
        match *item {
            Item::Word(word) => out.part(&[word]),
            Item::Part(slot) | Item::Apart(slot) => out.part(bound[usize::from(slot)]),
            Item::Each { head, slot } => {
                let Some(sum) = Opened::new(bound[usize::from(slot)]) else {
                    return;
                };
                out.counted(head, sum.children);
                for child in parts(sum.words) {
                    bound[usize::from(slot)] = child;
                    write(&items[k + 1..], bound, out);
                }
                return;
            }
        }
    }
}
