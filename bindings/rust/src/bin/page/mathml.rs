//! Tokens as MathML. A browser does not break a formula, so a long one is a row of short ones, with places between them where a line may end; a mark goes around as many as it holds.
use crate::escape::escaped;
use crate::notation::{Mark, Sign, Token};
use crate::text::unbound;

/// After so many tokens a formula ends at the next sign between operands.
const MANY: usize = 8;

/// The row of formulas that stands for the tokens.
pub fn mathml(tokens: &[Token]) -> String {
    let mut row = Row::default();
    for token in tokens {
        row.token(token);
    }
    row.end_formula();
    row.out
}

#[derive(Default)]
struct Row {
    out: String,
    /// The formula that is being written.
    formula: String,
    tokens: usize,
    /// Whether a sign between operands came last, behind which a line may end.
    may_end: bool,
}

impl Row {
    fn token(&mut self, token: &Token) {
        match token {
            Token::Begin(mark) => {
                self.end_formula();
                self.out += if self.may_end { "<wbr/>" } else { "" };
                self.out += begin(*mark);
            }
            Token::End(_) => {
                self.end_formula();
                self.out += "</mark>";
            }
            token => {
                if self.may_end && self.tokens >= MANY {
                    self.end_formula();
                    self.out += "<wbr/>";
                }
                self.formula += &element(token);
                self.tokens += 1;
            }
        }
        self.may_end = matches!(token, Token::Infix(_));
    }

    fn end_formula(&mut self) {
        if !self.formula.is_empty() {
            self.out.extend(["<math>", &self.formula, "</math>"]);
        }
        self.formula.clear();
        self.tokens = 0;
    }
}

fn begin(mark: Mark) -> &'static str {
    match mark {
        Mark::Part => "<mark class=\"part\">",
        Mark::Result => "<mark class=\"result\">",
        Mark::Fault => "<mark class=\"fault\">",
    }
}

fn element(token: &Token) -> String {
    match token {
        Token::Name(name) => letter(name),
        Token::Number(sign) => format!("<mn>{sign}</mn>"),
        Token::Constant(sign, below) => format!("<msub><mn>{sign}</mn><mi>{below}</mi></msub>"),
        Token::Delta => "<mi>δ</mi>".to_string(),
        Token::Sum(name) => format!(
            "<munder><mo movablelimits=\"false\">∑</mo>{}</munder>",
            letter(name)
        ),
        Token::In => operator("∈", "0", "0"),
        Token::Unbound(number) => format!("<mtext>{}</mtext>", unbound(*number)),
        Token::Infix(sign) => infix(*sign),
        Token::Prefix(sign) => below(operator(sign.sign, "0", "0"), sign.head),
        Token::Open(sign) => fence(sign, "prefix"),
        Token::Close(sign) => fence(sign, "postfix"),
        Token::Comma => operator(",", "0", ".17em"),
        Token::LeftOut => "<mtext>…</mtext>".to_string(),
        // Over nothing, not over what stands before, and without the dagger's lower end: where there is no font for mathematics, a browser would put it far above the sign that closes a bracket.
        Token::Raised("†") => {
            "<msup><mrow></mrow><mpadded depth=\"0\"><mo>†</mo></mpadded></msup>".to_string()
        }
        Token::Raised(sign) => format!("<msup><mrow></mrow><mo>{sign}</mo></msup>"),
        Token::Begin(_) | Token::End(_) => String::new(),
    }
}

/// A letter, with what stands below it and with its primes: a browser slants only what is a single letter.
fn letter(name: &str) -> String {
    let mut chars = name.chars();
    let first: String = chars.next().into_iter().collect();
    let (primes, below): (String, String) = chars.partition(|&c| c == '\'');
    let mut out = format!("<mi>{}</mi>", escaped(&first));
    if !below.is_empty() {
        let below: String = below.chars().map(raised_again).collect();
        out = format!("<msub>{out}<mtext>{}</mtext></msub>", escaped(&below));
    }
    match primes.len() {
        0 => out,
        n => format!("<mrow>{out}{}</mrow>", operator(&"′".repeat(n), "0", "0")),
    }
}

/// The figure or letter that a small one below stands for.
fn raised_again(c: char) -> char {
    match c {
        '₀'..='₉' => char::from(b'0' + (c as u32 - '₀' as u32) as u8),
        'ₙ' => 'n',
        'ₘ' => 'm',
        'ᵢ' => 'i',
        'ⱼ' => 'j',
        other => other,
    }
}

fn operator(sign: &str, left: &str, right: &str) -> String {
    format!("<mo lspace=\"{left}\" rspace=\"{right}\">{sign}</mo>")
}

/// A mark may end before a sign or begin behind it, so that its place in the formula does not tell that it stands between two.
fn infix(sign: Sign) -> String {
    let element = match sign.spaced {
        true => format!("<mo form=\"infix\">{}</mo>", sign.sign),
        false => operator(sign.sign, ".1em", ".1em"),
    };
    below(element, sign.head)
}

fn below(element: String, head: Option<u8>) -> String {
    match head {
        Some(head) => format!("<msub>{element}<mn>{head}</mn></msub>"),
        None => element,
    }
}

/// A bracket or a sign of a ket or bra, which stays as high as a letter.
fn fence(sign: &str, form: &str) -> String {
    match sign {
        "|" => format!("<mo form=\"{form}\" stretchy=\"false\">|</mo>"),
        _ => format!("<mo stretchy=\"false\">{sign}</mo>"),
    }
}
