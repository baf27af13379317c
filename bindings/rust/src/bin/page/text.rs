//! Tokens as text in Unicode.
use crate::names::lowered;
use crate::notation::{Sign, Token};

/// The text of a row of tokens. Marks are not seen in it.
pub fn text(tokens: &[Token]) -> String {
    let mut out = String::new();
    for token in tokens {
        match token {
            Token::Name(name) => out += name,
            Token::Number(sign) | Token::Raised(sign) => out += sign,
            Token::Open(sign) | Token::Close(sign) => out += sign,
            Token::Constant(sign, below) => out.extend([sign, "_", below]),
            Token::Delta => out.push('δ'),
            Token::Sum(name) => out.extend(["Σ_", name]),
            Token::In => out.push('∈'),
            Token::Unbound(number) => out += &unbound(*number),
            Token::Infix(sign) if sign.spaced => out.extend([" ", &signed(*sign), " "]),
            Token::Infix(sign) | Token::Prefix(sign) => out += &signed(*sign),
            Token::Comma => out.push(','),
            Token::Begin(_) | Token::End(_) => (),
            Token::LeftOut => out.push('…'),
        }
    }
    out
}

/// A bound basis that no sum binds has no letter: it is written as the file has it.
pub fn unbound(number: u8) -> String {
    format!("28:{number}")
}

fn signed(sign: Sign) -> String {
    let head = sign.head.map(|head| lowered(usize::from(head)));
    format!("{}{}", sign.sign, head.unwrap_or_default())
}
