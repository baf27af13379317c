//! Bytes and text that come from outside, made fit to be shown. Nothing of a file is written to a page in any other way.

/// Text inside an element or an attribute.
pub fn escaped(text: &str) -> String {
    let mut out = String::with_capacity(text.len());
    for c in text.chars() {
        match c {
            '&' => out += "&amp;",
            '<' => out += "&lt;",
            '>' => out += "&gt;",
            '"' => out += "&quot;",
            '\'' => out += "&#39;",
            c if is_shown(c) => out.push(c),
            c => out += &format!("\\u{{{:x}}}", c as u32),
        }
    }
    out
}

/// Whether a character is seen as itself: no control, nothing that turns the order of writing round, nothing that XML leaves out.
fn is_shown(c: char) -> bool {
    !c.is_control()
        && !matches!(c, '\u{200b}'..='\u{200f}' | '\u{2028}'..='\u{202e}' | '\u{2060}'..='\u{206f}' | '\u{feff}' | '\u{fffe}' | '\u{ffff}')
}

/// The bytes of a line of a file, in ASCII: a byte other than 32 to 126 by its number, and a backslash twice, so that each stands for one run of bytes.
pub fn visible(bytes: &[u8]) -> String {
    let mut out = String::with_capacity(bytes.len());
    for &byte in bytes {
        match byte {
            b'\\' => out += "\\\\",
            32..=126 => out.push(char::from(byte)),
            _ => out += &format!("\\x{byte:02x}"),
        }
    }
    out
}

/// Text for a terminal: what is no character to be seen is written by its number.
pub fn plain(text: &str) -> String {
    let mut out = String::with_capacity(text.len());
    for c in text.chars() {
        if is_shown(c) {
            out.push(c);
        } else {
            out += &format!("\\u{{{:x}}}", c as u32);
        }
    }
    out
}

/// A path as part of a link: what is neither a letter, a figure nor one of `-._~/` by its bytes.
pub fn linked(path: &str) -> String {
    let mut out = String::with_capacity(path.len());
    for &byte in path.as_bytes() {
        match byte {
            b'a'..=b'z' | b'A'..=b'Z' | b'0'..=b'9' | b'-' | b'.' | b'_' | b'~' | b'/' => {
                out.push(char::from(byte))
            }
            _ => out += &format!("%{byte:02X}"),
        }
    }
    out
}

#[cfg(test)]
mod tests {
    use super::*;

    #[test]
    fn nothing_opens_or_closes() {
        let hostile = "<script>&\"'\u{0}\u{1b}\u{202e}\u{85}";
        assert_eq!(
            escaped(hostile),
            "&lt;script&gt;&amp;&quot;&#39;\\u{0}\\u{1b}\\u{202e}\\u{85}"
        );
        assert_eq!(plain("a\u{1b}[2J\nb"), "a\\u{1b}[2J\\u{a}b");
    }

    #[test]
    fn bytes_are_told_apart() {
        assert_eq!(visible(b"\x00\x1b<\xff\\x00"), "\\x00\\x1b<\\xff\\\\x00");
        assert_eq!(linked("a b/\"<é"), "a%20b/%22%3C%C3%A9");
    }
}
