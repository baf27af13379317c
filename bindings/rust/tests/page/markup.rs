//! A small checker of markup: a page must be XML as well as HTML, of elements and attributes that are known here and no others, with ids that are its own and links that lead somewhere.
use std::collections::HashSet;

const ELEMENTS: [&str; 40] = [
    "html", "head", "meta", "title", "style", "body", "header", "main", "footer", "h1", "h2", "p",
    "ul", "ol", "li", "dl", "dt", "dd", "div", "span", "mark", "a", "table", "thead", "tbody",
    "tr", "th", "td", "pre", "wbr", "math", "mrow", "mi", "mo", "mn", "mtext", "msub", "msup",
    "munder", "mpadded",
];

/// Those that need no end, which HTML has by name.
const EMPTY: [&str; 2] = ["meta", "wbr"];

const ATTRIBUTES: [&str; 16] = [
    "lang",
    "xmlns",
    "charset",
    "name",
    "content",
    "http-equiv",
    "class",
    "id",
    "href",
    "scope",
    "form",
    "stretchy",
    "lspace",
    "rspace",
    "movablelimits",
    "depth",
];

/// What a page is made of.
#[derive(Default)]
pub struct Markup {
    /// All that is to be read, without what stands in the head.
    pub text: String,
    pub links: Vec<String>,
    ids: HashSet<String>,
    /// The elements that are open, each with how many children it has so far.
    open: Vec<(String, usize)>,
}

/// Reads a page; what is wrong with it ends the test.
pub fn markup(page: &str) -> Markup {
    let mut markup = Markup::default();
    let mut rest = page
        .strip_prefix("<!DOCTYPE html>\n")
        .expect("a page begins with its type");
    while let Some(at) = rest.find('<') {
        markup.characters(&rest[..at]);
        let end = rest[at..].find('>').expect("a tag ends") + at;
        markup.tag(&rest[at + 1..end]);
        rest = &rest[end + 1..];
    }
    assert_eq!(rest, "\n", "something stands behind the page");
    assert!(markup.open.is_empty(), "{:?} are open", markup.open);
    let inside = |link: &&String| link.starts_with('#');
    for link in markup.links.iter().filter(inside) {
        assert!(markup.ids.contains(&link[1..]), "{link} leads nowhere");
    }
    markup
}

/// The characters that escaped text stands for.
fn unescaped(text: &str) -> String {
    let mut out = String::new();
    let mut rest = text;
    while let Some(at) = rest.find('&') {
        out += &rest[..at];
        let end = rest[at..].find(';').expect("a reference ends") + at;
        out.push(match &rest[at + 1..end] {
            "amp" => '&',
            "lt" => '<',
            "gt" => '>',
            "quot" => '"',
            "#39" => '\'',
            other => panic!("&{other}; is not known"),
        });
        rest = &rest[end + 1..];
    }
    out + rest
}

impl Markup {
    fn characters(&mut self, text: &str) {
        let is_shown = |c: char| c == '\n' || !c.is_control();
        assert!(
            text.chars().all(is_shown),
            "a control character in {text:?}"
        );
        let is_body = self.open.iter().any(|(name, _)| name == "body");
        let is_style = self.open.last().is_some_and(|(name, _)| name == "style");
        assert!(is_style || !text.contains("]]>"), "{text:?}");
        let text = unescaped(text);
        if is_body {
            self.text += &text;
        }
    }

    fn tag(&mut self, tag: &str) {
        if let Some(name) = tag.strip_prefix('/') {
            let (open, children) = self.open.pop().expect("an element was open");
            assert_eq!(open, name, "another element is open");
            let two = matches!(name, "msub" | "msup" | "munder");
            assert!(!two || children == 2, "{name} has {children} children");
            return;
        }
        let (tag, is_closed) = match tag.strip_suffix('/') {
            Some(tag) => (tag, true),
            None => (tag, false),
        };
        let (name, attributes) = tag.split_once(' ').unwrap_or((tag, ""));
        assert!(ELEMENTS.contains(&name), "<{name}> is not known");
        assert_eq!(
            is_closed,
            EMPTY.contains(&name),
            "<{name}> is ended as others are not"
        );
        if let Some((_, children)) = self.open.last_mut() {
            *children += 1;
        }
        self.attributes(attributes);
        if !is_closed {
            self.open.push((name.to_string(), 0));
        }
    }

    fn attributes(&mut self, mut rest: &str) {
        while !rest.is_empty() {
            let (name, behind) = rest.split_once("=\"").expect("a value in quotes");
            let (value, behind) = behind.split_once('"').expect("a quote that ends");
            assert!(ATTRIBUTES.contains(&name), "{name} is not known");
            let value = unescaped(value);
            match name {
                "id" => assert!(self.ids.insert(value.clone()), "{value} is there twice"),
                "href" => self.link(value),
                _ => (),
            }
            rest = behind.strip_prefix(' ').unwrap_or(behind);
            assert!(behind.is_empty() || behind.starts_with(' '), "{behind}");
        }
    }

    /// A link leads to a place of the page, or to a page beside it.
    fn link(&mut self, link: String) {
        let plain = |c: char| c.is_ascii_alphanumeric() || "-._~/%".contains(c);
        assert!(
            link.strip_prefix('#').unwrap_or(&link).chars().all(plain),
            "{link}"
        );
        assert!(!link.starts_with('/'), "{link}");
        self.links.push(link);
    }
}

#[test]
fn what_is_wrong_is_found() {
    let page = |body: &str| format!("<!DOCTYPE html>\n<html><body>{body}</body></html>\n");
    let good = markup(&page("<p id=\"a\"><a href=\"#a\">x &lt; y</a><wbr/></p>"));
    assert_eq!((good.text.as_str(), good.links.len()), ("x < y", 1));
    for bad in [
        "<script>x</script>",
        "<p>x",
        "<p>x</div>",
        "<p onclick=\"x\">x</p>",
        "<p class=x>x</p>",
        "<a href=\"#b\">x</a>",
        "<a href=\"javascript:x\">x</a>",
        "<a href=\"//x\">x</a>",
        "<p id=\"a\">x</p><p id=\"a\">x</p>",
        "x & y",
        "x &nbsp; y",
        "x \u{1} y",
        "<msup><mi>x</mi></msup>",
        "<p/>",
        "<wbr>",
    ] {
        let page = page(bad);
        let found = std::panic::catch_unwind(|| markup(&page).text);
        assert!(found.is_err(), "{bad}");
    }
}
