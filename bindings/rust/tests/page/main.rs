//! The command `page`: a page of every code, of hostile bytes, of the longest derivations, of a folder; and cards.
mod markup;

use fejogbu::{replay, Code, Work};
use markup::markup;
use std::collections::BTreeSet;
use std::fs;
use std::path::{Path, PathBuf};
use std::process::{Command, Output};
use std::time::{Duration, Instant};

fn root() -> PathBuf {
    Path::new(env!("CARGO_MANIFEST_DIR")).join("../..")
}

/// A folder of a test's own, which goes with it.
struct Folder(PathBuf);

impl Folder {
    fn new(name: &str) -> Folder {
        let path = std::env::temp_dir().join(format!("fejogbu-page-{name}-{}", std::process::id()));
        fs::create_dir_all(&path).unwrap();
        Folder(path)
    }

    fn file(&self, name: &str, bytes: &[u8]) -> PathBuf {
        let path = self.0.join(name);
        fs::write(&path, bytes).unwrap();
        path
    }

    fn text(&self, name: &str) -> String {
        fs::read_to_string(self.0.join(name)).unwrap()
    }
}

impl Drop for Folder {
    fn drop(&mut self) {
        let _ = fs::remove_dir_all(&self.0);
    }
}

/// What is handed to the command: words and paths.
macro_rules! page {
    ($($word:expr),*) => {
        Command::new(env!("CARGO_BIN_EXE_page"))$(.arg($word))*.output().unwrap()
    };
}

fn out(output: &Output) -> &str {
    std::str::from_utf8(&output.stdout).unwrap()
}

/// The files of hand-made answers that the checker has, with the six lines that each has by hand.
fn vectors() -> Vec<(PathBuf, String)> {
    let folder = root().join("checker/vectors/replay");
    let entries = fs::read_dir(folder)
        .unwrap()
        .map(|entry| entry.unwrap().path());
    let mut files: Vec<PathBuf> = entries
        .filter(|path| path.extension().is_some_and(|e| e == "in"))
        .collect();
    files.sort();
    let answer = |file: &PathBuf| fs::read_to_string(file.with_extension("out")).unwrap();
    files
        .iter()
        .map(|file| (file.clone(), answer(file)))
        .collect()
}

fn code_of(answer: &str) -> u8 {
    answer
        .lines()
        .next()
        .unwrap()
        .strip_prefix("code=")
        .unwrap()
        .parse()
        .unwrap()
}

#[test]
fn a_file_of_every_code_has_a_page_that_says_so() {
    let folder = Folder::new("codes");
    let files = root().join("checker/vectors/replay");
    let all = page!("--html", &folder.0, "--card", "--only", ".in", &files);
    assert_eq!(all.status.code(), Some(1));
    assert_eq!(String::from_utf8_lossy(&all.stderr), "");
    let mut codes = BTreeSet::new();
    for (file, answer) in vectors() {
        let stem = file.file_stem().unwrap().to_str().unwrap();
        let shown = markup(&folder.text(&format!("{stem}.html"))).text;
        let code = code_of(&answer);
        let sentence = Code::ALL
            .into_iter()
            .find(|c| c.number() == code)
            .unwrap()
            .to_string();
        assert!(shown.contains(&sentence), "{stem}: {sentence}");
        assert!(
            shown.contains(&answer),
            "{stem}: the card has the six lines"
        );
        assert_eq!(
            shown.to_lowercase().contains("verified"),
            code == 0,
            "{stem}"
        );
        assert_eq!(shown.contains("refused (code"), code != 0, "{stem}");
        assert_eq!(
            shown.contains("only the first 65,537 bytes"),
            code == 2,
            "{stem}"
        );
        codes.insert(code);
    }
    // Code 1 is the calling program's doing, which this one never is.
    let every = Code::ALL
        .map(Code::number)
        .into_iter()
        .filter(|&code| code != 1);
    assert_eq!(codes, every.collect());
    index_of_vectors(&folder);
}

fn field(answer: &str, name: &str) -> usize {
    let mut values = answer
        .lines()
        .filter_map(|line| line.strip_prefix(name)?.strip_prefix('='));
    values.next().unwrap().parse().unwrap()
}

/// The line of a file that is not of the form is marked, and no other.
#[test]
fn the_faulty_line_is_marked() {
    let folder = Folder::new("lines");
    let not_of_the_form = |(_, answer): &(PathBuf, String)| (3..=9).contains(&code_of(answer));
    let files: Vec<_> = vectors().into_iter().filter(not_of_the_form).collect();
    assert!(files.len() > 50);
    for (file, answer) in files {
        let at = field(&answer, "at");
        page!("--html", &folder.0, &file);
        let page = folder.text(&format!(
            "{}.html",
            file.file_stem().unwrap().to_str().unwrap()
        ));
        let list = page.split("<ol class=\"file\">").nth(1).unwrap();
        let items = list.split("</ol>").next().unwrap().split("<li>").skip(1);
        let marked = |(_, item): &(usize, &str)| item.starts_with("<mark class=\"fault\">");
        let found: Vec<usize> = items
            .enumerate()
            .filter(marked)
            .map(|(k, _)| k + 1)
            .collect();
        assert_eq!(found, [at], "{}", file.display());
        let text = page!(&file);
        let pointed = out(&text)
            .lines()
            .filter_map(|line| line.strip_prefix("> "));
        let numbers: Vec<&str> = pointed
            .map(|line| line.split_whitespace().next().unwrap())
            .collect();
        assert_eq!(numbers, [at.to_string()], "{}", file.display());
    }
}

fn index_of_vectors(folder: &Folder) {
    let page = folder.text("index.html");
    let index = markup(&page);
    let files = vectors();
    assert_eq!(index.links.len(), files.len());
    assert!(index.links.iter().all(|link| folder.0.join(link).is_file()));
    let accepted = files
        .iter()
        .filter(|(_, answer)| code_of(answer) == 0)
        .count();
    assert!(index
        .text
        .contains(&format!("{accepted} of {} accepted", files.len())));
    assert_eq!(page.matches("<tr><td>").count(), files.len());
}

#[test]
fn the_text_of_every_code_says_so() {
    for (file, answer) in vectors() {
        let told = page!(&file);
        let code = code_of(&answer);
        let bytes = fs::read(&file).unwrap();
        let words = replay(&bytes, &mut Work::new()).code.to_string();
        assert!(out(&told).contains(&words), "{}", file.display());
        let refused = out(&told).contains(&format!("refused (code {code}): "));
        assert_eq!(refused, code != 0, "{}", file.display());
        assert_eq!(told.status.success(), code == 0, "{}", file.display());
        assert!(out(&told).chars().all(|c| c == '\n' || !c.is_control()));
    }
}

/// The line of a refused step, the part at fault and the two ends are where they belong.
#[test]
fn a_refusal_is_told_where_it_happened() {
    let folder = Folder::new("refusals");
    let damaged = root().join("examples/damaged");
    assert_eq!(page!("--html", &folder.0, &damaged).status.code(), Some(1));
    let step = folder.text("wrong-step.html");
    let item = step
        .split("<li id=\"step-2\">")
        .nth(1)
        .unwrap()
        .split("</li>")
        .next()
        .unwrap();
    assert!(item.contains("<mark class=\"fault\">"));
    assert!(markup(&step).text.contains(
        "step 2 on the left, rule 107 at word 2: the part there is no instance of the rule"
    ));
    assert_eq!(step.matches("<li id=\"step-").count(), 2);
    let ends = folder.text("ends-differ.html");
    assert!(markup(&ends).text.contains("they differ first at word 3"));
    let behind = ends.split("id=\"end\"").nth(1).unwrap();
    assert_eq!(
        behind.matches("<mark class=\"fault\"><math><mi>").count(),
        2
    );
    let unbound = folder.text("unbound-basis.html");
    let left = unbound
        .split("<dt>right</dt>")
        .next()
        .unwrap()
        .split("<dt>left</dt>")
        .nth(1)
        .unwrap();
    assert!(
        left.contains("<p class=\"verdict refused\">refused: a bound basis has no sum around it")
    );
    assert!(unbound.contains("<mark class=\"fault\"><math><mtext>28:0</mtext></math></mark>"));
}

#[test]
fn each_step_has_its_part_and_its_result_marked_and_its_rule_linked() {
    let folder = Folder::new("marks");
    let file = root().join("examples/born-rule.fj");
    assert!(page!("--html", &folder.0, &file).status.success());
    let page = folder.text("born-rule.html");
    let steps: Vec<&str> = page
        .split("<li id=\"step-")
        .skip(1)
        .map(|s| s.split("</li>").next().unwrap())
        .collect();
    assert_eq!(steps.len(), 5);
    for step in steps {
        assert_eq!(step.matches("<mark class=\"part\">").count(), 1, "{step}");
        assert_eq!(step.matches("<mark class=\"result\">").count(), 1, "{step}");
    }
    let read = markup(&page);
    assert_eq!(
        read.links,
        ["#rule-107", "#rule-23", "#rule-16", "#rule-65", "#rule-170"]
    );
    assert!(read.text.contains("accepted after 5 steps"));
    assert!(!folder.0.join("index.html").exists());
}

/// Bytes that would be markup, or nothing to be seen, in every place where a file can have them.
fn hostile() -> Vec<Vec<u8>> {
    let mut files: Vec<Vec<u8>> = [
        "<script>alert(1)</script>\n",
        "types=1\nbasis=\"><img src=x onerror=alert(1)>\n",
        "types=0\nleft='\"&<>]]>\n",
        "types=0\nleft=6\nright=6\nend=0\n</ol></main></body><!-- &lt;b&gt; -->\n",
        "types=0\u{202e}\u{feff}\n",
        "types=0\\x3cscript\\x3e\r\n\u{1b}[2J\n",
        "",
        "\n",
    ]
    .map(|text| text.as_bytes().to_vec())
    .to_vec();
    files.push((0..=255).collect());
    files.push(b"\xff\xfe<\xc3\x28>\xf0\x9f\n".to_vec());
    files.push(vec![b'<'; 65_536]);
    files.push(vec![b'\n'; 65_536]);
    files.push(vec![b'&'; 65_537]);
    files.push([b"</style><script>".repeat(4_000), vec![0]].concat());
    files
}

#[test]
fn hostile_bytes_stay_in_their_place() {
    let folder = Folder::new("hostile");
    for (k, bytes) in hostile().iter().enumerate() {
        let file = folder.file(&format!("{k}.fj"), bytes);
        let html = page!("--html", &folder.0, &file);
        assert_eq!(html.status.code(), Some(1), "{k}");
        let page = folder.text(&format!("{k}.html"));
        assert!(!page.contains("<script") && !page.contains("<img"), "{k}");
        let shown = markup(&page).text;
        let lines = bytes.split(|&b| b == b'\n').filter(|line| !line.is_empty());
        for line in lines {
            let visible: String = line.iter().map(|&byte| told(byte)).collect();
            assert!(shown.contains(&visible), "{k}: {visible}");
        }
        let text = page!(&file);
        assert!(
            out(&text).chars().all(|c| c == '\n' || !c.is_control()),
            "{k}"
        );
    }
}

/// How a byte of a file is shown.
fn told(byte: u8) -> String {
    match byte {
        b'\\' => "\\\\".to_string(),
        32..=126 => char::from(byte).to_string(),
        _ => format!("\\x{byte:02x}"),
    }
}

/// Names of files and what stands beside them come from outside too.
#[test]
fn hostile_names_stay_in_their_place() {
    let folder = Folder::new("names");
    let file = "types=1\nvar=S\nleft=26:0\nright=26:0\nend=0\n";
    let name = "<script>alert(1)<&\"'\u{1b}";
    let path = folder.file(&format!("{name}.fj"), file.as_bytes());
    folder.file(
        &format!("{name}.md"),
        "# </title><script>&\u{1b}[2J\"'\n\nNames: type 0: <b>; variable 0: the scalar \"><i>.\n"
            .as_bytes(),
    );
    let other = folder.file("plain.fj", file.as_bytes());
    folder.file("plain.md", b"# \xff\xfe <script>\n");
    let pages = Folder::new("names-pages");
    let all = page!("--html", &pages.0, "--card", &folder.0);
    assert!(all.status.success());
    let told = String::from_utf8_lossy(&all.stderr);
    assert!(told.contains("the letters given do not fit the declarations"));
    let page = pages.text(&format!("{name}.html"));
    assert!(!page.contains("<script"));
    assert!(markup(&page)
        .text
        .contains("</title><script>&\\u{1b}[2J\"'"));
    let index = pages.text("index.html");
    assert!(!index.contains("<script"));
    assert!(markup(&index)
        .text
        .contains(&name.replace('\u{1b}', "\\u{1b}")));
    let links = markup(&index).links;
    assert_eq!(links.len(), 2);
    assert!(
        links
            .iter()
            .all(|link| pages.0.join(unlinked(link)).is_file()),
        "{links:?}"
    );
    for file in [&path, &other] {
        for text in [page!(file), page!("--card", file)] {
            assert!(out(&text).chars().all(|c| c == '\n' || !c.is_control()));
        }
    }
}

/// The name of the file that a link leads to.
fn unlinked(link: &str) -> String {
    let mut bytes = Vec::new();
    let mut rest = link.bytes();
    while let Some(byte) = rest.next() {
        bytes.push(match byte {
            b'%' => {
                let figures: String = rest.by_ref().take(2).map(char::from).collect();
                u8::from_str_radix(&figures, 16).unwrap()
            }
            byte => byte,
        });
    }
    String::from_utf8(bytes).unwrap()
}

/// Two terms of 4,081 words and 1,000 steps, each of which rewrites the whole of its side.
fn long() -> String {
    let product: Vec<String> = (0..15).map(|k| format!("26:{}", k % 3)).collect();
    let term = vec![format!("8:15 {}", product.join(" ")); 255].join(" ");
    let step = |side: &str| {
        (0..500)
            .map(move |k| format!("step={side} 170 0 {} 0\n", k % 254))
            .collect::<String>()
    };
    format!(
        "types=0\nvar=S\nvar=S\nvar=S\nleft=7:255 {term}\nright=7:255 {term}\n{}{}end=1000\n",
        step("L"),
        step("R")
    )
}

/// Two terms of 4,096 words and 64 levels, and 1,000 steps on small parts far down in them.
fn deep() -> String {
    let products = "8:2 26:0 ".repeat(60);
    let sum = format!(" 7:14{}{}", " 10 3:0 3:1".repeat(4), " 26:0".repeat(10));
    let conjugates = " 9 6".repeat(255 - 165);
    let term = format!("{products}7:255{}{conjugates}", sum.repeat(165));
    let step = |k: usize| {
        let side = ["L", "R"][k % 2];
        format!("step={side} 170 {} 0 0\n", 121 + 23 * (k / 2 % 165))
    };
    let steps: String = (0..1000).map(step).collect();
    format!("types=1\nbasis=1:0\nbasis=1:0\nvar=S\nleft={term}\nright={term}\n{steps}end=1000\n")
}

#[test]
fn the_longest_derivations_have_a_page_in_under_a_second() {
    let folder = Folder::new("long");
    for (name, text) in [("long", long()), ("deep", deep())] {
        assert!(text.len() <= 65_536, "{}", text.len());
        let file = folder.file(&format!("{name}.fj"), text.as_bytes());
        let begin = Instant::now();
        let html = page!("--html", &folder.0, &file);
        let took = begin.elapsed();
        let text = page!(&file);
        let both = begin.elapsed();
        assert!(
            html.status.success() && text.status.success(),
            "{}",
            String::from_utf8_lossy(&html.stderr)
        );
        if !cfg!(debug_assertions) {
            let second = Duration::from_secs(1);
            assert!(
                took < second && both - took < second,
                "{name}: {took:?}, {:?}",
                both - took
            );
        }
        let page = folder.text(&format!("{name}.html"));
        assert_eq!(page.matches("<li id=\"step-").count(), 1000);
        assert!(page.len() < 20_000_000, "{}", page.len());
        let shown = markup(&page).text;
        assert!(
            shown.contains("accepted after 1000 steps")
                && shown.contains("left out of a long line")
        );
        assert!(out(&text).contains("1000. right, SWAP (170) at "));
    }
}

/// The digest that the system's own program gives of a file.
fn sha256sum(path: &Path) -> String {
    let output = Command::new("sha256sum").arg(path).output().unwrap();
    let text = String::from_utf8(output.stdout).unwrap();
    text.trim_start_matches('\\')
        .split(' ')
        .next()
        .unwrap()
        .to_string()
}

#[test]
fn a_card_has_the_digest_and_the_size_of_its_file() {
    let folder = Folder::new("digests");
    // The example of FIPS 180-4.
    let abc = folder.file("abc.fj", b"abc");
    let card = page!("--card", &abc);
    assert!(out(&card).contains(
        "sha256: ba7816bf8f01cfea414140de5dae2223b00361a396177a9cb410ff61f20015ad\nbytes: 3\n"
    ));
    let long = folder.file("long.fj", &vec![b'x'; 200_000]);
    let whole = folder.file("whole.fj", &vec![b'y'; 65_536]);
    let example = root().join("examples/born-rule.fj");
    for file in [&long, &whole, &example] {
        let size = fs::metadata(file).unwrap().len();
        let wanted = format!("sha256: {}\nbytes: {size}\n", sha256sum(file));
        assert!(
            out(&page!("--card", file)).contains(&wanted),
            "{}",
            file.display()
        );
    }
}

#[test]
fn a_card_says_what_is_claimed() {
    let good = root().join("examples/born-rule.fj");
    let card = page!("--card", &good);
    let statement = fs::read_to_string(root().join("docs/STATEMENT.md")).unwrap();
    let claim = statement
        .split("that was accepted can say: ")
        .nth(1)
        .unwrap()
        .split('\n')
        .next()
        .unwrap();
    assert!(
        out(&card).contains(&format!("verified: {claim}\n")),
        "{}",
        out(&card)
    );
    let readme = fs::read_to_string(root().join("README.md")).unwrap();
    let toolchain = readme
        .split("last checked under `")
        .nth(1)
        .unwrap()
        .split('`')
        .next()
        .unwrap();
    assert!(out(&card).contains(&format!("proved under: {toolchain}\n")));
    assert!(out(&card).contains(concat!(
        "library: fejogbu ",
        env!("CARGO_PKG_VERSION"),
        "\n"
    )));
    assert!(card.status.success());
}

#[test]
fn the_word_is_never_said_of_a_file_that_was_not_accepted() {
    let folder = Folder::new("cards");
    let bad = folder.file("Verified.fj", b"types=0\nleft=5\nright=6\nend=0\n");
    folder.file("Verified.md", b"# Verified\n");
    for refused in [page!("--card", &bad), page!(&bad)] {
        assert!(
            !out(&refused).to_lowercase().contains("verified"),
            "{}",
            out(&refused)
        );
        assert_eq!(refused.status.code(), Some(1));
    }
    assert!(out(&page!("--card", &bad)).contains("not accepted, and nothing is claimed: the steps are good, and the ends differ from word 0 on.\n"));
    assert_eq!(
        page!("--html", folder.0.join("p"), "--card", &folder.0)
            .status
            .code(),
        Some(1)
    );
    for page in ["p/Verified.html", "p/index.html"] {
        let shown = markup(&folder.text(page)).text;
        assert!(!shown.to_lowercase().contains("verified"), "{shown}");
    }
}

#[test]
fn what_cannot_be_read_is_told() {
    let folder = Folder::new("unreadable");
    let good = folder.file("good.fj", b"types=0\nleft=5\nright=5\nend=0\n");
    let all = page!(
        "--html",
        folder.0.join("p"),
        &good,
        folder.0.join("none.fj")
    );
    assert_eq!(all.status.code(), Some(1));
    assert!(String::from_utf8_lossy(&all.stderr).contains("none.fj: "));
    assert!(folder.0.join("p/good.html").is_file());
    assert_eq!(page!().status.code(), Some(2));
    assert_eq!(page!("--help").status.code(), Some(2));
    assert_eq!(page!("--html", &good, &good).status.code(), Some(2));
}
