//! The files that are measured.

const HEADER: &str = "types=1\nbasis=1:0\nvar=K 1:0\nvar=S\n";

fn file(header: &str, left: &str, right: &str, steps: &[String]) -> Vec<u8> {
    let mut text = format!("{header}left={left}\nright={right}\n");
    for step in steps {
        text += &format!("step={step}\n");
    }
    text += &format!("end={}\n", steps.len());
    text.into_bytes()
}

/// A sum of kets of about so many words: sums of 255 under one sum, or one sum.
pub fn sum(words: usize) -> String {
    let row = |n: usize| format!("20:{n}{}", " 26:0".repeat(n));
    if words <= 256 {
        return row(words - 1);
    }
    let full = words / 256;
    let mut rows = vec![row(255); full];
    if words % 256 > 2 {
        rows.push(row(words % 256 - 2));
    }
    format!("20:{} {}", rows.len(), rows.join(" "))
}

/// Swaps on the left of two equal sums.
pub fn swaps(words: usize, steps: usize) -> Vec<u8> {
    let term = sum(words);
    file(HEADER, &term, &term, &vec!["L 170 0 0 0".to_string(); steps])
}

/// The same in the body of a sum over a basis.
fn swaps_in_a_body(words: usize, steps: usize) -> Vec<u8> {
    let term = format!("27 1:0 {}", sum(words));
    file(HEADER, &term, &term, &vec!["L 170 2 0 0".to_string(); steps])
}

/// Zero scalings taken away one by one, each of which needs a type (43).
fn typed(steps: usize) -> Vec<u8> {
    let term = format!("20:{steps}{}", " 19 5 26:0".repeat(steps));
    let at: Vec<String> = (0..steps).map(|k| format!("L 43 {} 0 0", 1 + 2 * k)).collect();
    file(HEADER, &term, &format!("20:{steps}{}", " 12 1:0".repeat(steps)), &at)
}

/// Tensors of three kets in a sum: indices of five words at each.
fn tensors(count: usize) -> Vec<u8> {
    let term = format!("20:{count}{}", " 21 26:0 21 26:0 26:0".repeat(count));
    file(HEADER, &term, &term, &[])
}

/// As many declarations as there may be, of 63 words an index.
fn declarations() -> Vec<u8> {
    let index = format!("{}{}", "2 ".repeat(31), ["1:0"; 32].join(" "));
    let header = format!("types=1\n{}{}", format!("basis={index}\n").repeat(32), format!("var=O {index} {index}\n").repeat(32));
    file(&header, "6", "6", &[])
}

/// A file of exactly 65,536 bytes: two large terms, and step lines whose rule there is not.
fn full() -> Vec<u8> {
    let term = sum(3841);
    let empty = file(HEADER, &term, &term, &[]).len();
    let line = "L 20000 40000 10000 20000".to_string();
    let count = (65_536 - empty - 2) / (line.len() + 6);
    let spare = 65_536 - empty - 2 - count * (line.len() + 6);
    let mut steps = vec![line; count];
    for step in steps.iter_mut().take(spare) {
        *step = "L 20000 40000 10000 200000".to_string();
    }
    file(HEADER, &term, &term, &steps)
}

pub fn table() -> Vec<(&'static str, Vec<u8>)> {
    let session = "types=1\nbasis=1:0\nvar=O 1:0 1:0\nleft=22 18 15 1:0 16 3:0\nright=16 3:0\nstep=L 71 1 0 0\nstep=L 102 0 0 0\nend=2\n";
    vec![
        ("the session of the scope", session.as_bytes().to_vec()),
        ("1,000 swaps on 30 words", swaps(30, 1000)),
        ("1,000 swaps on 3,826 words", swaps(3826, 1000)),
        ("1,000 swaps in a body of 3,826 words", swaps_in_a_body(3826, 1000)),
        ("no steps on 30 words", swaps(30, 0)),
        ("no steps on 3,826 words", swaps(3826, 0)),
        ("250 steps that need a type", typed(250)),
        ("250 tensors of three, no steps", tensors(250)),
        ("64 declarations of 63 words an index", declarations()),
        ("65,536 bytes, a field too large", full()),
    ]
}
