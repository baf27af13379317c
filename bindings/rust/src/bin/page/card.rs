//! The record behind the word "verified": which bytes, what the answer to them was, which library gave it, and what is claimed. The word itself stands on the card of a file that was accepted, and on no other.
use crate::escape::plain;
use crate::sheet::without_the_word;
use fejogbu::{Answer, Code};
use std::fmt::Write as _;
use std::fs::File;
use std::io::Write;
use std::path::Path;
use std::process::{Command, Stdio};

/// What an accepted file's two terms are, in the words of `docs/STATEMENT.md`.
const CLAIM: &str = "its two terms, as the file has them, stand for the same matrix, whatever dimensions from 1 up, basis indices and matrices of Gaussian integers are put in, unitary ones where an operator is declared so, by a replay that is proved to accept only such files";

/// The card of a file whose bytes these are, as far as they were read: of one that is too long, the rest is taken from its path.
pub fn card(path: &Path, bytes: &[u8], answer: Answer, words: &str) -> Result<String, String> {
    let too_long = answer.code == Code::TooLong;
    let (size, digest) = match too_long {
        true => (size(path)?, digest_of_file(path)?),
        false => (bytes.len() as u64, digest(bytes)?),
    };
    let name = plain(&path.to_string_lossy());
    let mut out = format!("file: {}\n", without_the_word(&name, answer.code));
    let _ = writeln!(out, "sha256: {digest}");
    let _ = writeln!(out, "bytes: {size}");
    let side = answer.side.map_or(0, |side| side.number());
    let _ = writeln!(
        out,
        "code={}\nside={side}\nstep={}\nat={}",
        answer.code.number(),
        answer.step,
        answer.at
    );
    let _ = writeln!(out, "left={}\nright={}", answer.left, answer.right);
    let _ = writeln!(
        out,
        "library: {} {}",
        env!("CARGO_PKG_NAME"),
        env!("CARGO_PKG_VERSION")
    );
    let _ = writeln!(out, "proved under: {}", env!("FEJOGBU_TOOLCHAIN"));
    let _ = match answer.code {
        Code::Accepted => writeln!(out, "verified: {CLAIM}."),
        _ => writeln!(out, "not accepted, and nothing is claimed: {words}."),
    };
    Ok(out)
}

fn size(path: &Path) -> Result<u64, String> {
    let about = std::fs::metadata(path).map_err(|e| e.to_string())?;
    Ok(about.len())
}

fn digest_of_file(path: &Path) -> Result<String, String> {
    let file = File::open(path).map_err(|e| e.to_string())?;
    summed(file.into(), &[])
}

/// The SHA-256 of the very bytes that were replayed, by the system's own program.
fn digest(bytes: &[u8]) -> Result<String, String> {
    summed(Stdio::piped(), bytes)
}

fn summed(input: Stdio, bytes: &[u8]) -> Result<String, String> {
    let failed = |why: String| format!("sha256sum: {why}");
    let mut program = Command::new("sha256sum")
        .stdin(input)
        .stdout(Stdio::piped())
        .spawn()
        .map_err(|e| failed(e.to_string()))?;
    if let Some(mut stdin) = program.stdin.take() {
        stdin.write_all(bytes).map_err(|e| failed(e.to_string()))?;
    }
    let output = program
        .wait_with_output()
        .map_err(|e| failed(e.to_string()))?;
    let text = String::from_utf8_lossy(&output.stdout).into_owned();
    let digest = text.split(' ').next().unwrap_or_default();
    let is_digest = digest.len() == 64 && digest.bytes().all(|byte| byte.is_ascii_hexdigit());
    match output.status.success() && is_digest {
        true => Ok(digest.to_string()),
        false => Err(failed("it gave no digest".to_string())),
    }
}
