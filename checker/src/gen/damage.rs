//! Damaged copies of a file.

use super::Rng;
use std::ops::Range;

/// Values that stand at an edge of the form or just past it.
const EDGES: [&str; 43] = [
    "7:0",
    "7:256",
    "7:255",
    "5:0",
    "5:3",
    "01",
    "00",
    "0",
    "65535",
    "65536",
    "27",
    "27:0",
    "27:3",
    "28",
    "28:0",
    "28:1",
    "28:255",
    "29:3",
    "0:0",
    "7",
    "1:32",
    "1:31",
    "3:32",
    "26:32",
    "256",
    "255",
    "",
    " ",
    "L",
    "R",
    "S",
    "K 1:0",
    "U",
    "U 1:0",
    "U 1:0 1:0",
    "2 1:0",
    "999999999999999999999999999999",
    "100000000000000000000000000000",
    "-1",
    "+1",
    "1:",
    ":1",
    "1:0:0",
];

/// A copy of a file with one to three damages.
pub fn damaged(rng: &mut Rng, file: &[u8]) -> Vec<u8> {
    let mut bytes = file.to_vec();
    for _ in 0..rng.within(1, 3) {
        damage(rng, &mut bytes);
    }
    bytes
}

fn damage(rng: &mut Rng, bytes: &mut Vec<u8>) {
    let place = rng.below(bytes.len() + 1);
    match rng.below(12) {
        0 => {
            if let Some(byte) = bytes.get_mut(place) {
                *byte = any_byte(rng);
            }
        }
        1 => {
            let end = bytes.len().min(place + rng.within(1, 6));
            bytes.drain(place..end);
        }
        2 => bytes.insert(place, any_byte(rng)),
        3 if rng.once_in(4) => bytes.truncate(place),
        3..6 => lines(rng, bytes),
        6 => values(rng, bytes),
        7 | 8 => edge(rng, bytes),
        _ => tokens(rng, bytes),
    }
}

fn any_byte(rng: &mut Rng) -> u8 {
    match rng.below(4) {
        0 => rng.draw() as u8,
        1 => b'0' + rng.below(10) as u8,
        2 => *rng.pick(b" \n:=LR,\r\t~\x7f"),
        _ => 32 + rng.below(95) as u8,
    }
}

/// Swaps two lines, drops one, or doubles one, now and then many times.
fn lines(rng: &mut Rng, bytes: &mut Vec<u8>) {
    let mut lines: Vec<&[u8]> = bytes.split_inclusive(|&byte| byte == b'\n').collect();
    if lines.is_empty() {
        return;
    }
    let (one, other) = (rng.below(lines.len()), rng.below(lines.len()));
    match rng.below(3) {
        0 => lines.swap(one, other),
        1 => {
            lines.remove(one);
        }
        _ if rng.once_in(8) => {
            let copies = rng.within(25, 40);
            lines.splice(one..one, vec![lines[one]; copies]);
        }
        _ => lines.insert(other, lines[one]),
    }
    *bytes = lines.concat();
}

/// Gives a line the value of another line.
fn values(rng: &mut Rng, bytes: &mut Vec<u8>) {
    let found = spans(bytes, |byte| matches!(byte, b'\n' | b'='));
    let values: Vec<Range<usize>> =
        found.into_iter().filter(|it| it.start > 0 && bytes[it.start - 1] == b'=').collect();
    copy(rng, bytes, &values);
}

/// Puts a copy of one token in the place of another.
fn tokens(rng: &mut Rng, bytes: &mut Vec<u8>) {
    let found = spans(bytes, |byte| matches!(byte, b' ' | b'\n' | b'='));
    copy(rng, bytes, &found);
}

/// Puts an edge value in the place of a token.
fn edge(rng: &mut Rng, bytes: &mut Vec<u8>) {
    let found = spans(bytes, |byte| matches!(byte, b' ' | b'\n' | b'='));
    if !found.is_empty() {
        let to = rng.pick(&found).clone();
        bytes.splice(to, rng.pick(&EDGES).bytes());
    }
}

/// The runs of bytes between the bounds.
fn spans(bytes: &[u8], bound: impl Fn(u8) -> bool) -> Vec<Range<usize>> {
    let mut start = 0;
    let mut found = Vec::new();
    for piece in bytes.split(|&byte| bound(byte)) {
        if !piece.is_empty() {
            found.push(start..start + piece.len());
        }
        start += piece.len() + 1;
    }
    found
}

fn copy(rng: &mut Rng, bytes: &mut Vec<u8>, spans: &[Range<usize>]) {
    if !spans.is_empty() {
        let from = bytes[rng.pick(spans).clone()].to_vec();
        bytes.splice(rng.pick(spans).clone(), from);
    }
}
