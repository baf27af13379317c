//! One plain scan of a term's words, which a step on them is measured by.

/// As many children as the low byte says.
const COUNTED: u8 = 255;

/// The number of children of each head.
const CHILDREN: [u8; 29] = [0, 0, 2, 0, 2, 0, 0, COUNTED, COUNTED, 1, 2, 2, 1, 1, 2, 1, 1, 1, 1, 2, COUNTED, 2, 2, 2, 2, 2, 0, 2, 0];

/// Where the part ends that the words begin with: each word is read once, and the parts still to come are counted. The words are a term's, so
/// low bytes that a head must not carry are not looked for. It stays a function of its own, to be compiled the same whoever calls it.
#[inline(never)]
pub fn end(words: &[u16]) -> Option<usize> {
    let (mut at, mut missing) = (0, 1);
    while missing > 0 {
        let word = *words.get(at)?;
        let children = *CHILDREN.get(usize::from(word >> 8))?;
        missing += if children == COUNTED { i32::from(word & 255) } else { i32::from(children) } - 1;
        at += 1;
    }
    Some(at)
}
