//! Sums over a basis: the bodies that hold a place, and the first place that
//! they make no term (code 13).

use crate::words::*;

/// The bodies around a place, outermost first: of each the index of its sum,
/// or nothing where the sum lacks one.
#[derive(Clone, Copy, Default, Debug)]
pub struct Around<'t> {
    indices: [Option<&'t [u16]>; BODIES],
    count: usize,
}

impl<'t> Around<'t> {
    /// The bodies around a place of a term, each with what stands as its index.
    pub fn of(term: &'t [u16], place: usize) -> Self {
        let mut open = Open::default();
        for (at, &word) in term[..place].iter().enumerate() {
            open.read(at, word);
        }
        let mut around = Around::default();
        for at in open.sums {
            around.enter(Some(split_part(&term[at + 1..]).0));
        }
        around
    }

    /// The bodies of sums over these indices, outermost first.
    pub fn over(indices: &'t [Vec<u16>]) -> Self {
        let mut around = Around::default();
        for index in indices {
            around.enter(Some(index));
        }
        around
    }

    /// Enters a body. It does not when that would be the ninth.
    pub fn enter(&mut self, index: Option<&'t [u16]>) -> bool {
        match self.indices.get_mut(self.count) {
            Some(place) => *place = index,
            None => return false,
        }
        self.count += 1;
        true
    }

    pub fn leave(&mut self) {
        self.count -= 1;
    }

    /// The index of the basis that the a-th sum binds, counted from the
    /// innermost.
    pub fn index(&self, a: u8) -> Option<&'t [u16]> {
        self.indices[self.count.checked_sub(usize::from(a) + 1)?]
    }

    /// The indices of all, outermost first.
    pub fn indices(&self) -> impl Iterator<Item = &'t [u16]> + '_ {
        self.indices[..self.count].iter().map(|index| index.unwrap_or(&[]))
    }
}

/// What is open at a place of a term that is read word by word.
#[derive(Default)]
struct Open {
    /// Of each head that waits for children how many, and where it stands when
    /// it is a sum over a basis.
    heads: Vec<(u8, Option<usize>)>,
    /// Where the sums stand whose bodies hold the place.
    sums: Vec<usize>,
}

impl Open {
    fn read(&mut self, at: usize, word: u16) {
        let children = children_of(word).unwrap_or(0);
        if children > 0 {
            return self.heads.push((children, (head(word) == SUM).then_some(at)));
        }
        while let Some((missing, sum)) = self.heads.last_mut() {
            *missing -= 1;
            match (*missing, *sum) {
                (0, sum) => {
                    self.heads.pop();
                    sum.and_then(|_| self.sums.pop());
                }
                // Its index has been read: what follows is its body.
                (1, Some(sum)) => return self.sums.push(sum),
                _ => return,
            }
        }
    }
}

/// The lowest offset of a bound basis with no such sum around it, or of a sum
/// that stands inside eight bodies already.
pub fn unbound(words: &[u16]) -> Option<usize> {
    let mut open = Open::default();
    for (at, &word) in words.iter().enumerate() {
        let held = open.sums.len();
        match head(word) {
            BOUND if usize::from(low(word)) >= held => return Some(at),
            SUM if held == BODIES => return Some(at),
            _ => open.read(at, word),
        }
    }
    None
}

/// Whether a part names a bound basis at all: one that does not has the same
/// type wherever it stands.
pub fn names_bound(part: &[u16]) -> bool {
    part.iter().any(|&word| head(word) == BOUND)
}
