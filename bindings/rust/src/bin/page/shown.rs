//! What is written of a long line. A thousand steps on terms of 4,096 words are eight million words, which no one reads and no browser likes. So of a line of a step that has more than [`MOST`]
//! words the part is written that the step is about, and from it and from the top as much as there is room for; the rest is left out, and a sign says so. The sides of a file and its ends are written whole.
use crate::shape::Shape;

/// The most words of a line of a step.
pub const MOST: usize = 120;

/// Which words are written, where not all are. The children of the part that the step names by its indices come first.
pub fn shown(shape: &Shape, place: usize, children: &[usize]) -> Option<Vec<bool>> {
    if shape.words().len() <= MOST {
        return None;
    }
    let mut chosen = Chosen {
        shape,
        shown: vec![false; shape.words().len()],
        room: MOST,
    };
    let mut path = vec![0];
    while let Some(&at) = path.last().filter(|&&at| at < place) {
        chosen.take(at);
        path.extend(shape.children(at).filter(|&child| child <= place).last());
    }
    let named = children
        .iter()
        .filter_map(|&k| shape.children(place).nth(k));
    for at in named.chain([place]).chain(path.into_iter().rev()) {
        chosen.spread(at);
    }
    Some(chosen.shown)
}

struct Chosen<'a> {
    shape: &'a Shape<'a>,
    shown: Vec<bool>,
    room: usize,
}

impl Chosen<'_> {
    fn take(&mut self, at: usize) {
        if !self.shown[at] {
            self.shown[at] = true;
            self.room = self.room.saturating_sub(1);
        }
    }

    /// The part, or as much of it as there is room for: of its children the first ones, each whole, and inside a child only where it is the first, or one of two.
    fn spread(&mut self, at: usize) {
        let shape = self.shape;
        if shape.part(at).len() <= self.room {
            shape.part(at).for_each(|word| self.take(word));
            return;
        }
        self.take(at);
        let several = matches!(shape.head(at), 7 | 8 | 20);
        for (k, child) in shape.children(at).enumerate() {
            let fits = shape.part(child).len() <= self.room;
            if self.room == 0 || (several && k > 0 && !fits) {
                return;
            }
            self.spread(child);
        }
    }
}

#[cfg(test)]
mod tests {
    use super::*;
    use crate::shape::Sort;
    use fejogbu::word;

    /// A sum of so many conjugates of ones.
    fn sum(n: u8) -> Vec<u16> {
        let mut words = vec![word(7, n)];
        for _ in 0..n {
            words.extend([word(9, 0), word(6, 0)]);
        }
        words
    }

    #[test]
    fn a_short_line_is_whole_and_a_long_one_has_room_for_so_many() {
        let short = sum(59);
        assert!(shown(&Shape::of(&short, &[]).unwrap(), 0, &[]).is_none());
        let long = sum(200);
        let shape = Shape::of(&long, &[Sort::Ket]).unwrap();
        let chosen = shown(&shape, 0, &[150, 151]).unwrap();
        let count = chosen.iter().filter(|&&s| s).count();
        assert!((MOST - 2..=MOST).contains(&count), "{count}");
        let child = |k: usize| chosen[1 + 2 * k] && chosen[2 + 2 * k];
        let in_part = |k: usize| chosen[1 + 2 * k] != chosen[2 + 2 * k];
        assert!(child(150) && child(151) && child(0) && !child(149) && !child(199));
        assert!(!(0..200).any(in_part));
    }

    #[test]
    fn the_way_to_the_part_is_written() {
        let mut words = vec![word(9, 0), word(8, 2)];
        words.extend(sum(250));
        words.extend([word(9, 0), word(6, 0)]);
        let shape = Shape::of(&words, &[]).unwrap();
        let chosen = shown(&shape, words.len() - 1, &[]).unwrap();
        assert!(chosen[0] && chosen[1] && chosen[words.len() - 2] && chosen[words.len() - 1]);
    }
}
