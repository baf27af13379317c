//! What an editor offers: for each place of a term, the rules that fit there and what they would leave.
use fejogbu::{fitting, word, Declarations, Step, Term};

fn main() {
    let mut declared = Declarations::of_types(1).expect("one type");
    let basis = declared.basis(&[word(1, 0)]).expect("a basis name");
    // (1†)|b⟩, as the scope's derivation begins
    let term = Term::of(&[word(22, 0), word(18, 0), word(15, 0), word(1, 0), word(16, 0), basis]);
    for place in 0..term.words().len() as u16 {
        for (rule, shown) in fitting(&declared, &term, Step { place, ..Step::default() }) {
            println!("word {place}: rule {rule} leaves {} words, {} deep", shown.stepped.length, shown.depth);
        }
    }
}
