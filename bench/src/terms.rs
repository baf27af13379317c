//! The terms whose typing is measured, under two declarations: indices of one word, and of 63.

use checker::decl::{Letter, Variable as Theirs};
use fejogbu::{Declarations, Variable, WORDS};

// The library's own function: what a Rust caller gets from the binding has vectors of its own beside.
extern "C" {
    #[rustfmt::skip]
    fn fejogbu_typing(
        declarations: *const u16, declarations_size: usize, term: *const u16, term_size: usize, n: usize,
        answer: *mut u64, answer_size: usize, rows: *mut u16, rows_size: usize, columns: *mut u16, columns_size: usize,
    ) -> u64;
}

/// What is declared, for both readings: a ket 26:0, a bra 26:1, an operator 26:2 and a scalar 26:3, all of one index.
pub struct Declared {
    ours: Declarations,
    theirs: checker::decl::Declarations,
}

impl Declared {
    fn of(index: &[u16]) -> Declared {
        let mut ours = Declarations::of_types(1).expect("one type");
        for variable in [Variable::Ket(index), Variable::Bra(index), Variable::Operator(index, index), Variable::Scalar] {
            ours.variable(variable).expect("an index");
        }
        let twice = [index, index].concat();
        let letters = [(Letter::Ket, index), (Letter::Bra, index), (Letter::Operator, &twice), (Letter::Scalar, &[])];
        let variables = letters.map(|(letter, words)| Theirs::new(letter, words.to_vec())).to_vec();
        Declared { ours, theirs: checker::decl::Declarations { types: 1, bases: vec![], variables } }
    }

    pub fn short() -> Declared {
        Declared::of(&[0x100])
    }

    pub fn long() -> Declared {
        Declared::of(&[[0x200; 31].as_slice(), &[0x100; 32]].concat())
    }
}

/// A term under declarations, in a work slice that both read.
pub struct Typed<'d> {
    declared: &'d Declared,
    slice: Vec<u16>,
    length: usize,
}

impl Typed<'_> {
    pub fn of<'d>(declared: &'d Declared, text: &str) -> Typed<'d> {
        let mut slice = words(text);
        let length = slice.len();
        slice.resize(WORDS, 0);
        Typed { declared, slice, length }
    }

    pub fn length(&self) -> usize {
        self.length
    }

    pub fn proved(&self) -> u64 {
        let declared = self.declared.ours.words();
        let (mut answer, mut rows, mut columns) = ([0; 9], [0; 63], [0; 63]);
        // five slices of the lengths that are said, the last three lent to nobody else
        #[rustfmt::skip]
        unsafe {
            fejogbu_typing(
                declared.as_ptr(), declared.len(), self.slice.as_ptr(), self.slice.len(), self.length,
                answer.as_mut_ptr(), answer.len(), rows.as_mut_ptr(), rows.len(), columns.as_mut_ptr(), columns.len(),
            )
        };
        let [code, _, _, _, _, depth, ..] = answer;
        assert_eq!(code, 0, "the bench's terms are typed");
        depth
    }

    pub fn checker(&self) -> u64 {
        checker::typing::typing(&self.declared.theirs, &self.slice, self.length).depth as u64
    }
}

pub fn words(text: &str) -> Vec<u16> {
    text.split(' ').map(word).collect()
}

fn word(token: &str) -> u16 {
    let (head, low) = token.split_once(':').unwrap_or((token, "0"));
    256 * head.parse::<u16>().expect("a head") + low.parse::<u16>().expect("a low byte")
}

/// A sum of `n` of one part, and sums of 255 of them under one sum where there are more.
fn sum(part: &str, n: usize) -> String {
    let row = |n: usize| format!("20:{n}{}", format!(" {part}").repeat(n));
    if n <= 255 {
        return row(n);
    }
    let rows: Vec<String> = (0..n).step_by(255).map(|k| row((n - k).min(255))).collect();
    format!("20:{} {}", rows.len(), rows.join(" "))
}

/// Eight sums over a basis around a sum of `n` kets that use the bases of the outermost, the innermost and one between.
fn nested(n: usize) -> String {
    format!("{}{}", "27 1:0 ".repeat(8), sum("19 10 28:7 28:0 16 28:3", n))
}

/// Each with how long its indices are: false for one word, true for 63.
pub fn table() -> Vec<(&'static str, bool, String)> {
    let everyday = "20:2 22 26:2 26:0 19 11 26:1 26:0 26:0";
    vec![
        ("a sum of two kets", false, sum("26:0", 2)),
        ("a matrix element", false, "11 26:1 22 26:2 26:0".into()),
        ("an operator on a ket, and a scaled ket", false, everyday.into()),
        ("three of these in a sum", false, sum(everyday, 3)),
        ("a sum of 255 kets", false, sum("26:0", 255)),
        ("15 sums of 255 kets", false, sum("26:0", 3825)),
        ("operators on operators on kets", false, sum("22 26:2 22 26:2 26:0", 600)),
        ("outer products", false, sum("24 26:0 26:1", 1200)),
        ("adjoints of operators", false, sum("18 26:2", 1800)),
        ("tensors of three kets", false, sum("21 26:0 21 26:0 26:0", 700)),
        ("tensors of two operators", false, sum("21 26:2 26:2", 1200)),
        ("a sum over a basis nested 8 deep", false, nested(660)),
        ("a sum of 255 kets", true, sum("26:0", 255)),
        ("15 sums of 255 kets", true, sum("26:0", 3825)),
        ("operators on operators on kets", true, sum("22 26:2 22 26:2 26:0", 600)),
        ("outer products", true, sum("24 26:0 26:1", 1200)),
        ("adjoints of operators", true, sum("18 26:2", 1800)),
        ("products of operators", true, sum("25 26:2 25 26:2 26:2", 700)),
    ]
}
