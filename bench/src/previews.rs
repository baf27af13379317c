//! Steps shown before they are taken, beside the same steps taken on a copy, since the term is to stay.

use crate::terms::words;
use fejogbu::{fitting, Declarations, Step, Term, Variable};

// The library's own functions: what a Rust caller gets from the bindings has vectors of its own beside.
extern "C" {
    #[rustfmt::skip]
    fn fejogbu_step(
        declarations: *const u16, declarations_size: usize, term: *mut u16, term_size: usize, n: usize,
        rule: u16, place: u16, i: u16, j: u16, answer: *mut u64, answer_size: usize,
    ) -> u64;
    #[rustfmt::skip]
    fn fejogbu_preview(
        declarations: *const u16, declarations_size: usize, term: *const u16, term_size: usize, n: usize,
        rule: u16, place: u16, i: u16, j: u16,
        answer: *mut u64, answer_size: usize, rows: *mut u16, rows_size: usize, columns: *mut u16, columns_size: usize,
    ) -> u64;
}

/// A step on a term, which is lent to both; the step is taken on a copy.
pub struct Shown {
    declared: Declarations,
    term: Term,
    copy: Vec<u16>,
    step: Step,
}

impl Shown {
    fn of(text: &str, rule: u16, place: u16) -> Shown {
        let mut declared = Declarations::of_types(1).expect("one type");
        declared.basis(&[0x100]).expect("a basis");
        for variable in [Variable::Ket(&[0x100]), Variable::Scalar] {
            declared.variable(variable).expect("an index");
        }
        let term = Term::of(&words(text));
        Shown { declared, copy: term.slice().to_vec(), term, step: Step { rule, place, ..Step::default() } }
    }

    pub fn length(&self) -> usize {
        self.term.words().len()
    }

    pub fn preview(&self) -> u64 {
        let (declared, term, s) = (self.declared.words(), self.term.slice(), self.step);
        let (mut answer, mut rows, mut columns) = ([0; 9], [0; 63], [0; 63]);
        // five slices of the lengths that are said, the last three lent to nobody else
        #[rustfmt::skip]
        unsafe {
            fejogbu_preview(
                declared.as_ptr(), declared.len(), term.as_ptr(), term.len(), self.length(), s.rule, s.place, s.i, s.j,
                answer.as_mut_ptr(), answer.len(), rows.as_mut_ptr(), rows.len(), columns.as_mut_ptr(), columns.len(),
            )
        };
        answer[0]
    }

    pub fn taken(&mut self) -> u64 {
        self.copy.copy_from_slice(self.term.slice());
        let (declared, n, s) = (self.declared.words(), self.length(), self.step);
        let mut answer = [0; 5];
        // three slices of the lengths that are said, the last two lent to nobody else
        #[rustfmt::skip]
        unsafe {
            fejogbu_step(
                declared.as_ptr(), declared.len(), self.copy.as_mut_ptr(), self.copy.len(), n, s.rule, s.place, s.i, s.j,
                answer.as_mut_ptr(), answer.len(),
            )
        };
        answer[0]
    }

    /// How many rules fit there.
    pub fn rules(&self) -> u64 {
        fitting(&self.declared, &self.term, self.step).len() as u64
    }
}

pub fn table() -> Vec<(&'static str, Shown)> {
    let sum = crate::files::sum;
    let scaled = |n: usize| format!("20:{n} {}19 6 26:0", "26:0 ".repeat(n - 1));
    vec![
        ("the scope's first step", Shown::of("22 18 15 1:0 16 3:0", 71, 1)),
        ("a swap on 30 words", Shown::of(&sum(30), 170, 0)),
        ("no instance, on 30 words", Shown::of(&sum(30), 109, 0)),
        ("the last of 200 kets is 1 times itself", Shown::of(&scaled(200), 40, 200)),
        ("a swap on 3,826 words", Shown::of(&sum(3826), 170, 0)),
        ("no instance, on 3,826 words", Shown::of(&sum(3826), 109, 0)),
        ("the last of 3,816 kets is 1 times itself", Shown::of(&format!("20:16 {}{}", format!("20:240 {}", "26:0 ".repeat(240)).repeat(15), scaled(216)), 40, 3832)),
    ]
}
