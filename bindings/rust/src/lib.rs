//! The proved replay of derivations in Dirac notation, for Rust.
//!
//! A derivation is two terms and a list of steps that should bring both to the same end. [`replay`] takes a file's bytes; [`run`] takes declarations, two terms and steps that the
//! program has made itself; [`step`] takes one step of one term, [`preview`] shows it first, and [`fitting`] asks which rules fit at a place; [`typing`] finds a term's type; [`part`] looks a part up. Each answer names what is wrong and whose doing it is, and none relies on the
//! caller having looked first. The functions behind them are proved; what this crate adds are slices of the right sizes, and words for the codes.
//!
//! ```
//! let mut work = fejogbu::Work::new();
//! let answer = fejogbu::replay(b"types=0\nleft=5\nright=6\nend=0\n", &mut work);
//! assert_eq!(answer.code, fejogbu::Code::EndsDiffer);
//! assert_eq!(answer.to_string(), "the steps are good, and the ends differ from word 0 on");
//! ```
mod answer;
mod calls;
mod lent;
mod outside;

pub use answer::{Answer, Code, Kind, Outcome, Preview, Side, Stepped, Typing};
pub use calls::{fitting, part, preview, replay, run, step, typing, Part};
pub use lent::{word, Declarations, Refused, Step, Steps, Term, Variable, Work};

/// The words of a work slice, and the most words of a term.
pub const WORDS: usize = 4096;
/// The words of all declarations.
pub const DECLARATIONS: usize = 6179;
/// The words of a lent step.
pub const STEP: usize = 8;
/// The most steps of a derivation.
pub const STEPS: usize = 1000;
/// The most words of a type's index.
pub const INDEX: usize = 63;
