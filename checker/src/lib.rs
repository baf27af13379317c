//! A second, separately written reading of document 01, "The derivation
//! replay". Every module is one idea; nothing here is shared with other
//! programs that read the same document.

#![forbid(unsafe_code)]

pub mod bodies;
pub mod case;
pub mod decl;
pub mod file;
pub mod gen;
pub mod lent;
pub mod matrix;
pub mod notation;
pub mod numbers;
pub mod preview;
pub mod replay;
pub mod rules;
pub mod run;
pub mod step;
pub mod typing;
pub mod words;
