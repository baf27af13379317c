//! The replay of a whole file.

use crate::file::read;
use crate::run::run_in;

pub use crate::run::Answer;

/// Replays a file in two work slices.
pub fn replay(file: &[u8], left: &mut [u16], right: &mut [u16]) -> Answer {
    run_in(left, right, |left, right| {
        read(file, left, right).map_err(|fault| Answer {
            code: fault.code,
            at: fault.at,
            ..Answer::default()
        })
    })
}
