//! The seed of the property tests: SEED from the environment, else a fixed one.

pub fn seed() -> u64 {
    match std::env::var("SEED") {
        Ok(text) => text.parse().expect("SEED is a number"),
        Err(_) => 20_241_203,
    }
}
