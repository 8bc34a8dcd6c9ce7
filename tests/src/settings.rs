//! Numbers that the environment may set.

use std::env;

/// The seed of what is generated when the environment gives no SEED.
pub const SEED: u64 = 20_260_101;

/// The number under this name in the environment, or the default.
pub fn number(name: &str, default: u64) -> u64 {
    match env::var(name) {
        Ok(value) => value
            .parse()
            .unwrap_or_else(|_| panic!("{name} is not a number")),
        Err(_) => default,
    }
}
