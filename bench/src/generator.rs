//! The modules of the generator that draw cases and ask the Rust, taken from where they stand.
//! The program of `../reference` has them as its own, so that no library has them.

// A part is used here, and lints for libraries do not apply to a program's modules.
#![allow(dead_code, clippy::should_implement_trait)]

#[path = "../../reference/src/draw.rs"]
pub mod draw;
#[path = "../../reference/src/drivers/mod.rs"]
pub mod drivers;
#[path = "../../reference/src/layers.rs"]
pub mod layers;
#[path = "../../reference/src/lengths.rs"]
pub mod lengths;
#[path = "../../reference/src/lists.rs"]
pub mod lists;
#[path = "../../reference/src/numbers.rs"]
pub mod numbers;
#[path = "../../reference/src/oracles/mod.rs"]
pub mod oracles;
#[path = "../../reference/src/rng.rs"]
pub mod rng;
#[cfg(test)]
#[path = "../../reference/src/testing.rs"]
mod testing;
#[path = "../../reference/src/words.rs"]
pub mod words;
