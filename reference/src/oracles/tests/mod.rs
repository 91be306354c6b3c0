//! Whether the lists of this layer meet the borders that matter, in the words as they are
//! written, and whether the Rust gives the known values of this layer.

mod any_lengths;
mod any_matrices;
mod ellipsoids;
mod known;
mod ldlt;
mod lowpass;
mod scan;

use crate::testing::{must_be_common, Reader, Relation};

fn is_plus_zero(x: f64) -> bool {
    x.to_bits() == 0
}

fn is_minus_zero(x: f64) -> bool {
    x.to_bits() == 1 << 63
}
