//! What is timed: pairs of the same work for the port and for the Rust.

mod jobs;
mod roots;
mod runs;
mod scans;
mod updates;
mod vectors;

use crate::race::Pair;
use generator::draw::{many, part};
use generator::words::Source;

pub use jobs::Jobs;
pub use roots::Roots;
pub use runs::Runs;
pub use scans::Scans;
pub use updates::{ell, ell_stable};
pub use vectors::{Dots, Factors, Products};

/// The calls whose work depends on n.
pub const BY_N: [&str; 9] = [
    "dot",
    "dot_mv_into",
    "scan_band, whole, a row",
    "scan_band, stops at its first row",
    "Ell update",
    "EllStable update",
    "factor",
    "cutting_plane_feas, a step",
    "cutting_plane_optim, a step",
];

/// The pair of a name in `BY_N`.
pub fn by_n(call: &str, n: usize) -> Box<dyn Pair> {
    match BY_N.iter().position(|known| *known == call) {
        Some(0) => Box::new(Dots::new(n)),
        Some(1) => Box::new(Products::new(n)),
        Some(2) => Box::new(Scans::whole(n, 15 * n)),
        Some(3) => Box::new(Scans::first(n, 15 * n)),
        Some(4) => Box::new(ell(n)),
        Some(5) => Box::new(ell_stable(n)),
        Some(6) => Box::new(Factors::new(n)),
        Some(7) => Box::new(Runs::feas(n)),
        Some(8) => Box::new(Runs::optim(n)),
        _ => panic!("no such call: {call}"),
    }
}

/// Numbers from −1 to 1.
fn parts(src: &mut Source, count: usize) -> Vec<f64> {
    many(src, count, part)
}
