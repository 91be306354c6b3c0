//! The root, against the machine's instruction.

use crate::port;
use crate::race::{parting, Pair};
use generator::words::Source;
use std::hint::black_box;

const POOL: usize = 64;
const DEEP: usize = 16;

pub struct Roots {
    starts: Vec<f64>,
    /// Each root waits for the one before.
    chained: bool,
    port: Vec<f64>,
    rust: Vec<f64>,
}

impl Roots {
    pub fn new(chained: bool) -> Self {
        let mut src = Source::new(1);
        Roots {
            starts: (0..POOL).map(|_| src.wide(-1000, 1000)).collect(),
            chained,
            port: Vec::new(),
            rust: Vec::new(),
        }
    }
}

/// Sixteen roots from each start, all kept. The difference is zero and joins the chains.
#[allow(clippy::eq_op)]
fn chain(starts: &[f64], roots: &mut [f64], root: impl Fn(f64) -> f64) {
    let mut x = 1.0;
    for roots in roots.chunks_mut(starts.len() * DEEP) {
        for (v, roots) in black_box(starts).iter().zip(roots.chunks_mut(DEEP)) {
            x = v + (x - x);
            for out in roots {
                x = root(x);
                *out = x;
            }
        }
    }
}

/// One root of each start. The box keeps the compiler from taking several with one instruction.
fn apart(starts: &[f64], ends: &mut [f64], root: impl Fn(f64) -> f64) {
    for ends in ends.chunks_mut(starts.len()) {
        for (v, end) in starts.iter().zip(ends) {
            *end = root(black_box(*v));
        }
    }
}

impl Pair for Roots {
    fn prepare(&mut self, copies: usize) {
        let roots = self.units() as usize * copies;
        self.port = vec![7.0; roots];
        self.rust = vec![8.0; roots];
    }

    fn port(&mut self) {
        if self.chained {
            chain(&self.starts, &mut self.port, port::sqrt);
        } else {
            apart(&self.starts, &mut self.port, port::sqrt);
        }
    }

    fn rust(&mut self) {
        if self.chained {
            chain(&self.starts, &mut self.rust, f64::sqrt);
        } else {
            apart(&self.starts, &mut self.rust, f64::sqrt);
        }
    }

    fn units(&self) -> f64 {
        (if self.chained { POOL * DEEP } else { POOL }) as f64
    }

    fn difference(&self) -> Option<String> {
        parting("roots", &self.port, &self.rust)
    }
}
