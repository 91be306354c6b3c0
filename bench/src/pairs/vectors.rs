//! Products of vectors and matrices, and the factorization.

use super::parts;
use crate::port;
use crate::race::{parting, Pair};
use ellalgo_rs::arr::Arr;
use ellalgo_rs::oracles::ldlt_mgr::LDLTMgr;
use generator::words::Source;
use std::hint::black_box;

const POOL: usize = 16;

pub struct Dots {
    n: usize,
    pool: Vec<(Arr, Arr)>,
    port: Vec<f64>,
    rust: Vec<f64>,
    refusals: u64,
}

impl Dots {
    pub fn new(n: usize) -> Self {
        let mut src = Source::new(n as u64);
        let mut one = || Arr::from(parts(&mut src, n));
        Dots {
            n,
            pool: (0..POOL).map(|_| (one(), one())).collect(),
            port: Vec::new(),
            rust: Vec::new(),
            refusals: 0,
        }
    }
}

impl Pair for Dots {
    fn prepare(&mut self, copies: usize) {
        self.port = vec![7.0; POOL * copies];
        self.rust = vec![8.0; POOL * copies];
    }

    fn port(&mut self) {
        for outs in self.port.chunks_mut(POOL) {
            for ((a, b), out) in black_box(&self.pool).iter().zip(outs) {
                self.refusals |= port::dot(self.n, a.data(), b.data(), out);
            }
        }
    }

    fn rust(&mut self) {
        for outs in self.rust.chunks_mut(POOL) {
            for ((a, b), out) in black_box(&self.pool).iter().zip(outs) {
                *out = a.dot(b);
            }
        }
    }

    fn units(&self) -> f64 {
        POOL as f64
    }

    fn difference(&self) -> Option<String> {
        refused(self.refusals).or_else(|| parting("dot", &self.port, &self.rust))
    }
}

/// The port refuses nothing that is timed.
pub fn refused(refusals: u64) -> Option<String> {
    (refusals != 0).then(|| format!("refused, {refusals}"))
}

pub struct Products {
    n: usize,
    pool: Vec<(Arr, Arr)>,
    port: Vec<Arr>,
    rust: Vec<Arr>,
    refusals: u64,
}

impl Products {
    pub fn new(n: usize) -> Self {
        let mut src = Source::new(n as u64);
        let one = |_| {
            let mat = Arr::from_shape_vec(n, n, parts(&mut src, n * n));
            (mat, Arr::from(parts(&mut src, n)))
        };
        Products {
            n,
            pool: (0..POOL).map(one).collect(),
            port: Vec::new(),
            rust: Vec::new(),
            refusals: 0,
        }
    }
}

impl Pair for Products {
    fn prepare(&mut self, copies: usize) {
        self.port = vec![Arr::new(self.n); POOL * copies];
        self.rust = self.port.clone();
    }

    fn port(&mut self) {
        for outs in self.port.chunks_mut(POOL) {
            for ((mat, x), out) in black_box(&self.pool).iter().zip(outs) {
                let out = out.data_mut();
                self.refusals |= port::dot_mv_into(self.n, mat.data(), x.data(), out);
            }
        }
    }

    fn rust(&mut self) {
        for outs in self.rust.chunks_mut(POOL) {
            for ((mat, x), out) in black_box(&self.pool).iter().zip(outs) {
                mat.dot_mv_into(x, out);
            }
        }
    }

    fn units(&self) -> f64 {
        POOL as f64
    }

    fn difference(&self) -> Option<String> {
        let both = self.port.iter().zip(&self.rust);
        let mut parted = both.map(|(p, r)| parting("dot_mv_into", p.data(), r.data()));
        refused(self.refusals).or_else(|| parted.find_map(|d| d))
    }
}

pub struct Factors {
    m: usize,
    pool: Vec<Arr>,
    port: Vec<(Vec<f64>, usize)>,
    rust: Vec<LDLTMgr>,
    refusals: u64,
}

impl Factors {
    /// Matrices that are definite, since their diagonals outweigh the rest.
    pub fn new(m: usize) -> Self {
        let mut src = Source::new(m as u64);
        let mut one = || {
            let mut mat = Arr::from_shape_vec(m, m, parts(&mut src, m * m));
            for i in 0..m {
                mat.set(i, i, 2.0 * m as f64);
                (0..i).for_each(|j| mat.set(i, j, mat.get(j, i)));
            }
            mat
        };
        Factors {
            m,
            pool: (0..POOL).map(|_| one()).collect(),
            port: Vec::new(),
            rust: Vec::new(),
            refusals: 0,
        }
    }
}

impl Pair for Factors {
    fn prepare(&mut self, copies: usize) {
        self.port = vec![(vec![0.0; self.m * self.m], usize::MAX); POOL * copies];
        let managers = (0..POOL * copies).map(|_| LDLTMgr::new(self.m));
        self.rust = managers.collect();
    }

    fn port(&mut self) {
        for outs in self.port.chunks_mut(POOL) {
            for (mat, (storage, end)) in black_box(&self.pool).iter().zip(outs) {
                self.refusals |= port::factor(self.m, mat.data(), storage, end);
            }
        }
    }

    fn rust(&mut self) {
        for outs in self.rust.chunks_mut(POOL) {
            for (mat, manager) in black_box(&self.pool).iter().zip(outs) {
                black_box(manager.factorize(mat));
            }
        }
    }

    fn units(&self) -> f64 {
        POOL as f64
    }

    fn difference(&self) -> Option<String> {
        let both = self.port.iter().zip(&self.rust);
        let mut parted = both.map(|((storage, end), manager)| {
            let ends = (*end != 0 || manager.pos != (0, 0)).then(|| "not definite".into());
            ends.or_else(|| parting("factor", storage, manager.storage()))
        });
        refused(self.refusals).or_else(|| parted.find_map(|d| d))
    }
}
