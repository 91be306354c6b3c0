//! Reading a long job. The published Rust has no reader: the other one is the generator's own, which makes its vectors as it reads; the port fills
//! slices that are there.

use super::vectors::refused;
use crate::port::{self, Read};
use crate::race::{parting, Pair};
use generator::drivers::example::Lowpass;
use generator::drivers::job::{read_job, Job, AMPLE};
use std::hint::black_box;

/// No job is longer, in bytes.
const LONGEST: usize = 65_000;

pub struct Jobs {
    bytes: Vec<u8>,
    port: Vec<Read>,
    rust: Vec<Option<Job>>,
    refusals: u64,
}

impl Jobs {
    /// As many rows of 32 as fit.
    pub fn new() -> Self {
        let of_rows = |rows| {
            let filter = Lowpass {
                rows,
                ..Lowpass::of(32)
            };
            filter.job().record().bytes()
        };
        let (two, three) = (of_rows(2).len(), of_rows(3).len());
        let rows = 2 + (LONGEST - two) / (three - two);
        Jobs {
            bytes: of_rows(rows),
            port: Vec::new(),
            rust: Vec::new(),
            refusals: 0,
        }
    }
}

fn port_numbers(read: &Read) -> Vec<f64> {
    let [n, rows, max_iters] = read.sizes;
    let mut all: Vec<f64> = [n, rows, max_iters].map(|size| size as f64).into();
    all.extend(read.bands.iter().chain(&read.marks).map(|&i| i as f64));
    all.extend(read.numbers);
    all.extend(&read.table[..rows * n]);
    all.extend(&read.xc[..n]);
    all.extend(&read.mq[..n * n]);
    all
}

/// The marks are the cursors, each idx before its band, and no kmax.
fn rust_numbers(job: &Job) -> Vec<f64> {
    let mut all: Vec<f64> = [job.n, job.rows(), job.limit as usize]
        .map(|size| size as f64)
        .into();
    all.extend([job.nwpass, job.nwstop].map(f64::from));
    all.extend(job.cur.map(f64::from));
    let [nwpass, nwstop] = [job.nwpass, job.nwstop].map(f64::from);
    all.extend([-1.0, nwpass - 1.0, nwstop - 1.0, -1.0]);
    all.extend(job.limits);
    all.extend([job.kappa, job.tolerance]);
    for part in [&job.table, &job.x, &job.mq] {
        all.extend(part);
    }
    all
}

impl Pair for Jobs {
    fn prepare(&mut self, copies: usize) {
        // Not zero, so that the pages are there before the clock runs.
        let [table, xc, mq] = AMPLE.map(|len| vec![7.0; len]);
        let read = Read {
            table,
            xc,
            mq,
            ..Read::default()
        };
        self.port = vec![read; copies];
        self.rust = vec![None; copies];
    }

    fn port(&mut self) {
        for read in &mut self.port {
            self.refusals |= port::read_job(black_box(&self.bytes), read);
        }
    }

    fn rust(&mut self) {
        for job in &mut self.rust {
            *job = read_job(black_box(&self.bytes), AMPLE).ok();
        }
    }

    fn units(&self) -> f64 {
        1.0
    }

    fn difference(&self) -> Option<String> {
        let mut both = self.port.iter().zip(&self.rust);
        refused(self.refusals).or_else(|| {
            both.find_map(|(read, job)| match job {
                None => Some("the generator's reader refuses".into()),
                Some(job) => parting("read_job", &port_numbers(read), &rust_numbers(job)),
            })
        })
    }
}
