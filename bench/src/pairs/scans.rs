//! The scan of a band.

use super::vectors::refused;
use crate::port::{self, Band, Scanned};
use crate::race::{parting, Pair};
use ellalgo_rs::arr::Arr;
use ellalgo_rs::oracles::lowpass_oracle::scan_band_of;
use ellalgo_rs::round_robin::RoundRobin;
use generator::oracles::filter::waves;
use std::hint::black_box;

type Seen = (Option<(usize, f64, bool)>, f64, i32, i32);

/// Scans one after the other by one cursor.
pub struct Scans {
    n: usize,
    table: Vec<f64>,
    rows: Vec<Arr>,
    x: Arr,
    band: Band,
    /// The rows that a scan visits.
    visited: usize,
    port: Vec<Scanned>,
    rust: Vec<Seen>,
    refusals: u64,
}

impl Scans {
    /// Nothing is broken, so that every row is visited.
    pub fn whole(n: usize, rows: usize) -> Self {
        Scans::new(n, rows, Some(4.0), rows)
    }

    /// The next row is always above the limit.
    pub fn first(n: usize, rows: usize) -> Self {
        Scans::new(n, rows, Some(-1.0), 1)
    }

    /// Rows of a filter and a point whose values lie from 0 to 2.
    fn new(n: usize, rows: usize, upper: Option<f64>, visited: usize) -> Self {
        let table = waves(n, rows, |i| (3.0 * i as f64 / rows as f64).cos());
        let x = Arr::from_fn(n, |j| if j == 0 { 1.0 } else { 0.4 / n as f64 });
        let cut = table.chunks(n).map(|row| Arr::from(row.to_vec()));
        Scans {
            n,
            rows: cut.collect(),
            table,
            x,
            band: Band {
                lo: 0,
                hi: rows as i32,
                lower: 0.0,
                upper,
            },
            visited,
            port: Vec::new(),
            rust: Vec::new(),
            refusals: 0,
        }
    }

    fn same(&self, port: &Scanned, rust: &Seen) -> Option<String> {
        let (found, fmax, kmax, last) = *rust;
        let (row, value, side) = match found {
            None => (0, 0.0, 0),
            Some((row, value, over)) => (row, value, if over { 2 } else { 1 }),
        };
        if (port.found, port.kmax, port.cur) != ([side, row], kmax, last) {
            return Some(format!("scan_band: {port:?}, {rust:?}"));
        }
        parting("scan_band", &port.values, &[value, fmax])
    }
}

impl Pair for Scans {
    fn prepare(&mut self, copies: usize) {
        self.port = vec![Scanned::from(-1); copies];
        self.rust = vec![(None, 7.0, 7, 7); copies];
    }

    fn port(&mut self) {
        let (rows, x) = (self.rows.len(), self.x.data());
        let mut cur = -1;
        for out in &mut self.port {
            out.cur = cur;
            let band = black_box(&self.band);
            self.refusals |= port::scan_band(self.n, rows, &self.table, x, band, out);
            cur = out.cur;
        }
    }

    fn rust(&mut self) {
        let mut rr = RoundRobin::new_range(self.band.lo, self.band.hi);
        for out in &mut self.rust {
            let Band {
                lo,
                hi,
                lower,
                upper,
            } = *black_box(&self.band);
            *out = scan_band_of(&self.rows, &self.x, &mut rr, (lo, hi), lower, upper);
        }
    }

    fn units(&self) -> f64 {
        self.visited as f64
    }

    fn difference(&self) -> Option<String> {
        let mut both = self.port.iter().zip(&self.rust);
        refused(self.refusals).or_else(|| both.find_map(|(p, r)| self.same(p, r)))
    }
}
