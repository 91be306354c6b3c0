//! A lowpass oracle's table, limits and point, drawn so that every verdict is met and values
//! stand on the limits and beside them.

use super::cursor::{any_i32, Cursor, MOST_ROWS};
use super::limits::{edges, lower_limit, lowered, raised, upper_limit};
use crate::draw::{dimension, halves, many, minus_zeros, part, row_against, vector};
use crate::words::Source;
use ellalgo_rs::arr::Arr;
use ellalgo_rs::oracles::lowpass_oracle::LowpassOracle;

/// The bands in the order of the cursors.
const PASS: usize = 0;
const MIDDLE: usize = 1;
const STOP: usize = 2;

/// What an oracle keeps besides its table and its fixed limits; the cursors are those of pass,
/// middle and stop.
#[derive(Clone, Copy)]
pub struct State {
    pub cursors: [Cursor; 3],
    pub idx: [i32; 3],
    pub fmax: f64,
    pub kmax: i32,
    pub more_alt: bool,
    pub sp_sq: f64,
}

impl State {
    /// As a job's oracle starts.
    pub fn fresh(bands: [(i32, i32); 3], sp_sq: f64) -> Self {
        let cursors = bands.map(|(lo, hi)| Cursor::fresh(lo, hi));
        State {
            cursors,
            idx: cursors.map(|c| c.cur),
            fmax: f64::NEG_INFINITY,
            kmax: -1,
            more_alt: true,
            sp_sq,
        }
    }

    /// As a call of the oracle has left it.
    pub fn after(&self, oracle: &LowpassOracle) -> Self {
        let rr = oracle.cursors();
        State {
            cursors: [0, 1, 2].map(|k| self.cursors[k].moved(rr[k])),
            idx: [oracle.idx1, oracle.idx2, oracle.idx3],
            fmax: oracle.fmax,
            kmax: oracle.kmax,
            more_alt: oracle.more_alt,
            sp_sq: oracle.sp_sq,
        }
    }

    /// The cursors stand anywhere legal.
    pub fn moved(mut self, src: &mut Source) -> Self {
        self.cursors = self.cursors.map(|c| Cursor::on(src, c.lo, c.hi));
        self.idx = self.cursors.map(|c| c.cur);
        self
    }

    /// Anything stands where nothing is read.
    pub fn littered(mut self, src: &mut Source) -> Self {
        self.idx = self.idx.map(|_| any_i32(src));
        self.fmax = src.any();
        self.kmax = any_i32(src);
        self.more_alt = src.rng.coin();
        self
    }
}

/// An oracle and a point. `gamma` is the number offered to `assess_optim`.
#[derive(Clone)]
pub struct Filter {
    pub n: usize,
    pub table: Vec<f64>,
    pub x: Vec<f64>,
    pub nwpass: i32,
    pub nwstop: i32,
    pub lp_sq: f64,
    pub up_sq: f64,
    pub gamma: f64,
    pub state: State,
}

impl Filter {
    pub fn draw(src: &mut Source, n: usize, rows: usize) -> Self {
        let (nwpass, nwstop) = borders(src, rows as i64);
        let (table, x) = table(src, n, rows);
        let mut f = Filter {
            n,
            table,
            x,
            nwpass,
            nwstop,
            lp_sq: 1.0,
            up_sq: 2.0,
            gamma: 1.0,
            state: State::fresh([(0, 0); 3], 1.0),
        };
        f.disturb(src);
        if !src.rng.once_in(8) {
            f.settle();
        }
        f.set_limits(src);
        f.break_a_group(src);
        f.state = State::fresh(f.bands(), f.state.sp_sq);
        match src.rng.below(4) {
            0 => {}
            1 => f.state = f.state.moved(src),
            _ => f.state = f.state.moved(src).littered(src),
        }
        f
    }

    /// Of any size that is legal.
    pub fn of_any_size(src: &mut Source) -> Self {
        let (n, rows) = sizes(src);
        Filter::draw(src, n, rows)
    }

    pub fn rows(&self) -> i32 {
        (self.table.len() / self.n) as i32
    }

    /// Pass, middle and stop.
    pub fn bands(&self) -> [(i32, i32); 3] {
        let middle = (self.nwpass, self.nwstop);
        [(0, self.nwpass), middle, (self.nwstop, self.rows())]
    }

    pub fn spectrum(&self) -> Vec<Arr> {
        let rows = self.table.chunks(self.n);
        rows.map(|row| Arr::from(row.to_vec())).collect()
    }

    /// The Rust's oracle in a state; the rows are lent to it.
    pub fn oracle(&self, spectrum: Vec<Arr>, state: &State) -> LowpassOracle {
        LowpassOracle::with_table(
            spectrum,
            (self.nwpass, self.nwstop),
            (self.lp_sq, self.up_sq, state.sp_sq),
            state.cursors.map(|c| c.made()),
            state.idx,
            (state.fmax, state.kmax),
            state.more_alt,
        )
    }

    /// What each row gives at the point.
    pub fn values(&self) -> Vec<f64> {
        let x = Arr::from(self.x.clone());
        self.spectrum().iter().map(|row| row.dot(&x)).collect()
    }

    fn row_mut(&mut self, i: i32) -> &mut [f64] {
        let from = i as usize * self.n;
        &mut self.table[from..from + self.n]
    }

    /// A row of the band, if it has any.
    fn row_of(&self, src: &mut Source, band: usize) -> Option<i32> {
        let (lo, hi) = self.bands()[band];
        (lo < hi).then(|| src.rng.range(lo as i64, hi as i64 - 1) as i32)
    }

    fn negate(&mut self, row: i32) {
        self.row_mut(row).iter_mut().for_each(|a| *a = -*a);
    }

    /// Turns the sign of x[0] and of its column, which leaves every value as it is.
    fn turn_first(&mut self) {
        self.x[0] = -self.x[0];
        let n = self.n;
        self.table.iter_mut().step_by(n).for_each(|a| *a = -*a);
    }

    /// Puts in what a scan passes over or stumbles on.
    fn disturb(&mut self, src: &mut Source) {
        let (lo, hi) = self.bands()[STOP];
        let entry = src.rng.below(self.table.len() as u64) as usize;
        match src.rng.below(16) {
            0 => self.table[entry] = f64::NAN,
            1 => self.table[entry] = f64::INFINITY,
            2 => {
                let at = src.rng.below(self.n as u64) as usize;
                self.x[at] = src.special();
            }
            3 => self.table[entry] = src.any(),
            4 => {
                for i in lo..hi {
                    let row = zero_row(src, &self.x);
                    self.row_mut(i).copy_from_slice(&row);
                }
            }
            5 => {
                for i in lo..hi {
                    let at = src.rng.below(self.n as u64) as usize;
                    self.row_mut(i)[at] = f64::NAN;
                }
            }
            6..=8 => self.repeat_a_stop_row(src),
            _ => {}
        }
    }

    /// Several stop rows have one value, often the largest, so that the first visited is not
    /// always the lowest.
    fn repeat_a_stop_row(&mut self, src: &mut Source) {
        let (lo, hi) = self.bands()[STOP];
        let values = self.values();
        let height = |i: &i32| values[*i as usize].abs();
        let from = match src.rng.below(3) {
            0 => self.row_of(src, STOP),
            _ => (lo..hi).max_by(|i, j| height(i).total_cmp(&height(j))),
        };
        let row = from.map_or(Vec::new(), |from| self.row_mut(from).to_vec());
        for i in lo..hi {
            if src.rng.coin() {
                self.row_mut(i).copy_from_slice(&row);
            }
        }
    }

    /// Leaves no row and not the first entry below zero.
    fn settle(&mut self) {
        if self.x[0] < 0.0 {
            self.turn_first();
        }
        let values = self.values();
        for (i, value) in values.iter().enumerate() {
            if *value < 0.0 {
                self.negate(i as i32);
            }
        }
    }

    fn set_limits(&mut self, src: &mut Source) {
        let values = self.values();
        let pass = edges(&values[..self.nwpass as usize], (1.0, 2.0));
        let stop = edges(&values[self.nwstop as usize..], (0.0, 0.5));
        self.lp_sq = lower_limit(src, pass.0);
        self.up_sq = upper_limit(src, pass.1);
        if src.rng.once_in(16) {
            (self.lp_sq, self.up_sq) = (self.up_sq, self.lp_sq);
        }
        self.state.sp_sq = upper_limit(src, stop.1);
        self.gamma = upper_limit(src, stop.1);
    }

    /// Breaks a group by some of its rows, or none.
    fn break_a_group(&mut self, src: &mut Source) {
        match src.rng.below(16) {
            0 => self.break_over(src, PASS),
            1 => self.break_under_limit(src),
            2 => self.break_over(src, STOP),
            3 => self.negate_some(src, STOP),
            4 | 5 => self.negate_some(src, MIDDLE),
            6 | 7 if self.x[0] > 0.0 => self.turn_first(),
            6 => self.x[0] = -src.positive(),
            7 => self.x[0] = -src.subnormal(),
            _ => {}
        }
    }

    /// Lowers the upper limit below a value of the band.
    fn break_over(&mut self, src: &mut Source, band: usize) {
        let Some(row) = self.row_of(src, band) else {
            return;
        };
        let value = self.values()[row as usize];
        if band == STOP {
            self.state.sp_sq = lowered(src, value);
            self.gamma = lowered(src, value);
            return;
        }
        self.up_sq = lowered(src, value);
        if src.rng.coin() {
            self.lp_sq = lowered(src, self.up_sq);
        }
    }

    /// Raises the lower limit above a value of the pass band.
    fn break_under_limit(&mut self, src: &mut Source) {
        if let Some(row) = self.row_of(src, PASS) {
            self.lp_sq = raised(src, self.values()[row as usize]);
            if src.rng.coin() {
                self.up_sq = raised(src, self.lp_sq);
            }
        }
    }

    fn negate_some(&mut self, src: &mut Source, band: usize) {
        for _ in 0..1 + src.rng.below(3) {
            let row = self.row_of(src, band);
            row.into_iter().for_each(|row| self.negate(row));
        }
    }
}

/// n and the count of rows. Most tables are small so that a list stays short.
pub fn sizes(src: &mut Source) -> (usize, usize) {
    let most = MOST_ROWS as i64;
    let small = src.rng.range(2, 5) as usize;
    let (n, rows) = match src.rng.below(512) {
        0 if src.rng.once_in(4) => (32, most),
        0 => (dimension(src), most),
        1 => (small, most),
        2 => (2, src.rng.range(most - 24, most)),
        3..=10 => (dimension(src), src.rng.range(1, 64)),
        11..=70 => (dimension(src), src.rng.range(1, 20)),
        _ => (small, src.rng.range(1, 12)),
    };
    (n, rows as usize)
}

/// Where the pass band ends and where the stop band begins. Any band may be empty, but mostly
/// none is.
pub fn borders(src: &mut Source, rows: i64) -> (i32, i32) {
    let (a, b) = (src.rng.range(0, rows), src.rng.range(0, rows));
    let (nwpass, nwstop) = match src.rng.below(12) {
        0 => src.rng.pick(&[(0, a), (a, a), (a, rows)]),
        1 => src.rng.pick(&[(0, 0), (0, rows), (rows, rows)]),
        2 | 3 => (a.min(b), a.max(b)),
        _ if rows < 3 => (0, rows - 1),
        _ => {
            let nwpass = src.rng.range(1, rows - 2);
            (nwpass, src.rng.range(nwpass + 1, rows - 1))
        }
    };
    (nwpass as i32, nwstop as i32)
}

/// The table and the point.
fn table(src: &mut Source, n: usize, rows: usize) -> (Vec<f64>, Vec<f64>) {
    match src.rng.below(8) {
        0..=2 => (many(src, rows * n, halves), many(src, n, halves)),
        3 => (waves(n, rows, |i| evenly(i, rows)), response(src, n)),
        4 | 5 => {
            let table = many(src, rows * n, Source::ordinary);
            (table, many(src, n, Source::ordinary))
        }
        _ => {
            let x = vector(src, n);
            let table = (0..rows).flat_map(|_| row_against(src, &x)).collect();
            (table, x)
        }
    }
}

/// The rows of a filter: 1 and twice the cosines of the multiples of an angle, whose cosine is told
/// for each row. They come from their recurrence, since the library's cosine is not the same everywhere.
pub fn waves(n: usize, rows: usize, cosine: impl Fn(usize) -> f64) -> Vec<f64> {
    let mut table = Vec::with_capacity(rows * n);
    for i in 0..rows {
        let c = cosine(i);
        let (mut before, mut now) = (1.0, c);
        table.push(1.0);
        for _ in 1..n {
            table.push(2.0 * now);
            (before, now) = (now, 2.0 * c * now - before);
        }
    }
    table
}

/// A point whose rows of waves stay near x[0].
fn response(src: &mut Source, n: usize) -> Vec<f64> {
    let first = src.positive();
    let mut x = vec![first];
    x.extend((1..n).map(|_| first * part(src) / n as f64));
    x
}

/// A row whose value is plus or minus zero.
fn zero_row(src: &mut Source, x: &[f64]) -> Vec<f64> {
    let mut row = minus_zeros(x);
    if src.rng.coin() {
        row[0] = -row[0];
    }
    row
}

/// Cosines from 1 down to −1 in equal steps.
fn evenly(i: usize, rows: usize) -> f64 {
    1.0 - 2.0 * i as f64 / (rows.max(2) - 1) as f64
}
