//! Jobs of a real filter: the Rust's cosine table, limits of a lowpass and a round ellipsoid.

use super::filterrun::LONGEST;
use super::job::{rows_in, Job};
use super::options::{wrong, Options};
use super::walk::optim;
use crate::oracles::cursor::MOST_ROWS;
use crate::oracles::spaces::diagonal;
use ellalgo_rs::arr::linspace;
use ellalgo_rs::oracles::lowpass_oracle::LowpassOracle;
use std::io::{self, Write};

const NAMES: [&str; 10] = [
    "--n",
    "--rows",
    "--wpass",
    "--wstop",
    "--lp",
    "--up",
    "--sp",
    "--kappa",
    "--steps",
    "--tolerance",
];

/// What a filter shall do. Frequencies are parts of half the sampling rate, limits are squares of
/// the response.
#[derive(Clone, Copy)]
pub struct Lowpass {
    pub n: usize,
    pub rows: usize,
    pub wpass: f64,
    pub wstop: f64,
    pub limits: [f64; 3],
    pub kappa: f64,
    pub steps: u16,
    pub tolerance: f64,
}

impl Lowpass {
    /// The Rust's own example, up to rounding, with its count of rows. Short filters cannot meet it.
    pub fn of(n: usize) -> Self {
        let (low, up, stop) = (1.0 / 1.025, 1.025, 0.125);
        Lowpass {
            n,
            rows: 15 * n,
            wpass: 0.12,
            wstop: 0.20,
            limits: [low * low, up * up, stop * stop],
            kappa: 40.0,
            steps: 2000,
            tolerance: 1e-20,
        }
    }

    /// The same with a transition that is wider the shorter the filter is, for n = 32 the example's.
    pub fn wide(n: usize) -> Self {
        Lowpass {
            wstop: (0.12 + 2.56 / n as f64).min(0.8),
            ..Lowpass::of(n)
        }
    }

    /// The same with a stop limit that is not easily met: 1 % above the least that the Rust's
    /// optimizing driver reaches from 0.25 on. Below −60 dB rounding would decide.
    pub fn tight(mut self) -> Self {
        let [lp_sq, up_sq, _] = self.limits;
        let loose = Lowpass {
            limits: [lp_sq, up_sq, 0.25],
            steps: 20_000,
            ..self
        };
        let (end, _) = optim(&loose.job().run());
        self.limits[2] = (1.01 * end.gamma).max(1e-6);
        self
    }

    pub fn job(&self) -> Job {
        let [lp_sq, up_sq, sp_sq] = self.limits;
        let (table, nwpass, nwstop) = if self.rows == 15 * self.n {
            let made = LowpassOracle::new(self.n, self.wpass, self.wstop, lp_sq, up_sq, sp_sq);
            let rows = made.spectrum.iter().flat_map(|row| row.data().to_vec());
            (rows.collect(), made.nwpass, made.nwstop)
        } else {
            (
                self.table(),
                self.border(self.wpass),
                self.border(self.wstop),
            )
        };
        Job {
            n: self.n,
            nwpass: nwpass as u16,
            nwstop: nwstop as u16,
            limits: self.limits,
            table,
            x: vec![0.0; self.n],
            cur: [-1, nwpass as i16 - 1, nwstop as i16 - 1],
            kappa: self.kappa,
            mq: diagonal(self.n, |_| 1.0),
            limit: self.steps,
            tolerance: self.tolerance,
        }
    }

    /// `LowpassOracle::new`'s, for another count of rows.
    fn table(&self) -> Vec<f64> {
        let omega = linspace(0.0, std::f64::consts::PI, self.rows);
        let mut table = Vec::with_capacity(self.rows * self.n);
        for i in 0..self.rows {
            table.push(1.0);
            table.extend((1..self.n).map(|j| 2.0 * (omega[i] * j as f64).cos()));
        }
        table
    }

    /// At most the rows, since w is below 1.
    fn border(&self, w: f64) -> i32 {
        (w * (self.rows - 1) as f64).floor() as i32 + 1
    }
}

/// The filter that the options ask for. A stop limit that is not given follows from the others.
pub fn filter(args: &[&str]) -> io::Result<Lowpass> {
    let options = Options::of(args, &NAMES)?;
    let Some(n) = options.whole("--n", 2..=32)? else {
        return Err(wrong("--n is missing: a whole number from 2 to 32"));
    };
    let mut f = Lowpass::wide(n);
    let most = rows_in(LONGEST, n);
    f.rows = match options.whole("--rows", 2..=MOST_ROWS as usize)? {
        Some(rows) if rows > most => {
            let long = format!("a job of n = {n} has at most {LONGEST} bytes, which hold");
            return Err(wrong(&format!("--rows {rows}: {long} {most} rows")));
        }
        given => given.unwrap_or(f.rows.min(most)),
    };
    let steps = options.whole("--steps", 0..=65_535)?;
    f.steps = steps.map_or(f.steps, |steps| steps as u16);
    let [lp_sq, up_sq, _] = &mut f.limits;
    for (name, place) in [
        ("--wpass", &mut f.wpass),
        ("--wstop", &mut f.wstop),
        ("--lp", lp_sq),
        ("--up", up_sq),
        ("--kappa", &mut f.kappa),
        ("--tolerance", &mut f.tolerance),
    ] {
        *place = options.number(name)?.unwrap_or(*place);
    }
    if !(0.0 <= f.wpass && f.wpass < f.wstop && f.wstop < 1.0) {
        let given = format!("--wpass {} and --wstop {}", f.wpass, f.wstop);
        return Err(wrong(&format!("{given}: 0 <= wpass < wstop < 1 is needed")));
    }
    match options.number("--sp")? {
        Some(sp_sq) => f.limits[2] = sp_sq,
        None => f = f.tight(),
    }
    Ok(f)
}

/// Writes the job of a filter.
pub fn write(args: &[&str], to: &mut impl Write) -> io::Result<bool> {
    to.write_all(&filter(args)?.job().record().bytes())?;
    to.flush()?;
    Ok(true)
}
