//! Times of two that do the same work, taken in turns so that both meet the same disturbances.

use generator::words::word;
use std::time::Instant;

/// The same work for the port and for the Rust.
pub trait Pair {
    /// Makes so many fresh starts for each; not timed.
    fn prepare(&mut self, copies: usize);
    /// Works them all off.
    fn port(&mut self);
    fn rust(&mut self);
    /// How many calls, rows or steps the work of one copy is.
    fn units(&self) -> f64;
    /// Where the results part.
    fn difference(&self) -> Option<String>;
}

/// Medians: nanoseconds a unit, and the ratio port to Rust of each round.
#[derive(Clone, Copy)]
pub struct Times {
    pub port: f64,
    pub rust: f64,
    pub ratio: f64,
}

/// A batch shorter than this says more of the clock than of the work.
const LEAST_NANOS: f64 = 10_000.0;
const MOST_COPIES: usize = 4096;

/// Races for so many rounds; every round's results must be the same.
pub fn race(pair: &mut dyn Pair, rounds: usize) -> Result<Times, String> {
    let copies = enough(pair)?;
    let (mut port, mut rust, mut ratio) = (Vec::new(), Vec::new(), Vec::new());
    for round in 0..rounds {
        let (p, r) = one_round(pair, copies, round % 2 == 0)?;
        let units = pair.units() * copies as f64;
        port.push(p / units);
        rust.push(r / units);
        ratio.push(p / r);
    }
    Ok(Times {
        port: median(port),
        rust: median(rust),
        ratio: median(ratio),
    })
}

/// How many copies make a batch long enough for the clock.
fn enough(pair: &mut dyn Pair) -> Result<usize, String> {
    let mut copies = 1;
    while copies < MOST_COPIES {
        one_round(pair, copies, true)?; // the first one warms up
        let (port, rust) = one_round(pair, copies, false)?;
        if port.min(rust) >= LEAST_NANOS {
            break;
        }
        copies *= 2;
    }
    Ok(copies)
}

/// Nanoseconds of the port and of the Rust.
fn one_round(pair: &mut dyn Pair, copies: usize, port_first: bool) -> Result<(f64, f64), String> {
    pair.prepare(copies);
    let (port, rust);
    if port_first {
        port = nanos(|| pair.port());
        rust = nanos(|| pair.rust());
    } else {
        rust = nanos(|| pair.rust());
        port = nanos(|| pair.port());
    }
    match pair.difference() {
        None => Ok((port, rust)),
        Some(what) => Err(what),
    }
}

fn nanos(work: impl FnOnce()) -> f64 {
    let start = Instant::now();
    work();
    start.elapsed().as_nanos() as f64
}

/// The middle one, or the mean of the two middle ones.
pub fn median(mut all: Vec<f64>) -> f64 {
    all.sort_by(f64::total_cmp);
    let half = all.len() / 2;
    if all.len() % 2 == 1 {
        all[half]
    } else {
        (all[half - 1] + all[half]) / 2.0
    }
}

/// The first place where the bits differ; all NaN are one.
pub fn parting(what: &str, port: &[f64], rust: &[f64]) -> Option<String> {
    if port.len() != rust.len() {
        return Some(format!("{what}: {} numbers and {}", port.len(), rust.len()));
    }
    let at = (0..port.len()).find(|&k| word(port[k]) != word(rust[k]))?;
    let (port, rust) = (word(port[at]), word(rust[at]));
    Some(format!(
        "{what}, number {at}: port {port:016X}, Rust {rust:016X}"
    ))
}

#[cfg(test)]
mod tests {
    use super::*;

    #[test]
    fn the_middle() {
        assert_eq!(median(vec![3.0, 1.0, 2.0]), 2.0);
        assert_eq!(median(vec![4.0, 1.0, 3.0, 2.0]), 2.5);
    }

    #[test]
    fn zeros_part_and_nans_do_not() {
        let other_nan = f64::from_bits(0xFFF0_0000_0000_0001);
        assert!(parting("", &[f64::NAN], &[other_nan]).is_none());
        assert!(parting("", &[0.0], &[-0.0]).is_some());
        assert!(parting("", &[], &[0.0]).is_some());
    }
}
