//! Runs that last: a table with a point that keeps its limits, or nearly, and an ellipsoid round it.

use super::run::Run;
use crate::draw::{halves, many, part};
use crate::oracles::filter::{borders, waves, Filter, State};
use crate::oracles::limits::edges;
use crate::oracles::spaces::{diagonal, shape, Space};
use crate::words::{scale, Source};

pub fn draw(src: &mut Source) -> Run {
    let mut f = if src.rng.coin() {
        filter_of_waves(src)
    } else {
        filter_of_numbers(src)
    };
    set_limits(src, &mut f);
    let target = f.x.clone();
    let mut space = space_round(src, &mut f);
    match src.rng.below(24) {
        0 => enlarge_pass(&mut f, target),
        1..=7 => disturb(src, &mut f, &mut space),
        _ => {}
    }
    f.state = State::fresh(f.bands(), f.state.sp_sq);
    match src.rng.below(4) {
        0 | 1 => {}
        2 => f.state = f.state.moved(src),
        _ => f.state = f.state.moved(src).littered(src),
    }
    Run::new(f, space)
}

/// A lowpass filter as it is designed in earnest, with a limit that lets it come to its end.
pub fn lowpass(n: usize, rows: usize, wstop: f64, sp_sq: f64) -> Run {
    let last = (rows - 1) as f64;
    let band = |w: f64| (w * last).floor() as i32 + 1;
    let mut f = filter(n, table(n, rows), (band(0.12), band(wstop)), vec![0.0; n]);
    (f.lp_sq, f.up_sq, f.gamma) = (0.95, 1.05, f64::INFINITY);
    f.state = State::fresh(f.bands(), sp_sq);
    let space = Space::new(false, 40.0, f.x.clone(), diagonal(n, |_| 1.0));
    let mut run = Run::new(f, space);
    (run.limit, run.tolerance) = (2000, 1e-20);
    run
}

/// The same, of any size and aim.
pub fn any_lowpass(src: &mut Source) -> Run {
    let n = src.rng.range(3, 10) as usize;
    let rows = src.rng.range(5, 15) as usize * n;
    let wstop = 0.2 + 0.3 * part(src).abs();
    let sp_sq = src.rng.pick(&[0.2, 0.1, 0.05, 0.015625, 0.004]);
    let mut run = lowpass(n, rows, wstop, sp_sq);
    run.filter.gamma = src.pick_of_two(sp_sq, f64::INFINITY);
    run.space.kappa = src.rng.pick(&[4.0, 40.0, 400.0]);
    run.limit = src.rng.range(100, 1000) as u16;
    run.tolerance = src.rng.pick(&[0.0, 1e-20, 1e-8, f64::NAN]);
    run
}

fn filter(n: usize, table: Vec<f64>, bands: (i32, i32), x: Vec<f64>) -> Filter {
    Filter {
        n,
        table,
        x,
        nwpass: bands.0,
        nwstop: bands.1,
        lp_sq: 1.0,
        up_sq: 2.0,
        gamma: 1.0,
        state: State::fresh([(0, 0); 3], 1.0),
    }
}

/// A table of cosines and the response of a lowpass filter.
fn filter_of_waves(src: &mut Source) -> Filter {
    let n = match src.rng.below(16) {
        0 => src.rng.range(6, 8),
        _ => src.rng.range(2, 5),
    } as usize;
    let rows = if src.rng.once_in(6) {
        15 * n
    } else {
        src.rng.range(3, 20) as usize
    };
    let last = (rows - 1) as f64;
    let wpass = 0.05 + 0.3 * part(src).abs();
    let wstop = wpass + 0.4 * part(src).abs();
    let band = |w: f64| ((w * last).floor() as i32 + 1).min(rows as i32);
    filter(n, table(n, rows), (band(wpass), band(wstop)), response(n))
}

/// The table of `LowpassOracle::new`.
fn table(n: usize, rows: usize) -> Vec<f64> {
    waves(n, rows, |i| cosine(i as f64 / (rows - 1) as f64))
}

/// The cosine of a part of π, by its series.
fn cosine(part: f64) -> f64 {
    let angle = part * std::f64::consts::PI;
    let (mut term, mut sum) = (1.0, 1.0);
    for k in 1..16 {
        term *= -angle * angle / (2 * k * (2 * k - 1)) as f64;
        sum += term;
    }
    sum
}

/// The autocorrelation of a window, so that no row's value is below zero.
fn response(n: usize) -> Vec<f64> {
    let h: Vec<f64> = (0..n).map(|k| ((k + 1) * (n - k)) as f64).collect();
    let sum: f64 = h.iter().sum();
    let lag = |j| -> f64 { (j..n).map(|k| h[k] * h[k - j]).sum() };
    (0..n).map(|j| lag(j) / (sum * sum)).collect()
}

/// Any numbers; no row's value is below zero.
fn filter_of_numbers(src: &mut Source) -> Filter {
    let n = src.rng.range(2, 5) as usize;
    let rows = src.rng.range(3, 12) as usize;
    let one = src.rng.pick(&[halves, Source::ordinary]);
    let (table, mut x) = (many(src, rows * n, one), many(src, n, one));
    x[0] = x[0].abs();
    let mut f = filter(n, table, borders(src, rows as i64), x);
    for (i, value) in f.values().iter().enumerate() {
        if *value < 0.0 {
            f.table[i * n..(i + 1) * n]
                .iter_mut()
                .for_each(|a| *a = -*a);
        }
    }
    f
}

/// Limits round the point's values, tight or wide; sometimes no point keeps them.
fn set_limits(src: &mut Source, f: &mut Filter) {
    let values = f.values();
    let pass = edges(&values[..f.nwpass as usize], (1.0, 2.0));
    let stop = edges(&values[f.nwstop as usize..], (0.0, 0.5));
    let slack = src.rng.pick(&[0.0, 1e-6, 0.001, 0.02, 0.1, 0.3]);
    f.lp_sq = pass.0 - slack * pass.0.abs();
    f.up_sq = pass.1 + slack * pass.1.abs();
    f.state.sp_sq = stop.1 + slack * stop.1.abs();
    match src.rng.below(12) {
        0 => f.lp_sq = f.up_sq,
        1 | 2 => f.state.sp_sq = stop.1 * 0.5 * part(src).abs(),
        3 => f.lp_sq = f.up_sq + src.positive() / 8.0,
        _ => {}
    }
    let wide = [f.state.sp_sq, 4.0 * f.state.sp_sq, f64::MAX, f64::INFINITY];
    f.gamma = src.rng.pick(&wide);
}

/// Moves the filter's point away and puts an ellipsoid there that mostly holds the old one.
fn space_round(src: &mut Source, f: &mut Filter) -> Space {
    let x = match src.rng.below(4) {
        0 => many(src, f.n, Source::zero),
        1 => many(src, f.n, Source::ordinary),
        _ => {
            let far = src.rng.pick(&[0.1, 1.0, 10.0]);
            f.x.iter().map(|x| x + far * part(src)).collect()
        }
    };
    let away = |(a, b): (&f64, &f64)| (a - b) * (a - b);
    let square: f64 = f.x.iter().zip(&x).map(away).sum();
    let times = src.rng.pick(&[0.5, 1.5, 4.0, 4.0, 100.0, 1e4]);
    f.x = x;
    if src.rng.once_in(4) {
        let mut space = shape(src, false, f.n);
        space.kappa = square * times;
        return space;
    }
    Space::new(false, square * times, f.x.clone(), diagonal(f.n, |_| 1.0))
}

/// Something that ends the run in another way.
fn disturb(src: &mut Source, f: &mut Filter, space: &mut Space) {
    let rows = f.rows();
    let entry = src.rng.below(f.table.len() as u64) as usize;
    match src.rng.below(11) {
        0 => f.table[entry] = src.special(),
        1 => f.table[entry] = src.any(),
        2 => f.x[entry % f.n] = src.any(),
        3 => {
            let at = src.rng.below(space.mq.len() as u64) as usize;
            space.mq[at] = src.any();
        }
        4 => space.kappa = src.any(),
        5 | 6 => zero_row(src, f, entry / f.n),
        7 | 8 => {
            f.nwstop = rows;
            f.nwpass = f.nwpass.min(rows);
        }
        9 => f.table[f.nwstop as usize * f.n..]
            .iter_mut()
            .for_each(|a| *a = f64::NAN),
        _ => f.up_sq = src.any(),
    }
}

/// Its gradient has no effect.
fn zero_row(src: &mut Source, f: &mut Filter, row: usize) {
    let zeros = many(src, f.n, Source::zero);
    f.table[row * f.n..(row + 1) * f.n].copy_from_slice(&zeros);
}

/// From a point that keeps its limits. A cut by a pass row will leave NaN everywhere, after which
/// every point counts as feasible and no stop row compares.
fn enlarge_pass(f: &mut Filter, target: Vec<f64>) {
    let pass = f.nwpass as usize * f.n;
    f.table[..pass].iter_mut().for_each(|a| *a = scale(*a, 530));
    f.lp_sq = scale(f.lp_sq - 0.3 * f.lp_sq.abs(), 530);
    f.up_sq = scale(f.up_sq + 0.3 * f.up_sq.abs(), 530);
    f.x = target;
    f.gamma = f64::INFINITY;
}
